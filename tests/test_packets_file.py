"""`play` into a file: it is the old one or the new one, whole; what stands beside it stays; why it is not written."""
import errno
import os
import resource
import subprocess

from .air import AirCase, needs_strace, traced, until, without_ids
from .program import refused, run

LINK = "a link, or not a regular file"
OF_DISK = "the name of a file of the disk"


def about(path, why):
    return refused(23, "WriteFault", f"{path}: {why}")


class PacketsFile(AirCase):
    """A disk, a folder for packets, and a file in it of two turns."""

    def setUp(self):
        super().setUp()
        self.place = self.disk("disk", *[f"put {it} 1 0 - {'61' * 3_000}" for it in "abcd"])
        self.packets_of = self.folder(name="packets")
        self.path, self.new = self.packets_of / "file", self.packets_of / "file.new"
        self.two = b"".join(self.turns(self.place, 2))
        self.ended = self.write("2")

    def write(self, turns, disk=None, **how):
        return self.play(disk or self.place, self.path, "--turns", turns, **how)

    def words(self, *more):
        return [self.program, "play", self.place, self.path, *more]

    def there(self):
        return sorted(it.name for it in self.packets_of.iterdir())

    def expect_kept(self, row, *others):
        wanted = self.two, sorted(["file", *others])
        self.expect(f"{row}: the old file is kept", wanted, (self.path.read_bytes(), self.there()))

    def test_a_new_file(self):
        self.expect("a new file", ((0, b"", b""), ["file"]), (self.ended, self.there()))
        self.expect("has so many turns", self.two, self.path.read_bytes())
        self.expect("a file in its place", (0, b"", b""), self.write("16"))
        sixteen = b"".join(self.turns(self.place, 16))
        self.expect("has 16 turns", (sixteen, ["file"]), (self.path.read_bytes(), self.there()))

    def test_without_an_end(self):
        self.expect("a file that is there", about(self.path, "a regular file, which is written with --turns"),
                    self.play(self.place, self.path))
        self.expect_kept("stays")
        self.expect("no turns", about(self.path, "no turns to write"), self.write("0"))
        self.expect_kept("no turns")
        self.path.unlink()
        self.expect("no file without an end", about(self.path, "no pipe is there; a file is written with --turns"),
                    self.play(self.place, self.path))
        self.expect("is made", [], self.there())

    @needs_strace
    def test_how_it_takes_its_place(self):
        trace = self.room / "trace"
        run(traced(self.words("--turns", "16"), "trace=rename,renameat,renameat2,fsync", out=trace))
        calls = [it.split("(")[0].split()[-1] for it in trace.read_text().splitlines() if "(" in it]
        self.expect("synced, renamed, its folder synced", ["fsync", "rename", "fsync"], calls[-3:])
        run(["strace", "-y", *traced(self.words("--turns", "16"), "trace=fsync", out=trace)[1:]])
        paths = [it.split("<")[1].split(">")[0].removesuffix(" (deleted)") for it in trace.read_text().splitlines()
                 if "fsync(" in it]
        self.expect("these and no others", [str(self.new), str(self.packets_of)], paths[-2:])

    def test_no_room(self):
        for most in (96 * 4, 96 * 4 + 1, 96 * 5 - 1):
            limits = {"preexec_fn": lambda most=most: resource.setrlimit(resource.RLIMIT_FSIZE, (most, most)),
                      "restore_signals": False}
            self.expect(f"room for {most} bytes", about(self.new, "File too large"), self.write("16", **limits))
            self.expect_kept(f"room for {most} bytes")

    @needs_strace
    def test_system_calls_that_fail(self):
        faults = [("a name that can't be given", "rename", "EIO"), ("or not now", "rename", "EACCES"),
                  ("bytes that can't be synced", "fsync", "EIO"), ("a file that can't be opened", "openat", "EROFS"),
                  ("a file system without locks", "flock", "ENOLCK")]
        for row, call, error in faults:
            why = os.strerror(getattr(errno, error))
            ended = self.traced(self.words("--turns", "1"), f"inject={call}:error={error}", paths=[self.new])
            self.expect(row, about(self.new, why), ended)
            self.expect_kept(row)

    @needs_strace
    def test_a_pipe_without_locks(self):
        pipe = self.room / "pipe"
        os.mkfifo(pipe)
        words = [self.program, "play", self.place, pipe, "--turns", "1"]
        ended = self.traced(words, "inject=flock:error=ENOLCK", paths=[pipe])
        self.expect("a pipe without locks", about(pipe, "No locks available"), ended)

    @needs_strace
    def test_a_folder_that_cant_be_synced(self):
        ended = self.traced(self.words("--turns", "1"), "inject=fsync:error=EIO", paths=[self.packets_of])
        self.expect("a folder that can't be synced", about(self.new, "Input/output error"), ended)
        one = b"".join(self.turns(self.place, 1))
        self.expect("after the new file took its place", (["file"], one), (self.there(), self.path.read_bytes()))

    def test_paths_that_are_none(self):
        self.expect("a path that can't be looked at", about(f"{self.path}/file", "Not a directory"),
                    self.play(self.place, f"{self.path}/file"))
        self.expect("no folder", about("nowhere/file.new", "No such file or directory"),
                    self.play(self.place, "nowhere/file", "--turns", "1"))
        self.expect("so does a disk that is none", 1, self.write("1", self.room / "none")[0])
        self.expect_kept("and leaves nothing beside it")

    def test_two_programs(self):
        player = self.player(self.place, self.path, "--turns", "4294967295")
        until(lambda: self.new.exists() and self.new.stat().st_size >= 1000)
        in_use = self.write("1", self.disk("other"))
        player.kill()
        self.expect("two programs write no file", about(self.new, "in use by another program"), in_use)
        self.expect("a kill leaves the old file", (self.two, True), (self.path.read_bytes(), self.new.exists()))
        self.expect("and the next run goes over what it left", (0, b"", b""), self.write("2"))
        self.expect("whole", (self.two, ["file"]), (self.path.read_bytes(), self.there()))

    @needs_strace
    def test_two_programs_at_one_moment(self):
        """One that made its file waits for the lock; meanwhile another one takes the file away, and makes its own."""
        words = traced(self.words("--turns", "1"), "inject=flock:delay_enter=3000000", paths=[self.new])
        first = subprocess.Popen(list(map(str, words)), stdout=subprocess.DEVNULL, stderr=subprocess.PIPE)
        with first:
            until(self.new.exists)
            (self.packets_of / "other").write_bytes(b"another's")
            os.rename(self.packets_of / "other", self.new)
            said = first.communicate(timeout=60)[1]
        wanted = about(self.new, "in use by another program")
        self.expect("a file that another program went over", wanted, (first.returncode, b"", said))
        self.expect_kept("and that one's file stays", "file.new")
        self.expect("as it is", b"another's", self.new.read_bytes())

    def test_a_status_in_its_place(self):
        """The status takes the place neither of the file of packets nor of the one beside it, by whatever path."""
        (self.room / "link").symlink_to(self.packets_of)
        one = b"".join(self.turns(self.place, 1))
        for path in (self.path, self.new, self.room / "link/file", self.room / "link/file.new"):
            self.write("2")
            ended = self.play(self.place, self.path, "--turns", "1", "--status", path)
            told = f"status {path} refused 23 WriteFault: in use by another program\n".encode()
            self.expect(f"the status is refused: {path}", (0, told, b""), ended)
            self.expect("and the file has its packets", (one, ["file"]), (self.path.read_bytes(), self.there()))

    def test_what_stands_beside_it(self):
        victim = self.packets_of / "victim"
        victim.write_bytes(b"mine")
        nowhere = self.packets_of / "nowhere"
        for row, target in (("no link is followed", victim), ("nor a link that leads nowhere", nowhere)):
            self.new.symlink_to(target)
            self.expect(row, about(self.new, LINK), self.write("16"))
            self.expect_kept(f"{row}, and nothing is lost or made", "file.new", "victim")
            self.new.unlink()
        os.mkfifo(self.new)
        self.expect("nor is a pipe opened", about(self.new, LINK), self.write("16"))
        self.new.unlink()
        os.link(victim, self.new)
        self.expect("a second name of a file is taken away", (0, b"", b""), self.write("2"))
        self.expect("and the file stays", b"mine", victim.read_bytes())
        self.expect_kept("a second name", "victim")

    def test_the_disk(self):
        before = self.place.read_bytes()
        ended = self.play(self.place, self.place)
        self.expect("the disk is no place for packets", about(self.place, "the disk itself"), ended)
        self.expect("byte for byte", before, self.place.read_bytes())
        beside = self.disk("packets/file.new")
        self.expect("nor is it beside one", about(self.new, "the disk itself"), self.write("1", beside))
        self.expect("a disk stays", True, b"\nclean\n" in self.motcar("check", beside)[1])

    def test_names_of_files_of_the_disk(self):
        """With a file of such a name the disk would not be opened again; in another folder it is any file."""
        (self.room / "link").symlink_to(self.room)
        names = [f"disk{end}" for end in ("-journal", "-wal", "-shm")]
        before = self.held()
        for name in names:
            for path in (self.room / name, name, f"packets/../{name}", self.room / "link" / name):
                for turns in ((), ("--turns", "1")):
                    ended = self.motcar("play", self.place, path, *turns)
                    self.expect(f"{path} {turns} is no place for packets", about(path, OF_DISK), ended)
        self.expect("and nothing is written", before, self.held())
        for path in (*[f"packets/{it}" for it in names], "disk-journals", "a-wal", "isk-shm"):
            self.expect(f"{path} is one", 0, self.motcar("play", self.place, path, "--turns", "1")[0])
        self.expect("the disk opens again", 0, self.motcar("check", self.place)[0])

    def held(self):
        return {it.name: it.read_bytes() for it in self.room.iterdir() if it.is_file()}

    def test_a_path_without_a_name(self):
        before = self.held()
        for turns in ((), ("--turns", "1")):
            ended = self.motcar("play", self.place, "", *turns)
            self.expect(f"no name {turns}", about("", "No such file or directory"), ended)
        self.expect("nothing is made", before, self.held())


class WithFolder(AirCase):
    """A file whose folder had something refused is written, and told by the status; of a stream the log tells."""

    def setUp(self):
        super().setUp()
        self.place, self.path = self.disk(), self.room / "packets"
        self.objects_of = self.folder({"a.txt": b"x", "b.txt": b""})
        self.told = b"read b.txt refused 6 EmptyBody\n"

    def write(self, to, folder, *more):
        return self.play(self.place, to, "--turns", "2", "--at-once", "--folder", folder, *more)

    def test_an_object_that_is_refused(self):
        told = b"put a.txt done object 2 directory 3\n" + self.told
        self.expect("a file of which an object was refused", (1, told, b""), self.write(self.path, self.objects_of))
        self.expect("is written all the same", b"".join(self.turns(self.place, 2)), self.path.read_bytes())
        self.expect("a device is not told of it", (0, self.told, b""), self.write("/dev/null", self.objects_of))
        asked = self.folder(name="lines")
        ended = self.write(self.path, self.objects_of, "--lines", asked)
        self.expect("a file beside lines is", (1, self.told, b""), ended)
        (self.objects_of / "b.txt").unlink()
        self.expect("and one of a folder of which all was taken", (0, b"", b""), self.write(self.path, self.objects_of))

    def test_a_folder_that_is_none(self):
        told = b"look nowhere refused 22 ReadFault: No such file or directory\n"
        said = b"motcar: nowhere: No such file or directory\n"
        self.expect("a file whose folder is not there", (1, told, said), self.write(self.path, "nowhere"))

    @needs_strace
    def test_a_folder_that_comes_back(self):
        """The first look can't open the folder, the second one can: the status tells of it, and not the last words."""
        words = ["play", self.place, self.path, "--turns", "1200", "--at-once", "--folder", self.objects_of]
        (self.objects_of / "b.txt").unlink()
        fault = "inject=openat:error=EIO:when=1"
        status, printed, said = self.traced([self.program, *words], fault, paths=[f"{self.objects_of}/."])
        told = without_ids(printed)
        wanted = [f"look {self.objects_of} refused 22 ReadFault: Input/output error",
                  f"look {self.objects_of} listed", "put a.txt"]
        self.expect("a folder that can be read again", (1, wanted, b""), (status, told, said))
