"""What a look does if the system fails, if a file is exchanged while it is read, and if memory is refused.

What can't be read withdraws nothing and is logged with the system's words, whatever the error is; what changed is
not taken.
"""
import errno
import os
import shutil
import signal
import subprocess

from .air import PNG, AirCase, needs_strace, traced, until
from .program import is_tried, plain, run, top

ERRORS = ("EIO", "EACCES", "ELOOP", "ESTALE")
DELAY = "delay_enter=3000000"


def words_of(error):
    """What the system says of an error."""
    return os.strerror(getattr(errno, error))


@needs_strace
class Faults(AirCase):
    """System calls that fail in a look."""

    def unlisted(self, folder, error):
        return 1, f"look {folder} refused 22 ReadFault: {words_of(error)}\n".encode(), b""

    def test_a_listing_that_fails(self):
        disk, folder, there = self.three()
        words = [self.program, "sync", "--at-once", disk, folder]
        for error in ERRORS:
            for number in (1, 2):
                fault = f"inject=getdents64:error={error}:when={number}"
                ended = run(traced(words, fault))
                self.expect(f"a listing that fails: {error}, {number}", self.unlisted(folder, error), ended)
        self.expect("withdraws nothing", there, self.objects(disk))

    def test_a_look_up_that_fails(self):
        disk, folder, there = self.three()
        for allowed in ([], ["--allow-empty"]):
            words = [self.program, "sync", "--at-once", disk, folder, *allowed]
            for error in ERRORS:
                for name in there:
                    ended = run(traced(words, f"inject=statx:error={error}:when=1", paths=[folder / name]))
                    self.expect(f"a look-up that fails: {name}, {error}", self.unlisted(folder, error), ended)
        self.expect("withdraws nothing", there, self.objects(disk))

    def test_why_a_file_is_not_read(self):
        disk, folder, there = self.three()
        words = [self.program, "sync", "--at-once", disk, folder]
        calls = [("openat", error, 1) for error in ERRORS]
        calls += [("statx", error, number) for number in (2, 3) for error in (*ERRORS, "ENOENT")]
        for call, error, number in [*calls, ("read", "EIO", 1), ("read", "ESTALE", 1)]:
            ended = run(traced(words, f"inject={call}:error={error}:when={number}", paths=[folder / "1.png"]))
            wanted = 1, f"read 1.png refused 22 ReadFault: {words_of(error)}\n".encode(), b""
            self.expect(f"why a file is not read: {call}, {error}", wanted, ended)
        self.expect("withdraws nothing", there, self.objects(disk))

    def rewritten(self, folder, there, text):
        for name in there:
            (folder / name).write_bytes(text)

    def test_a_disk_that_fails(self):
        disk, folder, there = self.three()
        self.rewritten(folder, there, PNG + b"x")
        # (the first sync of its data is the opening's, then each command has two)
        fault = "inject=fdatasync:error=EIO:when=4"
        status, told, said = run(traced([self.program, "sync", "--at-once", disk, folder], fault))
        done = [it for it, now in self.objects(disk).items() if now != there[it]]
        wanted = f"motcar: 15 DeviceFault\nmotcar: {disk}: Input/output error\n".encode()
        self.expect("a disk that fails in a look of sync", (1, wanted, True),
                    (status, said, len(done) in (1, 2)))
        self.expect("what was done before is logged", [b"replace"], [it.split()[0] for it in told.splitlines()])

    def test_a_disk_that_fails_while_it_plays(self):
        disk, folder, there = self.three()
        self.rewritten(folder, there, PNG + b"y")
        words = [self.program, "play", disk, "-", "--at-once", "--folder", folder, "--turns", "1"]
        status, printed, said = run(traced(words, "inject=fdatasync:error=EIO:when=4"))
        said = plain(said).splitlines()
        wanted = [b"motcar: 15 DeviceFault", f"motcar: {disk}: Input/output error".encode()]
        self.expect("and in a look of play", (1, b"", b"replace", wanted), (status, printed, said[0].split()[0], said[1:]))


@needs_strace
class Races(AirCase):
    """What is exchanged or changed while it is read is not taken. strace holds the program while a row changes it."""

    def setUp(self):
        super().setUp()
        self.place, self.objects_of, self.there = self.three()
        self.path, self.trace = self.objects_of / "1.png", self.room / "trace"

    def look_with(self, change, *expressions, calls):
        """The status and the log of a look in which the file is changed once so many system calls have ended."""
        words = [self.program, "sync", "--at-once", self.place, self.objects_of]
        words = traced(words, *expressions, paths=[self.path], out=self.trace)
        self.trace.unlink(missing_ok=True)
        look = subprocess.Popen(list(map(str, words)), stdout=subprocess.PIPE, start_new_session=True)
        with look:
            until(lambda: self.trace.exists() and self.trace.read_text().count(" = ") >= calls)
            change()
            try:
                return look.communicate(timeout=30)[0], look.returncode
            except subprocess.TimeoutExpired:
                return b"does not end", None
            finally:
                if look.returncode is None:
                    os.killpg(look.pid, signal.SIGKILL)

    def expect_changed(self, row, ended):
        told, status = ended
        self.expect(row, (1, b"read 1.png changed, next look\n", self.there), (status, told, self.objects(self.place)))

    def opening(self, change):
        """The file is looked up to be listed, and then to be read; its opening waits."""
        return self.look_with(change, "trace=statx,openat", f"inject=openat:{DELAY}", calls=2)

    def reading(self, change):
        """All bytes were read; the look at the file after that waits, which is the fourth."""
        return self.look_with(change, "trace=read,statx", f"inject=statx:{DELAY}:when=4", calls=4)

    def test_a_link_that_takes_its_place(self):
        secret, link = self.room / "secret", self.room / "link"
        secret.write_bytes(b"s" * 3000)
        link.symlink_to(secret)
        self.expect_changed("a link that takes a file's place", self.opening(lambda: os.rename(link, self.path)))

    def test_a_folder_that_takes_its_place(self):
        def change():
            self.path.unlink()
            self.path.mkdir()
        self.expect_changed("a folder that takes a file's place", self.opening(change))

    def test_a_pipe_that_takes_its_place(self):
        pipe = self.room / "pipe"
        os.mkfifo(pipe)
        # It was listed; the look-up before its opening waits.
        waits = "trace=statx", f"inject=statx:{DELAY}:when=2"
        ended = self.look_with(lambda: os.rename(pipe, self.path), *waits, calls=1)
        self.expect_changed("a pipe that takes a file's place", ended)

    def test_a_file_that_changes(self):
        ended = self.reading(lambda: self.path.write_bytes(b"2" * 3000))
        self.expect_changed("a file that changes while it is read", ended)

    def test_a_file_that_changes_and_keeps_its_time(self):
        def change():
            old = self.path.stat()
            self.path.write_bytes(b"2" * 3000)
            os.utime(self.path, ns=(old.st_atime_ns, old.st_mtime_ns))
        self.expect_changed("a file that changes while it is read, with the time that it had", self.reading(change))

    def test_a_file_that_changes_its_length(self):
        for text in (b"1" * 2000, b"1" * 4000):
            ended = self.reading(lambda text=text: self.path.write_bytes(text))
            self.expect_changed(f"a file that has {len(text)} bytes once it is read", ended)
            self.path.write_bytes(b"1" * 3000)

    def test_reads_that_give_too_few(self):
        words = [self.program, "sync", "--at-once", self.place, self.objects_of]
        status, told, _ = run(traced(words, "inject=read:retval=0:when=1", paths=[self.path]))
        self.expect_changed("a file that ends early in the reading", (told, status))


class Memory(AirCase):
    """Each request for memory is refused in turn: what is done is logged, or the status is 1."""

    def shim(self):
        """A library that refuses one request for memory, or None if there is no way to have it."""
        path = self.room / "refuse.so"
        if not shutil.which("cc") or is_tried(self.program):
            return None
        subprocess.run(["cc", "-O2", "-shared", "-fPIC", "-o", path, top / "campaigns/refuse.c", "-ldl"], check=True)
        return path

    def test_each_request(self):
        shim = self.shim()
        if not shim:
            self.skipTest("there is no cc, or the program was built to be tried")
        new, disk = self.disk("new"), self.room / "disk"
        folder = self.folder({it: b"x" for it in ("a.txt", "b b.txt", "c.txt")})
        wrong, number, unchanged, ends = [], 0, 0, set()
        while unchanged < 20 and number < 2000:
            number += 1
            shutil.copyfile(new, disk)
            status, _, said = self.play(disk, "-", "--at-once", "--folder", folder, "--turns", "1",
                                        env={**os.environ, "LD_PRELOAD": str(shim), "REFUSE": str(number)})
            lines = said.decode().splitlines()
            told = {it.split()[1] for it in lines if it.startswith("put ")}
            stored = set(self.objects(disk))
            is_whole = status == 0 and len(lines) == 3 and told == stored
            unchanged = unchanged + 1 if is_whole else 0
            if not is_whole:
                # (a second line says what a refusal is about)
                ends.add(next((it for it in lines if it.startswith("motcar: ")), "nothing is said"))
                if status != 1 or not told <= stored:
                    wrong.append((number, status, said))
        self.expect("want of memory in a look", [], wrong)
        # (if there is none to open what takes the packets, that is the reason of a 23)
        self.expect("ends it", {"motcar: 14 OutOfMemory", "motcar: 23 WriteFault"}, ends - {"motcar: 15 DeviceFault"})

    test_each_request.takes_long = True

    def test_each_request_of_a_file_of_packets(self):
        """The file beside it is made only once there is memory for all that its making takes."""
        shim = self.shim()
        if not shim:
            self.skipTest("there is no cc, or the program was built to be tried")
        disk, new = self.disk("disk", "put a 1 0 - 61"), self.room / "packets.new"
        left, number, unchanged, refused = [], 0, 0, 0
        while unchanged < 20 and number < 2000:
            number += 1
            status, _, said = self.play(disk, self.room / "packets", "--turns", "1",
                                        env={**os.environ, "LD_PRELOAD": str(shim), "REFUSE": str(number)})
            unchanged, refused = (unchanged + 1, refused) if status == 0 else (0, refused + 1)
            if new.exists():
                left.append((number, said))
                new.unlink()
        self.expect("requests are refused, and nothing is left beside a file of packets", (True, []), (refused > 0, left))

    test_each_request_of_a_file_of_packets.takes_long = True
