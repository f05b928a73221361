"""Files of lines that can't be read, removed or looked at, that are exchanged, and folders that go and come back."""
import errno
import os
import shutil

from .air import NOBODY, AirCase, needs_strace, send, traced, until
from .program import plain, run
from .test_line_files import LineFiles

ERRORS = ("EIO", "EACCES", "ELOOP", "ESTALE")


def unread(name, error="EIO"):
    """What is logged of a file or a folder that can't be read, with the system's words."""
    return f"lines {name} refused 22 ReadFault: {os.strerror(getattr(errno, error))}"


class Permissions(AirCase):
    """A file that can't be taken away is the last; one that can't be opened is passed over."""

    def setUp(self):
        super().setUp()
        self.home, self.as_nobody = self.of_nobody("home")
        self.own = shutil.copy(self.program, self.home / "motcar")
        os.chmod(self.own, 0o755)
        self.place = self.home / "disk"
        run([self.own, "format", self.place], **self.as_nobody)

    def lines(self, mode, names):
        """A folder of lines that belongs to nobody."""
        asked = self.home / "lines"
        asked.mkdir()
        for number, name in enumerate(names, 1):
            send(asked, name, f"period {number}\n".encode())
        if self.as_nobody:
            os.chown(asked, NOBODY, NOBODY)
        asked.chmod(mode)
        return asked

    def answered(self, asked):
        words = [self.own, "play", self.place, "/dev/null", "--every", "1", "--turns", "20", "--lines", asked]
        status, printed, said = run(words, **self.as_nobody)
        return status, plain(printed), said

    def test_a_file_that_cant_be_taken_away(self):
        asked = self.lines(0o555, ("1.lines", "2.lines"))
        wanted = 0, f"done directory 2\n{unread('1.lines', 'EACCES')}\n".encode(), b""
        self.expect("a file that can't be taken away is logged", wanted, self.answered(asked))
        asked.chmod(0o755)
        self.expect("and is the last", ["1.lines", "2.lines"], sorted(os.listdir(asked)))

    def test_a_file_that_cant_be_opened(self):
        asked = self.lines(0o755, ("1.lines", "2.lines"))
        (asked / "1.lines").chmod(0)
        wanted = 0, f"{unread('1.lines', 'EACCES')}\ndone directory 2\n".encode(), b""
        self.expect("a file that can't be opened is logged once", wanted, self.answered(asked))
        self.expect("and the next is taken", ["1.lines"], os.listdir(asked))


@needs_strace
class Faults(LineFiles):
    """System calls that fail. A file of which a read fails is left, and its lines are not done again."""

    def faulty(self, *expressions, paths=None):
        """The log of lines under faults, without the lines of the start and the end."""
        words = [self.program, "play", self.place, "/dev/null", "--lines", self.asked, "--every", "1", "--turns", "20"]
        paths = paths or [self.asked / "1.lines"]
        status, told, said = self.traced(words, *expressions, paths=paths)
        return status, told.decode().splitlines(), said

    def test_a_read_that_fails(self):
        for name in "12":
            send(self.asked, f"{name}.lines", f"put {name} 1 0 - 61\n".encode())
        told = ["done object 2 directory 3", unread("1.lines"), "done object 4 directory 5"]
        ended = self.faulty("inject=read:error=EIO:when=2+2")
        self.expect("a file whose reading fails is logged once", (0, told, b""), ended)
        self.expect("and stays, and the next is taken", ["1.lines"], self.left())

    def test_a_line_that_was_read_in_part(self):
        """The bytes that came of a line ask for nothing, be they even or odd in number."""
        for number, name in enumerate(("c", "cc", "ccc", "cccc")):
            send(self.asked, "1.lines", f"period 5\nput {name} 1 0 - {'63' * 3_000}\n".encode())
            send(self.asked, "2.lines", b"period 6\n")
            words = ["play", self.place, "/dev/null", "--lines", self.asked, "--every", "1", "--turns", "9"]
            fault = "inject=read:error=EIO:when=2+2"
            status, told, _ = run(traced([self.program, *words], fault, paths=[self.asked / "1.lines"]))
            wanted = [f"lines 1.lines:1 period 5 done directory {2 * number + 2}", unread("1.lines"),
                      f"lines 1.lines:2 put {name} refused 5 BadBody: a carriage return",
                      f"lines 2.lines:1 period 6 done directory {2 * number + 3}"]
            told = told.decode().splitlines()[1:-1]
            self.expect(f"a line that was read in part is none: {name}", (0, wanted), (status, told))
        self.expect("and no object comes of it", {}, self.objects(self.place))

    def test_a_look_up_that_fails(self):
        for error in ERRORS:
            send(self.asked, "1.lines", b"period 1\n")
            send(self.asked, "2.lines", b"period 2\n")
            status, told, said = self.faulty(f"inject=statx:error={error}:when=1")
            told = [it.split(" directory")[0] for it in told]
            self.expect(f"one that can't be looked at is logged before the next is taken: {error}",
                        (0, [unread("1.lines", error), "done", "done"], b"", []), (status, told, said, self.left()))

    def test_a_file_that_cant_be_opened_for_a_moment(self):
        for call, error in [("openat", it) for it in ERRORS] + [("pread64", "EIO"), ("pread64", "ESTALE")]:
            send(self.asked, "1.lines", b"period 1\n")
            status, told, said = self.faulty(f"inject={call}:error={error}:when=1")
            told = [it.split(" directory")[0] for it in told]
            self.expect(f"a file that can't be opened once: {call}, {error}",
                        (0, [unread("1.lines", error), "done"], b"", []), (status, told, said, self.left()))

    def test_a_file_that_would_not_be_known_again(self):
        """Else its lines would be done again and again: it is the last."""
        for name in "12":
            send(self.asked, f"{name}.lines", f"put {name} 1 0 - 61\n".encode())
        told = ["done object 2 directory 3", unread("1.lines")]
        ended = self.faulty("inject=read:error=EIO:when=2", "inject=statx:error=EIO:when=4")
        self.expect("a file that can't be looked at once its reading failed", (0, told, b""), ended)
        self.expect("and no more are taken", ["1.lines", "2.lines"], self.left())

    def test_a_file_beside_a_hundred_others(self):
        for number in range(100):
            (self.asked / f"0{number:03}.lines").write_bytes(b"no line\n")
        for name in "12":
            send(self.asked, f"{name}.lines", f"put {name} 1 0 - 61\n".encode())
        status, told, _ = self.faulty("inject=read:error=EIO:when=2")
        self.expect("there is no room to know it again", (0, ["done object 2 directory 3", unread("1.lines")]),
                    (status, [it for it in told if "BadLine" not in it]))
        self.expect("and no more are taken", {"1.lines", "2.lines"}, {it for it in self.left() if len(it) < 9})

    def test_a_file_that_is_mended(self):
        """One whose reading failed is taken again once it was changed in its place, or is another one."""
        def in_place():
            with open(self.asked / "1.lines", "r+b") as it:
                it.write(b"put b 1 0 - 62\n")

        def by_another():
            send(self.asked, "1.lines", b"put b 1 0 - 62\n")

        for row, mend in (("in its place", in_place), ("by another", by_another)):
            send(self.asked, "1.lines", b"put a 1 0 - 61\n")
            fault = ["inject=read:error=EIO:when=2"], [self.asked / "1.lines"]
            player = self.playing(tracing=fault)
            player.until(unread("1.lines"))
            self.passes(2)
            self.expect(f"{row}: it is left meanwhile", ["1.lines"], self.left())
            mend()
            until(lambda: not self.left())
            told = [it.split()[1] for it in player.end() if it.startswith("done")]
            self.expect(f"{row}: and is done then", (["object", "object"], []), (told, self.left()))
            self.serve(self.place, ["withdraw a", "withdraw b"])

    def test_a_file_that_somebody_else_removes(self):
        """It was answered and seen at its name; its removal waits, and finds it gone."""
        send(self.asked, "1.lines", b"period 1\n")
        trace = self.room / "trace"
        words = [self.program, "play", self.place, "/dev/null", "--lines", self.asked, "--every", "1"]
        waits = "trace=statx,unlink", "inject=unlink:delay_enter=3000000:when=1"
        player = self.started(traced(words, *waits, paths=[self.asked / "1.lines"], out=trace))
        # (looked at by its name and its handle as it is opened, by its handle, and so again as it is removed)
        until(lambda: trace.exists() and trace.read_text().count("statx(") == 5)
        os.unlink(self.asked / "1.lines")
        send(self.asked, "2.lines", b"period 2\n")
        player.until("done directory 3")
        until(lambda: not self.left())
        self.expect("a file that is gone is removed, and the next is taken",
                    (["done directory 2", "done directory 3"], []), (player.end(), self.left()))

    def test_a_link_that_takes_its_place(self):
        """The file was looked up; its opening waits, and opens what the link names."""
        secret, link = self.room / "secret", self.room / "link"
        secret.write_bytes(b"period 9\n")
        link.symlink_to(secret)
        send(self.asked, "1.lines", b"period 1\n")
        trace = self.room / "trace"
        words = [self.program, "play", self.place, "/dev/null", "--lines", self.asked, "--every", "1"]
        waits = "trace=statx,openat", "inject=openat:delay_enter=3000000:when=1"
        player = self.started(traced(words, *waits, paths=[self.asked / "1.lines"], out=trace))
        until(lambda: trace.exists() and " = 0" in trace.read_text())
        os.rename(link, self.asked / "1.lines")
        left = "lines 1.lines refused 22 ReadFault: not a regular file"
        player.until(left)
        self.expect("what a link names is not read as lines", [left], player.end())
        self.expect("nor taken away", (True, ["1.lines"]), (secret.exists(), self.left()))


class Folders(LineFiles):
    """Files and folders that are exchanged while lines are read."""

    def exchanged(self, change):
        """A file takes the name of the one that is read: it comes in its turn."""
        send(self.asked, "1.lines", b"period 1\nput a 1 0 - " + b"61" * 250_000 + b"\n")
        player = self.playing(to="-", of_page=True)
        until(lambda: "done" in player.log.read_text())
        change()
        send(self.asked, "1.lines", b"period 2\nlist\n")
        player.hear(lambda: "carousel 2 " in player.log.read_text() and not self.left())
        is_answered = "carousel 2 " in player.log.read_text()
        self.expect("what is in the place of the file that is read", (True, []), (is_answered, self.left()))

    def test_a_file_in_its_place(self):
        self.exchanged(lambda: None)

    def test_a_folder_in_its_place(self):
        def change():
            os.rename(self.asked, self.room / "old")
            self.asked.mkdir()
        self.exchanged(change)

    def test_a_folder_that_goes_and_comes_back(self):
        send(self.asked, "1.lines", b"period 1\n")
        player = self.playing()
        player.until("done directory 2")
        gone, readable = unread(self.asked, "ENOENT"), f"lines {self.asked} readable"
        for number in (1, 2):
            os.rename(self.asked, self.room / "away")
            player.until(gone, number)
            os.rename(self.room / "away", self.asked)
            player.until(readable, number)
        send(self.asked, "1.lines", b"list\n")
        player.until("carousel 1 2 2 0")
        wanted = ["done directory 2", *[gone, readable] * 2, "carousel 1 2 2 0"]
        self.expect("a folder that can't be read is logged once", wanted, player.end())

    def many(self):
        """A folder of 80 files, of which 64 names are kept, and a program that stands still among the first of them."""
        self.names = [f"{number:03}" for number in range(100, 180)]
        self.serve(self.place, ["put long 1 0 - " + "61" * 9_000])
        for name in self.names:
            (self.asked / f"{name}.lines").write_bytes(f"withdraw {name}\n".encode())
        player = self.playing("--turns", "4294967295", to="-", of_page=True)
        until(lambda: player.log.read_text().count("NoSuchName") > 4)
        return player

    def order(self, player):
        """The files whose lines are answered, in order."""
        return [it.split()[1].split(".")[0] for it in player.lines() if it.startswith("lines ") and "NoSuchName" in it]

    def test_an_early_name_after_many(self):
        """The last files go before they are read; one with an early name that comes then is answered."""
        player = self.many()
        for name in self.names[64:]:
            (self.asked / f"{name}.lines").unlink()
        player.hear(lambda: not self.left())
        send(self.asked, "000.lines", b"withdraw early\n")
        player.hear(lambda: not self.left())
        self.expect("an early name after many", [*self.names[:64], "000"], self.order(player))

    def test_an_early_name_after_a_folder_that_was_gone(self):
        """All names that are kept are gone with it, and none is after which the next ones come."""
        player = self.many()
        os.rename(self.asked, self.room / "away")
        player.hear(lambda: unread(self.asked, "ENOENT") in player.log.read_text())
        left = sorted(it.split(".")[0] for it in os.listdir(self.room / "away"))
        send(self.room / "away", "000.lines", b"withdraw early\n")
        os.rename(self.room / "away", self.asked)
        player.hear(lambda: not self.left())
        self.expect("an early name after a folder that was gone", ["000", *left], self.order(player)[-len(left) - 1:])

    @needs_strace
    def test_a_listing_that_fails_in_its_middle(self):
        """What was listed so far is not taken: it would come in a wrong order."""
        disk, names = self.new_disk("many", "--objects", "250"), [f"{number:03}" for number in range(200)]
        for name in [*names[100:], *reversed(names[:100])]:
            (self.asked / f"{name}{'x' * 110}.lines").write_bytes(f"put {name} 1 0 - 61\n".encode())
        words = [self.program, "play", disk, "/dev/null", "--lines", self.asked, "--every", "1", "--turns", "12"]
        fault = "inject=getdents64:error=EIO:when=2"
        status, told, _ = self.traced(words, "trace=getdents64", fault, paths=[f"{self.asked}/."])
        counts = told.count(b"done object"), told.count(b"ReadFault")
        self.expect("a listing that fails in its middle", (0, 200, 1), (status, *counts))
        self.expect("in the order of their names", names, list(self.objects(disk)))

    test_a_listing_that_fails_in_its_middle.takes_long = True
