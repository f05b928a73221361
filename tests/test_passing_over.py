"""Files that a look does not read again, since they were not changed: which it opens, by the system calls."""
import os
import time

from .air import AirCase, needs_strace, samples, send, traced, until

# A file that was changed so many seconds ago can be known.
AGE = 2.2


@needs_strace
class PassingOver(AirCase):
    """A disk made equal to a folder of aged files, and a program that looks at it often."""

    def setUp(self):
        super().setUp()
        self.place, self.status, self.calls = self.disk(), self.room / "status", self.room / "calls"
        self.objects_of = self.folder({"a.txt": b"a" * 300, "b.txt": b"b" * 300, "c.txt": b"c" * 300, "d.png": b"no image"})
        self.sync(self.place, self.objects_of)
        time.sleep(AGE)

    def playing(self, *more):
        words = [self.program, "play", self.place, "/dev/null", "--folder", self.objects_of, "--status", self.status,
                 "--look", "20", *more]
        player = self.started(traced(words, "trace=openat", out=self.calls))
        self.looks()
        return player

    def looks(self, count=3):
        """Waits for so many looks more."""
        before = samples(self.status).get("motcar_looks_total", 0)
        return until(lambda: samples(self.status).get("motcar_looks_total", 0) >= before + count)

    def opened(self, name):
        """How often a file was opened until now."""
        return self.calls.read_text().count(f"/{name}\"")

    def become(self, name, content, times=None):
        """Another file takes the name, with these times of its last use and change."""
        (self.room / "new").write_bytes(content)
        if times:
            os.utime(self.room / "new", ns=times)
        os.rename(self.room / "new", self.objects_of / name)

    def times(self, name):
        found = (self.objects_of / name).stat()
        return found.st_atime_ns, found.st_mtime_ns

    def is_known(self, name):
        """Whether a file is passed over once it is aged."""
        time.sleep(AGE)
        self.looks()
        before = self.opened(name)
        self.looks()
        return self.opened(name) == before

    def expect_read(self, row, name, change):
        """One row: a file is read again after this, and then it is known."""
        before = self.opened(name)
        change()
        came = until(lambda: self.opened(name) > before)
        self.expect(row, (True, True), (came, self.is_known(name)))

    def is_done(self, player, line, times=1):
        """Waits until the log says so often that this was done; whether it does."""
        return until(lambda: sum(it.startswith(f"{line} done") for it in player.told()) >= times)

    def test_unchanged(self):
        player = self.playing()
        self.expect("an aged file is read once", [1, 1, 1], [self.opened(f"{it}.txt") for it in "abc"])
        self.expect("one whose image is noted is read each time", True, self.opened("d.png") >= 3)
        self.expect_read("again if its time is another", "a.txt", lambda: os.utime(self.objects_of / "a.txt"))
        self.expect_read("and if anything of it was changed", "a.txt", lambda: os.chmod(self.objects_of / "a.txt", 0o600))
        self.expect_read("and if it is another file of the same bytes and time", "b.txt",
                         lambda: self.become("b.txt", b"b" * 300, self.times("b.txt")))
        self.expect("the third one was not", 1, self.opened("c.txt"))
        told = [it for it in player.told() if it.startswith(("replace", "withdraw", "put"))]
        self.expect("none of that changes an object", [], told)

    def test_changed(self):
        """What a change hides behind: the same length, and the time of before."""
        player, times = self.playing(), self.times("a.txt")

        def rewrite():
            (self.objects_of / "a.txt").write_bytes(b"x" * 300)
            os.utime(self.objects_of / "a.txt", ns=times)
        self.expect_read("written in its place, with the old time", "a.txt", rewrite)
        self.expect_read("renamed over it, with the old time", "b.txt",
                         lambda: self.become("b.txt", b"y" * 300, self.times("b.txt")))
        done = [self.is_done(player, f"replace {it}.txt") for it in "ab"]
        self.expect("both were replaced", [True, True], done)
        (self.objects_of / "c.txt").unlink()
        gone = self.is_done(player, "withdraw c.txt")
        self.become("c.txt", b"c" * 300)
        self.expect("one that was away is put again", (True, True), (gone, self.is_done(player, "put c.txt")))

    def test_a_line(self):
        """An object that a line changed is not the one that is known."""
        asked = self.folder(name="asked")
        player = self.playing("--lines", asked, "--every", "1")
        self.expect_read("the look after it reads the file", "a.txt",
                         lambda: send(asked, "1.lines", b"replace a.txt 1 0 - 7878\n"))
        self.expect("and makes the object the file's again", True, self.is_done(player, "replace a.txt"))
        self.expect_read("so if a line withdrew it", "b.txt", lambda: send(asked, "2.lines", b"withdraw b.txt\n"))
        self.expect("which is put again", True, self.is_done(player, "put b.txt"))
        self.expect("the third file was not read", 1, self.opened("c.txt"))

    def test_sync(self):
        for row in ("once", "twice"):
            status, _, _ = self.traced([self.program, "sync", self.place, self.objects_of], "trace=openat", out=self.calls)
            self.expect(f"`sync` reads each file, {row}", (0, [1, 1, 1]),
                        (status, [self.opened(f"{it}.txt") for it in "abc"]))

    def test_young(self):
        """With `--at-once` a young file is taken, and read again until it is aged."""
        player = self.playing("--at-once")
        self.expect_read("it is known once it is aged", "a.txt", lambda: self.become("a.txt", b"z" * 300))
        self.expect("it was replaced", True, self.is_done(player, "replace a.txt"))
