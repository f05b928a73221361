"""Commands that only look, on a disk that another program has or that can't be written: they work on a copy in memory."""
import os
import shutil
import subprocess
import time

from .air import PNG, AirCase, needs_strace, samples, traced, until
from .program import is_tried, refused

HINT = "if that plays it, its folder or its lines change it; else end it first"


class Looking(AirCase):
    def setUp(self):
        super().setUp()
        self.place = self.disk()
        self.objects_of = self.folder({f"{it}.png": PNG + bytes([it]) * 999 for it in (1, 2, 3)})
        self.sync(self.place, self.objects_of)
        self.status = self.room / "status"
        self.looks = [["list"], ["get", "2.png"], ["inspect"], ["inspect", "--rate", "32"], ["check"], ["export"]]

    def all_looks(self, disk):
        return {" ".join(it): self.motcar(it[0], disk, *it[1:]) for it in self.looks}

    def playing(self):
        player = self.player(self.place, "/dev/null", "--at-once", "--folder", self.objects_of, "--status", self.status)
        until(lambda: samples(self.status).get("motcar_looks_total", 0) >= 1)
        return player

    def expect_in_use(self, row, *words, **more):
        wanted = refused(15, "DeviceFault", f"{self.place}: in use by another program; {HINT}")
        self.expect(row, wanted, self.motcar(*words, **more))

    def test_on_air(self):
        """Each prints what it prints of the same disk when nobody has it, and leaves the disk as it is."""
        wanted = self.all_looks(self.place)
        self.expect("each is done", [0] * 6, [status for status, _, _ in wanted.values()])
        held = self.place.read_bytes()
        self.playing()
        self.expect("on air", wanted, self.all_looks(self.place))
        self.expect("the disk stays", held, self.place.read_bytes())
        changed = [f"{it}.png" for it in (1, 2)]
        (self.objects_of / changed[0]).write_bytes(PNG + b"new")
        (self.objects_of / changed[1]).unlink()
        until(lambda: b"2.png" not in self.motcar("list", self.place)[1])
        self.expect("and what changed since", PNG + b"new", self.motcar("get", self.place, changed[0])[1])
        self.expect("one that is gone", refused(10, "NoSuchName"), self.motcar("get", self.place, changed[1]))

    def test_what_would_change(self):
        other = self.folder({"1.png": PNG + b"\1" * 999, "4.png": PNG + b"four"}, "other")
        wanted = self.sync(self.place, other, "--dry-run")
        self.expect("it would change", (0, True), (wanted[0], b"put 4.png done" in wanted[1]))
        self.playing()
        self.expect("on air", wanted, self.sync(self.place, other, "--dry-run"))
        self.expect("nothing is left to do", (0, b""), self.sync(self.place, self.objects_of, "--dry-run")[:2])
        self.expect("and nothing has changed", ["1.png", "2.png", "3.png"], sorted(self.objects(self.place)))

    def test_what_changes_is_refused(self):
        self.playing()
        logo = self.write("logo.png", PNG)
        for words in (["put", self.place, logo], ["withdraw", self.place, "1.png"], ["migrate", self.place], ["serve", self.place],
                      ["sync", self.place, self.objects_of], ["play", self.place, "/dev/null", "--turns", "1"],
                      ["copy", self.place, "new"]):
            self.expect_in_use(words[0], *words, given=b"list\n")

    def test_a_link(self):
        """A file is read by its name alone."""
        os.symlink(self.place, self.room / "link")
        self.expect("nobody has it", 0, self.motcar("list", "link")[0])
        self.playing()
        wanted = refused(15, "DeviceFault", f"link: in use by another program; {HINT}")
        self.expect("a link", wanted, self.motcar("list", "link"))

    def test_a_long_file(self):
        """More than 67,108,864 bytes are not copied."""
        if is_tried(self.program):
            self.skipTest("a program with address checks takes minutes")
        self.playing()
        long = self.room / "long"
        shutil.copy(self.place, long)
        os.truncate(long, 67_108_864)
        held = self.started([self.program, "serve", long], stdin=-1)
        held.ran.stdin.write(b"list\n")
        held.ran.stdin.flush()
        until(lambda: held.log.read_bytes())
        self.expect("so many", 0, self.motcar("list", long)[0])
        os.truncate(long, 67_108_865)
        wanted = refused(15, "DeviceFault", f"{long}: in use by another program; {HINT}")
        self.expect("one more", wanted, self.motcar("list", long))

    def test_one_that_can_only_be_read(self):
        place, nobody = self.of_nobody("theirs")
        disk = place / "disk"
        shutil.copy(self.place, disk)
        os.chmod(disk, 0o444)
        wanted = self.all_looks(self.place)
        self.expect("by its rights", wanted, {" ".join(it): self.motcar(it[0], disk, *it[1:], **nobody) for it in self.looks})
        os.chmod(disk, 0o400 if not nobody else 0o600)
        if nobody:
            os.chown(disk, 0, 0)
            fault = f"{disk}: Permission denied; motcar has to read and write it"
            self.expect("not even read", refused(15, "DeviceFault", fault), self.motcar("list", disk, **nobody))

    @needs_strace
    def test_a_change_in_between(self):
        """What changed between the two reads is not printed: it may be half of one disk and half of another."""
        self.playing()
        # (the file is opened as a disk, to be read, and to be read again)
        wait = "inject=openat:delay_enter=2000000:when=3"
        for change in (None, PNG + b"new"):
            words = traced([self.program, "list", self.place], "trace=openat", wait, paths=[self.place])
            slow = self.started([str(it) for it in words], stderr=subprocess.STDOUT)
            time.sleep(0.5)
            if change:
                (self.objects_of / "1.png").write_bytes(change)
            status = slow.ran.wait()
            printed = slow.log.read_bytes()
            self.expect(f"{change}", (1, True) if change else (0, False), (status, b"15 DeviceFault" in printed))
