"""The folder of objects outlasts a power cut as the disk does: a look syncs what it takes before it stores it.

strace shows the order of the calls, and lets a sync fail.
"""
import os
import re

from .air import PNG, AirCase, needs_strace, traced
from .program import run

FAILS = b"refused 22 ReadFault: Input/output error\n"


@needs_strace
class Lasting(AirCase):
    def setUp(self):
        super().setUp()
        self.place, self.objects_of, self.there = self.three()

    def words(self, command):
        """The words of a look: by `sync`, or the first one of `play`."""
        if command == "sync":
            return [self.program, "sync", "--at-once", self.place, self.objects_of]
        return [self.program, "play", self.place, "/dev/null", "--at-once", "--folder", self.objects_of, "--turns", "1"]

    def synced(self, command):
        """What a look syncs and writes, in order: a file or the folder, or the disk, each once in a row."""
        trace = self.room / "trace"
        run(["strace", "-y", *traced(self.words(command), "trace=fsync,pwrite64", out=trace)[1:]])
        at = [it for it in re.findall(rf"(?:fsync|pwrite64)\(\d+<{re.escape(str(self.room))}/([^>]*)>", trace.read_text())
              if not it.startswith(f"{self.place.name}-wal")]
        names = ["disk" if it == self.place.name else it.removeprefix(f"{self.objects_of.name}/") for it in at]
        names = ["folder" if it == self.objects_of.name else it for it in names]
        return [it for place, it in enumerate(names) if place == 0 or it != names[place - 1]]

    def test_the_order(self):
        for command in ("sync", "play"):
            with self.subTest(command):
                self.expect(f"{command}: nothing new", ["disk"], self.synced(command))
                (self.objects_of / "2.png").write_bytes(PNG + command.encode())
                self.expect(f"{command}: a file that was changed", ["disk", "2.png", "folder", "disk"], self.synced(command))
                (self.objects_of / f"{command}.txt").write_bytes(b"new")
                (self.objects_of / "1.png").write_bytes(PNG + command.encode())
                wanted = ["disk", "1.png", "folder", "disk", f"{command}.txt", "folder", "disk"]
                self.expect(f"{command}: one that was changed and a new one", wanted, self.synced(command))
                (self.objects_of / f"{command}.txt").unlink()
                self.expect(f"{command}: one that is gone", ["disk", "folder", "disk"], self.synced(command))

    def test_what_can_not_be_stored(self):
        self.place = self.new_disk("small", "--objects", "1", "--data", "100")
        self.objects_of = self.room / "many"
        self.objects_of.mkdir()
        for name in ("a.txt", "b.txt", "c.txt"):
            (self.objects_of / name).write_bytes(b"x" * 50)
        for command in ("sync", "play"):
            (self.objects_of / "a.txt").write_bytes(command.encode() * 10)
            self.expect(f"{command}: what waits for a place", ["disk", "a.txt", "folder", "disk"], self.synced(command))
            self.expect(f"{command}: and waits on", ["disk"], self.synced(command))
            (self.objects_of / "a.txt").write_bytes(b"x" * 80)
            self.expect(f"{command}: what no gap holds", ["disk"], self.synced(command))

    def looked(self, error, *paths):
        """A look in which the syncs of these paths fail."""
        return run(traced(self.words("sync"), f"inject=fsync:error={error}", paths=paths))

    def test_a_file_that_is_not_synced(self):
        for name in ("0.txt", "1.png"):
            for it in ("0.txt", "1.png"):
                (self.objects_of / it).write_bytes(PNG + b"while it fails: " + name.encode())
            before = self.objects(self.place)
            status, told, _ = self.looked("EIO", self.objects_of / name)
            self.expect(f"{name} is refused", (1, True), (status, b"read " + name.encode() + b" " + FAILS in told))
            self.expect(f"{name}: its object stays", before.get(name), self.objects(self.place).get(name))
            self.expect(f"{name}: the other one is taken", 1, told.count(b" done "))
        status, told, _ = run(self.words("sync"))
        self.expect("later it is taken", (0, 1, True), (status, told.count(b" done "), told.startswith(b"replace 1.png done")))

    def test_a_folder_that_is_not_synced(self):
        (self.objects_of / "1.png").write_bytes(PNG + b"changed")
        status, told, _ = self.looked("EIO", self.objects_of)
        self.expect("the file is refused", (1, b"read 1.png " + FAILS), (status, told))
        self.expect("its object stays", self.there, self.objects(self.place))
        os.unlink(self.objects_of / "2.png")
        status, told, _ = self.looked("EIO", self.objects_of)
        self.expect("nothing is withdrawn", (1, f"look {self.objects_of} ".encode() + FAILS), (status, told))
        self.expect("all objects stay", self.there, self.objects(self.place))

    def test_a_file_system_that_syncs_nothing(self):
        (self.objects_of / "1.png").write_bytes(PNG + b"changed")
        os.unlink(self.objects_of / "2.png")
        status, told, _ = self.looked("EINVAL", self.objects_of, self.objects_of / "1.png")
        self.expect("is let pass", (0, [b"withdraw 2.png", b"replace 1.png"]),
                    (status, [it.split(b" done")[0] for it in told.splitlines()]))
