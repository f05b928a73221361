"""The command `copy`: a disk of other sizes with the same objects and ids, or no disk."""
import errno
import itertools
import os
import signal

from . import disk
from .air import AirCase, needs_strace, traced
from .disk import REMOVE
from .program import refused, run

FIRST = b"put a 2 3 image/png 6161616161\nput b 3 1 - 62\nperiod 500\nreplace a 2 1 - 4141\n"
# A disk of layout 1 whose half has this behind an object that went: two objects, the second before the first in the data area.
SLOTS = (disk.slot(directory=65_000, last=65_000, tid=65_534, start=4, size=3, name=b"x"),
         disk.slot(directory=65_001, last=65_001, tid=7, start=9, size=1, name=b"gone"),
         disk.slot(directory=65_535, last=65_535, tid=3, start=1, size=2, name=b"y", mime=b"text/plain"),
         disk.slot(REMOVE, directory=1, last=1, tid=7))


class Copy(AirCase):
    def setUp(self):
        super().setUp()
        self.old = self.new_disk("old", "--objects", "4", "--data", "64", "--segment", "64", "--packet", "24")
        self.serve(self.old, FIRST)

    def shown(self, place):
        """All that a disk stands for but its sizes."""
        return [self.motcar(it, place)[:2] for it in ("check", "export")]

    def expect_copy(self, row, place, *options):
        """A copy that stands for the same carousel, of a disk that stays as it was."""
        before, name = place.read_bytes(), place.name + ".copy"
        ended = self.motcar("copy", place, name, *options)
        self.expect(f"{row}: copy", (0, b"", b"copied"), (ended[0], ended[2], ended[1].split(b" ")[0]))
        self.expect(f"{row}: its length", b"copied %d\n" % (self.room / name).stat().st_size, ended[1])
        check, export = self.shown(place)
        check = check[0], check[1].replace(b"\nnot clean\n", b"\nclean\n").replace(b"\nlayout 1\n", b"\nlayout 2\n")
        self.expect(f"{row}: the same carousel, clean, in layout 2", [check, export], self.shown(name))
        self.expect(f"{row}: the disk stays", before, place.read_bytes())
        return self.room / name

    def test_kinds_of_disks(self):
        self.expect_copy("some objects", self.old)
        self.expect_copy("none", self.new_disk("none"))
        one = self.new_disk("one", "--objects", "1", "--data", "1")
        self.serve(one, "put one 2 3 - 00\n")
        self.expect_copy("one, and no room for more", one)
        holes = self.new_disk("holes", "--objects", "3", "--data", "10")
        self.serve(holes, "put a 2 3 - 010203\nput b 2 3 - 040506\nput c 2 3 - 0708\nwithdraw b\n")
        self.expect_copy("a hole", holes)
        body = bytes(range(10))
        gone = disk.disk_of(*SLOTS, objects=4, area=10, body=body, segment=64, packet=24)
        self.expect_copy("layout 1, ids gone round, bodies in another order", self.write("gone", gone))
        loose = disk.disk_of(SLOTS[0], disk.slot(gate=0), objects=4, area=10, body=body)
        self.expect_copy("one that is not clean", self.write("loose", loose))
        long = self.new_disk("long", "--data", "40000")
        self.serve(long, b"put long 2 3 - " + b"0123456789abcdef" * 1536 + b"\nput next 2 3 - 55\n")
        self.expect_copy("a body of more than one piece", long)

    def test_sizes(self):
        for option, number in (("objects", 2), ("objects", 250), ("data", 3), ("data", 500_000), ("address", 1_023), ("packet", 96)):
            name = f"old.{option}.{number}"
            self.expect(f"--{option} {number}", 0, self.motcar("copy", self.old, name, f"--{option}", number)[0])
            self.expect("the same carousel", self.shown(self.old), self.shown(name))
            options = {"objects": "4", "data": "64", "segment": "64", "address": "1", "packet": "24", option: str(number)}
            words = [it for key, value in options.items() for it in (f"--{key}", value)]
            size = self.new_disk(f"{name}.sizes", *words).stat().st_size
            self.expect("its length", size, (self.room / name).stat().st_size)
            self.expect("its sizes", (self.room / f"{name}.sizes").read_bytes()[16:28], (self.room / name).read_bytes()[16:28])

    def test_another_segment_size(self):
        """Each object takes a new id, and then the directory: a receiver that has segments of the old size begins anew."""
        for options, ids in (([], (b"9", b"10", b"11")), (["--after", "3"], (b"5", b"6", b"9"))):
            name = "new" + "".join(options)
            self.motcar("copy", self.old, name, "--segment", "128", *options)
            old = self.motcar("list", self.old)[1]
            self.expect(f"{options}: the ids of the disk", [b"carousel 500 8 8 2", b"object 7", b"object 4"],
                        [b" ".join(it.split()[:5 if it[:1] == b"c" else 2]) for it in old.splitlines()])
            wanted = old.replace(b"500 8 8", b"500 %b %b" % (ids[2], ids[2])).replace(b"object 7", b"object %b" % ids[0])
            self.expect(f"{options}: other ids, and all else stays",
                        wanted.replace(b"object 4", b"object %b" % ids[1]), self.motcar("list", name)[1])
            self.expect(f"{options}: the same bodies", self.motcar("export", self.old), self.motcar("export", name))

    def test_after(self):
        """The directory takes an id after the given one, and objects keep theirs; after its own it keeps it, too."""
        listed = self.motcar("list", self.old)[1]
        for number, directory, wanted in (("0", 1, b"done object 2 directory 3\n"), ("65535", 1, b"done object 2 directory 3\n"),
                                          ("5000", 5001, b"done object 5002 directory 5003\n"),
                                          ("3", 5, b"done object 6 directory 8\n"), ("8", 8, b"done object 9 directory 10\n")):
            self.motcar("copy", self.old, f"new{number}", "--after", number)
            self.expect(f"--after {number}: ids", listed.replace(b"500 8 8", b"500 %d %d" % (directory, directory)),
                        self.motcar("list", f"new{number}")[1])
            self.expect(f"--after {number}", (0, wanted, b""), self.serve(f"new{number}", "put new 2 3 - 00\n"))

    def test_no_directory_of_a_copy_has_the_id_of_one_before(self):
        """Also where commands come between two directories that go on air: a receiver would keep the old list."""
        old = self.new_disk("logos", "--objects", "9", "--data", "64")
        self.serve(old, "put a 2 3 - 00\nput b 2 3 - 00\nput c 2 3 - 00\n")
        for number in range(12):
            name, lines = f"copy{number}", "".join(f"put {it} 2 3 - 00\n" for it in "defgh")
            self.motcar("copy", old, name, "--after", number)
            ids = [self.motcar("list", name)[1].split()[2]] + [it.split()[-1] for it in self.serve(name, lines)[1].splitlines()]
            self.expect(f"--after {number}: {b' '.join(ids).decode()}", 6, len(set(ids)))

    def test_the_next_command(self):
        """What is done to the copy is what would be done to the disk."""
        copied, lines = self.expect_copy("copy", self.old), "put c 2 3 - 010203\nwithdraw a\nput d 2 3 - 04\n"
        self.expect("replies", self.serve(self.old, lines), self.serve(copied, lines))
        self.expect("turns", self.serve(self.old, "turn\n"), self.serve(copied, "turn\n"))
        self.expect("what they stand for", self.shown(self.old), self.shown(copied))

    def test_a_file_that_is_there(self):
        long = self.write("long", bytes(range(250)) * 100)
        ended = self.motcar("copy", self.old, long)
        size = int(ended[1].split()[1])
        self.expect("it is copied over", (0, self.shown(self.old)), (ended[0], self.shown(long)))
        self.expect("its bytes behind the disk stay", (bytes(range(250)) * 100)[size:], long.read_bytes()[size:])

    def expect_refused(self, row, wanted, *words, there=None):
        before = self.old.read_bytes()
        self.expect(row, wanted, self.motcar("copy", *words))
        self.expect(f"{row}: the disk stays", before, self.old.read_bytes())
        self.expect(f"{row}: nothing is made", there, (self.room / "new").read_bytes() if (self.room / "new").exists() else None)
        self.expect(f"{row}: nor left beside it", False, (self.room / "new-wal").exists())

    def test_refusals(self):
        rows = [
            ("objects", ["--objects", "1"], 11, "TooManyObjects", "new: the disk has 2 objects, and the copy would take 1; give more as --objects"),
            ("bytes", ["--data", "2"], 12, "NoRoom", "new: the bodies need 3 bytes, and the copy would have 2; give more as --data"),
            ("a size", ["--packet", "25"], 21, "BadGeometry", "--packet 25: 24, 48, 72 or 96"),
            ("a size of more than 16 bits", ["--segment", "65600"], 21, "BadGeometry", "--segment 65600: 64 to 8189"),
            ("an id", ["--after", "65536"], 21, "BadGeometry", "--after 65536: 0 to 65535"),
        ]
        for row, options, number, name, why in rows:
            self.expect_refused(row, refused(number, name, why), "old", "new", *options)
            held = self.write("new", b"x" * 9_000).read_bytes()
            self.expect_refused(f"{row}, a file that is there", refused(number, name, why), "old", "new", *options, there=held)
            (self.room / "new").unlink()

    def test_what_is_no_disk(self):
        self.write("other", b"x" * 70)
        self.expect_refused("no disk", refused(17, "NotFormatted", "other: no motcar disk: it does not begin with MOTCAR01"), "other", "new")
        self.expect_refused("nothing", refused(15, "DeviceFault", "none: No such file or directory; check the path"), "none", "new")
        self.write("damaged", disk.disk_of(b"\xa5\x04"))
        self.expect_refused("damaged", refused(20, "Damaged 0", "damaged: slot 0: the directory has transport id 0"), "damaged", "new")

    def test_a_new_one_that_can_not_be(self):
        why = "old: in use by another program; if it is the old disk itself, choose another name; else end that program first"
        self.expect_refused("itself", refused(15, "DeviceFault", why), "old", "old")
        why = "none/new: No such file or directory; check the path"
        self.expect_refused("no folder", refused(15, "DeviceFault", why), "old", "none/new")
        short = self.write("new", b"x" * 70).read_bytes()
        self.expect_refused("a short file", refused(19, "DiskTooSmall", "new: 70 bytes, and the geometry asks for 6272"), "old", "new", there=short)
        (self.room / "new").unlink()
        self.motcar("format", "new")
        there = (self.room / "new").read_bytes()
        wanted = refused(18, "AlreadyFormatted", "new: it is a motcar disk already")
        self.expect("a disk", (wanted, there), (self.motcar("copy", "old", "new"), (self.room / "new").read_bytes()))

    def test_a_full_output(self):
        ended = self.to_full("copy", "old", "new")
        self.expect("a line that is not printed", (1, b"motcar: 23 WriteFault\n"), (ended[0], ended[2]))
        self.expect("the copy is there", self.shown(self.old), self.shown("new"))


@needs_strace
class Stops(AirCase):
    """A copy that is stopped, or fails, at each call on either file."""

    def setUp(self):
        super().setUp()
        self.old = self.new_disk("old", "--objects", "2", "--data", "5000", "--segment", "64", "--packet", "24")
        self.serve(self.old, b"put a 2 3 - " + b"61" * 4500 + b"\nput b 3 1 - 62\n")
        self.whole = self.motcar("check", self.old), self.motcar("export", self.old)
        self.bytes, self.new = self.old.read_bytes(), self.room / "new"

    def copy_with(self, fault, of):
        """How a copy ends that has this fault, of which the first two files are."""
        for name in ("new", "new-wal"):
            (self.room / name).unlink(missing_ok=True)
        return run(traced([self.program, "copy", self.old, self.new], f"inject={fault}", paths=of))

    def expect_left(self, row):
        """What is there is no disk yet, or the copy."""
        self.expect(f"{row}: the disk stays", self.bytes, self.old.read_bytes())
        if not self.new.exists() or self.motcar("check", self.new)[2].startswith(b"motcar: 17 NotFormatted\n"):
            return
        self.expect(f"{row}: the copy", self.whole, (self.motcar("check", self.new), self.motcar("export", self.new)))

    def test_stopped(self):
        for call in ("pwrite64", "fdatasync", "fsync", "pread64"):
            for number in itertools.count(1):
                status = self.copy_with(f"{call}:signal=KILL:when={number}", [self.new])[0]
                self.expect_left(f"{call} {number}")
                if status == 0:
                    break
                self.expect(f"{call} {number}: stopped", True, status in (-signal.SIGKILL, 128 + signal.SIGKILL))
                self.expect(f"{call} {number}: not without an end", True, number < 50)

    def test_faults_of_the_new_one(self):
        why = f"motcar: 15 DeviceFault\nmotcar: {self.new}: {os.strerror(errno.ENOSPC)}; make room\n".encode()
        for call in ("pwrite64", "fdatasync"):
            for number in itertools.count(1):
                status, printed, said = self.copy_with(f"{call}:error=ENOSPC:when={number}", [self.new])
                self.expect_left(f"{call} {number}")
                if status == 0:
                    break
                self.expect(f"{call} {number}: of the new disk", (b"", why), (printed, said))
                self.expect(f"{call} {number}: nothing is left", False, self.new.exists())

    def test_faults_of_the_old_one(self):
        why = f"motcar: 15 DeviceFault\nmotcar: {self.old}: {os.strerror(errno.EIO)}\n".encode()
        for number in itertools.count(1):
            status, printed, said = self.copy_with(f"pread64:error=EIO:when={number}", [self.old])
            self.expect_left(f"pread64 {number}")
            if status == 0:
                break
            self.expect(f"pread64 {number}: of the old disk", (b"", why), (printed, said))
            self.expect(f"pread64 {number}: nothing is left", False, self.new.exists())
