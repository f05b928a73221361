"""The command `check`: what disks by the format open to, in both layouts, and what is said of refused ones."""
from . import disk
from .program import Case, refused

ONE = b"carousel 0 3 3 1\nobject 2 0 2 3 5 a -\n"
NONE = b"carousel 0 1 1 0\n"
SETS = disk.slot(directory=3, last=3, subtype=3, size=5)


def record(tid, start, name=b"a", kind=disk.SET, size=1, **more):
    return {"kind": kind, "tid": tid, "start": start, "size": size, "name": name, "subtype": 3, **more}


A, B, C = record(2, 0), record(3, 1, b"b"), record(4, 2, b"c")
# What a disk says, the records, and how it opens: how many objects it has then, and whether it is clean.
CASES = [
    ("two objects", [A, B], "2 clean"),
    ("ids and starts that go down", [record(3, 1), record(2, 0, b"b")], "2 clean"),
    ("a name again, whose body meets the other one's", [A, B, record(4, 1)], "20 Damaged 2"),
    ("a name again, whose old place is free", [A, B, record(4, 2), record(5, 0, b"b")], "2 clean"),
    ("one id for two names", [A, record(2, 1, b"b")], "20 Damaged 1"),
    ("one id for two names, and later no kind", [A, record(2, 1, b"b"), record(4, 2, b"c", kind=4)], "20 Damaged 2"),
    ("an object with the directory's id", [A, record(9, 1, b"b")], "20 Damaged 1"),
    ("a removal of no object", [record(9, 0, kind=disk.REMOVE)], "20 Damaged 0"),
    ("bodies that meet", [record(2, 0, size=2), B], "20 Damaged 1"),
    ("bodies that meet, and later no name", [A, record(3, 0, b"b"), record(4, 2, b"")], "20 Damaged 2"),
    ("no name", [record(4, 2, b"")], "20 Damaged 0"),
    ("a third object of two", [A, B, C], "20 Damaged 2"),
    ("a MIME type that says there is none", [record(2, 0, mime=b"-")], "20 Damaged 0"),
    *((f"a gate of {gate:#x} alone", [{**A, "gate": gate}], "0 clean") for gate in (0xA4, 0x5A, 0x00)),
    ("a closed gate in front of an open one", [{**A, "gate": 0xA4}, B], "0 not clean"),
]


class Check(Case):
    def test_a_disk_of_layout_1(self):
        self.write("old", disk.disk_of(SETS, body=bytes([1, 2, 3, 4, 5])))
        self.expect("check", (0, ONE + b"clean\nlayout 1\n", b""), self.motcar("check", "old"))

    def test_a_disk_that_is_not_clean(self):
        self.write("loose", disk.disk_of(disk.slot(gate=0), disk.slot()))
        self.expect("check", (0, NONE + b"not clean\nlayout 1\n", b""), self.motcar("check", "loose"))

    def test_a_damaged_disk(self):
        self.write("damaged", disk.disk_of(b"\xa5\x04"))
        wanted = refused(20, "Damaged 0", "damaged: slot 0: the directory has transport id 0")
        self.expect("check", wanted, self.motcar("check", "damaged"))

    def test_an_empty_file(self):
        self.write("empty", b"")
        wanted = refused(17, "NotFormatted", "empty: no motcar disk: 0 bytes, and the head alone has 64")
        self.expect("check", wanted, self.motcar("check", "empty"))

    def test_a_file_that_is_not_there(self):
        wanted = refused(15, "DeviceFault", "none: No such file or directory; check the path")
        self.expect("check", wanted, self.motcar("check", "none"))

    def test_a_program_that_runs(self):
        # No user may write a program while it runs, not even root.
        wanted = refused(15, "DeviceFault", "/proc/self/exe: Text file busy")
        self.expect("check", wanted, self.motcar("check", "/proc/self/exe"))


class Opened(Case):
    """What disks by the format open to."""

    def image(self, records, layout):
        slots = [disk.slot(**{**it, "kind": disk.kind_of(it["kind"], layout)}, layout=layout) for it in records]
        return disk.disk_of(*slots, objects=2, segment=64, packet=24, area=8)

    def check(self, held):
        """How many objects a disk has, and whether it is clean, or why it is refused; and its layout."""
        self.write("disk", held)
        status, printed, said = self.motcar("check", "disk")
        lines = printed.decode().splitlines()
        if status:
            return said.decode().splitlines()[0].removeprefix("motcar: "), None
        return f"{lines[0].split()[-1]} {lines[-2]}", lines[-1]

    def look(self, layout):
        for name, records, wanted in CASES:
            came, told = self.check(self.image(records, layout))
            # (a half whose gates are all closed is of layout 1)
            is_right = told in (None, f"layout {layout}") or wanted.startswith("0")
            self.expect(name, (wanted, True), (came, is_right))
        # Of a selector that is neither half, the first is taken.
        held = self.image([record(2, 0)], layout).replace(b"MOTCAR01\0", b"MOTCAR01\xff")
        self.expect("a selector that is none", ("1 clean", f"layout {layout}"), self.check(held))

    def test_layout_1(self):
        self.look(1)

    def test_layout_2(self):
        self.look(2)

    def test_no_record(self):
        self.expect("a head alone", ("0 clean", "layout 1"), self.check(self.image([], 1)))
