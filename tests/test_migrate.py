"""The command `migrate`: disks of layout 1 become such of layout 2, and take long names then."""
from . import disk
from .program import Case, refused

SETS = disk.slot(directory=3, last=3, subtype=3, size=5)


class Migrate(Case):
    def expect_check(self, row, name, wanted):
        self.expect(row, (0, wanted, b""), self.motcar("check", name))

    def test_a_disk_of_layout_1(self):
        self.write("old", disk.disk_of(SETS, body=bytes([1, 2, 3, 4, 5])))
        self.expect("migrate", (0, b"migrated\n", b""), self.motcar("migrate", "old"))
        self.expect("once more", (0, b"already layout 2\n", b""), self.motcar("migrate", "old"))
        self.expect_check("and then", "old", b"carousel 0 3 3 1\nobject 2 0 2 3 5 a -\nclean\nlayout 2\n")

    def test_a_disk_that_is_not_clean(self):
        self.write("loose", disk.disk_of(disk.slot(gate=0), disk.slot()))
        self.expect("migrate", (0, b"migrated\n", b""), self.motcar("migrate", "loose"))
        self.expect_check("it is clean then", "loose", b"carousel 0 1 1 0\nclean\nlayout 2\n")

    def test_a_damaged_disk(self):
        self.write("damaged", disk.disk_of(b"\xa5\x04"))
        wanted = refused(20, "Damaged 0", "damaged: slot 0: the directory has transport id 0")
        self.expect("migrate", wanted, self.motcar("migrate", "damaged"))

    def test_an_empty_file(self):
        self.write("empty", b"")
        wanted = refused(17, "NotFormatted", "empty: no motcar disk: 0 bytes, and the head alone has 64")
        self.expect("migrate", wanted, self.motcar("migrate", "empty"))

    def test_long_names_wait_for_layout_2(self):
        self.write("disk", disk.disk_of(objects=2, segment=64, packet=24, area=8))
        name = b"a" * 101
        lines = b"withdraw %s\nput %s 2 3 - 00\n" % (name, name)
        self.expect("in layout 1", (0, b"refused 2 BadName\nrefused 2 BadName\n", b""), self.serve("disk", lines))
        self.expect("a migration", 0, self.motcar("migrate", "disk")[0])
        wanted = b"refused 10 NoSuchName\ndone object 2 directory 3\n"
        self.expect("in layout 2", (0, wanted, b""), self.serve("disk", lines))
        wanted = b"carousel 0 3 3 1\nobject 2 0 2 3 1 %s -\nclean\nlayout 2\n" % name
        self.expect_check("and what is opened then", "disk", wanted)
