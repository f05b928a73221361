"""The command `format`: what it prints, and each byte of the disk that it makes, by section 7 of docs/FORMATS.md."""
import os

from .program import Case, refused

FORMATTED = (0, b"formatted 84032\n", b"")


class Format(Case):
    def test_a_new_disk(self):
        self.expect("format", FORMATTED, self.motcar("format", "disk"))
        self.expect("its length", 84_032, (self.room / "disk").stat().st_size)
        self.expect("it is clean", (0, b"carousel 0 1 1 0\nclean\nlayout 2\n", b""), self.motcar("check", "disk"))

    def test_the_smallest_disk(self):
        came = self.motcar("format", "small", "--objects", "1", "--data", "1")
        self.expect("format", (0, b"formatted 3137\n", b""), came)

    def test_a_disk_that_is_one_already(self):
        disk = self.new_disk("disk")
        before = disk.read_bytes()
        wanted = refused(18, "AlreadyFormatted", "disk: it is a motcar disk already")
        self.expect("format again", wanted, self.motcar("format", "disk"))
        self.expect("and writes nothing", before, disk.read_bytes())

    def test_a_file_that_is_there(self):
        self.write("long", bytes(90_000))
        self.expect("a long one", FORMATTED, self.motcar("format", "long"))
        self.write("short", bytes(63))
        wanted = refused(19, "DiskTooSmall", "short: 63 bytes, and the geometry asks for 84032")
        self.expect("a short one", wanted, self.motcar("format", "short"))

    def test_a_geometry_out_of_range(self):
        wanted = refused(21, "BadGeometry", "--objects 0: 1 to 250")
        self.expect("no object", wanted, self.motcar("format", "none", "--objects", "0"))
        self.expect("and no file is made", [], list(self.room.iterdir()))

    def test_a_folder_that_is_not_there(self):
        wanted = refused(15, "DeviceFault", "none/disk: No such file or directory; check the path")
        self.expect("format", wanted, self.motcar("format", "none/disk"))

    def test_the_bytes_of_a_new_disk(self):
        disk = self.room / "disk"
        self.expect("format", 0, self.motcar("format", "disk")[0])
        head = b"MOTCAR01" + bytes(9) + b"\x10\x04\0\0\x01\0\x60\0\x01" + bytes(38)
        self.expect("it begins so", head + b"\xa5\x11\0\0\0\0\x01\0\x01" + bytes(7), disk.read_bytes()[:80])
        self.expect("and goes on with zeros", True, not any(disk.read_bytes()[80:]))
        self.expect("it has no holes", True, 512 * disk.stat().st_blocks >= 84_032)

    def test_a_file_longer_than_any_memory(self):
        with open(self.room / "long", "wb") as file:
            file.truncate(1 << 42)
        self.expect("is formatted", FORMATTED, self.motcar("format", "long"))
        self.expect("and opened", 0, self.motcar("check", "long")[0])

    def test_a_link_to_nothing_makes_nothing(self):
        os.symlink("nothing", self.room / "link")
        wanted = refused(15, "DeviceFault", "link: File exists; move it away")
        self.expect("format", (wanted, False), (self.motcar("format", "link"), (self.room / "nothing").exists()))
