"""The command `serve`: lines to disks of both layouts, what they write, and a disk that loses its end while in use."""
import os

from . import disk
from .program import SECONDS, Case, refused

ONE = b"carousel 0 3 3 1\nobject 2 0 2 3 5 a -\n"


class Serve(Case):
    def test_an_object_stays(self):
        self.new_disk("disk")
        put = b"put a 2 3 - 0102030405\nlist\n"
        self.expect("is put", (0, b"done object 2 directory 3\n" + ONE, b""), self.serve("disk", put))
        self.expect("and is there", (0, ONE, b""), self.serve("disk", b"list\n"))
        packets = self.serve("disk", b"turn\n")[1].splitlines()
        came = ([it[:13] for it in packets], packets[-1].endswith(b" end"))
        self.expect("and is played from the beginning of a turn", ([b"packet 4c0127", b"packet 1c0110"], True), came)
        self.expect("the disk keeps its length", 84_032, os.path.getsize(self.room / "disk"))

    def test_a_disk_of_layout_1_is_served_as_it_is(self):
        self.write("old", disk.disk_of(disk.slot(directory=3, last=3, subtype=3, size=5), body=bytes([1, 2, 3, 4, 5])))
        self.expect("list", (0, ONE, b""), self.serve("old", b"list\n"))

    def test_an_empty_file(self):
        self.write("empty", b"")
        wanted = refused(17, "NotFormatted", "empty: no motcar disk: 0 bytes, and the head alone has 64")
        self.expect("list", wanted, self.serve("empty", b"list\n"))

    def test_an_object_is_written_in_the_first_closed_slot(self):
        self.new_disk("new")
        self.write("old", disk.disk_of())
        record = b"\0\0\0\0\x03\0\x03\0\x02\0\x02\0\x03\0\0\0\0\0\0\0\x05\x01a\x09image/png"
        for name, place, begin in (("new", 64 + 512, b"\xa5\x12"), ("old", 64, b"\xa5\x02")):
            status = self.serve(name, b"put a 2 3 image/png 0102030405\n")[0]
            held = (self.room / name).read_bytes()
            self.expect(f"of the {name} disk", (0, begin + record), (status, held[place:place + 35]))

    def test_the_worked_disk_of_the_formats(self):
        """All its bytes, which section 7 of docs/FORMATS.md shows."""
        path = self.new_disk("disk", "--objects", "1", "--data", "8", "--segment", "64", "--packet", "24")
        nothing = disk.slot(17, layout=2, directory=1, last=1)[:9].ljust(512, b"\0")
        sizes = {"objects": 1, "segment": 64, "packet": 24, "area": 8}
        self.expect("new", disk.disk_of(nothing, **sizes), path.read_bytes())
        self.serve(path, b"put a 2 3 image/png 68656c6c6f\n")
        sets = disk.slot(18, layout=2, directory=3, last=3, tid=2, subtype=3, size=5, mime=b"image/png")
        self.expect("with an object", disk.disk_of(nothing, sets, body=b"hello", **sizes), path.read_bytes())
        # All slots are open, so a withdrawal goes to slot 2, and the next command to the other half.
        self.serve(path, b"withdraw a\n")
        removes = disk.slot(19, layout=2, directory=4, last=4, tid=2)[:11].ljust(512, b"\0")
        self.expect("without it", disk.disk_of(nothing, sets, removes, body=b"hello", **sizes), path.read_bytes())
        self.serve(path, b"period 9\n")
        rewritten = disk.slot(17, layout=2, directory=4, last=4)[:9].ljust(512, b"\0")
        period = disk.slot(17, layout=2, period=9, directory=5, last=5)[:9].ljust(512, b"\0")
        wanted = disk.disk_of(rewritten, period, half=1, other=nothing + sets + removes, body=b"hello", **sizes)
        self.expect("in the other half", wanted, path.read_bytes())

    def test_a_disk_that_loses_its_end_while_it_is_open(self):
        path = self.new_disk("disk")
        self.serve(path, b"put a 2 3 image/png 0102030405\n")
        served = self.begin("serve", path)
        served.stdin.write(b"list\n")
        served.stdin.flush()
        self.expect("before that", b"carousel 0 3 3 1\n", served.stdout.readline())
        os.truncate(path, 64 + 2 * 18 * 512)
        told = served.communicate(b"turn\n", SECONDS)[0].splitlines()
        came = (told[-1:], served.returncode)
        self.expect("after that, a fault and not other bytes", ([b"refused 15 DeviceFault"], 0), came)
