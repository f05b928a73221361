"""The second line of 15 and 17 to 20: the file, and why. Every command says the same of a disk that it opens."""
import os

from .disk import NOTHING, REMOVE, disk_of, slot
from .program import SECONDS, Case, refused

NONE, DAMAGED = "17 NotFormatted", "20 Damaged"
COMMANDS = ("check", "migrate", "serve", "export", "inspect")


def two(kind, **more):
    return slot(kind, layout=2, **more)


HEADS = [
    (b"", NONE, "no motcar disk: 0 bytes, and the head alone has 64"),
    (bytes(63), NONE, "no motcar disk: 63 bytes, and the head alone has 64"),
    (bytes(64), NONE, "no motcar disk: it does not begin with MOTCAR01"),
    (disk_of(objects=0), NONE, "its head has objects 0: 1 to 250"),
    (disk_of(objects=251), NONE, "its head has objects 251: 1 to 250"),
    (disk_of(segment=63), NONE, "its head has segment 63: 64 to 8189"),
    (disk_of(address=1_024), NONE, "its head has address 1024: 1 to 1023"),
    (disk_of(packet=25), NONE, "its head has packet 25: 24, 48, 72 or 96"),
    (disk_of(area=0), NONE, "its head has data 0: 1 to 268435456"),
    (disk_of()[:-1], NONE, "cut short: 3140 of 3141 bytes"),
]
# The fields of slot 1, behind a slot that changes nothing.
FIELDS = [
    ({"directory": 0}, "the directory has transport id 0"),
    ({"last": 0}, "the transport id that was taken last is 0"),
    ({"kind": 4}, "kind 4: layout 1 has 1 to 3"),
    ({"kind": 18}, "kind 18: layout 1 has 1 to 3"),
    ({"tid": 0}, "the object has transport id 0"),
    ({"kind": REMOVE, "tid": 0}, "the object has transport id 0"),
    ({"type": 64}, "content type 64, subtype 0: at most 63 and 511"),
    ({"subtype": 512}, "content type 2, subtype 512: at most 63 and 511"),
    ({"size": 0}, "a body of 0 bytes: 1 to 262144"),
    ({"size": 262_145}, "a body of 262145 bytes: 1 to 262144"),
    ({"start": 4}, "its body ends at 6, the data area at 5"),
    ({"start": 2**32 - 1, "size": 1}, "its body ends at 4294967296, the data area at 5"),
    ({"name": b""}, "its name of 0 bytes breaks the rule of names"),
    ({"name": b"a b"}, "its name of 3 bytes breaks the rule of names"),
    ({"name": b"a" * 101}, "its name of 101 bytes breaks the rule of names"),
    ({"mime": b"-"}, "its MIME type of 1 bytes breaks the rule of MIME types"),
    ({"mime": b"m" * 65}, "its MIME type of 65 bytes breaks the rule of MIME types"),
]
SLOTS = [
    *((disk_of(slot(NOTHING), slot(**fault), objects=3), f"{DAMAGED} 1", f"slot 1: {reason}")
      for fault, reason in FIELDS),
    (disk_of(two(17), two(2), objects=3), f"{DAMAGED} 1", "slot 1: kind 2: layout 2 has 17 to 19"),
    (disk_of(two(18), two(18, name=b"b" * 255, tid=3, start=2, size=4), objects=3), f"{DAMAGED} 1",
     "slot 1: its body ends at 6, the data area at 5"),
    # In the second half, which the byte 8 selects.
    (disk_of(slot(NOTHING), slot(tid=0), half=1), f"{DAMAGED} 1", "slot 1: the object has transport id 0"),
]
# What the list of records breaks; an object that was replaced or removed is not met.
LISTS = [
    ([slot(), slot(REMOVE, tid=7)], 3, 1, "it removes transport id 7, which no object has"),
    ([slot(), slot(REMOVE), slot(REMOVE)], 3, 2, "it removes transport id 2, which no object has"),
    ([slot(), slot(name=b"b", tid=3, start=2)], 1, 1, "it sets one object more than 1"),
    ([slot(), slot(REMOVE), slot(name=b"b", tid=3), slot(name=b"c", tid=4, start=2)], 1, 3,
     "it sets one object more than 1"),
    ([slot(), slot(name=b"b", start=2)], 3, 1, "transport id 2 is that of another object, too"),
    ([slot(), slot(tid=3), slot(name=b"b", tid=3, start=2)], 3, 2, "transport id 3 is that of another object, too"),
    ([slot(), slot(NOTHING, directory=2)], 3, 1, "the directory's transport id 2 is that of an object"),
    ([slot(directory=2)], 3, 0, "the directory's transport id 2 is that of an object"),
    ([slot(), slot(tid=3, directory=3)], 3, 1, "the directory's transport id 3 is that of an object"),
    ([slot(), slot(name=b"b", tid=3, start=1)], 3, 1, "the body of transport id 3 meets that of another object"),
    ([slot(), slot(start=3, tid=3), slot(name=b"b", tid=4), slot(name=b"c", tid=5, start=1)], 3, 3,
     "the body of transport id 5 meets that of another object"),
]
LIST_DAMAGES = [(disk_of(*slots, objects=objects), f"{DAMAGED} {number}", f"slot {number}: {reason}")
                for slots, objects, number, reason in LISTS]


class Reasons(Case):
    def expect_reasons(self, cases):
        """Each disk by another command."""
        for number, (held, refusal, reason) in enumerate(cases):
            self.write("disk", held)
            command = COMMANDS[number % len(COMMANDS)]
            wanted = refused(*refusal.split(" ", 1), f"disk: {reason}")
            self.expect(f"{command}: {reason}", wanted, self.motcar(command, "disk", given=b"list\n"))
            self.expect(f"{command}: {reason}: and nothing is written", held, (self.room / "disk").read_bytes())

    def test_heads(self):
        self.expect_reasons(HEADS)

    def test_fields_of_slots(self):
        self.expect_reasons(SLOTS)

    def test_lists_of_records(self):
        self.expect_reasons(LIST_DAMAGES)

    def test_all_commands_say_the_same(self):
        held, refusal, reason = SLOTS[-1]
        self.write("disk", held)
        (self.room / "objects").mkdir()
        wanted = refused(*refusal.split(" ", 1), f"disk: {reason}")
        more = [("sync", "disk", "objects"), ("sync", "disk", "objects", "--dry-run"), ("list", "disk"),
                ("put", "disk", "a.txt"), ("withdraw", "disk", "a.txt"), ("get", "disk", "a.txt"),
                ("play", "disk", "packets", "--turns", "1")]
        for words in [*((it, "disk") for it in COMMANDS), *more]:
            self.expect(f"a damaged disk: {' '.join(words)}", wanted, self.motcar(*words, given=b"list\n"))

    def test_format(self):
        words = ("format", "disk", "--objects", "1", "--data", "5")
        self.write("disk", disk_of())
        self.expect("a disk", refused(18, "AlreadyFormatted", "disk: it is a motcar disk already"), self.motcar(*words))
        self.write("disk", bytes(3_140))
        wanted = refused(19, "DiskTooSmall", "disk: 3140 bytes, and the geometry asks for 3141")
        self.expect("a file that is one byte too short", wanted, self.motcar(*words))


class InTheWay(Case):
    """The second line of 15 names the file that stood in the way, and says what to do."""

    def expect_fault(self, row, about, name="disk", commands=("check", "serve", "export")):
        for command in commands:
            self.expect(f"{row}: {command}", refused(15, "DeviceFault", about), self.motcar(command, name))

    def test_no_file(self):
        self.expect_fault("no file", "none: No such file or directory; check the path", "none")

    def test_a_folder(self):
        self.expect_fault("a folder", ".: Is a directory; check the path", ".")

    def test_a_pipe(self):
        os.mkfifo(self.room / "pipe")
        self.expect_fault("a pipe", "pipe: neither a regular file nor a block device; check the path", "pipe")

    def test_a_file_in_place_of_a_folder(self):
        self.new_disk("disk")
        self.expect_fault("below a file", "disk/below: Not a directory; check the path", "disk/below")

    def test_a_disk_in_use(self):
        held = self.begin("serve", self.new_disk("disk"))
        held.stdin.write(b"list\n")
        held.stdin.flush()
        held.stdout.readline()
        hint = "if that plays it, its folder or its lines change it; else end it first"
        self.expect_fault("a disk in use", f"disk: in use by another program; {hint}", commands=["serve", "migrate"])
        held.communicate(timeout=SECONDS)
        self.expect("and not behind that", 0, self.motcar("check", "disk")[0])

    def test_a_second_name(self):
        path = self.new_disk("disk")
        os.link(path, self.room / "second")
        self.expect_fault("a second name", "disk: the file has a second name (a hard link); remove the other name")
        (self.room / "second").unlink()
        self.expect("and not behind that", 0, self.motcar("check", "disk")[0])

    def test_a_link_beside_it(self):
        self.new_disk("disk")
        beside = self.room / "disk-wal"
        beside.unlink()
        beside.symlink_to("elsewhere")
        self.expect_fault("a link", "disk-wal: not a regular file of one name; move it away")
        beside.unlink()
        self.expect("and not behind that", 0, self.motcar("check", "disk")[0])

    def test_a_journal_beside_it(self):
        self.new_disk("disk")
        self.write("disk-journal", b"x")
        self.expect_fault("a journal", "disk-journal: a file is there; move it away")
        (self.room / "disk-journal").unlink()
        self.expect("and not behind that", 0, self.motcar("check", "disk")[0])
