"""The empty file beside a disk: an opening that finds no disk leaves none."""
import os

from .program import Case, refused

# Each command of a disk that is there, and the words behind the disk.
COMMANDS = (
    ("check",),
    ("serve",),
    ("migrate",),
    ("list",),
    ("export",),
    ("inspect",),
    ("get", "name"),
    ("withdraw", "name"),
    ("put", "logo.png"),
    ("copy", "new"),
    ("sync", "objects"),
    ("sync", "objects", "--dry-run"),
    ("play", "-", "--turns", "1"),
    ("play", "packets", "--turns", "1"),
)


class Beside(Case):
    def names(self):
        return sorted(it.name for it in self.room.iterdir())

    def expect_none(self, row, wanted, *words):
        """A command that is refused so, and leaves the folder as it was."""
        before = self.names()
        self.expect(row, wanted, self.motcar(*words))
        self.expect(f"{row}: nothing stands beside it", before, self.names())

    def test_what_is_no_disk(self):
        self.write("text", b"no disk")
        wanted = refused(17, "NotFormatted", "text: no motcar disk: 7 bytes, and the head alone has 64")
        for command, *words in COMMANDS:
            self.expect_none(f"{command} {words} of a text", wanted, command, "text", *words)
        self.write("zeros", bytes(90_000))
        wanted = refused(17, "NotFormatted", "zeros: no motcar disk: it does not begin with MOTCAR01")
        for command, *words in COMMANDS:
            self.expect_none(f"{command} {words} of zeros", wanted, command, "zeros", *words)

    def test_what_is_too_short(self):
        self.write("short", bytes(63))
        wanted = refused(19, "DiskTooSmall", "short: 63 bytes, and the geometry asks for 84032")
        self.expect_none("format", wanted, "format", "short")
        (self.room / "folder").mkdir()
        (self.room / "folder" / "link").symlink_to("../short")
        wanted = refused(19, "DiskTooSmall", "folder/link: 63 bytes, and the geometry asks for 84032")
        self.expect_none("format, by a link", wanted, "format", "folder/link")

    def test_a_disk_cut_off(self):
        disk = self.new_disk("disk")
        held = disk.read_bytes()
        (self.room / "disk-wal").unlink()
        self.write("disk", held[:1_000])
        for command, *words in COMMANDS:
            ended = self.motcar(command, "disk", *words)
            number = ended[2].split()[1] if ended[2] else b""
            self.expect(f"{command} {words} is refused", True, ended[0] == 1)
            if number in (b"17", b"19"):
                self.expect(f"{command} {words}: nothing stands beside it", ["disk"], self.names())

    def test_a_disk_already(self):
        self.new_disk("disk")
        (self.room / "disk-wal").unlink()
        wanted = refused(18, "AlreadyFormatted", "disk: it is a motcar disk already")
        self.expect_none("format", wanted, "format", "disk")

    def test_no_disk_takes_the_name_of_a_file_of_another(self):
        """With a journal of such a name the other disk would not open."""
        self.new_disk("disk")
        self.new_disk("source")
        (self.room / "link").symlink_to("nowhere")
        os.mkdir(self.room / "folder")
        why = "the name of a file of another disk; choose another name"
        for path in (*[f"{it}{end}" for it in ("disk", "./disk", "link") for end in ("-journal", "-wal", "-shm")],
                     f"{self.room}/folder/../disk-journal"):
            wanted = refused(15, "DeviceFault", f"{path}: {why}")
            for command in ("format",), ("copy", "source"), ("copy", "disk"):
                self.expect_none(f"{command} {path}", wanted, *command, path)
        self.expect("the disk opens again", 0, self.motcar("check", "disk")[0])
        for path in ("none-journal", "folder-wal", "folder/disk-shm", "disk-wals", "-journal", "folder/-wal"):
            words = ["format", "--", path] if path.startswith("-") else ["format", path]
            self.expect(f"another name is taken: {path}", 0, self.motcar(*words)[0])

    def test_one_that_was_there_stays(self):
        self.write("zeros", bytes(90_000))
        self.write("zeros-wal", b"")
        self.motcar("check", "zeros")
        self.expect("the empty file", ["zeros", "zeros-wal"], self.names())
        self.write("short", bytes(63))
        self.write("short-wal", b"another program's")
        self.motcar("format", "short")
        self.expect("one that is not empty", b"another program's", (self.room / "short-wal").read_bytes())

    def test_a_disk_has_it(self):
        self.new_disk("disk")
        self.expect("after format", ["disk", "disk-wal"], self.names())
        for command, *words in COMMANDS:
            (self.room / "disk-wal").unlink()
            self.motcar(command, "disk", *words)
            self.expect(f"and after {command} {words}", True, "disk-wal" in self.names())
