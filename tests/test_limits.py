"""What is answered if a file has limits, and what the disk holds afterwards: a full file system, a quota, a limit of a
file's size, a read-only mount, a file without the right, one that another program has open, and what is no disk.
"""
import contextlib
import fcntl
import os
import pathlib
import resource
import shutil
import signal
import stat
import struct
import subprocess

from .program import SECONDS, Case

NOBODY = 65_534
F_OFD_SETLK = 37  # (fcntl.F_OFD_SETLK is newer)
SQLITE_LOCK = 0x4000_0000
SIZES = ("--objects", "3", "--data", "100000")
AREA = 64 + 2 * 5 * 512  # where the bodies begin
PUTS = b"".join(b"put n%d 2 3 - %s\nlist\n" % (number, b"5a" * 40_000) for number in range(2))


def is_done(*words):
    """Whether a command of the system ended well; one that is not there did not."""
    try:
        return subprocess.run(words, capture_output=True).returncode == 0
    except OSError:
        return False


def last_listing(replies, before):
    """What the last reply to `list` shows, and `check` prints then; what `check` printed before if there is none."""
    lines, shown = replies.split(b"\n"), before
    for place, line in enumerate(lines):
        if line.startswith(b"carousel "):
            count = 1 + int(line.split(b" ")[4])
            shown = b"\n".join(lines[place : place + count]) + b"\nclean\nlayout 2\n"
    return shown


def fill(folder):
    try:
        with open(folder / "fill", "wb", buffering=0) as file:
            while True:
                file.write(b"x" * 4_096)
    except OSError:
        pass


class Limits(Case):
    """A test whose program another user can run, too."""

    def setUp(self):
        super().setUp()
        # (a copy, since nobody may not get at the place where it was built)
        self.program = shutil.copy(self.program, self.room / "motcar")

    def made(self, disk, lines=b"put old 2 3 - 0102\n"):
        """Makes a disk and gives it these lines; what `check` prints of it."""
        self.motcar("format", disk, *SIZES)
        self.serve(disk, lines)
        return self.motcar("check", disk)[1]

    def expect_fault(self, row, disk, why, ended):
        """Status 1, nothing printed, and two lines: the refusal, and the file with the system's words."""
        status, printed, said = ended
        first, second = [*said.decode().split("\n"), ""][:2]
        self.expect(row, (1, b"", "motcar: 15 DeviceFault"), (status, printed, first))
        self.expect(f"{row}: the second line", True, second.startswith(f"motcar: {disk}: ") and why in second)

    def expect_kept(self, row, disk, wanted):
        """The disk holds what was acknowledged, clean."""
        self.expect(f"{row}: what is kept", (0, wanted, b""), self.motcar("check", disk))


class FileSystems(Limits):
    @contextlib.contextmanager
    def mounted(self, *words):
        """A small file system in the test's folder; the test is left out if it can't be mounted."""
        folder = self.room / "small"
        folder.mkdir(exist_ok=True)
        if not is_done("mount", *words, folder):
            self.skipTest("no mount")
        try:
            yield folder
        finally:
            subprocess.run(["umount", folder], check=True)

    def in_memory(self, options):
        return self.mounted("-t", "tmpfs", "-o", options, "tmpfs")

    def test_a_full_file_system(self):
        with self.in_memory("size=300k") as folder:
            disk, second = folder / "disk", folder / "second"
            before = self.made(disk)
            fill(folder)
            self.expect_fault("format", second, "No space left", self.motcar("format", second, *SIZES))
            self.expect("format leaves no file", False, second.exists())
            replies = self.serve(disk, PUTS)[1]
            told = [it.split(b" ")[0] for it in replies.splitlines()]
            self.expect("puts", 2, told.count(b"done"))
            self.expect_kept("puts", disk, last_listing(replies, before))

    def test_a_quota(self):
        """By btrfs, whose quotas hold for root, too."""
        image, part = self.room / "image", self.room / "small/part"
        with open(image, "wb") as file:
            file.truncate(128 << 20)
        if not is_done("mkfs.btrfs", "-q", image):
            self.skipTest("no btrfs")
        with self.mounted("-o", "loop", image) as folder:
            made = [["quota", "enable", folder], ["subvolume", "create", part], ["qgroup", "limit", "1M", part]]
            if not all(is_done("btrfs", *words) for words in made):
                self.skipTest("no mount with quotas")
            disk, second = part / "disk", part / "second"
            before = self.made(disk)
            self.expect_fault("format", second, "uota", self.motcar("format", second, "--data", "2000000"))
            self.expect("format leaves no file", False, second.exists())
            fill(part)
            replies = self.serve(disk, PUTS)[1]
            self.expect_kept("puts", disk, last_listing(replies, before))

    def test_a_read_only_mount(self):
        with self.in_memory("size=1m") as folder:
            disk = folder / "disk"
            wanted = self.made(disk)
            subprocess.run(["mount", "-o", "remount,ro", folder], check=True)
            for words in (["serve", disk], ["migrate", disk], ["format", folder / "new", *SIZES]):
                self.expect_fault(words[0], words[1], "ead-only", self.motcar(*words, given=b"period 1\n"))
            self.expect_kept("looked at on a read-only mount", disk, wanted)
            subprocess.run(["mount", "-o", "remount,rw", folder], check=True)
            self.expect_kept("a read-only mount", disk, wanted)


class FileSize(Limits):
    """The system's limit of a file's size."""

    @staticmethod
    def limit(to, is_ignored=True):
        """Whether the signal that the system sends is ignored, or ends the program."""
        def set_it():
            resource.setrlimit(resource.RLIMIT_FSIZE, (to, to))
            signal.signal(signal.SIGXFSZ, signal.SIG_IGN if is_ignored else signal.SIG_DFL)
        return {"preexec_fn": set_it}

    def test_format_leaves_no_file(self):
        second = self.room / "second"
        self.expect_fault("format", second, "too large", self.motcar("format", second, *SIZES, **self.limit(50_000)))
        self.expect("no file is left", [], list(self.room.glob("second*")))

    def test_format_leaves_the_file_of_another_beside_it(self):
        beside = self.room / "second-wal"
        for given in (b"mine\n", b""):
            beside.write_bytes(given)
            ended = self.motcar("format", "second", *SIZES, **self.limit(4_096))
            self.expect_fault("format", "second", "too large", ended)
            self.expect(f"a file of {given}", [beside], list(self.room.glob("second*")))
            self.expect("and its bytes", given, beside.read_bytes() if beside.exists() else None)

    def test_a_body_beyond_the_limit(self):
        before = self.made("disk", b"")
        lines = b"put a 2 3 - 0102\nlist\nput b 2 3 - 0304\nlist\n"
        replies = self.motcar("serve", "disk", given=lines, **self.limit(AREA))[1]
        self.expect("replies", [b"refused 15 DeviceFault"] + 3 * [b"refused 16 Halted"], replies.splitlines())
        self.expect_kept("a fault", "disk", before)
        self.motcar("serve", "disk", given=lines, **self.limit(AREA, is_ignored=False))
        self.expect_kept("a signal", "disk", before)

    def test_a_body_up_to_the_limit(self):
        before = self.made("disk", b"")
        lines = b"put a 2 3 - 0102\nlist\nput b 2 3 - 0304\nlist\n"
        replies = self.motcar("serve", "disk", given=lines, **self.limit(AREA + 2))[1]
        self.expect("the first reply", b"done object 2 directory 3", replies.split(b"\n")[0])
        self.expect_kept("the rest", "disk", last_listing(replies, before))


class Rights(Limits):
    def setUp(self):
        super().setUp()
        self.as_nobody = {} if os.geteuid() else {"user": NOBODY, "group": NOBODY, "extra_groups": []}
        self.folder = self.room / "closed"
        self.folder.mkdir()
        self.disk = self.folder / "disk"
        self.wanted = self.made(self.disk)
        self.addCleanup(self.folder.chmod, 0o755)

    def test_a_disk_that_may_not_be_written(self):
        self.disk.chmod(0o444)
        self.folder.chmod(0o555)
        for words in (["serve", self.disk], ["format", self.folder / "new"]):
            self.expect_fault(words[0], words[1], "denied", self.motcar(*words, given=b"period 1\n", **self.as_nobody))
        self.expect("but read", (0, self.wanted, b""), self.motcar("check", self.disk, **self.as_nobody))
        self.expect_kept("without the right", self.disk, self.wanted)

    def test_the_file_beside_the_disk_is_named(self):
        """It is another user's, or can't be made."""
        beside = self.folder / "disk-wal"
        self.disk.chmod(0o666)
        beside.chmod(0)
        self.folder.chmod(0o555)
        said = f"motcar: 15 DeviceFault\nmotcar: {beside}: Permission denied; motcar has to read and write it\n"
        self.expect("another user's file", (1, b"", said.encode()), self.motcar("serve", self.disk, **self.as_nobody))
        self.folder.chmod(0o755)
        beside.unlink()
        self.folder.chmod(0o555)
        self.expect("none can be made", (1, b"", said.encode()), self.motcar("serve", self.disk, **self.as_nobody))
        self.folder.chmod(0o755)
        self.expect_kept("with the right", self.disk, self.wanted)


class InUse(Limits):
    def test_a_disk_that_another_has_open(self):
        self.made("held", b"")
        disk = self.room / "held"
        first = self.begin("serve", disk)
        for line, last in ((b"period 1\n", 2), (b"period 2\n", 3)):
            first.stdin.write(line)
            first.stdin.flush()
            self.expect("the first that has it open", b"done directory %d\n" % last, first.stdout.readline())
            for command in ("serve", "migrate", "format"):
                self.expect_fault(f"{command} beside it", disk, "", self.motcar(command, disk, given=b"period 9\n"))
            self.expect_kept("looked at beside it", disk, b"carousel %d %d %d 0\nclean\nlayout 2\n" % (last - 1, last, last))
        first.communicate(timeout=SECONDS)
        self.expect_kept("what another had open", disk, b"carousel 2 3 3 0\nclean\nlayout 2\n")

    def test_a_lock_of_the_bytes_that_sqlite_locks(self):
        """What the system keeps of the disk can't be dropped then."""
        disk = self.room / "locked"
        wanted = self.made(disk)
        with open(disk, "rb+") as file:
            fcntl.fcntl(file, F_OFD_SETLK, struct.pack("hh4xqqi4x", fcntl.F_WRLCK, os.SEEK_SET, SQLITE_LOCK, 1, 0))
            for command in ("serve", "check", "migrate"):
                self.expect_fault(command, disk, "", self.motcar(command, disk, given=b"period 9\n"))
        self.expect_kept("a locked disk", disk, wanted)


def device(path, minor):
    """A node of our own for a device of memory: as root, a wrong program would make a file of the system's. A user who
    may make none gets that one."""
    try:
        os.mknod(path, stat.S_IFCHR | 0o666, os.makedev(1, minor))
        return path
    except PermissionError:
        return pathlib.Path("/dev", path.name)


class NoDisk(Limits):
    def setUp(self):
        super().setUp()
        room = self.room
        os.mkfifo(room / "pipe")
        (room / "folder").mkdir()
        (room / "link").symlink_to(room / "nothing")
        self.devices = [device(room / "null", 3), device(room / "zero", 5)]
        self.long = room / ("n" * 300)

    def test_commands_of_a_disk(self):
        room = self.room
        rows = [(room / "nothing", "No such file"), (room / "folder", "directory"), (room / "pipe", ""),
                *((it, "") for it in self.devices), (room / "link", ""), (self.long, "too long"),
                (room / "pipe/below", "Not a directory")]
        for path, why in rows:
            for command in ("serve", "check", "migrate"):
                ended = self.motcar(command, path, given=b"period 1\n")
                self.expect_fault(f"{command} {path.name[:20]}", path, why, ended)

    def test_format(self):
        for path in (self.room / "folder", self.room / "pipe", self.devices[0], self.long):
            self.expect_fault(f"format {path.name[:20]}", path, "", self.motcar("format", path))
