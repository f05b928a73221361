"""What to do about a disk that the system does not open, read or write: the system's words, and the hint after them."""
import errno
import os
import pathlib
import re

from .air import AirCase, needs_strace, traced
from .program import Case, refused, run

HINTS = {
    "ENOENT": "; check the path", "ENOTDIR": "; check the path", "EISDIR": "; check the path",
    "EACCES": "; motcar has to read and write it", "EPERM": "; motcar has to read and write it",
    "EROFS": "; the disk has to be written", "ENOSPC": "; make room", "EDQUOT": "; make room",
    "EBUSY": "; another program has it: end that", "EEXIST": "; move it away",
    "EOPNOTSUPP": "; it has to be a regular file of one name: move it away",
    "EIO": "", "EFBIG": "", "ELOOP": "", "ETXTBSY": "", "ENAMETOOLONG": "",
}


# What the manual's table has beside the words of the system: rows of other tests.
OTHERS = [
    "in use by another program; if that plays it, its folder or its lines change it; else end it first",
    "in use by another program; if it is the old disk itself, choose another name; else end that program first", "neither a regular file nor a block device; check the path",
    "the file has a second name (a hard link); remove the other name", "a file is there; move it away",
    "not a regular file of one name; move it away", "the name of a file of another disk; choose another name",
]


class Manual(Case):
    def test_each_line_is_one_that_a_row_prints(self):
        """The table of what a start prints has no line that nothing prints, and each line of these rows."""
        page = (pathlib.Path(__file__).parent.parent / "docs" / "OPERATING.md").read_text()
        table = page.split("**At a start**")[1].split("**While it runs**")[0]
        lines = [it for row in re.findall(r"(?m)^\| (`[^|]+`) \|", table) for it in re.findall(r"`([^`]+)`", row)]
        words = {f"{os.strerror(getattr(errno, it))}{hint}" for it, hint in HINTS.items()}
        devices = [it for it in lines if it.startswith(("it, or ", "the device ", "it has a ", "/proc/"))]
        self.expect("the words of the system, and those of the program", [], sorted({*lines} - words - {*OTHERS, *devices}))
        self.expect("each of them is there", [], sorted(({*OTHERS} | words) - {*lines}))


@needs_strace
class Hints(AirCase):
    def expect_hint(self, error, call, command, path):
        """A command that ends with a hint, since a system call with its disk fails."""
        ended = self.traced([self.program, command, path], f"inject={call}:error={error}", paths=[path])
        why = f"{path}: {os.strerror(getattr(errno, error))}{HINTS[error]}"
        self.expect(f"{command}: {call} fails with {error}", refused(15, "DeviceFault", why), ended)

    def test_a_disk_that_is_not_opened(self):
        self.disk()
        for error in HINTS:
            for command in ("serve", "inspect"):
                self.expect_hint(error, "openat", command, self.room / "disk")

    def test_a_disk_that_is_not_made(self):
        for error in HINTS:
            self.expect_hint(error, "openat", "format", self.room / "new")
        for error in ("ENOSPC", "EDQUOT", "EFBIG", "EIO"):
            self.expect_hint(error, "pwrite64", "format", self.room / "new")
            self.expect(f"and nothing is left: {error}", False, (self.room / "new").exists())


LINES = b"put a 2 3 - 00\nput b 2 3 - 00\nturn\n"


@needs_strace
class Running(AirCase):
    """A disk that fails while it is used: the words of the first call that failed, on a line of standard error."""

    def serve_with(self, *faults, lines=LINES):
        """The replies and what is said, with these faults of system calls on a new disk."""
        disk = self.disk()
        ended = run(traced([self.program, "serve", disk], *faults, paths=[disk]), lines)
        disk.unlink()
        return ended[0], [it.split(b" ", 1)[0] for it in ended[1].splitlines()], ended[2].decode(), disk

    def expect_words(self, row, error, ended, replies=(b"refused", b"refused", b"refused")):
        status, printed, said, disk = ended
        wanted = 0, list(replies), f"motcar: {disk}: {os.strerror(getattr(errno, error))}{HINTS[error]}\n"
        self.expect(row, wanted, (status, printed, said))

    def test_a_command(self):
        for error in HINTS:
            for call, number in (("pwrite64", 1), ("pwrite64", 2), ("fdatasync", 2), ("fdatasync", 3)):
                ended = self.serve_with(f"inject={call}:error={error}:when={number}")
                self.expect_words(f"{call} {number} fails with {error}", error, ended)

    def test_the_second_command(self):
        ended = self.serve_with("inject=fdatasync:error=EDQUOT:when=4")
        self.expect_words("a later sync", "EDQUOT", ended, (b"done", b"refused", b"refused"))

    def test_the_first_of_two(self):
        """A body that can't be read does not halt the server, so that a write can fail after it."""
        disk = self.disk()
        self.motcar("serve", disk, given=b"put a 2 3 - 00\n")
        # (the head, the half, and then the body)
        faults = "inject=pread64:error=EIO:when=3", "inject=pwrite64:error=ENOSPC:when=1"
        status, printed, said = run(traced([self.program, "serve", disk], *faults, paths=[disk]),
                                    b"turn\nput b 2 3 - 00\n")
        wanted = 0, f"motcar: {disk}: Input/output error\n".encode(), b"refused 15 DeviceFault"
        self.expect("the first of two faults", wanted, (status, said, printed.splitlines()[-1]))

    def test_nothing_is_said_of_a_disk_that_does_not_fail(self):
        disk = self.disk()
        self.expect("no fault", b"", self.motcar("serve", disk, given=LINES)[2])

    def test_a_start(self):
        """A read that fails at a start."""
        disk = self.disk()
        for command in ("check", "serve", "export", "inspect", "migrate"):
            for number in (1, 2):
                ended = self.traced([self.program, command, disk], f"inject=pread64:error=EIO:when={number}", paths=[disk])
                wanted = refused(15, "DeviceFault", f"{disk}: Input/output error")
                self.expect(f"{command}: read {number} fails", wanted, ended)

    def test_play(self):
        """The line has its level, as the one above it."""
        disk, folder = self.disk(), self.folder({"a.txt": b"a"})
        words = [self.program, "play", disk, "-", "--at-once", "--levels", "--folder", folder, "--turns", "1"]
        status, _, said = run(traced(words, "inject=pwrite64:error=ENOSPC:when=1", paths=[disk]))
        wanted = [b"<3>motcar: 15 DeviceFault", f"<3>motcar: {disk}: No space left on device; make room".encode()]
        self.expect("play", (1, wanted), (status, said.splitlines()[-2:]))


@needs_strace
class Beside(AirCase):
    """An error of the opening by the file beside the disk is told of the file that it is about."""

    def test_the_disk_or_the_file_beside_it(self):
        disk = self.disk()
        for error in ("ENOSPC", "EDQUOT", "EROFS"):
            why = f"{os.strerror(getattr(errno, error))}{HINTS[error]}"
            ended = self.traced([self.program, "serve", disk], f"inject=fsync:error={error}:when=2", paths=[disk])
            self.expect(f"the disk's own: {error}", refused(15, "DeviceFault", f"{disk}: {why}"), ended)
            beside = disk.with_name(disk.name + "-wal")
            beside.unlink()
            ended = self.traced([self.program, "serve", disk], f"inject=openat:error={error}", paths=[beside])
            self.expect(f"the file beside it: {error}", refused(15, "DeviceFault", f"{beside}: {why}"), ended)
            self.motcar("check", disk)
