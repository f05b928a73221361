"""Each command with each of the eight sets of closed standard streams.

A closed input is an empty one, and a closed output one that nothing can be written to. So the command has to end as it
does with /dev/null as its input and /dev/full as its output, and leave the disk as it does then, byte for byte. It
never ends in status 0 if something was to be printed.
"""
import itertools

from . import disk
from .air import needs_strace, traced
from .program import Case, refused, run

LINES = b"put a 2 3 - 0102\nlist\nperiod 9\nnext 3\n"
CLOSED = {0: "<&-", 1: ">&-", 2: "2>&-"}
OPEN = {0: "< /dev/null", 1: "> /dev/full", 2: "2> /dev/null"}
SETS = [closed for count in range(4) for closed in itertools.combinations((0, 1, 2), count)]
SIZES = ("--objects", "3", "--data", "500")


class ClosedStreams(Case):
    def served(self):
        """The bytes of a disk that has an object."""
        path = self.new_disk("served", *SIZES)
        self.assertEqual(0, self.serve(path, LINES)[0])
        return path.read_bytes()

    def ended(self, words, held, streams):
        """The status, and what the disk holds then; a disk that is not there is None."""
        path = self.room / "disk"
        path.unlink(missing_ok=True)
        if held is not None:
            path.write_bytes(held)
        status = run(["sh", "-c", f'exec "$0" "$@" {" ".join(streams)}', self.program, *words], LINES, cwd=self.room)[0]
        return status, path.read_bytes() if path.exists() else None

    def look(self, *words, held=None, prints=True):
        """Runs a command on a disk of these bytes; `prints` says whether it prints something on an empty input."""
        for closed in SETS:
            wanted = self.ended(words, held, [OPEN[it] for it in closed])
            came = self.ended(words, held, [CLOSED[it] for it in closed])
            row = f"{words[0]} {' '.join(CLOSED[it] for it in closed)}"
            is_lost = 1 in closed and (prints or 0 not in closed)
            self.expect(f"{row}: status", wanted[0] if closed else 0, came[0])
            self.expect(f"{row}: the disk", wanted[1], came[1])
            self.expect(f"{row}: status 0, and nothing could be printed", False, came[0] == 0 and is_lost)

    def test_format(self):
        self.look("format", "disk", *SIZES)

    def test_serve(self):
        self.look("serve", "disk", held=self.served(), prints=False)

    def test_check(self):
        self.look("check", "disk", held=self.served())

    def test_migrate(self):
        self.look("migrate", "disk", held=disk.disk_of(objects=3, segment=64, packet=24, area=500))

    def test_memory(self):
        self.look("memory", prints=False)

    def test_play(self):
        self.look("play", "disk", "-", "--turns", "1", held=self.served())

    def test_sync(self):
        (self.room / "folder").mkdir()
        self.look("sync", "--allow-empty", "disk", "folder", held=self.served())

    def test_export(self):
        self.look("export", "disk", held=self.served())

    def test_inspect(self):
        self.look("inspect", "disk", held=self.served())

    def test_version(self):
        self.look("--version")


class NoNull(Case):
    @needs_strace
    def test_dev_null_is_not_there(self):
        """As in a folder that is made the topmost one, without devices."""
        words = traced([self.program, "list", self.new_disk("disk", *SIZES)], "inject=openat:error=ENOENT", paths=["/dev/null"])
        wanted = refused(15, "DeviceFault", "/dev/null: No such file or directory; check the path")
        self.expect("the path is named", wanted, run(words))
