"""The built program: where it is, how it is run, and the case that every test of it begins from.

The program is the one that the environment variable MOTCAR names, or else the one that the launcher or the gate has
left. A test has a folder of its own, `self.room`, in which the program runs. A row is one call of `self.expect`: a row
that fails does not hide the ones after it, and the runner (`python3 -m tests`) counts them.
"""
import contextlib
import os
import pathlib
import re
import shutil
import signal
import subprocess
import tempfile
import unittest

top = pathlib.Path(__file__).resolve().parent.parent
PLACES = ("build/motcar", "crates/motcar/out/motcar")
SECONDS, TEST_SECONDS = 60, 300  # that one run of the program may take, and one test
SHOWN = 600
# A line, and the reply to it: one packet, where packets may have 24 bytes.
HELLO = b"raw 4 2 68656c6c6f\n"
PACKET = b"packet 0c011074008000120002000568656c6c6f34cf0000008561\n"


def find():
    """The path of the program that is tested."""
    named = os.environ.get("MOTCAR")
    for path in [pathlib.Path(named)] if named else [top / it for it in PLACES]:
        if path.is_file():
            return str(path.resolve())
    if named:
        raise SystemExit(f"MOTCAR={named}: there is no such program")
    raise SystemExit(f"there is no built program, {' or '.join(PLACES)}: `MOTCAR_BUILD=proved ./motcar help` makes it; "
                     "or name one in the environment variable MOTCAR")


def is_tried(program):
    """Whether a program was built to be tried, with address checks: less memory ends it, and valgrind can't run it."""
    return b"__asan_init" in pathlib.Path(program).read_bytes()


def run(words, given=b"", **more):
    """The status, what was printed, and what was said on standard error."""
    words = [it if isinstance(it, bytes) else str(it) for it in words]
    done = subprocess.run(words, **{"input": given, "capture_output": True, "timeout": SECONDS, **more})
    return done.returncode, done.stdout, done.stderr


def refused(number, name, about=None):
    """How a refused command ends: status 1, nothing printed, the refusal, and a second line if it has one."""
    lines = [f"{number} {name}", *([about] if about else [])]
    return 1, b"", "".join(f"motcar: {it}\n" for it in lines).encode()


def shown(wanted, came):
    """Both values in words; of long ones a part around the first difference."""
    texts = [repr(wanted), repr(came)]
    if max(map(len, texts)) <= SHOWN:
        return texts
    same = len(os.path.commonprefix(texts))
    begin = max(0, same - SHOWN // 4)
    end = begin + SHOWN
    return [f"{'..' if begin else ''}{it[begin:end]}{'..' if len(it) > end else ''}" for it in texts]


def takes_long(test):
    """A test that the runner begins first, so that it does not end alone."""
    test.takes_long = True
    return test


class Rows(unittest.TestCase):
    """A test that counts its rows."""

    rows = 0

    def expect(self, row, wanted, came):
        """One row: what is wanted, and what came."""
        self.rows += 1
        with self.subTest(row):
            if wanted != came:
                texts = shown(wanted, came)
                self.fail(f"{row}\n  wanted {texts[0]}\n  came   {texts[1]}")

    def expect_error(self, row, kind, call, *given):
        """One row: a call that has to end in this exception."""
        self.rows += 1
        with self.subTest(row), self.assertRaises(kind, msg=row):
            call(*given)

    def leave_out(self, row, why):
        """A row that this machine does not let one make; the rest of the test goes on."""
        with self.subTest(row):
            self.skipTest(why)


def end_test(*_):
    raise TimeoutError(f"a test of more than {TEST_SECONDS} seconds")


class Case(Rows):
    """A test of the program, in a folder of its own."""

    def setUp(self):
        signal.signal(signal.SIGALRM, end_test)
        signal.alarm(TEST_SECONDS)
        self.addCleanup(signal.alarm, 0)
        self.program = find()
        self.room = pathlib.Path(tempfile.mkdtemp(prefix="motcar-test-"))
        # (a test may run the program as another user)
        self.room.chmod(0o755)
        self.addCleanup(shutil.rmtree, self.room, ignore_errors=True)

    def motcar(self, *words, given=b"", **more):
        """Runs the program in the test's folder."""
        return run([self.program, *words], given, **{"cwd": self.room, **more})

    def begin(self, *words, **more):
        """Starts the program with pipes to and from it; a test that ends leaves none running."""
        words = [it if isinstance(it, bytes) else str(it) for it in (self.program, *words)]
        pipes = {"stdin": subprocess.PIPE, "stdout": subprocess.PIPE, "cwd": self.room}
        begun = subprocess.Popen(words, **{**pipes, **more})
        self.addCleanup(end, begun)
        return begun

    def memory(self, given, *options):
        """The program with a carousel in memory; the lines are bytes, a text, or a list of lines."""
        return self.motcar("memory", *options, given=as_lines(given))

    def serve(self, disk, given):
        return self.motcar("serve", disk, given=as_lines(given))

    def to_full(self, *words, given=b""):
        """Runs the program with a standard output that takes nothing."""
        return run(["sh", "-c", 'exec "$@" > /dev/full', "sh", self.program, *words], given, cwd=self.room)

    def new_disk(self, name, *options):
        """Formats a disk in the test's folder; its path."""
        ended = self.motcar("format", name, *options)
        self.assertEqual((0, b""), (ended[0], ended[2]), f"format {name}")
        return self.room / name

    def write(self, name, held):
        """Makes a file in the test's folder; its path."""
        path = self.room / name
        path.write_bytes(held)
        return path

    def objects(self, disk):
        """Each object as `check` shows it, by its name: id, version, type and subtype, length, MIME type."""
        found = [it.split(" ") for it in self.motcar("check", disk)[1].decode().split("\n") if it.startswith("object ")]
        return {it[6]: (int(it[1]), int(it[2]), f"{it[3]} {it[4]}", int(it[5]), it[7]) for it in found}


def end(begun):
    """Ends a program, and closes the pipes to and from it."""
    begun.kill()
    begun.wait()
    for pipe in (begun.stdin, begun.stdout, begun.stderr):
        if pipe:
            with contextlib.suppress(OSError):
                pipe.close()


def as_lines(given):
    if isinstance(given, bytes):
        return given
    return (given if isinstance(given, str) else "".join(f"{it}\n" for it in given)).encode()


def plain(log):
    """A log of `play` without the lines of its start and end; its replies without the file and the line they answer."""
    asked = rb"(?:(?:put|replace|withdraw|period) \S+ |(?:list|next|turn|raw) )?"
    log = re.sub(rb"(?m)^lines [^\n]*?\.lines:\d+ " + asked, b"", log)
    return re.sub(rb"(?m)^play: [^\n]*\n", b"", log)
