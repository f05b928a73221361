"""An output that takes nothing, or only so many bytes; and a long reply that goes out in one piece."""
import resource
import shutil
import subprocess
import unittest

from .program import PACKET, Case, refused, run, takes_long

# A session with lines of all kinds, and its replies.
LINES = (b"turn\nput a 2 3 image/png 0102030405\nput a 2 3 - 00\nreplace b 2 3 - 00\nreplace a 2 1 - ff\nlist\n"
         b"withdraw a\nperiod 16777216\nperiod 16777215\nlist\nperiod 0000000005\nraw 4 2 68656c6c6f\nbogus\n")
WHOLE = (b"packet 08011376008000120001000d0000000d0000000000049c3d\n"
         b"packet 140105000000f10d000000000000000000000000000017ad end\n"
         b"done object 2 directory 3\nrefused 9 NameTaken\nrefused 10 NoSuchName\ndone object 4 directory 5\n"
         b"carousel 0 5 5 1\nobject 4 1 2 1 1 a -\ndone directory 6\nrefused 8 BadNumber\ndone directory 7\n"
         b"carousel 16777215 7 7 0\ndone directory 8\n" + PACKET + b"refused 1 BadLine\n")
OPTIONS = ("--packet", "24", "--objects", "3", "--data", "300")


class FullOutput(Case):
    """Of a reply that fits the program's buffer the flush fails, of a longer one a write."""

    def expect_fault(self, command, *disk, before=None):
        for given in (b"list\n", b"list\n" * 5_000):
            if before:
                before()
            wanted = refused(23, "WriteFault")
            self.expect(f"{command}, {len(given)} bytes", wanted, self.to_full(command, *disk, given=given))

    def test_format(self):
        self.expect_fault("format", "disk", before=lambda: (self.room / "disk").unlink(missing_ok=True))

    def test_commands_of_a_disk(self):
        self.new_disk("disk")
        for command in ("check", "migrate", "serve"):
            self.expect_fault(command, "disk")

    def test_memory(self):
        self.expect_fault("memory")


class ShortOutput(Case):
    def test_the_whole_session(self):
        self.expect("replies", (0, WHOLE, b""), self.memory(LINES, *OPTIONS))

    @takes_long
    def test_an_output_of_each_length(self):
        """Where an output takes each number of bytes and no more, just those were written."""
        words = [self.program, "memory", *OPTIONS]
        path = self.room / "told"
        for size in range(len(WHOLE) + 1):
            def limit(size=size):
                resource.setrlimit(resource.RLIMIT_FSIZE, (size, size))

            with open(path, "wb") as told:
                # (without the signal, a write beyond the limit fails)
                done = subprocess.run(words, input=LINES, stdout=told, stderr=subprocess.PIPE, timeout=60,
                                      restore_signals=False, preexec_fn=limit)
            wanted = (0, b"") if size == len(WHOLE) else (1, b"motcar: 23 WriteFault\n")
            came = (done.returncode, done.stderr, path.read_bytes())
            self.expect(f"an output of {size} bytes", (*wanted, WHOLE[:size]), came)


class Pieces(Case):
    @unittest.skipUnless(shutil.which("strace"), "no strace")
    def test_the_longest_reply_to_a_raw_line_is_one_write(self):
        trace = self.room / "trace"
        words = ["strace", "-f", "-o", trace, "-e", "trace=write,writev", self.program, "memory", "--packet", "24"]
        status, printed, _ = run(words, b"raw 4 2 " + b"5a" * 8_189 + b"\n")
        self.expect("a long reply", (0, True), (status, len(printed) > 20_000))
        self.expect("in one piece", 1, trace.read_text().count("write(1,"))
