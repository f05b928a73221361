"""When a reply is flushed and when a line is read; and streams of which one call fails.

Each kind of reply is flushed before the next line is read; a session of 3,000 reads. Where strace is installed, a read
and a write that fail once, and then would not: the program ends there.
"""
import os
import re
import select
import shutil
import subprocess
import unittest

from .program import SECONDS, Case

# The lines that are served, each with how many lines answer it; a turn is read up to its end.
FLUSHED = [
    ("put a 2 3 - 00", 1), ("replace a 2 3 - 01", 1), ("period 5", 1), ("list", 2), ("next 1", 1), ("next 3", 3),
    ("turn", None), ("withdraw a", 1), ("raw 4 2 00", 1), ("bogus", 1),
]
WAITED = 20  # seconds: a reply that is not flushed never comes


def reply(pipe, lines):
    """So many lines, or those up to the end of a turn, that come within the time."""
    told = b""
    while told.count(b"\n") < lines if lines else not told.endswith(b" end\n"):
        more = os.read(pipe.fileno(), 65_536) if select.select([pipe], [], [], WAITED)[0] else b""
        if not more:
            return told, "and no more"
        told += more
    return told, "whole"


class Flushes(Case):
    def test_each_reply_is_flushed_before_the_next_line_is_read(self):
        served = self.begin("memory", bufsize=0)
        for line, lines in FLUSHED:
            served.stdin.write(f"{line}\n".encode())
            self.expect(line, "whole", reply(served.stdout, lines)[1])
        served.stdin.close()
        self.expect("the end of the input", 0, served.wait(SECONDS))

    def test_many_lines_each_in_a_read_of_its_own(self):
        served, answered = self.begin("memory", bufsize=0), 0
        for number in range(1, 3_001):
            served.stdin.write(b"period %d\n" % number)
            if reply(served.stdout, 1) != (b"done directory %d\n" % (number + 1), "whole"):
                break
            answered = number
        served.stdin.close()
        self.expect("3,000 lines", (3_000, 0), (answered, served.wait(SECONDS)))


@unittest.skipUnless(shutil.which("strace"), "no strace")
class FailsOnce(Case):
    def failing(self, call, number):
        """How the program ends if this call on its input or its output fails once; how many lines it printed, and how
        many such calls it made."""
        given, told, trace = self.write("given", b"list\n" * 3_000), self.room / "told", self.room / "trace"
        words = ["strace", "-f", "-qq", "-o", trace, "-P", given if call == "read" else told, "-e", f"trace={call}",
                 "-e", f"inject={call}:error=EIO:when={number}", self.program, "memory"]
        with open(given, "rb") as lines, open(told, "wb") as output:
            done = subprocess.run(words, stdin=lines, stdout=output, stderr=subprocess.PIPE, timeout=60)
        calls = len(re.findall(rf"\b{call}\(", trace.read_text()))
        return done.returncode, done.stderr.splitlines()[:1], told.read_bytes().count(b"\n"), calls

    def test_a_read(self):
        # Four pieces of the input, and its end; none comes behind that.
        self.expect("reads up to the end", (0, [], 3_000, 5), self.failing("read", 99))
        for number in (1, 2, 3, 4):
            lines = (number - 1) * 4_096 // len(b"list\n")
            wanted = (1, [b"motcar: 22 ReadFault"], lines, number)
            self.expect(f"read {number} fails once", wanted, self.failing("read", number))

    def test_a_write(self):
        # Nothing is answered behind it; what the buffer of the output holds is tried once more as the program ends.
        for number in (1, 2, 900):
            wanted = (1, [b"motcar: 23 WriteFault"], number, number + 1)
            self.expect(f"write {number} fails once", wanted, self.failing("write", number))
