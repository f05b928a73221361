"""Every size once: no clause can tell a call that gives up from one that has no memory.

Names of 1 to 255 bytes; 1 to 250 objects, the disk opened again after each; bodies and segments at and around each
power of two and each limit; each count of `next` up to 1,000, and those around the powers of two after it. If valgrind
is installed, what a command costs with the bodies in the worst order.
"""
import re
import shutil
import unittest

from . import dab
from .program import Case, is_tried, run, takes_long


def around(least, most):
    """The sizes at and around each power of two in these limits, and the limits."""
    near = {(1 << power) + step for power in range(20) for step in (-1, 0, 1)}
    return sorted({it for it in near if least <= it <= most} | {least, most})


def body_of(size):
    """So many bytes, of which neighbours differ."""
    return bytes((at // 64 % 241 + at % 7) % 256 for at in range(size))


class Sizes(Case):
    def test_names(self):
        lines = []
        for length in range(1, 256):
            name = "n" * length
            lines += [f"put {name} 2 3 - 00", f"replace {name} 2 3 - 01", f"withdraw {name}"]
        status, told, _ = self.memory(lines)
        told = told.decode().splitlines()
        came = (status, len(told), [it for it in told if not it.startswith("done ")])
        self.expect("names of 1 to 255 bytes", (0, len(lines), []), came)

    @takes_long
    def test_objects(self):
        self.new_disk("objects", "--objects", "250", "--data", "250")
        wrong = []
        for number in range(1, 251):
            told = self.serve("objects", f"put n{number} 2 3 - 78\nlist\n")[1].decode()
            last = 2 * number + 1
            wanted = [f"done object {last - 1} directory {last}", f"carousel 0 {last} {last} {number}"]
            if told.splitlines()[:2] != wanted:
                wrong.append((number, told[:80]))
        self.expect("1 to 250 objects, the disk opened again after each", [], wrong)
        self.expect("and after the last", 0, self.motcar("check", "objects")[0])

    @takes_long
    def test_bodies(self):
        sizes = around(1, 262_144)
        lines = [line for size in sizes for line in (f"put a 2 3 - {body_of(size).hex()}", "turn", "withdraw a")]
        status, told, _ = self.memory(lines, "--data", "262144")
        turns = [dab.entities_of(it)[-1].data for it in dab.turns_told(told)]
        wrong = [size for size, body in zip(sizes, turns) if body != body_of(size)]
        came = (status, told.count(b"done "), len(turns), wrong)
        self.expect("bodies around powers of two", (0, 2 * len(sizes), len(sizes), []), came)

    def test_segments(self):
        wrong = []
        for size in around(64, 8_189):
            body = body_of(3 * size)
            told = self.memory([f"put a 2 3 - {body.hex()}", "turn"], "--segment", size)[1]
            if [dab.entities_of(it)[-1].data for it in dab.turns_told(told)] != [body]:
                wrong.append(size)
        self.expect("segments around powers of two", [], wrong)

    @takes_long
    def test_counts_of_next(self):
        wanted = sorted({*range(1, 1_001), *around(1_000, 100_000)})
        status, told, _ = self.memory([line for it in wanted for line in (f"next {it}", "list")], "--packet", "24")
        came, packets = [], 0
        for line in told.splitlines():
            if line.startswith(b"packet "):
                packets += 1
            else:
                came.append(packets)
                packets = 0
        self.expect("each count of next", (0, wanted), (status, came))


class Order(Case):
    def ordered(self, name, is_descending):
        """How many instructions it takes to replace 40 of 250 objects whose bodies lie in this order."""
        size = 16
        self.new_disk(name, "--objects", "250", "--data", 251 * size)
        lines = [f"put f{number} 2 3 - {'5a' * size}" for number in range(250)]
        # A name is put where another was withdrawn, the only place that is free but for the one at the end.
        for number in range(250):
            gone = 249 - number if is_descending else number
            lines += [f"withdraw f{gone}", f"put o{number} 2 3 - {'5a' * size}"]
        self.serve(name, lines)
        replaced = "".join(f"replace o{number} 2 3 - {'a5' * size}\n" for number in range(40)).encode()
        words = ["valgrind", "--tool=callgrind", "--callgrind-out-file=/dev/null", self.program, "serve", name]
        status, told, said = run(words, replaced, cwd=self.room)
        return status, told.count(b"done "), int(re.search(rb"Collected : (\d+)", said)[1])

    @takes_long
    @unittest.skipUnless(shutil.which("valgrind"), "no valgrind")
    def test_bodies_in_the_worst_order(self):
        if is_tried(self.program):
            self.skipTest("the program was built to be tried")
        best, worst = self.ordered("best", False), self.ordered("worst", True)
        self.expect("40 of 250 objects replaced, in either order", [(0, 40), (0, 40)], [best[:2], worst[:2]])
        self.expect("at most a quarter more instructions in the worst", True, worst[2] < 1.25 * best[2])
