#!/usr/bin/env python3
"""Gives the built program disks and lines that nobody should: each outcome has to be one that docs/FORMATS.md
describes.

    campaigns/hostile.py [PROGRAM] [--seed N] [--disks N] [--lines N]

Good disks of both layouts are flipped, cut and shuffled; each is given to `check`, and then to `serve` with a list, a
turn and a command. The lines are random bytes and lines that were nearly right; after each stands one whose reply is
known, so that every line is seen to get one reply. Disks and lines that once failed come first.
"""
import ast
import base64
import collections
import concurrent.futures
import pathlib
import random
import re
import subprocess
import sys
import tempfile
import time
import zlib

import campaign
from tests import disk as disks

DISKS, LINES = 10_000, 100_000
# How many faults are printed.
SHOWN = 20
MARK = b"raw 4 9 7e7e7e7e7e7e"

REFUSALS = {1: "BadLine", 2: "BadName", 3: "BadType", 4: "BadMime", 5: "BadBody", 6: "EmptyBody", 7: "BodyTooLong",
            8: "BadNumber", 9: "NameTaken", 10: "NoSuchName", 11: "TooManyObjects", 12: "NoRoom"}
REFUSED = "|".join(f"refused {number} {name}" for number, name in REFUSALS.items())
PACKET = r"packet (?:[0-9a-f]{48}|[0-9a-f]{96}|[0-9a-f]{144}|[0-9a-f]{192})"
DONE = r"done (?:object \d+ )?directory \d+"
OBJECT = r"object \d+ \d+ \d+ \d+ \d+ [^\x00-\x20\x7f]+ [\x21-\x7e]+"
LIST = rf"carousel \d+ \d+ \d+ \d+\n(?:{OBJECT}\n)*"
TURN = rf"(?:{PACKET}\n)*{PACKET} end\n"
REPLY = re.compile(rf"(?:{REFUSED})\n|{DONE}\n|{LIST}|(?:{PACKET}(?: end)?\n)+")
CHECKED = re.compile(rf"{LIST}(?:clean|not clean)\nlayout [12]\n")
SERVED = re.compile(rf"{LIST}{TURN}{DONE}\n")
# Each has its reason, which names the slot of a 20.
FAULT = re.compile(r"motcar: (?P<refusal>17 NotFormatted|20 Damaged (?P<slot>\d+))\n"
                   r"motcar: \S*/disk\S+: (?(slot)slot (?P=slot): |)[a-z].*\n")


class Wrong(Exception):
    """An outcome that FORMATS does not describe."""


def need(holds, *found):
    if not holds:
        raise Wrong(" ".join(it if isinstance(it, str) and it.isidentifier() else repr(it) for it in found))


class Disks:
    """Disks that were damaged, tried one by one."""

    def __init__(self, program, room):
        self.program, self.room = program, pathlib.Path(room)

    def run(self, *words, given=b""):
        ended = subprocess.run([self.program, *words], input=given, capture_output=True, timeout=60, check=False)
        return ended.returncode, ended.stdout.decode("utf-8", "surrogateescape"), ended.stderr.decode()

    def made(self, options, lines):
        """The bytes of a disk that was formatted and served."""
        path = self.room / "good"
        path.unlink(missing_ok=True)
        need(self.run("format", path, *options)[0] == 0, "format", options)
        need(self.run("serve", path, given=lines)[0] == 0, "serve", lines)
        return path.read_bytes()

    def good(self):
        """Disks of both layouts, with one object and with more."""
        few, many = ("--objects 1 --data 40 --segment 64 --packet 24", "--objects 5 --data 900 --packet 48")
        puts = b"".join(b"put n%d 2 3 image/png %s\n" % (n, b"5a" * (40 * n)) for n in range(1, 6))
        return [old_disk(1, 30), old_disk(4, 300), self.made(few.split(), b"put a 2 3 - 0102030405\nperiod 9\n"),
                self.made(many.split(), puts + b"withdraw n3\nperiod 1\n")]

    def outcome(self, number, disk):
        """What became of a disk: opened, or its refusal without the slot."""
        path = self.room / f"disk{number}"
        path.write_bytes(disk)
        try:
            status, told, errors = self.run("check", path)
            if status == 0:
                need(CHECKED.fullmatch(told) and not errors, "check", told, errors)
                self.serve(path, "\nclean\n" in told)
                return "opened"
            fault = FAULT.fullmatch(errors)
            need(status == 1 and not told and fault, "check", status, told, errors)
            served = self.run("serve", path, given=b"list\n")
            need(served == (1, "", errors) and path.read_bytes() == disk, "serve", served, "after", errors)
            return " ".join(fault["refusal"].split()[:2])
        finally:
            path.unlink()

    def serve(self, path, is_clean):
        """A disk that opens has to play, and to take a command. One that is not clean may be refused after it."""
        status, told, errors = self.run("serve", path, given=b"list\nturn\nperiod 3\n")
        need(status == 0 and SERVED.fullmatch(told) and not errors, "serve", status, told, errors)
        status, told, errors = self.run("check", path)
        is_opened = status == 0 and CHECKED.fullmatch(told) and not errors
        if is_clean:
            need(is_opened and told.startswith("carousel 3 "), "after", "a command", status, told, errors)
        need(is_opened or status == 1 and FAULT.fullmatch(errors), "after", "a command", status, told, errors)

    def tried(self, task):
        """What became of a disk, and what was wrong."""
        number, disk = task
        try:
            return disk, self.outcome(number, disk), None
        except (Wrong, subprocess.TimeoutExpired, UnicodeDecodeError) as wrong:
            return disk, "wrong", str(wrong)


def old_disk(objects, area):
    """A disk of layout 1 with some objects, written by the format."""
    slots = [disks.slot(period=7, directory=2 * it + 3, last=2 * it + 3, tid=2 * it + 2, version=it, subtype=3,
                        start=10 * it, size=9, name=b"n%d" % it, mime=b"image/png") for it in range(objects)]
    body = bytes(it % 256 for it in range(area))
    return disks.disk_of(*slots, objects=objects, area=area, segment=64, packet=24, body=body)


def damaged(dice, good):
    """A disk with some of its bytes flipped, cut, shuffled, or written over by those of another place."""
    disk = bytearray(good)
    for _ in range(dice.choice([1, 1, 1, 2, 3, 8])):
        if disk:
            disk = damaged_once(dice, disk, len(good))
    return bytes(disk)


def place_in(dice, size):
    """A place in a disk; most of what counts stands at the beginnings of slots."""
    where = dice.choice(["slot", "slot", "slot", "slot", "head", "anywhere"])
    if where == "slot":
        return disks.HEAD + 256 * dice.randrange(8) + dice.randrange(40)
    return dice.choice([8, dice.randrange(disks.HEAD)]) if where == "head" else dice.randrange(size)


def damaged_once(dice, disk, size):
    at, kind = min(place_in(dice, size), len(disk) - 1), dice.randrange(6)
    if kind == 0:
        disk[at] ^= 1 << dice.randrange(8)
    elif kind == 1:
        disk[at] = dice.choice([0, 1, 2, 3, 0x11, 0x12, 0x13, 0x5A, 0xA5, 0xFF])
    elif kind == 2 and dice.randrange(3) == 0:
        return disk[:dice.randrange(size)]
    elif kind == 3:
        some = list(disk[at:at + 32])
        dice.shuffle(some)
        disk[at:at + 32] = bytes(some)
    elif kind == 4:
        length, other = dice.choice([1, 8, 256, 512]), place_in(dice, size)
        disk[at:at + length] = disk[other:other + length]
    elif kind == 5:
        disk += bytes(dice.randrange(2_000))
    return disk


def row_of(disk):
    """A row of the corpus: a word for the bytes. What stands after it is for the reader."""
    return base64.b64encode(zlib.compress(disk, 9)).decode()


def disk_of(row):
    return zlib.decompress(base64.b64decode(row.split()[0]))


def try_disks(options):
    """Whether each disk had one of the outcomes; those of the corpus are tried first."""
    began, dice, outcomes = time.monotonic(), random.Random(options.seed), collections.Counter()
    # (in memory, where a sync costs nothing: it is the disk's bytes that are tried)
    memory = "/dev/shm" if pathlib.Path("/dev/shm").is_dir() else None
    pool = concurrent.futures.ThreadPoolExecutor(options.jobs)
    with tempfile.TemporaryDirectory(dir=memory) as room, pool as workers:
        tried = Disks(options.program, room)
        kept, goods = [disk_of(it) for it in campaign.corpus("disks")], tried.good()
        made = (damaged(dice, dice.choice(goods)) for _ in range(options.disks))
        outcomes_of = workers.map(tried.tried, enumerate([*kept, *made]))
        for number, (disk, outcome, wrong) in enumerate(outcomes_of, -len(kept)):
            outcomes[outcome] += 1
            if wrong and outcomes["wrong"] <= SHOWN:
                print(f"{'a disk of the corpus' if disk in kept else f'disk {number} of seed {options.seed}'}: {wrong}")
                if disk not in kept:
                    campaign.keep("disks", row_of(disk))
    told = ", ".join(f"{outcomes[it]} {it}" for it in sorted(outcomes))
    print(f"{len(kept)} disks of the corpus and {options.disks} more in {time.monotonic() - began:.0f} seconds: {told}")
    return not outcomes["wrong"]


def nearly_right(dice):
    words = dice.choice([
        [b"put", b"n%d" % dice.randrange(30), b"2", b"3", b"-", b"00" * dice.randrange(1, 9)],
        [b"replace", b"n%d" % dice.randrange(30), b"63", b"511", b"a/b", b"ff"],
        [b"withdraw", b"n%d" % dice.randrange(30)], [b"period", b"%d" % dice.randrange(20_000_000)], [b"list"],
        [b"next", b"%d" % dice.randrange(4)], [b"turn"], [b"raw", b"6", b"1", b"0a0b"],
    ])
    kind = dice.randrange(8)
    if kind == 0:
        words[dice.randrange(len(words))] = dice.randbytes(dice.randrange(12))
    elif kind == 1:
        words.insert(dice.randrange(len(words) + 1), dice.choice([b"", b"0", b"-", b"list"]))
    elif kind == 2:
        del words[dice.randrange(len(words))]
    elif kind == 3:
        words[-1] += dice.choice([b" ", b"\r", b"\t", b"g", b"0", b"\xc3", b"\xff"])
    return b" ".join(words).replace(b"\n", b"")


def noise(dice):
    return dice.randbytes(dice.randrange(40)).replace(b"\n", b"")


def replies_to(program, lines):
    """The reply to each line, by those to the lines between."""
    def run(given):
        words = [program, "memory", "--packet", "24"]
        return subprocess.run(words, input=given, capture_output=True, timeout=600, check=False)

    known = run(MARK + b"\n").stdout.decode()
    ended = run(b"".join(line + b"\n" + MARK + b"\n" for line in lines))
    replies = ended.stdout.decode().split(known)
    if ended.returncode or ended.stderr or len(replies) != len(lines) + 1 or replies[-1]:
        raise Wrong(f"status {ended.returncode}, {ended.stderr!r}, {len(replies) - 1} replies to {len(lines)} lines")
    return replies[:-1]


def last_of_the_shortest(program, lines):
    """The last of the fewest first lines that do not get one reply each."""
    few, many = 0, len(lines)
    while many - few > 1:
        count = (few + many) // 2
        try:
            replies_to(program, lines[:count])
            few = count
        except (Wrong, subprocess.TimeoutExpired, UnicodeDecodeError):
            many = count
    return lines[many - 1]


def try_lines(options):
    """Whether each line got one reply of those that there are; those of the corpus are tried first."""
    began, dice = time.monotonic(), random.Random(options.seed)
    kept = [ast.literal_eval(it) for it in campaign.corpus("lines")]
    made = [nearly_right(dice) if dice.randrange(4) else noise(dice) for _ in range(options.lines)]
    try:
        replies = replies_to(options.program, kept + made)
    except (Wrong, subprocess.TimeoutExpired, UnicodeDecodeError) as wrong:
        line = last_of_the_shortest(options.program, kept + made)
        print(f"the line {line!r}, after those before it, of seed {options.seed}: {wrong}")
        campaign.keep("lines", repr(line))
        return False
    wrong = [(line, reply) for line, reply in zip(kept + made, replies) if not REPLY.fullmatch(reply)]
    for line, reply in wrong[:SHOWN]:
        print(f"the line {line!r} of seed {options.seed} got {reply!r}")
        campaign.keep("lines", repr(line))
    refused = sum(it.startswith("refused") for it in replies)
    print(f"{len(kept)} lines of the corpus and {len(made)} more in {time.monotonic() - began:.0f} seconds: "
          f"{refused} refused, {len(replies) - refused} answered")
    return not wrong


def main():
    words = campaign.words(__doc__)
    words.add_argument("--disks", type=int, default=DISKS, help=f"how many; 0: none of the corpus either ({DISKS:,})")
    words.add_argument("--lines", type=int, default=LINES, help=f"how many; 0: none of the corpus either ({LINES:,})")
    words.add_argument("--jobs", type=int, default=4, help="how many disks are tried at once (4)")
    options = campaign.given(words)
    done = [call(options) for call, count in ((try_disks, options.disks), (try_lines, options.lines)) if count]
    return 0 if all(done) else 1


sys.exit(main())
