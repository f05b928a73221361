#!/usr/bin/env python3
"""Durable commands per second as the carousel grows, beside bench/commands.c and SQLite on the same file system in
the same run.

    bench/commands.py [FOLDER] [--rounds N]      the disks are made in FOLDER, or else here

For 1, 40 and 250 objects, on disks with slack in their slots and on full ones, each of 15 rounds gives the same lines
`replace NAME 2 3 image/png HEX` of 1,024 bytes to `motcar serve`, to the C program, which makes the same writes and
syncs and has to leave the same replies and the same disk, and the same bodies to SQLite, as one update of one row
each, with its default journal and with a write-ahead log (both with synchronous=FULL). Prints the medians of the
rates, and the medians of the rounds' own ratios, above 1 where the program is the faster one.
"""
import os
import pathlib
import random
import shutil
import sqlite3
import statistics
import subprocess
import tempfile
import time

from programs import compiled, program, words

BODY, LINES, ROUNDS = 1024, 2_000, 15
# how many objects there are, and how many a disk has room for
DISKS = ((1, 16), (1, 1), (40, 80), (40, 40), (250, 250))


class Carousel:
    """A disk of so many objects, lines that replace them, and SQLite's rows of the same bodies."""

    def __init__(self, room, objects, most, choices):
        self.room, self.made, self.disk, self.given = room, f"{room}/made", f"{room}/disk", f"{room}/lines"
        # (one place more than there are objects, so that a body has one gap)
        sizes = f"--objects {most} --data {(objects + 1) * BODY}"
        pathlib.Path(self.made).unlink(missing_ok=True)
        subprocess.run([program, "format", self.made, *sizes.split()], stdout=subprocess.DEVNULL, check=True)
        self.first = [choices.randbytes(BODY) for _ in range(objects)]
        puts = "".join(f"put name{place} 2 3 image/png {body.hex()}\n" for place, body in enumerate(self.first))
        subprocess.run([program, "serve", self.made], input=puts.encode(), stdout=subprocess.DEVNULL, check=True)
        self.changes = [(f"name{choices.randrange(objects)}", choices.randbytes(BODY)) for _ in range(LINES)]
        self.write_lines(LINES)

    def write_lines(self, count):
        with open(self.given, "w") as lines:
            lines.writelines(f"replace {name} 2 3 image/png {body.hex()}\n" for name, body in self.changes[:count])

    def seconds(self, *words):
        """How long a program takes for the lines, on the disk as it was made."""
        shutil.copy(self.made, self.disk)
        with open(self.given, "rb") as lines, open(f"{self.room}/replies", "wb") as replies:
            began = time.perf_counter()
            subprocess.run([*words, self.disk], stdin=lines, stdout=replies, check=True)
            return time.perf_counter() - began

    def left_by(self, *words):
        """What it has printed, and the disk."""
        self.seconds(*words)
        return pathlib.Path(self.room, "replies").read_bytes(), pathlib.Path(self.disk).read_bytes()

    def sqlite_seconds(self, journal):
        path = f"{self.room}/{journal}.sqlite"
        for file in (path, path + "-wal", path + "-shm"):
            pathlib.Path(file).unlink(missing_ok=True)
        rows = sqlite3.connect(path, isolation_level=None)
        rows.execute(f"PRAGMA journal_mode={journal}")
        rows.execute("PRAGMA synchronous=FULL")
        rows.execute("CREATE TABLE object (name TEXT PRIMARY KEY, version INTEGER, body BLOB)")
        rows.execute("BEGIN")
        first = [(f"name{place}", body) for place, body in enumerate(self.first)]
        rows.executemany("INSERT INTO object VALUES (?, 0, ?)", first)
        rows.execute("COMMIT")
        began = time.perf_counter()
        for name, body in self.changes:
            rows.execute("UPDATE object SET version = version + 1, body = ? WHERE name = ?", (body, name))
        took = time.perf_counter() - began
        rows.close()
        return took


def measure(carousel, reference, rounds):
    """The times of each in each round."""
    serve, commands = (program, "serve"), (reference,)
    if carousel.left_by(*serve) != carousel.left_by(*commands):
        raise SystemExit("the two programs do not leave the same")
    runs = {
        "motcar serve": lambda: carousel.seconds(*serve),
        "C, the same writes and syncs": lambda: carousel.seconds(*commands),
        "SQLite, default journal": lambda: carousel.sqlite_seconds("delete"),
        "SQLite, write-ahead log": lambda: carousel.sqlite_seconds("wal"),
    }
    took = {name: [] for name in runs}
    for number in range(rounds):
        for name in list(runs)[:: 1 if number % 2 else -1]:
            took[name].append(runs[name]())
    return took


def print_rates(took):
    """The median rates, and the medians and quartiles of the rounds' own ratios."""
    ours = took["motcar serve"]
    for name, times in took.items():
        low, ratio, high = statistics.quantiles([theirs / mine for theirs, mine in zip(times, ours)], n=4)
        rate = LINES / statistics.median(times)
        print(f"{name:30} {rate:10,.0f} {ratio:16.2f}  {low:.2f} to {high:.2f}")


def main():
    options = words(__doc__, ROUNDS)
    options.add_argument("folder", nargs="?", default=os.getcwd(), metavar="FOLDER", help="where the disks are made")
    given = options.parse_args()
    with tempfile.TemporaryDirectory(dir=given.folder) as room:
        reference, choices = compiled(room, "commands"), random.Random(1)
        kind = subprocess.run(["stat", "-f", "-c", "%T", room], capture_output=True, text=True, check=True)
        print(f"commands of {BODY} bytes on {kind.stdout.strip()}")
        for objects, most in DISKS:
            title = f"{objects} objects of at most {most}"
            print(f"\n{title:30} commands/s   motcar's ratio  quartiles")
            print_rates(measure(Carousel(room, objects, most, choices), reference, given.rounds))


main()
