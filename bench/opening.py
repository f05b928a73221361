#!/usr/bin/env python3
"""How long an opening takes, beside bench/opening.c and SQLite on the same file system in the same run.

    bench/opening.py [FOLDER] [--rounds N]      the disks are made in FOLDER, or else here

Each of 101 rounds runs, from their start to their end: `motcar check` on disks of 250 objects, whose bodies have 1
byte and 262,144; the C program, which reads the same bytes of the first of them, with the syncs of an opening and
without; and `sqlite3`, which prints as many rows of a table. Prints the medians of their times, and of the
rounds' own ratios to `motcar check` on the first disk.
"""
import os
import random
import sqlite3
import statistics
import subprocess
import tempfile
import time

from programs import compiled, program, words

OBJECTS, LARGE, ROUNDS = 250, 262_144, 101


def seconds(command):
    """From its start to its end; what it prints is thrown away."""
    quiet = [(os.POSIX_SPAWN_OPEN, 1, "/dev/null", os.O_WRONLY, 0)]
    began = time.perf_counter()
    child = os.posix_spawnp(command[0], command, os.environ, file_actions=quiet)
    _, status = os.waitpid(child, 0)
    took = time.perf_counter() - began
    if status:
        raise SystemExit(f"{command} ended with {status}")
    return took


def fill(room, size, choices):
    path = f"{room}/bodies{size}"
    sizes = f"--objects {OBJECTS} --data {OBJECTS * size}"
    subprocess.run([program, "format", path, *sizes.split()], stdout=subprocess.DEVNULL, check=True)
    puts = "".join(f"put name{number} 2 3 image/png {choices.randbytes(size).hex()}\n" for number in range(OBJECTS))
    subprocess.run([program, "serve", path], input=puts.encode(), stdout=subprocess.DEVNULL, check=True)
    return path


def fill_sqlite(room):
    path = f"{room}/rows.sqlite"
    rows = sqlite3.connect(path)
    columns = "name TEXT PRIMARY KEY, version INTEGER, type INTEGER, subtype INTEGER, mime TEXT, body BLOB"
    rows.execute(f"CREATE TABLE object ({columns})")
    names = [(f"name{number}",) for number in range(OBJECTS)]
    rows.executemany("INSERT INTO object VALUES (?, 0, 2, 3, 'image/png', x'00')", names)
    rows.commit()
    rows.close()
    return path


def main():
    options = words(__doc__, ROUNDS)
    options.add_argument("folder", nargs="?", default=os.getcwd(), metavar="FOLDER", help="where the disks are made")
    given = options.parse_args()
    with tempfile.TemporaryDirectory(dir=given.folder) as room:
        reference = compiled(room, "opening")
        choices = random.Random(1)
        small, large = (fill(room, size, choices) for size in (1, LARGE))
        select = "SELECT name, version, type, subtype, length(body), mime FROM object"
        runs = {
            "motcar check, bodies of 1 byte": [program, "check", small],
            "motcar check, bodies of 262,144 bytes": [program, "check", large],
            "motcar --version": [program, "--version"],
            "C, the same syncs and reads": [reference, small],
            "C, the same reads": [reference, small, "reads"],
            "SQLite, 250 rows": ["sqlite3", fill_sqlite(room), select],
        }
        took = {name: [] for name in runs}
        for number in range(given.rounds):
            for name in list(runs)[:: 1 if number % 2 else -1]:
                took[name].append(seconds(runs[name]))
        first = took["motcar check, bodies of 1 byte"]
        print(f"{'from start to end':40}    ms   motcar's time to it")
        for name, times in took.items():
            ratio = statistics.median(ours / theirs for ours, theirs in zip(first, times))
            print(f"{name:40} {statistics.median(times) * 1_000:5.2f} {ratio:21.2f}")


main()
