#!/usr/bin/env python3
"""How many instructions the program takes for what it does most, by callgrind: so the machine's load has no part in it.

    bench/instructions.py [--compare]      --compare: fails if one takes 5 % more than docs/SPEED.md says

Each figure is the difference of a long run and a short one, so that the start is not in it, but for the whole runs. C
programs of this folder and SQLite stand beside it where they do the same. Callgrind counts a room that is filled with
zeros by its bytes.
"""
import argparse
import os
import pathlib
import random
import re
import shutil
import sqlite3
import subprocess
import sys
import tempfile

from programs import compiled, here, program

PAGE = here.parent / "docs/SPEED.md"
# How much more than the page's figure a run may take.
MORE = 1.05


def run(words, **streams):
    subprocess.run([str(it) for it in words], check=True, stdout=subprocess.DEVNULL, stderr=subprocess.PIPE, **streams)


def taken(words, given=""):
    """The instructions of a run that gets this as its input."""
    with tempfile.TemporaryDirectory() as room:
        said, lines = pathlib.Path(room, "said"), pathlib.Path(room, "given")
        lines.write_text(given)
        with open(lines, "rb") as lines:
            run(["valgrind", "--tool=callgrind", f"--log-file={said}", f"--callgrind-out-file={room}/out", *words], stdin=lines)
        return int(re.search(r"Collected : (\d+)", said.read_text())[1])


class Bench:
    """A folder in which disks are made, and the figures so far: what was counted, by motcar, by C, by SQLite."""

    def __init__(self, room):
        self.room, self.choices, self.rows, self.made = pathlib.Path(room), random.Random(1), [], 0

    def tell(self, name, ours, c=None, sqlite=None):
        self.rows.append((name, ours))
        others = [f"{it:14,.0f}" if it else " " * 14 for it in (c, sqlite)]
        print(f"{name:60} {ours:14,.0f} {others[0]} {others[1]}", flush=True)

    def disk(self, objects, size, *options):
        """A disk of objects of so many bytes, and of no more."""
        self.made += 1
        path = self.room / f"disk{self.made}"
        run([program, "format", path, "--objects", objects, "--data", (objects + 1) * size, *options])
        puts = "".join(f"put name{it} 2 3 image/png {self.choices.randbytes(size).hex()}\n" for it in range(objects))
        run([program, "serve", path], input=puts.encode())
        return path

    def packets(self):
        body = self.room / "body"
        body.write_bytes(self.choices.randbytes(16_384))
        cut = compiled(self.room, "cut")
        for packet in (24, 96):
            disk, sent = self.disk(1, 16_384, "--packet", packet), self.room / "packets"
            lengths = {}
            for turns in (4, 36):
                run([program, "play", disk, sent, "--turns", turns])
                lengths[turns] = sent.stat().st_size // packet
                sent.unlink()

            def each(words):
                few, many = (taken([*words, turns]) for turns in (4, 36))
                sent.unlink(missing_ok=True)
                return (many - few) / (lengths[36] - lengths[4])

            plays = [program, "play", disk, sent]
            self.tell(f"A packet of `play`, {packet} bytes", each([*plays, "--turns"]), each([cut, packet, body]))
            self.tell(f"the same with `--status`, {packet} bytes", each([*plays, "--status", self.room / "status", "--turns"]))

    def opening(self):
        reference = compiled(self.room, "opening")
        for objects in (40, 250):
            disk = self.disk(objects, 1)
            c = taken([reference, disk]) if objects == 250 else None
            self.tell(f"`check` of {objects} objects, the whole run", taken([program, "check", disk]), c)

    def commands(self):
        for objects, size in ((40, 1), (250, 1), (250, 1_024), (1, 16_384)):
            made, disk = self.disk(objects, size), self.room / "disk"
            lines = [f"replace name{self.choices.randrange(objects)} 2 3 image/png {self.choices.randbytes(size).hex()}\n"
                     for _ in range(40)]

            def each(words):
                counts = []
                for count in (8, 40):
                    shutil.copy(made, disk)
                    counts.append(taken([*words, disk], "".join(lines[:count])))
                return (counts[1] - counts[0]) / 32

            same = (objects, size) == (250, 1_024)
            self.tell(f"`replace` of {size:,} bytes, {objects} objects", each([program, "serve"]),
                      each([compiled(self.room, "commands")]) if same else None, self.updates() if same else None)

    def updates(self):
        """An update of one of 250 rows by SQLite, each in a transaction of its own."""
        counts = []
        for count in (8, 40):
            path = self.room / "rows.sqlite"
            path.unlink(missing_ok=True)
            rows = sqlite3.connect(path)
            rows.execute("CREATE TABLE object (name TEXT PRIMARY KEY, body BLOB)")
            rows.executemany("INSERT INTO object VALUES (?, ?)", [(f"name{it}", self.choices.randbytes(1_024)) for it in range(250)])
            rows.commit()
            rows.close()
            updates = "".join(f"UPDATE object SET body = x'{self.choices.randbytes(1_024).hex()}' WHERE name = 'name{it}';\n" for it in range(count))
            counts.append(taken(["sqlite3", path], "PRAGMA synchronous=FULL;\n" + updates))
        return (counts[1] - counts[0]) / 32

    def looks(self):
        for files in (40, 250, 500, 1_000):
            folder = self.room / f"files{files}"
            folder.mkdir()
            for it in range(files):
                (folder / f"logo{it}.png").write_bytes(b"\x89PNG\r\n\x1a\n" + self.choices.randbytes(1_016))
                # (a file that was changed less than two seconds ago waits for a later look)
                os.utime(folder / f"logo{it}.png", (1e9, 1e9))
            self.made += 1
            disk, none = self.room / f"disk{self.made}", self.room / "none"
            none.mkdir(exist_ok=True)
            run([program, "format", disk, "--objects", min(files, 250), "--data", 250 * 1_024])
            first = subprocess.run([program, "sync", str(disk), str(folder)], stdout=subprocess.DEVNULL, stderr=subprocess.DEVNULL)
            assert first.returncode in (0, 1)
            self.tell(f"a look at {files:,} files, each", self.look(disk, folder) / files)
        foreign = self.room / "foreign"
        foreign.mkdir()
        for it in range(10_000):
            (foreign / f"logo{it}.xyz").touch()
        self.tell("a look at 10,000 files of another suffix, each", self.look(self.disk(1, 1), foreign) / 10_000)

    def look(self, disk, folder):
        """A second look at the folder, without the opening of the disk."""
        words = [program, "sync", disk, folder, "--allow-empty"]
        with tempfile.TemporaryDirectory() as room:
            said = pathlib.Path(room, "said")
            subprocess.run(["valgrind", "--tool=callgrind", f"--log-file={said}", f"--callgrind-out-file={room}/out", *map(str, words)],
                           stdout=subprocess.DEVNULL, stderr=subprocess.DEVNULL, check=False)
            return int(re.search(r"Collected : (\d+)", said.read_text())[1]) - taken([program, "check", disk])

    def inspect(self):
        self.tell("`inspect` of 250 objects of 16,384 bytes, the whole run", taken([program, "inspect", self.disk(250, 16_384)]))


def page():
    """The last figures, by their names."""
    rows = re.findall(r"^\| ([^|]+) \| ([0-9,]+) \|", PAGE.read_text(), re.M)
    return {name.strip(): int(figure.replace(",", "")) for name, figure in rows}


def main():
    options = argparse.ArgumentParser(description=__doc__, formatter_class=argparse.RawDescriptionHelpFormatter)
    options.add_argument("--compare", action="store_true", help="fails if one takes 5 % more than docs/SPEED.md says")
    given = options.parse_args()
    for tool in ("valgrind", "cc", "sqlite3"):
        if not shutil.which(tool):
            print(f"instructions: skipped: no {tool}")
            return
    print(f"{'instructions':60} {'motcar':>14} {'C':>14} {'SQLite':>14}")
    with tempfile.TemporaryDirectory() as room:
        bench = Bench(room)
        for part in (bench.packets, bench.opening, bench.commands, bench.looks, bench.inspect):
            part()
    if given.compare:
        last = page()
        wrong = [f"{name}: {ours:,.0f}, and docs/SPEED.md says {last.get(name, 'nothing')}" for name, ours in bench.rows
                 if ours > MORE * last.get(name, 0)]
        print("\n".join(wrong))
        print(f"instructions: {len(bench.rows) - len(wrong)} of {len(bench.rows)} rows as they should be")
        sys.exit(bool(wrong))


main()
