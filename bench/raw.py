#!/usr/bin/env python3
"""Packets and bytes per second of `raw` lines of 8,189 bytes, beside bench/raw.c on the same machine in the same run.

    bench/raw.py [--rounds N]

Prints the medians of five rounds, in which the two programs take turns, and their ratio: above 1 the program is the
faster one.
"""
import pathlib
import random
import statistics
import subprocess
import tempfile
import time

from programs import compiled, program, words

LINES, BODY, ROUNDS = 400, 8189, 5


def seconds(words, given, taken):
    with open(given, "rb") as lines, open(taken, "wb") as out:
        began = time.perf_counter()
        subprocess.run(words, stdin=lines, stdout=out, check=True)
        return time.perf_counter() - began


def main():
    rounds = words(__doc__, ROUNDS).parse_args().rounds
    with tempfile.TemporaryDirectory() as room:
        reference, given = compiled(room, "raw"), f"{room}/lines"
        choices = random.Random(1)
        with open(given, "w") as lines:
            for _ in range(LINES):
                lines.write(f"raw 4 2 {choices.randbytes(BODY).hex()}\n")
        ours, theirs = [], []
        for _ in range(rounds):
            ours.append(seconds([program, "memory", "--packet", "24"], given, f"{room}/ours"))
            theirs.append(seconds([reference], given, f"{room}/theirs"))
        answered = pathlib.Path(f"{room}/ours").read_bytes()
        if answered != pathlib.Path(f"{room}/theirs").read_bytes():
            raise SystemExit("the two programs do not answer alike")
        packets = answered.count(b"\n")
    for name, times in (("motcar", ours), ("C", theirs)):
        median = statistics.median(times)
        print(f"{name:7} {packets / median:12,.0f} packets/s {LINES * BODY / median:14,.0f} body bytes/s")
    print(f"ratio   {statistics.median(theirs) / statistics.median(ours):12.2f}")


main()
