#!/usr/bin/env python3
"""Packets per second of `next 100000`, beside bench/turn.c on the same machine in the same run, and the cost of a
packet as the carousel grows.

    bench/turn.py [--rounds N]

Each round runs the C program and then this one, and takes their processor time. Prints, for two packet lengths and
two bodies, the medians of the rates, and the median and the quartiles of the rounds' ratios: above 1 the program is
the faster one. Then, for carousels of more objects and of longer bodies, the program's packets per second.
"""
import os
import pathlib
import random
import statistics
import subprocess
import tempfile

from programs import compiled, program, words

LINES, LINE, ROUNDS = 20, 100_000, 31


def seconds(words, given, taken):
    """The processor time of a run."""
    with open(given, "rb") as lines, open(taken, "wb") as out:
        child = subprocess.Popen(words, stdin=lines, stdout=out)
        _, status, used = os.wait4(child.pid, 0)
        child.returncode = os.waitstatus_to_exitcode(status)
    if child.returncode:
        raise SystemExit(f"{words[0]} ended with {child.returncode}")
    return used.ru_utime + used.ru_stime


def write_lines(file, bodies):
    with open(file, "w") as lines:
        for number, body in enumerate(bodies):
            name = "a" if number == 0 else f"a{number}"
            lines.write(f"put {name} 2 3 - {body.hex()}\n")
        lines.write(f"next {LINE}\n" * LINES)


def alike(room, reference, packet, size, body, rounds):
    """Prints the rates of both programs with packets of this length and a body of this size."""
    given, held = f"{room}/lines", f"{room}/body"
    pathlib.Path(held).write_bytes(body)
    write_lines(given, [body])
    ours, theirs = [], []
    for _ in range(rounds):
        theirs.append(seconds([reference, str(packet), held, str(LINES)], "/dev/null", f"{room}/theirs"))
        playing = [program, "memory", "--packet", str(packet), "--data", str(size)]
        ours.append(seconds(playing, given, f"{room}/ours"))
    if pathlib.Path(f"{room}/ours").read_bytes() != pathlib.Path(f"{room}/theirs").read_bytes():
        raise SystemExit("the two programs do not play alike")
    mine, other = (LINES * LINE / statistics.median(it) for it in (ours, theirs))
    low, ratio, high = statistics.quantiles([b / a for a, b in zip(ours, theirs)], n=4)
    print(f"{packet:6} {size:6} {mine:17,.0f} {other:16,.0f} {ratio:8.2f}  {low:.2f} to {high:.2f}")


def main():
    rounds, choices = words(__doc__, ROUNDS).parse_args().rounds, random.Random(1)
    with tempfile.TemporaryDirectory() as room:
        reference = compiled(room, "turn")
        print("packet  body      motcar packets/s      C packets/s   ratio  quartiles")
        for packet in (24, 96):
            for size in (1024, 262_144):
                alike(room, reference, packet, size, choices.randbytes(size), rounds)
        print("\nobjects  body of each      motcar packets/s (96 bytes)")
        for objects, size in ((1, 1024), (16, 1024), (250, 1024), (1, 16_384), (1, 262_144)):
            write_lines(f"{room}/lines", [choices.randbytes(size) for _ in range(objects)])
            playing = [program, "memory", "--objects", "250", "--data", str(objects * size)]
            times = [seconds(playing, f"{room}/lines", f"{room}/ours") for _ in range(max(1, rounds // 4))]
            print(f"{objects:7} {size:13} {LINES * LINE / statistics.median(times):21,.0f}")


main()
