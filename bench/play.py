#!/usr/bin/env python3
"""Packets per second of `play` into a pipe, each in one write, beside bench/play.c, which has them ready and does
nothing but the writes, and beside bench/cut.c, which reads the body as `play` does and puts the packets together; the
time of a look at a folder that is right, beside bench/look.c, which reads the same bytes; and what memory both take
as time goes on.

    bench/play.py [--rounds N]

Each round runs the C programs and then this one, and takes their processor time, so that a ratio above 1 says that
this program is the faster one. What writes has one processor of its own and what reads another.
"""
import os
import pathlib
import random
import statistics
import subprocess
import tempfile
import time

from programs import compiled, program, words

TURNS, ROUNDS, PACKETS = 16, 121, 250_000
# So many times as long is a run that shows whether memory grows.
LONG = 5
PROCESSORS = sorted(os.sched_getaffinity(0))


def start(words, processor, **streams):
    """Starts a program on one processor alone."""
    return subprocess.Popen(words, preexec_fn=lambda: os.sched_setaffinity(0, {processor}), **streams)


class Used:
    """What runs of programs take."""

    def __init__(self, room):
        self.runner, self.file = compiled(room, "used"), pathlib.Path(room, "took")

    def by(self, words, pipe=None):
        """The processor time of a run in seconds, and the most memory in KiB; what stands in the pipe is read and
        thrown away."""
        ear = start(["cat", pipe], PROCESSORS[-1], stdout=subprocess.DEVNULL) if pipe else None
        # Waits until the pipe is read, and keeps it open for the whole run.
        held = open(pipe, "wb") if pipe else subprocess.DEVNULL
        child = start([self.runner, self.file, *words], PROCESSORS[0], stdin=subprocess.DEVNULL, stdout=held)
        status = child.wait()
        if pipe:
            held.close()
            ear.wait()
        if status:
            raise SystemExit(f"{words} ended with {status}")
        seconds, memory = self.file.read_text().split()
        return float(seconds), int(memory)


def ratios(ours, theirs):
    """The median of the rounds' own ratios, and their quartiles."""
    low, ratio, high = statistics.quantiles([b / a for a, b in zip(ours, theirs)], n=4)
    return f"{ratio:8.2f}  {low:.2f} to {high:.2f}"


def compare(ours, theirs, count):
    """A line of both rates, and of the rounds' own ratios."""
    mine, other = count / statistics.median(ours), count / statistics.median(theirs)
    return f"{mine:15,.0f} {other:15,.0f} {ratios(ours, theirs)}"


class Stage:
    """A disk of one object, its packets, the pipe that they go into, and the programs that write them there."""

    def __init__(self, room, packet):
        disk, self.pipe, kept, file = (f"{room}/{name}{packet}" for name in ("disk", "pipe", "packets", "body"))
        os.mkfifo(self.pipe)
        subprocess.run([program, "format", disk, "--packet", str(packet)], check=True, stdout=subprocess.DEVNULL)
        body = random.Random(1).randbytes(16_384)
        pathlib.Path(file).write_bytes(body)
        put = f"put a 2 3 - {body.hex()}\n".encode()
        subprocess.run([program, "serve", disk], input=put, check=True, stdout=subprocess.DEVNULL)
        serving = [program, "serve", disk]
        turns = subprocess.run(serving, input=b"turn\n" * TURNS, check=True, capture_output=True).stdout
        found = [bytes.fromhex(it.split()[1].decode()) for it in turns.splitlines()]
        pathlib.Path(kept).write_bytes(b"".join(found))
        self.count = len(found)
        ready, cut = compiled(room, "play"), compiled(room, "cut")
        self.writes = lambda rounds: [ready, kept, str(rounds)]
        self.cuts = lambda rounds: [cut, str(packet), file, str(TURNS * rounds)]
        self.plays = lambda rounds: [program, "play", disk, self.pipe, "--turns", str(TURNS * rounds)]
        if subprocess.run(self.cuts(1), check=True, capture_output=True).stdout != b"".join(found):
            raise SystemExit("bench/cut.c writes other packets")


def packets(room, used, rounds):
    print("packet  C program   motcar packets/s  C packets/s   ratio  quartiles")
    for packet in (24, 96):
        stage = Stage(room, packet)
        times = PACKETS // stage.count
        ours, writes, cuts = [], [], []
        for _ in range(rounds):
            writes.append(used.by(stage.writes(times), stage.pipe)[0])
            cuts.append(used.by(stage.cuts(times), stage.pipe)[0])
            ours.append(used.by(stage.plays(times), stage.pipe)[0])
        print(f"{packet:6}  writes    {compare(ours, writes, times * stage.count)}")
        print(f"        the same  {compare(ours, cuts, times * stage.count)}")
        print(f"        the C program that does the same, beside the writes {ratios(cuts, writes)}")
        few, many = (used.by(stage.plays(it), stage.pipe)[1] for it in (1, LONG * times))
        most = LONG * times * stage.count
        print(f"        memory after {stage.count:,} packets: {few:,} KiB; after {most:,}: {many:,} KiB")


def looks(room, used, rounds):
    reference, folder = compiled(room, "look"), pathlib.Path(room, "objects")
    disk, pipe = f"{room}/disk", f"{room}/pipe"
    folder.mkdir()
    os.mkfifo(pipe)
    # (a file that was changed less than two seconds ago waits for a later look)
    old = time.time() - 3_600
    for number in range(250):
        (folder / f"{number}.png").write_bytes(b"\x89PNG\r\n\x1a\n" + random.Random(number).randbytes(16_376))
        os.utime(folder / f"{number}.png", (old, old))
    sizes = "--objects 250 --data 8000000 --segment 8189"
    subprocess.run([program, "format", disk, *sizes.split()], check=True, stdout=subprocess.DEVNULL)
    subprocess.run([program, "sync", disk, str(folder)], check=True, stdout=subprocess.DEVNULL)
    ours, theirs, opened = [], [], []
    for _ in range(rounds):
        theirs.append(used.by([reference, str(folder), disk])[0])
        opened.append(used.by([program, "check", disk])[0])
        ours.append(used.by([program, "sync", disk, str(folder)])[0])
    mine, other, opening = (1000 * statistics.median(it) for it in (ours, theirs, opened))
    print(f"\na look at 250 right files of 16 KiB: {mine:.1f} ms, of which opening the disk {opening:.1f} ms; "
          f"reading the same bytes in C: {other:.1f} ms")
    for it in list(folder.iterdir())[10:]:
        it.unlink()
    # Each turn has more than 1,000 packets now, so a look comes after each.
    plays = [program, "play", disk, pipe, "--folder", str(folder), "--turns"]
    few, many = (used.by([*plays, it], pipe)[1] for it in ("1", "1000"))
    print(f"memory after 1 look: {few:,} KiB; after 1,000: {many:,} KiB")


def main():
    rounds = words(__doc__, ROUNDS).parse_args().rounds
    with tempfile.TemporaryDirectory() as room:
        used = Used(room)
        packets(room, used, rounds)
        looks(room, used, rounds)


main()
