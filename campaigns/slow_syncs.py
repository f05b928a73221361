#!/usr/bin/env python3
"""A disk whose syncs are slow, below the command of the unit: how many frames have no packet.

    campaigns/slow_syncs.py [PROGRAM] [--sync SECONDS] [--seconds N] [--table]

strace holds each sync up for 2.5 seconds, or so many. A reader takes 96 bytes every 24 ms, as a multiplexer does at 32
kbit/s. In the first row nothing changes; in the others one file is renamed into the folder five seconds after the reader
began. The rows run side by side, 40 seconds long. Status 1 says that a frame had no packet though nothing changed: so the
program waits for a sync that no change asks for. `--table` has a change in each row: at 8, 32 and 128 kbit/s, with syncs of
0.1, 0.5 and 2.5 seconds and pipes of 4,096 to 65,536 bytes.
"""
import argparse
import bisect
import concurrent.futures
import fcntl
import itertools
import os
import pathlib
import re
import shutil
import subprocess
import sys
import tempfile
import time
import typing

from campaign import top

from tests import dab, program
from tests.test_units import UNITS, around

FRAME = 0.024
CHANGED_AT = 5
PIPES = (8_192, 16_384, 32_768, 65_536)
BODY = 20_000


class Row(typing.NamedTuple):
    sync: float       # how long a sync takes
    rate: int         # of the sub-channel, in kbit/s
    pipe: int         # how many bytes it has
    is_changed: bool

    @property
    def frame(self):
        return 3 * self.rate

    @property
    def packet(self):
        return min(96, self.frame)


def start(room, options, row):
    """The command of the unit, with its program under strace, in a folder with two objects that are on the disk."""
    (room / "objects").mkdir()
    for name in ("one.png", "two.png"):
        (room / "objects" / name).write_bytes(os.urandom(BODY))
    os.mkfifo(room / "packets.pipe")
    subprocess.run([options.program, "format", "air.disk", "--data", "200000", "--packet", str(row.packet)], cwd=room, check=True, capture_output=True)
    subprocess.run([options.program, "sync", "air.disk", "objects", "--at-once"], cwd=room, check=True, capture_output=True)
    slow = f"inject=fsync,fdatasync:delay_enter={round(row.sync * 1e6)}"
    words = [*around((top / "examples" / UNITS[0]).read_text(), [f"PIPE={row.pipe}"]),
             "strace", "-f", "-qq", "-o", room / "calls", "-e", "trace=fsync,fdatasync", "-e", slow,
             options.program, "play", "air.disk", "packets.pipe", "--folder", "objects", "--levels", "--status", "status",
             "--rate", str(row.rate)]
    return subprocess.Popen(words, cwd=room, stdout=open(room / "log", "wb"), start_new_session=True)


def is_full(pipe):
    """Whether the pipe has no room for a further page."""
    held = int.from_bytes(fcntl.ioctl(pipe, 0x541B, bytes(4)), sys.byteorder)  # FIONREAD
    return held > fcntl.fcntl(pipe, fcntl.F_GETPIPE_SZ) - 4096


def listened(room, pipe, seconds, row):
    """What each frame has."""
    new, frames, begin = room / "new", [], time.monotonic()
    for frame in range(round(seconds / FRAME)):
        time.sleep(max(0, begin + frame * FRAME - time.monotonic()))
        if row.is_changed and frame == round(CHANGED_AT / FRAME):
            new.write_bytes(os.urandom(BODY))
            new.rename(room / "objects/one.png")
        try:
            frames.append(os.read(pipe, row.frame))
        except BlockingIOError:
            frames.append(b"")
    return frames


def heard_after(frames, tid):
    """How long after the change the first packet of the body of this transport id came; None if none did."""
    ends, packets = list(itertools.accumulate(map(len, frames))), dab.packets_in(b"".join(frames))[:-1]
    begins = list(itertools.accumulate(map(len, packets), initial=0))
    # (the pipe may begin within a group)
    first = next(it for it, packet in enumerate(packets) if dab.packet_of(packet).is_first)
    for group in dab.groups_of(packets[first:]):
        segment = dab.segment_of(group.bytes) if group.is_whole else None
        if segment and (segment.kind, segment.tid) == (dab.BODY, tid):
            return bisect.bisect_right(ends, begins[first + group.at]) * FRAME - CHANGED_AT
    return None


def tried(options, row):
    """What a row prints, and how many frames had no packet."""
    with tempfile.TemporaryDirectory(prefix="motcar-syncs-") as folder:
        room = pathlib.Path(folder)
        playing = start(room, options, row)
        pipe = os.open(room / "packets.pipe", os.O_RDONLY | os.O_NONBLOCK)
        try:
            end = time.monotonic() + 30
            while not is_full(pipe) and time.monotonic() < end:
                time.sleep(0.1)
            frames = listened(room, pipe, options.seconds, row)
        finally:
            os.killpg(playing.pid, 9)
            playing.wait()
            os.close(pipe)
        syncs = len(re.findall(r"sync\(", (room / "calls").read_text()))
        done = re.findall(r" done object (\d+)", (room / "log").read_text())
    gaps = [len(it) for it in "".join(" " if it else "x" for it in frames).split()]
    heard = heard_after(frames, int(done[0])) if done else None
    what = "no change" if not row.is_changed else "not heard" if heard is None else f"heard after {heard:.1f} s"
    return (f"{row.rate} kbit/s, syncs of {row.sync} s, PIPE={row.pipe}: {sum(gaps)} of {len(frames)} frames without a packet, "
            f"the longest gap {max(gaps, default=0) * FRAME:.1f} s; {syncs} syncs, {len(done)} changes done, {what}"), sum(gaps)


def main():
    found = argparse.ArgumentParser(description=__doc__, formatter_class=argparse.RawDescriptionHelpFormatter)
    found.add_argument("program", nargs="?", metavar="PROGRAM", help="the built program (the one that the tests find)")
    found.add_argument("--sync", type=float, default=2.5, metavar="SECONDS", help="that each sync takes (2.5)")
    found.add_argument("--seconds", type=int, default=40, metavar="N", help="that each row is heard (40)")
    found.add_argument("--table", action="store_true", help="three rates, three lengths of a sync, five pipes")
    options = found.parse_args()
    options.program = str(pathlib.Path(options.program or program.find()).resolve())
    missing = [it for it in ("strace", "perl") if not shutil.which(it)]
    if missing:
        print(f"slow_syncs.py: skipped: not there: {', '.join(missing)}")
        return 2
    cases = [Row(options.sync, 32, PIPES[0], False), *(Row(options.sync, 32, it, True) for it in PIPES)]
    if options.table:
        cases = [Row(sync, rate, it, True) for rate in (8, 32, 128) for sync in (0.1, 0.5, 2.5) for it in (4_096, *PIPES)]
    with concurrent.futures.ThreadPoolExecutor(len(cases)) as pool:
        rows = list(pool.map(lambda it: tried(options, it), cases))
    print("\n".join(it for it, _ in rows))
    return 1 if rows[0][1] and not cases[0].is_changed else 0


if __name__ == "__main__":
    sys.exit(main())
