#!/usr/bin/env python3
"""A station that is restarted again and again, before a turn is round: after how many starts a change is heard.

    campaigns/on_air/restarts.py [PROGRAM] [--seed N] [--starts N] [--early N]

A folder of 50 logos is played into a pipe. A reader takes eight times what a multiplexer takes at 32 kbit/s, so that 60 starts, an
hour's, take seven minutes; a turn takes 14 seconds, and a run four to nine. One logo changes in each run, in its last 0.8 seconds. Then
the program is killed, or told to end. A receiver that listens all the time has to have each changed logo before the run
after its change ends, and nothing that was not in the folder. `--early 1` is a control, which has to fail: a start
then begins with no changed logo.
"""
import bisect
import collections
import fcntl
import itertools
import os
import pathlib
import random
import signal
import subprocess
import sys
import tempfile
import time

sys.path.insert(0, str(pathlib.Path(__file__).resolve().parent.parent))
from campaign import given, words

from received import numbered_objects
from tests import dab
from tests.air import PNG

LOGOS, LENGTH = 50, 7_000
FRAME, BYTES, PIPE = 0.024, 8 * 96, 4096
SHORTEST, LONGEST, LAST = 4, 9, 0.8
# A start may take so many runs to bring a change on air: the run of the change, and the one after it.
RUNS = 2


class Station:
    """The folder, the program, and the reader; `ends` has how many bytes were read when each run ended."""

    def __init__(self, room, options):
        self.room, self.random = room, random.Random(options.seed)
        self.contents, self.changes, self.packets, self.ends = collections.defaultdict(set), [], bytearray(), []
        (room / "objects").mkdir()
        os.mkfifo(room / "packets.pipe")
        for it in range(LOGOS):
            self.write(it)
        made = ("format", "air.disk", "--objects", "80", "--data", "800000"), ("sync", "air.disk", "objects", "--at-once")
        for it in made:
            subprocess.run([options.program, *it], cwd=room, check=True, capture_output=True)
        self.words = [options.program, "play", "air.disk", "packets.pipe", "--folder", "objects", "--at-once",
                      "--early", str(options.early)]
        self.pipe = os.open(room / "packets.pipe", os.O_RDONLY | os.O_NONBLOCK)
        fcntl.fcntl(self.pipe, fcntl.F_SETPIPE_SZ, PIPE)

    def write(self, number):
        name, body = f"logo{number:02}.png", PNG + self.random.randbytes(LENGTH)
        (self.room / "new").write_bytes(body)
        os.rename(self.room / "new", self.room / "objects" / name)
        self.contents[name].add(body)
        return name, body

    def listen(self, seconds):
        end = time.monotonic() + seconds
        while time.monotonic() < end:
            time.sleep(FRAME)
            try:
                self.packets += os.read(self.pipe, BYTES)
            except BlockingIOError:
                pass

    def run(self):
        """One run, with a change before its end."""
        length, last = self.random.uniform(SHORTEST, LONGEST), self.random.uniform(0.05, LAST)
        with open(self.room / "log", "ab") as log:
            playing = subprocess.Popen(self.words, cwd=self.room, stdout=log, stderr=log)
        self.listen(length - last)
        self.changes.append((len(self.ends), *self.write(self.random.randrange(LOGOS))))
        self.listen(last)
        playing.send_signal(self.random.choice((signal.SIGKILL, signal.SIGTERM)))
        self.listen(0.5)
        playing.wait()
        self.ends.append(len(self.packets))


def judge(station):
    """The faults, and what is printed of the waits."""
    packets = dab.packets_in(bytes(station.packets))
    read = list(itertools.accumulate(map(len, packets)))
    heard, strange = {}, 0
    for number, name, body in numbered_objects(packets):
        strange += body not in station.contents[name]
        heard.setdefault((name, body), bisect.bisect(station.ends, read[number] - 1))
    later = {(run, name, body) for run, name, body in station.changes}
    # (a logo that changes again before it was heard, and what changes in the last runs, is left out)
    due = [(run, heard.get((name, body))) for run, name, body in station.changes
           if run + RUNS <= len(station.ends)
           and not any(run < other <= run + RUNS and name == its for other, its, _ in later)]
    waits = collections.Counter("never" if came is None else came - run for run, came in due)
    late = sum(count for wait, count in waits.items() if wait == "never" or wait >= RUNS)
    silent = LOGOS - len({name for name, _ in heard})
    print(f"{len(packets)} packets, {len(station.ends)} starts: of {len(due)} changes, by the starts before they were heard: "
          f"{dict(sorted(waits.items(), key=str))}; {strange} bodies that no file had; {silent} logos were not heard at all")
    return late + strange


def main():
    found = words(__doc__)
    found.add_argument("--starts", type=int, metavar="N", default=60, help="how often it is started (60)")
    found.add_argument("--early", type=int, metavar="N", default=3, help="as play has it (3)")
    options = given(found)
    with tempfile.TemporaryDirectory(prefix="motcar-restarts-") as folder:
        station = Station(pathlib.Path(folder), options)
        for _ in range(options.starts):
            station.run()
        os.close(station.pipe)
        faults = judge(station)
    print(f"restarts.py: {faults} faults")
    return 1 if faults else 0


if __name__ == "__main__":
    sys.exit(main())
