#!/usr/bin/env python3
"""Receivers that begin to listen at any packet of the built program, while commands come: each hears what is promised.

    campaigns/listeners/run.py [PROGRAM] [--seed N] [--windows N] [--jobs N]

A station is a disk with a few objects, and a file of lines that `play` answers between its packets, at moments that the
seed decides. The packets go into a file. `order.py` has the order of sending once more, and says of each group which one
it has to be, and where the turns end. Then receivers begin to listen at random packets, and behind each command. Each
hears up to the next command: nothing but the carousel that stands there, and all of it after as many packets as
docs/FORMATS.md says, or earlier.
"""
import bisect
import concurrent.futures
import os
import pathlib
import sys
import tempfile

sys.path.insert(0, str(pathlib.Path(__file__).resolve().parent.parent))
import campaign
from air import Air
from order import BODY, DIRECTORY
from station import Station, Wrong, history, need, played

WINDOWS, A_STATION = 100_000, 150


class Receiver:
    """What a receiver has that began to listen at a packet, and hears only segments that are expected."""

    def __init__(self, expected):
        self.expected, self.heard, self.lacks = expected, set(), {}
        for kind, tid, _ in expected:
            self.lacks[kind, tid] = self.lacks.get((kind, tid), 0) + 1

    def hear(self, segment):
        key = segment.kind, segment.tid, segment.number
        need(key in self.expected, "a segment of no entity that is on air:", key)
        is_last, bytes_ = self.expected[key]
        need(is_last == segment.is_last and bytes_ in (None, segment.data), "another segment:", key)
        if key not in self.heard:
            self.heard.add(key)
            self.lacks[key[:2]] -= 1

    def has(self, kind, tid):
        return self.lacks[kind, tid] == 0

    def has_all(self):
        return len(self.heard) == len(self.expected)


class Window:
    """A receiver that begins to listen in front of a packet, up to the next command."""

    def __init__(self, air, start):
        self.air, self.start = air, start
        later = bisect.bisect_right(air.commands, start)
        self.end = air.commands[later] if later < len(air.commands) else air.length
        self.waits, self.is_settled, self.early = air.waits[start]
        self.directory = air.told[air.stands[start]].directory
        self.receiver = Receiver(air.expected(air.stands[start]))

    def has_directory(self):
        return self.receiver.has(DIRECTORY, self.directory)

    def has_early(self):
        return self.has_directory() and all(self.receiver.has(BODY, it) for it in self.early)

    def promises(self):
        """Of each promise its name, whether the receiver has what it speaks of, whether so many packets are enough,
        and from how many on they may be."""
        it, every, most = self.waits, self.air.every, self.air.most[self.start + 1]
        group, asks = it.group - 1, lambda count: self.asks(count) * it.directory
        has_all = self.receiver.has_all
        found = [("two ends", has_all, lambda count: self.ends(count) > 1, 2),
                 enough("what is left, and a turn", has_all, group + it.left + it.turn, asks)]
        if self.is_settled:
            found.append(enough("a turn", has_all, group + it.early + it.turn + it.directory, asks))
        if self.start in self.air.commands:
            found.append(enough("a change", self.has_early, group + it.early + it.directory, asks))
        if every:
            found += [enough("the directory", self.has_directory, most + it.group + 1, asks),
                      enough("the directory, in closed words", self.has_directory, it.soon(most)),
                      enough("the carousel, in closed words", has_all, it.all())]
        if every and self.is_settled:
            found.append(enough("the carousel in a turn, in closed words", has_all, it.round()))
        if every and self.start in self.air.commands:
            found += [enough("a change, in closed words", self.has_early, it.change()),
                      enough("a change, by the turn alone", self.has_early, it.change_within())]
        return found

    def asks(self, count):
        return self.air.asks[self.start + count] - self.air.asks[self.start]

    def ends(self, count):
        return self.air.ends[self.start + count] - self.air.ends[self.start]

    def listen(self):
        """Hears the whole window. Of each promise that was due: how many packets earlier it was kept."""
        length, promises, kept = self.end - self.start, self.promises(), {}
        for at, packets, segment in self.air.groups_from(self.start):
            count = at + packets - self.start
            if count > length:
                break
            self.receiver.hear(segment)
            for name, has, *_ in promises:
                if name not in kept and has():
                    kept[name] = count
        for name, _, is_enough, least in promises:
            need_by(kept.get(name, length + 1), name, is_enough, least)
            due = next((it for it in range(max(least, kept.get(name, length + 1)), length + 1) if is_enough(it)), None)
            if due is not None:
                yield name, due - kept[name]


def enough(name, has, packets, more=lambda count: 0):
    """A promise of so many packets, and of more."""
    return name, has, lambda count: packets + more(count) <= count, packets


def need_by(kept, name, is_enough, least):
    """No count before the one at which a promise was kept is enough."""
    for count in range(max(0, least), kept):
        need(not is_enough(count), name, "was not heard after", count, "packets")


def ends_soon(air, start):
    """A turn that follows changes ends before so many packets, whatever commands come."""
    number = bisect.bisect_left(air.ends, air.ends[start] + 1, start) - 1
    if air.every and air.ends[start] < air.ends[-1]:
        waits = air.waits[start][0]
        added = air.added[number] - air.added[start]
        need(number - start < waits.group + waits.left + added, "a turn that does not end", start, number, added)


def heard(program, seed):
    """A station, and its receivers: how many windows there were, and of each promise how often it was due, and how many
    packets earlier than promised it was kept at least."""
    station = Station(seed)
    with tempfile.TemporaryDirectory(prefix="motcar-listeners-") as room:
        packets, log, listed = played(program, station, pathlib.Path(room))
    told = history(station, log, listed)
    starts = [station.dice.randrange(len(packets)) for _ in range(A_STATION)]
    air, windows, tally = Air(station, packets, told, starts), 0, {}
    for start in sorted(air.waits):
        ends_soon(air, start)
        windows += 1
        for name, slack in Window(air, start).listen():
            count, least = tally.get(name, (0, slack))
            tally[name] = count + 1, min(least, slack)
    return windows, len(air.commands), len(packets), tally


def tried(program, seed):
    try:
        return heard(program, seed), None
    except Wrong as wrong:
        return None, f"{seed}: {wrong}"


def main():
    words = campaign.words(__doc__)
    words.add_argument("--windows", type=int, metavar="N", default=WINDOWS, help=f"({WINDOWS:,})")
    words.add_argument("--jobs", type=int, metavar="N", default=os.cpu_count(), help="(one for each processor)")
    options = campaign.given(words)
    windows = commands = packets = number = 0
    tally, wrong = {}, []
    with concurrent.futures.ProcessPoolExecutor(options.jobs) as pool:
        while windows < options.windows and not wrong:
            seeds = [f"{options.seed} {number + it}" for it in range(4 * options.jobs)]
            number += len(seeds)
            for found, fault in pool.map(tried, [options.program] * len(seeds), seeds):
                if fault:
                    wrong.append(fault)
                    continue
                windows, commands, packets = windows + found[0], commands + found[1], packets + found[2]
                for name, (count, least) in found[3].items():
                    before = tally.get(name, (0, least))
                    tally[name] = before[0] + count, min(before[1], least)
    for name, (count, least) in sorted(tally.items()):
        print(f"{name}: due in {count:,} windows, and kept {least} packets earlier at least")
    for it in wrong:
        print(f"FAILED: {it}")
    print(f"campaigns/listeners/run.py: {number} stations, {packets:,} packets as foretold, "
          f"{commands:,} commands, {windows:,} windows, {len(wrong)} faults")
    return 1 if wrong else 0


if __name__ == "__main__":
    sys.exit(main())
