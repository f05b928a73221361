"""How long receivers wait, for `campaigns/on_air/run.py --delays`. Stations of one disk, folder and pipe each play side
by side in real time, and a file of each changes every half minute. Their packets are those that came out of the pipes:
through ODR-DabMux, or through readers that take packets as it does.
"""
import fcntl
import os
import random
import re
import shutil
import subprocess
import threading
import time
import typing

import trial
from received import FRAME, is_right, jumps_in, names_in, segments_in, sendings, timed_packets
from tests import dab
from tests.air import PNG

SEGMENT = 1024
# After so many seconds all files change at once, if they do. Then one changes every half minute. On a new disk it does
# from the start on.
SETTLED = 60
PAUSE = (25, 35)
# The last change is so many seconds before the end: longer than one waits with a long pipe at 8 kbit/s.
LAST = 90
TUNED_IN = 40
# The folder of which a look is measured: so many files, of so many bytes.
FILES, BYTES = 250, 100_000


class Case(typing.NamedTuple):
    """What a station is, and how it is played. Its disk has the files at the start, unless it is new."""

    name: str
    rate: int = 32
    length: int = 96
    files: int = 50
    bytes: int = 20_000
    pipe: int = 8192
    options: tuple = ()
    is_new: bool = False
    all_change: bool = False


AT_ONCE, SELDOM, OFTEN = ("--at-once",), ("--look", "700"), ("--look", "25")
SLOW = {"rate": 8, "length": 24, "files": 10, "bytes": 2000}
CASES = (
    Case("32 kbit/s, a pipe of 65,536 bytes", pipe=65_536),
    Case("32 kbit/s"),
    Case("32 kbit/s, `--at-once`", options=AT_ONCE),
    Case("32 kbit/s, `--look 700`", options=SELDOM),
    Case("8 kbit/s, a pipe of 65,536 bytes", pipe=65_536, **SLOW),
    Case("8 kbit/s", **SLOW),
    Case("8 kbit/s, `--at-once`", options=AT_ONCE, **SLOW),
    Case("8 kbit/s, `--look 700`", options=SELDOM, **SLOW),
    Case("8 kbit/s, `--look 25`", options=OFTEN, **SLOW),
    Case("32 kbit/s, a new disk", is_new=True),
    Case("32 kbit/s, all files changed", all_change=True),
)


class Station:
    """The disk, the folder and the pipe of a case, and what changed when."""

    def __init__(self, room, program, number, seed):
        self.case, self.number, self.program = CASES[number], number, program
        self.name, self.rate, self.type, self.address = f"case{number}", self.case.rate, "packet", number + 1
        self.room, self.dice, self.changes = room / self.name, random.Random(f"{seed} {number}"), []
        self.folder, self.disk, self.path = (self.room / it for it in ("objects", "air.disk", "packets.pipe"))
        self.folder.mkdir(parents=True)
        for it in range(self.case.files):
            self.file(f"logo{it:02}.png")
        os.mkfifo(self.path)
        self.pipe = os.open(self.path, os.O_RDWR | os.O_NONBLOCK)
        fcntl.fcntl(self.pipe, fcntl.F_SETPIPE_SZ, self.case.pipe)
        sizes = f"--address {self.address} --packet {self.case.length} --segment {SEGMENT} --objects 60 --data 2000000"
        self.motcar("format", self.disk, *sizes.split())
        if not self.case.is_new:
            self.motcar("sync", self.disk, self.folder, "--at-once")

    def motcar(self, *words):
        with open(self.room / "log", "ab") as log:
            subprocess.run([self.program, *words], check=True, stdout=log)

    def file(self, name):
        """A file with new content, renamed into the folder; the content."""
        body = PNG + self.dice.randbytes(self.case.bytes - len(PNG))
        (self.room / "new").write_bytes(body)
        os.rename(self.room / "new", self.folder / name)
        return body

    def play(self, air, end):
        """Plays until the end, and changes files."""
        words = [self.program, "play", self.disk, self.path, "--folder", self.folder, *self.case.options]
        with open(self.room / "log", "ab") as log:
            playing = subprocess.Popen(words, stdout=log, stderr=log)
        try:
            time.sleep(0 if self.case.is_new else SETTLED)
            names = sorted(it.name for it in self.folder.iterdir())
            self.dice.shuffle(names)
            if self.case.all_change:
                for name in names:
                    self.file(name)
            while True:
                pause = self.dice.uniform(*PAUSE)
                if time.monotonic() + pause > end - LAST:
                    break
                time.sleep(pause)
                name = names[len(self.changes) % len(names)]
                self.changes.append((self.file(name), air.frame(self)))
            time.sleep(max(0, end - time.monotonic()))
            if playing.poll() is not None:
                print(f"{self.case.name}: the program ended with {playing.returncode}")
        finally:
            playing.kill()
            playing.wait()


class Readers:
    """What reads the pipes in place of ODR-DabMux, and as it does: a frame of 24 ms has whole packets, and a packet
    that finds no room waits for the next frame."""

    def __init__(self, stations, seconds):
        self.begin, self.frames = time.monotonic(), round(seconds / FRAME)
        self.packets = {it: [] for it in stations}
        self.threads = [threading.Thread(target=self.read, args=[it]) for it in stations]
        for it in self.threads:
            it.start()

    def frame(self, _):
        return int((time.monotonic() - self.begin) / FRAME)

    def read(self, station):
        waiting = None
        for frame in range(self.frames):
            time.sleep(max(0, self.begin + frame * FRAME - time.monotonic()))
            room = 3 * station.rate
            while waiting := waiting or self.packet(station.pipe):
                if len(waiting) > room:
                    break
                self.packets[station].append((frame, waiting))
                room, waiting = room - len(waiting), None

    def packet(self, pipe):
        """The next packet: first its head, which has its length. None if the pipe is empty."""
        try:
            head = os.read(pipe, 3)
            return head + os.read(pipe, dab.length_of(head[0]) - 3)
        except BlockingIOError:
            return None

    def timed(self, station):
        return self.packets[station]

    def end(self):
        for it in self.threads:
            it.join()


class Multiplexed:
    """ODR-DabMux, with a sub-channel for each station."""

    def __init__(self, room, stations, plain):
        self.eti, self.multiplexer = room / "on-air0.eti", trial.Multiplexer(room, stations, plain)
        self.multiplexer.start()

    def frame(self, _):
        return self.eti.stat().st_size // trial.LENGTH

    def timed(self, station):
        for _, eti in self.multiplexer.files():
            return list(timed_packets(eti, station.address, station.number))

    def end(self):
        self.multiplexer.kill()


def first_sendings(segments):
    """Of each body that was begun, by its first segment: the frames of the first packet, and of the last one of its
    first whole sending."""
    begun, ended, of = {}, {}, {}
    for it, first, _ in segments:
        if it.kind == dab.BODY and it.number == 0:
            begun.setdefault(it.data, first)
            of[it.tid, first] = it.data
    for tid, first, last in sendings(segments, dab.BODY):
        ended.setdefault(of[tid, first], last)
    return begun, ended


def tuned_in(segments, moment):
    """After how many frames a receiver that begins to listen has a directory, an object of it, and all of them; None
    if never."""
    parts, names, whole, found = {}, {}, set(), [None, None, None]
    for it, begun, ended in segments:
        if begun < moment or it.kind == dab.BODY and it.tid not in names:
            continue
        come = parts.setdefault((it.kind, it.tid), {})
        come[it.number] = it
        if not come[max(come)].is_last or len(come) <= max(come):
            continue
        if it.kind == dab.DIRECTORY:
            names = names_in(b"".join(come[at].data for at in sorted(come)))
        else:
            whole.add(it.tid)
        so = (bool(names), bool(whole), names.keys() <= whole)
        found = [ended - moment if had is None and has else had for had, has in zip(found, so)]
        if found[2] is not None:
            break
    return found


def longest_gaps(log, segments, first, end):
    """Of each object, the longest time between the ends of two whole sendings."""
    names = {int(tid): name for name, tid in re.findall(r"^(?:put|replace) (\S+) done object (\d+) ", log, re.M)}
    whole = {name: [first] for name in names.values()}
    for tid, _, ended in sendings(segments, dab.BODY):
        whole[names[tid]].append(ended)
    return [max(b - a for a, b in zip(ends, [*ends[1:], end])) for ends in whole.values()]


def waits(frames):
    """The mean and the worst of some waits, and how many never ended."""
    ended = [it * FRAME for it in frames if it is not None]
    never = len(frames) - len(ended)
    shown = f"{sum(ended) / len(ended):.1f} / {max(ended):.1f}" if ended else "-"
    return f"{shown} of {len(ended)}" + (f", {never} never" if never else "")


def judge(station, timed, expect):
    """A row of the table."""
    packets, segments = [it for _, it in timed], list(segments_in(timed))
    first, end = timed[0][0], timed[-1][0]
    begun, ended = first_sendings(segments)
    starts, wholes = ([at[body[:SEGMENT]] - frame if body[:SEGMENT] in at else None for body, frame in station.changes]
                      for at in (begun, ended))
    # (whoever tunes in later than half-way has not everything before the end)
    moments = [station.dice.randrange(first, (first + end) // 2) for _ in range(TUNED_IN)]
    gaps = longest_gaps((station.room / "log").read_text(), segments, first, end)
    tuned = zip(*(tuned_in(segments, it) for it in moments))
    columns = [waits(it) for it in (starts, wholes, *tuned, gaps)]
    silent = end + 1 - first - len({frame for frame, _ in timed})
    print("|", " | ".join([station.case.name, *columns, f"{silent} of {end + 1 - first}"]), "|", flush=True)
    print(f"  first packets in order: {' '.join(str(it and round(it * FRAME, 1)) for it in starts)}")
    expect(f"{station.case.name}: packets that are wrong", sum(not is_right(it) for it in packets))
    expect(f"{station.case.name}: jumps of the continuity index", jumps_in(packets))


class Forgetting:
    """Makes the system forget its files again and again, where one may."""

    PATH = "/proc/sys/vm/drop_caches"

    def __enter__(self):
        self.ends, self.thread = threading.Event(), threading.Thread(target=self.forget)
        self.thread.start()

    def forget(self):
        while not self.ends.wait(0.02):
            with open(self.PATH, "w") as file:
                file.write("3")

    def __exit__(self, *_):
        self.ends.set()
        self.thread.join()


def large_folder(room, program):
    """A disk, and a folder of many large files that it has."""
    folder, disk = room / "large", room / "large.disk"
    folder.mkdir()
    for it in range(FILES):
        (folder / f"{it:03}.png").write_bytes(PNG + random.randbytes(BYTES - len(PNG)))
    sizes = ["--objects", str(FILES), "--data", str(FILES * BYTES)]
    for words in (["format", disk, *sizes], ["sync", disk, folder, "--at-once"]):
        subprocess.run([program, *words], check=True, stdout=subprocess.DEVNULL)
    # (files that were changed a moment ago are read again)
    time.sleep(2.5)
    return disk, folder


def longest_silence(program, disk, folder):
    """The longest time without a packet for a reader that takes each at once, while the folder is looked at: after each
    100 packets, seventy times."""
    words = [program, "play", disk, "-", "--folder", folder]
    with subprocess.Popen(words, stdout=subprocess.PIPE, stderr=subprocess.DEVNULL) as playing:
        taken, longest, before = 0, 0, None
        while taken < 7000 * 96:
            taken += len(os.read(playing.stdout.fileno(), 4096))
            now = time.monotonic()
            before, longest = now, max(longest, now - (before or now))
        playing.kill()
    return longest


def delays(room, options, plain, expect):
    seconds = 60 * options.delays
    stations = [Station(room, options.program, it, options.seed) for it in range(len(CASES))]
    is_multiplexed = shutil.which("odr-dabmux")
    air = Multiplexed(room, stations, plain) if is_multiplexed else Readers(stations, seconds)
    print(f"{options.delays} minutes, through {'ODR-DabMux' if is_multiplexed else 'paced readers'}", flush=True)
    end = time.monotonic() + seconds
    threads = [threading.Thread(target=it.play, args=(air, end)) for it in stations]
    for it in threads:
        it.start()
    for it in threads:
        it.join()
    air.end()
    heads = ("first packet of a change", "whole object", "tuned in: directory", "an object", "everything",
             "an object again", "frames without a packet")
    print("|", " | ".join(["", *heads]), "|")
    for it in stations:
        judge(it, air.timed(it), expect)
    large = large_folder(room, options.program)
    print(f"longest silence of looks at {FILES} files of {BYTES} bytes: {1000 * longest_silence(options.program, *large):.1f} ms")
    if os.access(Forgetting.PATH, os.W_OK):
        with Forgetting():
            silence = longest_silence(options.program, *large)
        print(f"the same while the system forgets its files: {1000 * silence:.1f} ms")
