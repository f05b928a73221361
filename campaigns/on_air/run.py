#!/usr/bin/env python3
"""A folder on air, as a station has it: `motcar play` writes packets into a pipe, and ODR-DabMux reads them in real
time and writes an ETI file. On the way files change, and the program is killed, twice. Then the packets are read back
out of the file and compared.

    campaigns/on_air/run.py [PROGRAM] [--seed N] [--delays [MINUTES] | --radio | --trial MINUTES]

`odr-dabmux` has to be installed, but for --delays. It takes two and a half minutes, works in a temporary folder, and
ends with status 1 if a packet is bad, missing or out of turn, or an object is not that of its file. With strace it
compares, too, each packet in the file with what the program wrote.

With --radio the frames after the last change go on through ODR-DabMod to samples of a radio signal, and back through
two radios that share no code, welle-cli and gr-dab; what they gather is compared with the files, too. A fault counts if
both radios have it: welle-cli plays in real time, and misses frames if the machine has other work. It says which of
these programs are missing.

With --delays eleven stations play for twelve minutes, or for so many, as `delays.py` has them: at 32 and at 8 kbit/s, with
a long pipe and a short one, a new disk, an update of all files. A file of each changes every half minute. It prints
how long receivers wait for a change, and after tuning in. Without ODR-DabMux readers take the packets as it does.

With --trial three stations play for so many minutes (an hour says something) as `trial.py` has it: killed programs
and multiplexers, and folders as they are met in service.

The seed makes the bodies of files and which of them change, not the moments of packets.
"""
import os
import pathlib
import re
import shutil
import signal
import subprocess
import sys
import tempfile
import time

here = pathlib.Path(__file__).resolve().parent
sys.path[:0] = [str(here), str(here.parent)]

import campaign

import delays
import radio
import trial
from received import FRAME, LENGTH, groups_of, is_right, jumps_in, objects_of, timed_packets

examples = campaign.top / "examples"
ADDRESS = 7
SECONDS = 150
DELAYS = 12
# With --radio: the frames from here on have what changed last.
SETTLED = 150
RADIO = 60
RATE = 32


class Station:
    """The disk, the folder and the pipe, and the program that plays."""

    def __init__(self, room, program):
        self.room, self.program, self.starts = room, program, 0
        self.traced = shutil.which("strace")
        self.folder, self.pipe, self.disk = room / "objects", room / "packets.pipe", room / "air.disk"
        self.folder.mkdir()
        os.mkfifo(self.pipe)
        words = [program, "format", self.disk, "--address", str(ADDRESS), "--objects", "60", "--data", "2000000"]
        subprocess.run(words, check=True, stdout=subprocess.DEVNULL)

    def file(self, name, body):
        """Written beside the folder and renamed into it, so that no half of one is read."""
        (self.room / "new").write_bytes(body)
        os.rename(self.room / "new", self.folder / name)

    def start(self):
        words = [self.program, "play", self.disk, self.pipe, "--folder", self.folder]
        if self.traced:
            trace = self.room / f"trace{self.starts}"
            only = ["-e", "trace=write", "-e", "signal=none"]
            words = ["strace", "-f", "-qq", *only, "-xx", "-s", "128", "-o", trace, *words]
        self.starts += 1
        self.log = open(self.room / "log", "ab")
        self.playing = subprocess.Popen(words, stdout=self.log, start_new_session=True)

    def kill(self):
        os.killpg(self.playing.pid, signal.SIGKILL)
        self.playing.wait()

    def written(self):
        """What each start wrote into the pipe; none if it was not traced."""
        runs = []
        for it in sorted(self.room.glob("trace*")):
            calls = re.findall(r'write\(\d+, "([^"]*)", (\d+)\) += (\d+)', it.read_text())
            packets = [bytes.fromhex(text.replace("\\x", "")) for text, _, _ in calls]
            runs.append([it for it in packets if is_right(it)])
        return runs


def multiplexer_of(station, seconds):
    """The multiplexer, which runs so long and writes an ETI file."""
    frames = f"nbframes {round(seconds / FRAME)} "
    configuration = (examples / "odr-dabmux.mux").read_text().replace("nbframes 0 ", frames)
    (station.room / "odr-dabmux.mux").write_text(configuration)
    with open(station.room / "multiplexer", "wb") as said:
        return subprocess.Popen(["odr-dabmux", "odr-dabmux.mux"], cwd=station.room, stdout=said, stderr=said)


def on_air(station, seconds):
    """Plays, changes files and kills the program, while the multiplexer runs."""
    logo = (examples / "logo.png").read_bytes()
    station.file("logo.png", logo)
    station.file("guide.xml", b"<guide>" + b"one " * 500 + b"</guide>")
    station.file("page.html", b"<p>" + b"page " * 3000 + b"</p>")
    contents = {it.name: {it.read_bytes()} for it in station.folder.iterdir()}
    station.start()
    multiplexer = multiplexer_of(station, seconds)
    begin = time.monotonic()

    def at(second):
        time.sleep(max(0, begin + second - time.monotonic()))

    def change(name, body):
        station.file(name, body)
        contents.setdefault(name, set()).add(body)

    at(10)
    change("guide.xml", b"<guide>" + b"two " * 700 + b"</guide>")
    at(40)
    station.kill()
    station.start()
    at(60)
    change("second.png", logo + bytes(2000))
    (station.folder / "page.html").unlink()
    at(85)
    station.kill()
    station.start()
    at(95)
    change("guide.xml", b"<guide>" + b"three " * 300 + b"</guide>")
    multiplexer.wait(timeout=seconds + 60)
    station.kill()
    return contents


def hear(station, expect):
    """What two radios receive of the frames after the last change, compared with the files."""
    missing = [it for it in radio.PROGRAMS if not shutil.which(it)]
    if missing:
        sys.exit(f"--radio: {', '.join(missing)} not installed")
    eti = (station.room / "on-air.eti").read_bytes()[LENGTH * round(SETTLED / FRAME) :]
    radio.send(station.room, eti, 1)
    wanted = {it.name: it.read_bytes() for it in station.folder.iterdir()}
    radios = {"welle-cli": lambda: radio.heard_by_welle(station.room, len(eti) // LENGTH * FRAME)}
    if radio.has_gr_dab():
        radios["gr-dab"] = lambda: radio.heard_by_gr_dab(station.room, RATE)
    else:
        print("gr-dab: not installed")
    wrong = []
    for name, heard in radios.items():
        packets, bad = radio.packets_in(heard(), RATE, ADDRESS)
        objects = objects_of(packets)
        strange = {it for it in objects if wanted.get(it[0]) != it[1]}
        never = {it for it in wanted.items() if it not in objects}
        print(f"{name}: {len(packets)} packets, and {len(bad)} wrong ones; {len(objects)} objects received whole, "
              f"{len(strange)} of them no file's; {len(never)} files did not come")
        expect(f"{name}: hears nothing", not packets)
        wrong.append((set(bad), strange, never))
    whats = "packets that are wrong", "objects that are no file's", "files that did not come"
    for what, found in zip(whats, zip(*wrong)):
        expect(f"{what}, as each radio has it", len(set.intersection(*found)))


def compare(station, seconds, by_radio, expect):
    """Plays, and compares what was on air with the files and with what the program wrote."""
    contents = on_air(station, seconds)
    packets = [packet for _, packet in timed_packets((station.room / "on-air.eti").read_bytes(), ADDRESS)]
    print(f"packets on air in {seconds} seconds: {len(packets)}, with {station.starts} starts of the program")
    expect("packets that are wrong", sum(not is_right(it) for it in packets))
    groups = list(groups_of(packets))
    print(f"data groups: {len(groups)}")
    # A start begins with a first packet: so the group before it, which the kill may have broken off, is none of these.
    expect("data groups that are not whole", sum(segment is None for _, _, segment in groups))
    expect("jumps of the continuity index beside those at a start", max(0, jumps_in(packets) - station.starts + 1))
    objects = objects_of(packets)
    print(f"objects received whole: {len(objects)}")
    expect("objects that are no file's", sum(body not in contents.get(name, ()) for name, body in objects))
    last = dict(objects[-3 * len(list(station.folder.iterdir())) :])
    wanted = {it.name: it.read_bytes() for it in station.folder.iterdir()}
    expect("files that are not on air at the end", sum(last.get(name) != body for name, body in wanted.items()))
    never = sum((name, body) not in objects for name in contents for body in contents[name])
    expect("contents of files that were never on air", never)
    compare_written(station.written(), packets, expect)
    if by_radio:
        hear(station, expect)
    print("log:", *(station.room / "log").read_text().splitlines(), sep="\n  ")


def compare_written(runs, packets, expect):
    """Compares the packets on air with those that each start wrote, if that was traced."""
    if not runs:
        return
    written = [packet for run in runs for packet in run]
    differing = sum(a != b for a, b in zip(packets, written)) + max(0, len(packets) - len(written))
    expect("packets that differ from what was written", differing)
    print(f"packets written and still in the pipe: {len(written) - len(packets)}")
    expect("jumps of the continuity index within a start", sum(jumps_in(run) for run in runs))


class Faults:
    """What was counted that should not be there."""

    def __init__(self):
        self.found = []

    def expect(self, what, count):
        print(f"{what}: {count}", flush=True)
        if count:
            self.found.append(what)


def main():
    words, faults = campaign.words(__doc__), Faults()
    way = words.add_mutually_exclusive_group()
    way.add_argument("--delays", type=int, nargs="?", const=DELAYS, metavar="MINUTES",
                     help=f"how long receivers wait ({DELAYS} minutes)")
    way.add_argument("--radio", action="store_true", help="on to a radio signal, and back (4 minutes)")
    way.add_argument("--trial", type=int, metavar="MINUTES", help="three stations in service (9 at least)")
    options = campaign.given(words)
    if not options.delays and not shutil.which("odr-dabmux"):
        sys.exit("odr-dabmux is not installed")
    with tempfile.TemporaryDirectory() as name:
        room = pathlib.Path(name)
        plain = (examples / "odr-dabmux.mux").read_text()
        if options.trial:
            trial.trial(room, options, plain, faults.expect)
        elif options.delays:
            delays.delays(room, options, plain, faults.expect)
        else:
            seconds = SECONDS + RADIO * options.radio
            compare(Station(room, options.program), seconds, options.radio, faults.expect)
    return 1 if faults.found else 0


sys.exit(main())
