"""A year of service in an hour, for `campaigns/on_air/run.py --trial MINUTES`: three stations play into one
multiplexer in real time, each of them restarted as a supervisor does. Programs and multiplexer are killed, files
change, and the folders meet what folders meet in service. Each file and each line is kept, so that whatever comes on
air can be compared with what was given.
"""
import mmap
import os
import random
import re
import shutil
import signal
import subprocess
import threading
import time

from received import FRAME, LENGTH, groups_of, is_right, jumps_in, numbered_objects, timed_packets
from tests.air import PNG

# What each station is: the name, the address, the bytes of a packet, the rate of its sub-channel, its type, and how
# many files it begins with.
STATIONS = (("logos", 7, 96, 32, "packet", 50), ("guide", 9, 24, 8, "packet", 4),
            ("sports", 11, 72, 48, "enhancedpacket", 12))
# What a program that ends waits for before it is started again.
PAUSE = 1
# How often it is looked at how much memory it has.
LOOK = 0.5


def peak(process):
    """The most memory that a program had so far, in kB, by the system's own account of it; 0 once it has ended. (What
    `wait4` says of a program begins with what its parent had when it was started.)"""
    try:
        with open(f"/proc/{process}/status") as status:
            return next((int(it.split()[1]) for it in status if it.startswith("VmHWM:")), 0)
    except (FileNotFoundError, ProcessLookupError):
        return 0


class Station:
    """A disk, a folder, a pipe, and the program that plays, which is started again whenever it ends."""

    def __init__(self, room, program, number, seed):
        self.name, self.address, self.length, self.rate, self.type, self.files = STATIONS[number]
        self.number, self.program, self.room = number, program, room / self.name
        self.folder, self.lines, self.pipe = (self.room / it for it in ("objects", "lines", "packets.pipe"))
        self.starts, self.ends, self.contents, self.changes, self.memory = [], [], {}, [], 0
        self.room.mkdir()
        self.folder.mkdir()
        self.lines.mkdir()
        os.mkfifo(self.pipe)
        words = f"--address {self.address} --objects 80 --data 3000000 --packet {self.length}".split()
        subprocess.run([program, "format", self.room / "air.disk", *words], check=True, stdout=subprocess.DEVNULL)
        self.random = random.Random(f"{seed} {self.name}")
        for it in range(self.files):
            self.file(f"logo{it:02}.png", self.body())
        self.stopping, self.thread = False, threading.Thread(target=self.supervise)

    def body(self):
        return PNG + self.random.randbytes(self.random.choice((300, 2_000, 8_000)) if self.length < 96 else 20_000)

    def file(self, name, body):
        """Written beside the folder and renamed into it."""
        (self.room / "new").write_bytes(body)
        os.rename(self.room / "new", self.folder / name)
        self.given(name, body)

    def given(self, name, body):
        self.contents.setdefault(name, []).append(body)
        self.changes.append((time.time(), name, body))

    def line(self, number, text):
        (self.room / "line").write_text(text)
        os.rename(self.room / "line", self.lines / f"{number:04}.lines")

    def supervise(self):
        options = {"--folder": "objects", "--lines": "lines", "--status": "status.prom"}
        words = [self.program, "play", "air.disk", "packets.pipe", *(it for option in options.items() for it in option)]
        with open(self.room / "log", "ab") as log:
            while not self.stopping:
                self.starts.append(time.time())
                self.playing = subprocess.Popen(words, cwd=self.room, stdout=log, stderr=log)
                self.ends.append((time.time(), self.watched(self.playing)))
                time.sleep(PAUSE)

    def watched(self, playing):
        """How a program ended, whose memory is looked at until then."""
        while True:
            self.memory = max(self.memory, peak(playing.pid))
            try:
                return playing.wait(LOOK)
            except subprocess.TimeoutExpired:
                pass

    def kill(self, number=signal.SIGKILL):
        self.playing.send_signal(number)

    def end(self):
        self.stopping = True
        self.kill()
        self.thread.join()


class Multiplexer:
    """ODR-DabMux over all stations. Each start writes a file of its own."""

    def __init__(self, room, stations, plain):
        self.room, self.plain, self.stations, self.starts = room, plain, stations, []

    def block(self, section, text):
        """The block inside of a section, once for each station."""
        head, body, tail = re.fullmatch(r"(.*\n" + section + r" \{\n)(.*?)(\n\}\n.*)", text, re.S).groups()
        return head + "\n".join(self.of(station, body) for station in self.stations) + tail

    def of(self, station, text):
        for old, new in (("logos", station.name), ("0xe1400001", f"0xe140000{station.number + 1:x}"),
                         ("id 1\n", f"id {station.number + 1}\n"), ("type packet", f"type {station.type}"),
                         ("bitrate 32 ", f"bitrate {station.rate} "), ("packets.pipe", f"{station.name}/packets.pipe"),
                         ("address 7 ", f"address {station.address} ")):
            text = text.replace(old, new)
        return text

    def start(self):
        text = self.plain.replace("on-air.eti", f"on-air{len(self.starts)}.eti")
        for it in ("services", "subchannels", "components"):
            text = self.block(it, text)
        (self.room / "trial.mux").write_text(text)
        with open(self.room / "multiplexer", "ab") as said:
            self.running = subprocess.Popen(["odr-dabmux", "trial.mux"], cwd=self.room, stdout=said, stderr=said)
        self.starts.append(time.time())

    def kill(self):
        self.running.kill()
        self.running.wait()

    def files(self):
        for number, started in enumerate(self.starts):
            path = self.room / f"on-air{number}.eti"
            if path.exists() and path.stat().st_size >= LENGTH:
                with open(path, "rb") as file, mmap.mmap(file.fileno(), 0, access=mmap.ACCESS_READ) as eti:
                    yield started, eti


# What a folder meets. Each takes a while, and leaves the folder as it should be.
def unmounted(station):
    away = station.room / "away"
    os.rename(station.folder, away)
    time.sleep(60)
    os.rename(away, station.folder)


def mounted_late(station):
    away = station.room / "away"
    os.rename(station.folder, away)
    station.folder.mkdir()
    time.sleep(60)
    station.folder.rmdir()
    os.rename(away, station.folder)


def write_slowly(station, name, mode, body, piece, seconds):
    """Writes the file in pieces, with so many seconds after each."""
    with open(station.folder / name, mode, buffering=0) as out:
        for at in range(0, len(body), piece):
            out.write(body[at : at + piece])
            time.sleep(seconds)
    station.given(name, body)


def copied_slowly(station):
    write_slowly(station, "slow.png", "wb", station.random.randbytes(12_000), 1_000, 1)


def rewritten_in_place(station):
    station.file("same.png", station.random.randbytes(6_000))
    time.sleep(40)
    write_slowly(station, "same.png", "r+b", station.random.randbytes(6_000), 500, 0.7)


def switched_by_a_link(station):
    release = station.room / f"release{len(station.changes)}"
    shutil.copytree(station.folder, release)
    away = station.room / "away"
    os.rename(station.folder, away)
    os.symlink(release.name, station.folder)
    time.sleep(60)
    station.folder.unlink()
    os.rename(away, station.folder)


def strange_names(station):
    names = ("two words.png", ".hidden.png", "x" * 240 + ".png", "picture.webp", "caf\u00e9.png", "line\nend.png",
             "empty.png")
    made = [station.folder / it for it in names]
    for it in made:
        it.write_bytes(b"" if it.name == "empty.png" else station.random.randbytes(500))
        station.given(it.name, it.read_bytes())
    os.symlink("nowhere.png", station.folder / "dangling.png")
    os.symlink("/etc/passwd", station.folder / "passwd.png")
    os.mkfifo(station.folder / "pipe.png")
    (station.folder / "folder.png").mkdir()
    time.sleep(60)
    for it in [*made, *(station.folder / name for name in ("dangling.png", "passwd.png", "pipe.png"))]:
        it.unlink()
    (station.folder / "folder.png").rmdir()


def too_long(station):
    body = station.random.randbytes(4_000_000)
    (station.folder / "long.png").write_bytes(body)
    time.sleep(60)
    (station.folder / "long.png").unlink()


def withdrawn_and_put(station):
    for it in sorted(station.folder.glob("logo*.png"))[:3]:
        body = it.read_bytes()
        it.unlink()
        time.sleep(20)
        station.file(it.name, body)


def by_lines(station):
    number, body = len(station.changes), station.random.randbytes(400)
    station.given("line.png", body)
    station.line(number, f"put line.png 2 3 image/png {body.hex()}\nlist\nput broken\n")
    time.sleep(20)
    station.line(number + 1, "withdraw line.png\n")


def second_programs(station):
    """One on the same disk, and one with a disk of its own into the same pipe: neither may write a packet."""
    subprocess.run([station.program, "format", station.room / "second.disk"], capture_output=True, check=True)
    for disk in ("air.disk", "second.disk"):
        words = [station.program, "play", disk, "packets.pipe"]
        done = subprocess.run(words, cwd=station.room, capture_output=True, timeout=60)
        with open(station.room / "log", "ab") as log:
            log.write(b"second program: status %d, %s\n" % (done.returncode, done.stderr.replace(b"\n", b" / ")))
    (station.room / "second.disk").unlink()


HOSTILE = (mounted_late, copied_slowly, strange_names, unmounted, rewritten_in_place, switched_by_a_link, too_long,
           withdrawn_and_put, second_programs)


def live(stations, multiplexer, minutes):
    """What happens, minute by minute: a logo changes each half minute; a program is killed each five, the multiplexer
    each seven, once for a minute. The last eight minutes are quiet."""
    begin, hostile = time.monotonic(), []
    logos, guide, sports = stations
    for half in range(2 * minutes):
        time.sleep(max(0, begin + 30 * half - time.monotonic()))
        if half >= 2 * minutes - 16:
            continue
        logos.file(f"logo{logos.random.randrange(50):02}.png", logos.body())
        if half % 10 == 5:
            stations[half // 10 % 3].kill(signal.SIGKILL if half % 20 == 5 else signal.SIGTERM)
        if half % 14 == 9:
            multiplexer.kill()
            time.sleep(60 if half == 23 else 5)
            multiplexer.start()
        if half % 4 == 1 and not any(it.is_alive() for it in hostile):
            meets = HOSTILE[half // 4 % len(HOSTILE)]
            hostile = [threading.Thread(target=meets, args=(sports,)), threading.Thread(target=by_lines, args=(guide,))]
            for it in hostile:
                it.start()
    time.sleep(max(0, begin + 60 * minutes - time.monotonic()))
    for it in hostile:
        it.join()


class Heard:
    """What a station's sub-channel carried, in each file of the multiplexer."""

    def __init__(self, station, multiplexer):
        self.station, self.packets, self.bad, self.broken, self.jumps = station, 0, 0, 0, 0
        self.strange, self.heard, self.last = [], {}, {}
        for started, eti in multiplexer.files():
            self.hear(started, eti)

    def hear(self, started, eti):
        timed = list(timed_packets(eti, self.station.address, self.station.number))
        # (what a multiplexer's file begins with may be the rest of a group, whose beginning was taken before)
        timed = timed[next((it for it, (_, packet) in enumerate(timed) if packet[0] & 8), len(timed)) :]
        packets = [packet for _, packet in timed]
        ended = started + len(eti) // LENGTH * FRAME
        self.packets += len(packets)
        self.bad += sum(not is_right(it) for it in packets)
        self.broken += sum(segment is None for _, _, segment in groups_of(packets))
        self.jumps += max(0, jumps_in(packets) - sum(started < it < ended for it in self.station.starts))
        for number, name, body in numbered_objects(packets):
            if body not in self.station.contents.get(name, ()):
                self.strange.append((name, len(body)))
            self.heard.setdefault((name, body), started + timed[number][0] * FRAME)
            self.last[name] = body

    def waits(self):
        """How long each change took to the end of its body on air."""
        first = {}
        for given, name, body in self.station.changes:
            first.setdefault((name, body), given)
        begin = self.station.starts[0] + 60
        return [self.heard[it] - given for it, given in first.items() if it in self.heard and given > begin]


def judge(station, multiplexer, expect):
    """Compares what was heard of a station with what it was given."""
    name, heard = station.name, Heard(station, multiplexer)
    waits = heard.waits()
    print(f"{name}: {heard.packets} packets of {station.length} bytes, {len(station.starts)} starts, "
          f"{len(heard.heard)} contents of files whole on air, at most {station.memory} kB of memory")
    if waits:
        mean = sum(waits) / len(waits)
        print(f"{name}: from a change to the end of its body on air: mean {mean:.0f} s, worst {max(waits):.0f} s, "
              f"of {len(waits)}")
    expect(f"{name}: packets that are wrong", heard.bad)
    expect(f"{name}: data groups that are not whole", heard.broken)
    expect(f"{name}: jumps of the continuity index beside those at a start", heard.jumps)
    expect(f"{name}: objects that are no file's ({heard.strange[:5]})", len(heard.strange))
    wanted = {it.name: it.read_bytes() for it in station.folder.iterdir()}
    missing = sum(heard.last.get(it) != body for it, body in wanted.items())
    expect(f"{name}: files that are not on air at the end", missing)
    status = [status for _, status in station.ends]
    print(f"{name}: the program ended with {({it: status.count(it) for it in sorted(set(status))})}")
    log = (station.room / "log").read_text(errors="replace").splitlines()
    words = [" ".join(re.sub(r"\d+", "N", it).split()[:1]) for it in log]
    print(f"{name}: lines of the log: {({it: words.count(it) for it in sorted(set(words))})}")


def trial(room, options, plain, expect):
    stations = [Station(room, options.program, it, options.seed) for it in range(len(STATIONS))]
    multiplexer = Multiplexer(room, stations, plain)
    for it in stations:
        it.thread.start()
    multiplexer.start()
    live(stations, multiplexer, options.trial)
    multiplexer.kill()
    for it in stations:
        it.end()
    print(f"{options.trial} minutes, {len(multiplexer.starts)} starts of the multiplexer")
    for it in stations:
        judge(it, multiplexer, expect)
