"""A station of the campaign: a disk with a few objects, and lines that `play` answers between its packets."""
import itertools
import random
import subprocess
import typing

from tests import dab

SEGMENTS = (64, 80, 120, 300, 990, 1024, 4000)
# How many bodies come early at most: also as `play` has it without a word of it.
EARLY, USUAL_EARLY = (None, None, 0, 1, 3, 250), 3
# What is read of lines at once: in front of the first packet, and then each time that so many packets went out.
READ = 4096
REFUSED = f"list {'x' * (READ - 6)}"


class Wrong(Exception):
    """A packet, a reply, or a wait that is not as it should be."""


def need(holds, *what):
    if not holds:
        raise Wrong(" ".join(map(str, what)))


class Object(typing.NamedTuple):
    name: str
    mime: str
    body: bytes
    tid: int


class Carousel(typing.NamedTuple):
    """What stands from a packet on: the directory's id, and the objects."""

    directory: int
    objects: list
    at: int


class Command(typing.NamedTuple):
    word: str
    name: str = "-"
    mime: str = "-"
    body: bytes = b""

    def line(self):
        if self.word == "period":
            return "period 7"
        return f"{self.word} {self.name}" + (f" 2 3 {self.mime} {self.body.hex()}" if self.body else "")

    def done(self, objects, tid):
        """The objects after it, which got this id for its body."""
        new = Object(self.name, self.mime, self.body, tid)
        if self.word == "put":
            return [*objects, new]
        if self.word == "replace":
            return [new if it.name == self.name else it for it in objects]
        return [it for it in objects if it.name != self.name or self.word == "period"]


class Station:
    """What a station is, and what is asked of it. Half the stations are often changed, and a few never."""

    def __init__(self, seed):
        self.dice = dice = random.Random(seed)
        self.packet, self.segment = dice.choice((24, 48, 72, 96)), dice.choice(SEGMENTS)
        self.every, self.reads = dice.choice((0, 1, 7, 20, 60, 200, 340)), dice.choice((1, 3, 8))
        self.early, self.turns = dice.choice(EARLY), dice.randrange(2, 7)
        self.names = []
        self.begin = [self.put() for _ in range(dice.randrange(0, 7))]
        self.lines, rate = [REFUSED], dice.choice((0, 3, 20, 80))
        for _ in range(dice.randrange(1, 40) if rate else 0):
            # (lines that are refused take time, a read each)
            self.lines += [*[REFUSED] * int(dice.expovariate(1 / rate)), *self.some()]

    def body(self):
        return self.dice.randbytes(self.dice.randrange(1, min(5 * self.segment + 2, 9000)))

    def put(self):
        name = f"{len(self.names)}{'n' * self.dice.choice((0, 0, 2, 30))}"
        self.names.append(name)
        return Command("put", name, self.dice.choice(("-", "image/png")), self.body())

    def command(self):
        kind = self.dice.random()
        if kind < 0.4 or not self.names:
            return self.put()
        name = self.dice.choice(self.names)
        if kind < 0.75:
            return Command("replace", name, "-", self.body())
        return Command("withdraw", name) if kind < 0.95 else Command("period")

    def some(self):
        """Commands that come at once: one mostly, or a few."""
        return [self.command() for _ in range(self.dice.choice((1, 1, 1, 2, 3, 8)))]

    def texts(self):
        return [it if isinstance(it, str) else it.line() for it in self.lines]

    def moments(self):
        """In front of which packet each line is answered: as soon as its end was read."""
        ends = itertools.accumulate(len(it) + 1 for it in self.texts())
        return [(it + READ - 1) // READ * self.reads - self.reads for it in ends]

    def words(self):
        options = f"--turns {self.turns} --directory {self.every} --every {self.reads} --lines lines".split()
        return [*options, *([] if self.early is None else ["--early", str(self.early)])]


def ran(room, *words, given=""):
    done = subprocess.run(list(map(str, words)), cwd=room, input=given, capture_output=True, text=True, timeout=300)
    need(done.returncode == 0, *words, "ended with", done.returncode, done.stderr)
    return done


def played(program, station, room):
    """The packets, what the log says, and the carousel before them."""
    (room / "lines").mkdir()
    (room / "lines/a.lines").write_text("".join(f"{it}\n" for it in station.texts()))
    sizes = f"--packet {station.packet} --segment {station.segment} --objects 12 --data 200000"
    ran(room, program, "format", "disk", *sizes.split())
    ran(room, program, "serve", "disk", given="".join(f"{it.line()}\n" for it in station.begin))
    listed = ran(room, program, "check", "disk").stdout.splitlines()
    log = ran(room, program, "play", "disk", "packets", *station.words()).stdout
    return dab.packets_in((room / "packets").read_bytes()), log.splitlines(), [it.split() for it in listed]


def history(station, log, listed):
    """The carousel at the start, and the one after each command that was done."""
    tids = {it[6]: int(it[1]) for it in listed if it[0] == "object"}
    directory = next(int(it[2]) for it in listed if it[0] == "carousel")
    objects, moments = [Object(it.name, it.mime, it.body, tids[it.name]) for it in station.begin], station.moments()
    told = [Carousel(directory, objects, 0)]
    for line in log:
        words = line.split()
        if "done" in words:
            number = int(words[1].split(":")[1]) - 1
            tid = int(words[words.index("object") + 1]) if "object" in words else 0
            objects = station.lines[number].done(objects, tid)
            told.append(Carousel(int(words[words.index("directory") + 1]), objects, moments[number]))
    return told
