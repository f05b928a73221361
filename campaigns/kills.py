#!/usr/bin/env python3
"""Kills the built program at a random moment while it serves a disk, a few hundred times, and looks what it left.

    campaigns/kills.py [PROGRAM] [--seed N] [--rounds N] [--folder DIR]

Each round serves the same file: random commands are fed to the program as fast as it takes them, and after some
milliseconds it gets SIGKILL. Then the file is opened again: `check` has to print the carousel after the acknowledged
commands or one more, and `clean`; `turn` has to play a turn whose bodies are that carousel's. What the program wrote
stays in the system's cache when it is killed, so this shows crashes of the program between any two of its calls and
inside them. That a cut of the power loses no more is the disk model and the theorem; no file system is tested here. A
seed makes the same commands and delays again, but the system decides how far the program comes in a delay. Seeds that
once failed come first.
"""
import pathlib
import random
import shutil
import signal
import subprocess
import sys
import tempfile
import threading
import time

import campaign
from tests import dab

OBJECTS, AREA, ROUNDS = 6, 4_000, 300


class Wrong(Exception):
    """A reply, or a disk that was left, that is not as it should be."""


class Carousel:
    """The rules of the commands, as docs/FORMATS.md has them."""

    def __init__(self):
        self.period, self.directory, self.cursor, self.objects = 0, 1, 1, []

    def copy(self):
        other = Carousel()
        other.period, other.directory, other.cursor = self.period, self.directory, self.cursor
        other.objects = [dict(o) for o in self.objects]
        return other

    def take_id(self, used):
        self.cursor = next(i for i in ((self.cursor + k - 1) % 65_535 + 1 for k in range(1, 65_536)) if i not in used)
        return self.cursor

    def gap(self, size):
        start = 0
        for begin, length in sorted((o["start"], len(o["body"])) for o in self.objects):
            if begin - start >= size:
                break
            start = begin + length
        return start if start + size <= AREA else None

    def refusal(self, words):
        there = any(o["name"] == words[1] for o in self.objects)
        if words[0] == "put":
            if there:
                return "9 NameTaken"
            if len(self.objects) == OBJECTS:
                return "11 TooManyObjects"
        if words[0] in ("replace", "withdraw") and not there:
            return "10 NoSuchName"
        if words[0] in ("put", "replace") and self.gap(len(words[5]) // 2) is None:
            return "12 NoRoom"
        return None

    def execute(self, line):
        """The reply; an accepted command changes the carousel."""
        words = line.split(" ")
        refusal = self.refusal(words)
        if refusal:
            return f"refused {refusal}"
        used, taken = {o["tid"] for o in self.objects} | {self.directory}, None
        place = next((i for i, o in enumerate(self.objects) if o["name"] == words[1]), len(self.objects))
        if words[0] in ("put", "replace"):
            taken = self.take_id(used)
            version = (self.objects[place]["version"] + 1) % 256 if words[0] == "replace" else 0
            body = bytes.fromhex(words[5])
            made = {"name": words[1], "tid": taken, "version": version, "body": body, "start": self.gap(len(body))}
            self.objects[place : place + 1] = [made]
        elif words[0] == "withdraw":
            del self.objects[place]
        else:
            self.period = int(words[1])
        self.directory = self.take_id(used | {taken})
        return f"done object {taken} directory {self.directory}" if taken else f"done directory {self.directory}"

    def listing(self):
        lines = [f"carousel {self.period} {self.directory} {self.cursor} {len(self.objects)}"]
        for o in self.objects:
            lines.append(f"object {o['tid']} {o['version']} 2 3 {len(o['body'])} {o['name']} -")
        return lines


def random_line(choices):
    kind, name = choices.choice(("put", "put", "replace", "replace", "withdraw", "period")), choices.choice("abcdefgh")
    if kind == "withdraw":
        return f"withdraw {name}"
    if kind == "period":
        return f"period {choices.randrange(1_000)}"
    return f"{kind} {name} 2 3 - {choices.randbytes(choices.randint(1, 900)).hex()}"


def kill_while_serving(program, disk, lines, delay):
    """The replies that were complete when the program was killed."""
    serving = subprocess.Popen([program, "serve", disk], stdin=subprocess.PIPE, stdout=subprocess.PIPE)

    def feed():
        try:
            serving.stdin.write("".join(line + "\n" for line in lines).encode())
            serving.stdin.flush()
        except BrokenPipeError:
            pass

    feeding = threading.Thread(target=feed)
    feeding.start()
    time.sleep(delay)
    serving.send_signal(signal.SIGKILL)
    printed = serving.stdout.read()
    serving.wait()
    feeding.join()
    try:
        serving.stdin.close()
    except BrokenPipeError:
        pass
    return printed.decode().split("\n")[:-1]


def answer(words, given=b""):
    done = subprocess.run(words, input=given, capture_output=True, timeout=60)
    if done.returncode:
        raise Wrong(f"{words[1]} ended with {done.returncode}: {done.stderr!r}")
    return done.stdout


def look(program, disk, carousels):
    """The first of these carousels that the disk has; its turn plays its bodies."""
    told = answer([program, "check", disk]).decode().split("\n")[:-1]
    left = next((c for c in carousels if told == c.listing() + ["clean", "layout 2"]), None)
    if left is None:
        raise Wrong(f"the disk has none of the carousels that may have been left: {told}")
    turn = answer([program, "serve", disk], b"turn\n")
    if not turn.endswith(b" end\n"):
        raise Wrong(f"no turn was played: {turn!r}")
    try:
        played = dab.bodies_of(dab.packets_told(turn))
    except dab.Wrong as wrong:
        raise Wrong(f"the turn has {wrong}") from wrong
    if played != {o["tid"]: o["body"] for o in left.objects}:
        raise Wrong("the turn has other bodies than the carousel")
    return left


class Life:
    """A disk that is served and killed, round by round."""

    def __init__(self, program, seed, room):
        self.program, self.disk, self.choices = program, f"{room}/disk", random.Random(seed)
        self.carousel, self.acknowledged, self.ahead = Carousel(), 0, 0
        sizes = f"--objects {OBJECTS} --data {AREA} --packet 24 --segment 64"
        answer([program, "format", self.disk, *sizes.split()])

    def round(self):
        lines = [random_line(self.choices) for _ in range(400)]
        replies = kill_while_serving(self.program, self.disk, lines, self.choices.uniform(0, 0.12))
        for line, reply in zip(lines, replies):
            wanted = self.carousel.execute(line)
            if reply != wanted:
                raise Wrong(f"wanted {wanted}, came {reply}")
        more = self.carousel.copy()
        if len(replies) < len(lines):
            more.execute(lines[len(replies)])
        left = look(self.program, self.disk, [self.carousel, more])
        self.acknowledged += len(replies)
        self.ahead += left is more and left.directory != self.carousel.directory
        self.carousel = left


def lived(options, seed, rounds):
    """Whether a disk of this seed came through so many kills."""
    with tempfile.TemporaryDirectory(dir=options.folder) as room:
        life, number = Life(options.program, seed, room), 0
        try:
            for number in range(1, rounds + 1):
                life.round()
        except (Wrong, subprocess.TimeoutExpired) as wrong:
            left = pathlib.Path(tempfile.gettempdir(), f"killed-{seed}-{number}.disk")
            shutil.copy(life.disk, left)
            print(f"kill {number} of seed {seed}: {wrong}; the disk that was left: {left}")
            campaign.keep("kills", f"{seed} {number}")
            return False
    print(f"seed {seed}: {rounds} kills, {life.acknowledged} replies read: each disk opened clean to the carousel")
    print(f"after the acknowledged commands, {life.ahead} times with the one in flight, and played its bodies")
    return True


def main():
    words = campaign.words(__doc__)
    words.add_argument("--rounds", type=int, default=ROUNDS, help=f"how many kills ({ROUNDS})")
    words.add_argument("--folder", help="where the disk is made (where the system has its temporary files)")
    options = campaign.given(words)
    kept = [map(int, it.split()) for it in campaign.corpus("kills")]
    done = [lived(options, *it) for it in [*kept, (options.seed, options.rounds)]]
    return 0 if all(done) else 1


if __name__ == "__main__":
    sys.exit(main())
