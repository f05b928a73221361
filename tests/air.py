"""What the tests of `play`, `sync`, `export` and `inspect` share: disks and folders, what the program says of them, and
a program that plays.

A row that waits looks again and again whether what it waits for is so, for a minute at most: `until`. Faults and delays
of system calls are strace's.
"""
import fcntl
import json
import os
import pathlib
import re
import shutil
import signal
import subprocess
import time
import unittest

from . import dab
from .program import Case, plain, run

NOBODY = 65_534
# The first bytes of a PNG: a look notes a file of that suffix which does not have them.
PNG = b"\x89PNG\r\n\x1a\n"
MINUTE = 60
# How many seconds a command may take that makes many changes, each of which waits for the drive.
LONG = 240

needs_strace = unittest.skipUnless(shutil.which("strace"), "there is no strace")


def until(is_done, seconds=MINUTE):
    """Waits until it is so, or so many seconds; whether it is so."""
    end = time.monotonic() + seconds
    while not is_done():
        if time.monotonic() > end:
            return False
        time.sleep(0.02)
    return True


def send(folder, name, text):
    """A file that is there whole at once, as one writes it beside and renames it."""
    (folder / ".part").write_bytes(text)
    os.rename(folder / ".part", folder / name)


def traced(words, *expressions, paths=(), out="/dev/null"):
    """The words that run a program whose system calls strace notes, lets fail or lets wait by these expressions."""
    faults = [it for expression in expressions for it in ("-e", expression)]
    return ["strace", "-f", "-qq", "-o", out, *faults, *[it for path in paths for it in ("-P", path)], *words]


def beginning(word, log):
    """The lines of a log that begin with this word, in the order of their bytes."""
    return sorted(it for it in log.splitlines() if it.startswith(word + b" "))


def without_ids(log):
    """The lines of a log of looks, of commands that were done without their ids."""
    return [it.split(" done")[0] for it in log.decode().splitlines()]


def samples(path):
    """The samples of a status: each name with its labels but that of the disk, and its value."""
    lines = [it for it in path.read_text().splitlines() if not it.startswith("#")] if path.exists() else []
    parts = [it.rpartition(" ") for it in lines]
    return {re.sub(r'disk="[^"]*",?', "", front).replace("{}", ""): int(value) for front, _, value in parts}


def whole_packets(stream):
    """The packets in a stream that ends anywhere, but for one of which a part is missing."""
    packets = dab.packets_in(stream)
    return packets[:-1] if packets and len(packets[-1]) < dab.length_of(packets[-1][0]) else packets


def is_running(group):
    """Whether a process of the group runs."""
    for it in pathlib.Path("/proc").glob("[0-9]*/stat"):
        try:
            state, _, of = it.read_text().rpartition(")")[2].split()[:3]
        except OSError:
            continue
        if int(of) == group and state not in "ZX":
            return True
    return False


class Player:
    """A program that plays while a row changes what it reads. Its log is a file; with `of_page` its packets go into a
    pipe that holds 4,096 bytes, so that it stands still until the row hears them."""

    def __init__(self, words, log, of_page=False, **more):
        self.log, self.ear = log, None
        mouth = subprocess.DEVNULL
        if of_page:
            self.ear, mouth = os.pipe()
            # (before the first packet: a pipe that holds more can't be made so short)
            fcntl.fcntl(self.ear, fcntl.F_SETPIPE_SZ, 4096)
            os.set_blocking(self.ear, False)
        with open(log, "wb") as out:
            streams = {"stdout": mouth, "stderr": out} if of_page else {"stdout": out}
            self.ran = subprocess.Popen([str(it) for it in words], start_new_session=True, **streams, **more)
        if of_page:
            os.close(mouth)

    def lines(self):
        """The whole lines of its log."""
        return self.log.read_bytes().decode().split("\n")[:-1]

    def told(self):
        """Its log without the lines of its start and end, and replies without the line that they answer."""
        return plain(self.log.read_bytes()).decode().split("\n")[:-1]

    def until(self, line, times=1):
        """Waits until its log has this line so often, or a minute; whether it has."""
        return until(lambda: self.told().count(line) >= times)

    def read(self, most=4096):
        """What is in the pipe, so many bytes at most."""
        try:
            return os.read(self.ear, most)
        except BlockingIOError:
            return b""

    def hear(self, is_done):
        """Reads packets until it is so, or for a minute; whether it is so."""
        return until(lambda: is_done() or not self.read() and is_done())

    def kill(self):
        """Ends it, and who looks at its system calls."""
        if self.ran.poll() is None:
            os.killpg(self.ran.pid, signal.SIGKILL)
        self.ran.wait()
        # (a program whose system calls are looked at ends after who looks at them)
        until(lambda: not is_running(self.ran.pid), 10)
        if self.ear is not None:
            os.close(self.ear)
            self.ear = None

    def end(self):
        self.kill()
        return self.told()


class AirCase(Case):
    """A test of what goes on air."""

    def disk(self, name="disk", *lines):
        """A disk of 40 objects and 600,000 bytes, after these lines."""
        disk = self.new_disk(name, "--objects", "40", "--data", "600000")
        if lines:
            self.serve(disk, list(lines))
        return disk

    def folder(self, files=(), name="objects"):
        """A folder with these files."""
        folder = self.room / name
        folder.mkdir()
        for it, content in dict(files).items():
            with open(os.path.join(os.fsencode(folder), os.fsencode(it)), "wb") as file:
                file.write(content)
        return folder

    def sync(self, disk, folder, *more):
        """A look that takes each file however young it is."""
        return self.motcar("sync", "--at-once", disk, folder, *more, timeout=LONG)

    def play(self, disk, packets, *more, **how):
        """What `play` gives, its log as `plain` leaves it."""
        status, printed, said = self.motcar("play", disk, packets, *more, **{"timeout": LONG, **how})
        return status, printed if packets == "-" else plain(printed), plain(said)

    def traced(self, words, *expressions, **more):
        """What a program gives under strace, its log as `plain` leaves it."""
        status, printed, said = run(traced(words, *expressions, **more), cwd=self.room, timeout=LONG)
        # (of a path that ends in a dot strace has a line of its own)
        return status, plain(printed), re.sub(rb"(?m)^strace: Requested path .*\n", b"", plain(said))

    def turns(self, disk, count):
        """The packets of the first turns, as a multiplexer should get them."""
        return dab.packets_told(self.serve(disk, "turn\n" * count)[1])

    def three(self):
        """A disk made equal to a folder of three files, the folder, and what its objects are."""
        disk, folder = self.disk(), self.folder({f"{it}.png": PNG + b"%d" % it * 2992 for it in (1, 2, 3)})
        self.sync(disk, folder)
        return disk, folder, self.objects(disk)

    def player(self, *words, of_page=False, tracing=None, **more):
        """A program that plays, for as long as the test lasts at most; `tracing` are strace's expressions and paths."""
        words = [self.program, "play", *words]
        if tracing:
            words = traced(words, *tracing[0], paths=tracing[1])
        return self.started(words, of_page, **more)

    def started(self, words, of_page=False, **more):
        player = Player(words, self.room / "log", of_page, cwd=self.room, **more)
        self.addCleanup(player.kill)
        return player

    def of_nobody(self, name):
        """A folder that belongs to nobody, and how a program is run as nobody, who may not read all that root may."""
        place = self.room / name
        place.mkdir()
        if os.geteuid():
            return place, {}
        os.chown(place, NOBODY, NOBODY)
        return place, {"user": NOBODY, "group": NOBODY, "extra_groups": []}

    def in_json(self, command, *words):
        """The objects that a command prints with `--json`, a line each."""
        return [json.loads(it) for it in self.motcar(command, *words, "--json")[1].decode().splitlines()]

    def inspected(self, disk, *words):
        """The numbers of a disk, as `inspect` tells them."""
        return self.in_json("inspect", disk, *words)[0]
