#!/usr/bin/env python3
"""Looks at a disk again and again while it is served: each look shows what the disk held at a moment since it began.

    campaigns/looking.py [PROGRAM] [--seed N] [--looks N] [--data BYTES] [--folder DIR]

`serve` has the disk, and is given random commands, with pauses of at most two milliseconds. Beside it `list`, `check`,
`get` and `export` look at the disk. What they print has to be that of the carousel after some number of commands: of no
fewer than were answered before the look began, and no more than were sent before it ended. Or the look is refused as of
a disk in use. A look reads the file twice; under strace every second one waits for some milliseconds between its reads,
so that commands come there. Of the others a tenth has to be answered, else the run says nothing.
"""
import random
import subprocess
import sys
import tempfile
import threading
import time

import campaign
import kills
from kills import OBJECTS, Carousel, answer, random_line

LOOKS = 2_000
IN_USE = b"motcar: 15 DeviceFault\n"
NO_NAME = b"motcar: 10 NoSuchName\n"
KINDS = ("list", "check", "get", "export")
# The file is opened as a disk, which its lock refuses, and then to be read and to be read again.
SECOND_READ = 3


class Served:
    """A disk that is served, and the carousel after each of its commands."""

    def __init__(self, program, disk, seed):
        self.choices = random.Random(seed)
        self.serving = subprocess.Popen([program, "serve", disk], stdin=subprocess.PIPE, stdout=subprocess.PIPE)
        self.carousels, self.answered, self.ends = [Carousel()], 0, False
        self.feeding = threading.Thread(target=self.feed)
        self.feeding.start()

    def feed(self):
        while not self.ends:
            line = random_line(self.choices)
            after = self.carousels[-1].copy()
            wanted = after.execute(line)
            self.carousels.append(after)
            self.serving.stdin.write(line.encode() + b"\n")
            self.serving.stdin.flush()
            reply = self.serving.stdout.readline().decode().rstrip("\n")
            if reply != wanted:
                sys.exit(f"looking.py: {line[:40]} was answered {reply}, and not {wanted}")
            self.answered += 1
            if self.choices.random() < 0.5:
                time.sleep(self.choices.uniform(0, 0.002))

    def end(self):
        self.ends = True
        self.feeding.join()
        self.serving.stdin.close()
        self.serving.wait()


def texts(kind, name, carousel):
    """What a look prints of this carousel: its status, and its text."""
    if kind == "get":
        body = next((o["body"] for o in carousel.objects if o["name"] == name), None)
        return (1, b"") if body is None else (0, body)
    if kind == "export":
        lines = [f"put {o['name']} 2 3 - {o['body'].hex()}" for o in carousel.objects]
        lines += [f"period {carousel.period}"] if carousel.period else []
    else:
        lines = carousel.listing() + (["clean", "layout 2"] if kind == "check" else [])
    return 0, "".join(f"{it}\n" for it in lines).encode()


def waiting(disk):
    """The words that let a look wait between its two reads."""
    wait = f"inject=openat:delay_enter=10000:when={SECOND_READ}"
    return ["strace", "-f", "-qq", "-o", "/dev/null", "-P", disk, "-e", "trace=openat", "-e", wait]


def look(words, kind, name, served):
    """Whether a look is answered, refused as of a disk in use, or wrong."""
    first = served.answered
    came = subprocess.run(words, capture_output=True, timeout=60)
    last = len(served.carousels)
    if came.returncode and came.stderr.startswith(IN_USE):
        return "refused"
    said = NO_NAME if came.returncode else b""
    may = [texts(kind, name, it) for it in served.carousels[first:last]]
    return "answered" if (came.returncode, came.stdout) in may and came.stderr == said else f"wrong: {came}"


def main():
    words = campaign.words(__doc__)
    words.add_argument("--looks", type=int, default=LOOKS, help=f"how many looks ({LOOKS})")
    words.add_argument("--data", type=int, default=kills.AREA, help=f"how many bytes the disk has for bodies ({kills.AREA})")
    words.add_argument("--folder", help="where the disk is made (where the system has its temporary files)")
    options = campaign.given(words)
    kills.AREA, choices, counts = options.data, random.Random(options.seed), {}
    with tempfile.TemporaryDirectory(dir=options.folder) as room:
        disk = f"{room}/disk"
        sizes = f"--objects {OBJECTS} --data {options.data} --packet 24 --segment 64"
        answer([options.program, "format", disk, *sizes.split()])
        served = Served(options.program, disk, options.seed)
        try:
            for number in range(options.looks):
                kind, name = KINDS[number // 2 % len(KINDS)], choices.choice("abcdefgh")
                waits = number % 2 == 1
                words = [options.program, kind, disk, *([name] if kind == "get" else [])]
                came = look([*(waiting(disk) if waits else []), *words], kind, name, served)
                if came.startswith("wrong"):
                    print(f"look {number}, {kind}: {came}")
                    came = "wrong"
                counts[kind, waits, came] = counts.get((kind, waits, came), 0) + 1
        finally:
            served.end()
    for kind, waits in ((kind, waits) for kind in KINDS for waits in (False, True)):
        came = [f"{counts.get((kind, waits, it), 0)} {it}" for it in ("answered", "refused", "wrong")]
        print(f"{kind}{', with commands between its reads' if waits else ''}: {', '.join(came)}")
    print(f"{served.answered} commands were answered meanwhile")
    wrong = sum(count for (*_, it), count in counts.items() if it == "wrong")
    rare = [it for it in KINDS if counts.get((it, False, "answered"), 0) * 20 * len(KINDS) < options.looks]
    return 1 if wrong or rare else 0


if __name__ == "__main__":
    sys.exit(main())
