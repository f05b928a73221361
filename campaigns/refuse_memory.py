#!/usr/bin/env python3
"""Runs the proved program with its Nth request for memory refused, for each N, over a disk in memory and over a file.

    campaigns/refuse_memory.py [PROGRAM] [--seed N] [--random N]

Each run on the lines of crates/motcar/stdin, and on some random ones, has to end in one of three ways: status 1 with
`motcar: 14 OutOfMemory` on standard error, or with `motcar: 15 DeviceFault` where the file could not be opened, and
nothing printed before; or status 0, one reply being `refused 14 OutOfMemory` and the others those of the same lines
without that one; or, over a file, status 0, one command's reply being `refused 15 DeviceFault` and that of every
later line that reads well `refused 16 Halted`. A file then has to open, clean, to the carousel of what was answered.
And `format` leaves no file where it fails, however long memory is wanting. The seed makes the random lines; those of
the corpus come first.
"""
import collections
import os
import pathlib
import random
import shutil
import subprocess
import sys
import tempfile

import campaign
import kills

COMMANDS = ("put", "replace", "withdraw", "period")
REFUSALS_OF_LINES = tuple(f"refused {number} " for number in range(1, 9))
NO_MEMORY, NO_DISK = b"motcar: 14 OutOfMemory", b"motcar: 15 DeviceFault"
LINES = 12


class Wrong(Exception):
    """A run that ended in another way."""


class InMemory:
    """Runs over a disk in memory, which is gone after them."""

    name, stopped = "a disk in memory", (NO_MEMORY,)

    def __init__(self, program):
        self.program = program

    def run(self, lines, environment):
        return run([self.program, "memory", "--packet", "24"], lines, environment)

    def kept(self):
        return None


class OnFile:
    """Runs over a file that was just formatted."""

    name, stopped = "a file", (NO_MEMORY, NO_DISK)

    def __init__(self, program, room):
        self.program, self.new, self.disk = program, f"{room}/new", f"{room}/disk"
        run([self.program, "format", self.new, "--packet", "24"], [], {}).check_returncode()

    def run(self, lines, environment):
        shutil.copyfile(self.new, self.disk)
        return run([self.program, "serve", self.disk], lines, environment)

    def kept(self):
        ran = run([self.program, "check", self.disk], [], {})
        ran.check_returncode()
        return ran.stdout


def run(words, lines, environment):
    text = "".join(line + "\n" for line in lines).encode()
    return subprocess.run(words, input=text, capture_output=True, timeout=10, env={**os.environ, **environment})


def replies_to(lines, text):
    """The text, a reply for each line; None where it has other lines."""
    rest, replies = text.splitlines(), []
    for line in lines:
        if not rest:
            return None
        count = 1
        if line == "turn" and rest[0].startswith("packet"):
            count = next((number for number, it in enumerate(rest, 1) if it.endswith(" end")), 1)
        elif line == "list" and rest[0].startswith("carousel"):
            count += int(rest[0].split(" ")[4])
        replies.append(rest[:count])
        rest = rest[count:]
    return None if rest else replies


def answers(where, lines):
    """The replies to the lines, and what is kept after them."""
    ran = where.run(lines, {})
    return replies_to(lines, ran.stdout.decode()), where.kept()


def allowed_answers(where, given):
    whole, _ = answers(where, given)
    for place, line in enumerate(given):
        others, kept = answers(where, given[:place] + given[place + 1 :])
        yield others[:place] + [["refused 14 OutOfMemory"]] + others[place:], kept
        if NO_DISK in where.stopped and line.split(" ")[0] in COMMANDS:
            halted = [it if it[0].startswith(REFUSALS_OF_LINES) else ["refused 16 Halted"] for it in whole[place + 1 :]]
            for lines in (given[:place], given[: place + 1]):
                yield whole[:place] + [["refused 15 DeviceFault"]] + halted, answers(where, lines)[1]


def refuse_each(where, shim, given):
    whole, allowed, nothing = answers(where, given), list(allowed_answers(where, given)), answers(where, [])[1]
    changed = collections.Counter()
    unchanged = number = 0
    # (requests of the C library itself change nothing: the end is a long run of runs that are as ever)
    while unchanged < 50:
        number += 1
        ran = where.run(given, {"LD_PRELOAD": shim, "REFUSE": str(number)})
        came = replies_to(given, ran.stdout.decode()), where.kept()
        if ran.returncode == 0 and came == whole:
            unchanged += 1
            continue
        unchanged = 0
        told = ran.stderr.split(b"\n")[0]
        if ran.returncode == 1 and told in where.stopped and not ran.stdout and came[1] == nothing:
            changed[f"before a line, {told.decode()}"] += 1
        elif ran.returncode == 0 and came in allowed:
            changed["a command, and a halt" if ["refused 15 DeviceFault"] in came[0] else "a line's reply"] += 1
        else:
            raise Wrong(f"request {number}: status {ran.returncode}, {ran.stdout!r}, {ran.stderr!r}, kept {came[1]!r}")
    print(f"over {where.name}: refused requests that changed the outcome, each as allowed: {dict(changed)}")


def formatted_again(program, room, shim):
    """Whether a disk that was not formatted leaves no file, each request being refused from the Nth on."""
    folder, number, status = pathlib.Path(room, "again"), 0, 1
    while status:
        number += 1
        shutil.rmtree(folder, ignore_errors=True)
        folder.mkdir()
        refused = {"LD_PRELOAD": shim, "REFUSE": str(number), "LASTING": "1"}
        status = run([program, "format", f"{folder}/disk"], [], refused).returncode
        if status and os.listdir(folder):
            print(f"formatting without memory from request {number} on leaves {os.listdir(folder)}")
            return False
    print(f"formatting without memory, from each of {number - 1} requests on, leaves no file")
    return True


def random_lines(seed, count):
    """Commands as those of the kills, with lists and turns among them."""
    dice = random.Random(seed)
    return [dice.choice([kills.random_line(dice)] * 4 + ["list", "turn"]) for _ in range(count)]


def tried(places, shim, seed, given):
    """Whether each run on these lines ended as it may."""
    try:
        for where in places:
            refuse_each(where, shim, given)
    except (Wrong, subprocess.TimeoutExpired) as wrong:
        print(f"{'the stored lines' if seed is None else f'{len(given)} lines of seed {seed}'}: {wrong}")
        if seed is not None:
            campaign.keep("refuse_memory", f"{seed} {len(given)}")
        return False
    return True


def main():
    words = campaign.words(__doc__)
    words.add_argument("--random", type=int, default=LINES, help=f"how many random lines ({LINES})")
    options = campaign.given(words)
    stored = (campaign.top / "crates/motcar/stdin").read_text().splitlines()
    kept = [tuple(map(int, it.split())) for it in campaign.corpus("refuse_memory")]
    with tempfile.TemporaryDirectory() as room:
        shim = f"{room}/refuse.so"
        source = campaign.top / "campaigns/refuse.c"
        subprocess.run(["cc", "-O2", "-shared", "-fPIC", "-o", shim, source, "-ldl"], check=True)
        places = InMemory(options.program), OnFile(options.program, room)
        done = [tried(places, shim, None, stored)]
        for seed, count in [*kept, (options.seed, options.random)]:
            done.append(tried(places, shim, seed, random_lines(seed, count)))
        done += [formatted_again(options.program, room, shim)]
    return 0 if all(done) else 1


sys.exit(main())
