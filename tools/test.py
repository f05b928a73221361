#!/usr/bin/env python3
"""The tests, in two parts: first what needs no proof, and then what needs the proved program.

    tools/test.py [--quick | --checks | --program PROGRAM]

`./motcar test` calls it. The first part builds the program without a proof, and runs over it the rows that it answers
as a proved one does; beside it the worked examples of the libraries, the linters and the tables. It takes some three
minutes on four cores, and proves nothing. --quick ends there, and --checks leaves out what the program does. The second
part has the launcher make the proved program, and runs over it all rows, the blocks of the manual and the short
campaigns. --program is this part alone, over a program that was proved elsewhere. Each step has a line; what failed
comes last, and then `N passed, M failed`.
"""
import argparse
import concurrent.futures
import dataclasses
import os
import pathlib
import re
import shutil
import subprocess
import sys
import tempfile
import time

TOP = pathlib.Path(__file__).resolve().parent.parent
# The files of rows that a program without a proof answers as the proved one does, and in less than a minute.
TRIED = [f"test_{it}" for it in (
    "memory lines words directory dab format serve check ids outputs reasons types hints migrate copy by_hand "
    "beside completions early flushes follow inspect lasting").split()]
# What a step says of how much passed, failed and was left out.
COUNTS = [
    re.compile(r"^tests: (?P<passed>\d+) rows in \d+ tests, (?P<failed>\d+) failed, (?P<skipped>\d+) skipped$", re.M),
    re.compile(r"^test result: .*? (?P<passed>\d+) passed; (?P<failed>\d+) failed", re.M),
    re.compile(r": (?P<passed>\d+) of \d+ rows as they should be$", re.M),
]


@dataclasses.dataclass
class Step:
    """One program that is run, and what it is called."""
    name: str
    words: list
    folder: str = "."
    program: str = ""


@dataclasses.dataclass
class Ended:
    """What a step came to."""
    step: Step
    status: int
    said: str
    passed: int
    skipped: int
    failed: int


def run(step):
    """Runs a step, and prints a line of it."""
    began = time.monotonic()
    more = {"MOTCAR": step.program} if step.program else {}
    ran = subprocess.run(step.words, cwd=TOP / step.folder, env={**os.environ, **more}, stdin=subprocess.DEVNULL,
                         stdout=subprocess.PIPE, stderr=subprocess.STDOUT, text=True, errors="replace", check=False)
    found = next((it for it in (count.search(ran.stdout) for count in COUNTS) if it), None)
    counted = {key: int(value) for key, value in (found.groupdict() if found else {}).items()}
    # (a step that counts nothing is one)
    failed = counted.get("failed", 0) or (1 if ran.returncode else 0)
    passed = counted.get("passed", 0 if failed else 1)
    ended = Ended(step, ran.returncode, ran.stdout, passed, counted.get("skipped", 0), failed)
    words = [f"{passed} passed"] + [f"{failed} FAILED"] * bool(failed) + [f"{ended.skipped} skipped"] * bool(ended.skipped)
    print(f"  {step.name}: {', '.join(words)} ({time.monotonic() - began:.0f} s)", flush=True)
    return ended


def side_by_side(steps):
    with concurrent.futures.ThreadPoolExecutor(len(steps)) as pool:
        return list(pool.map(run, steps))


CHECKS = [
    Step("linters", ["tools/lint.sh"]),
    Step("tables of definitions", ["tools/believed.py", "--check"]),
    Step("images of disks", ["tools/images.py", "--check"]),
    Step("pages", ["tools/documents.py"]),
    Step("the launcher", ["tools/check_launcher.py"]),
]


def without_a_proof(room):
    """The first part. A program that could not be built has no rows."""
    tried = str(pathlib.Path(room) / "tried")
    ended = side_by_side([
        Step("the program, built without a proof", ["tools/tried.py", tried]),
        Step("worked examples at the calls of the libraries", ["rt", "try", "--test"], "crates/public_names"),
        *CHECKS,
    ])
    if ended[0].failed:
        return ended
    return [*ended, run(Step("rows over that program", [sys.executable, "-m", "tests", *TRIED], program=tried))]


def with_the_program(program):
    """The second part, over a proved program."""
    steps = [
        Step("rows", [sys.executable, "-m", "tests"], program=program),
        Step("blocks of the manual", ["tools/operating.py", program]),
        Step("short campaigns", ["campaigns/short.py", program]),
    ]
    if shutil.which("strace"):
        steps.append(Step("calls on files", ["tools/file_calls.py", program, "--check"]))
    else:
        print("  calls on files: skipped: no strace", flush=True)
    return side_by_side(steps)


def proved():
    """The program that the launcher proves and builds if it has to, or None."""
    print("then with the proved program:", flush=True)
    ran = subprocess.run([TOP / "motcar", "help"], env={**os.environ, "MOTCAR_BUILD": "proved"}, stdin=subprocess.DEVNULL,
                         stdout=subprocess.DEVNULL, check=False)
    return None if ran.returncode else str(TOP / "build/motcar")


def report(ended, is_quick, is_missing):
    """Prints what failed, and the sum; the status."""
    for it in ended:
        for line in it.said.split("\n"):
            if line.startswith("skipped: ") or ": skipped: " in line:
                print(line)
    for it in ended:
        if it.failed:
            words = f"MOTCAR={it.step.program} {' '.join(it.step.words)}" if it.step.program else " ".join(it.step.words)
            print(f"FAILED: {it.step.name}: {words} (status {it.status})", *it.said.split("\n")[-40:], sep="\n")
    if is_missing:
        print("FAILED: there is no proved program: see build/log")
    if is_quick:
        print("nothing of this is proved: `./motcar test` goes on with the proved program, and `.ci/run` proves all")
    failed = sum(it.failed for it in ended) + is_missing
    print(f"{sum(it.passed for it in ended)} passed, {failed} failed", flush=True)
    return 1 if failed else 0


def main():
    words = argparse.ArgumentParser(description="Runs the tests: what needs no proof, and then what needs the proved program.")
    parts = words.add_mutually_exclusive_group()
    parts.add_argument("--quick", action="store_true", help="what needs no proof, alone")
    parts.add_argument("--checks", action="store_true", help="the linters, tables and pages, alone")
    parts.add_argument("--program", type=pathlib.Path, help="what needs a proved program, alone, over this one")
    options = words.parse_args()
    if options.program:
        return report(with_the_program(str(options.program.resolve())), False, 0)
    if options.checks:
        return report(side_by_side(CHECKS), False, 0)
    print("without a proof:", flush=True)
    with tempfile.TemporaryDirectory(prefix="motcar-tests-") as room:
        # (rows of another user run the program, too)
        os.chmod(room, 0o755)
        ended = without_a_proof(room)
    if options.quick:
        return report(ended, True, 0)
    program = proved()
    return report(ended + with_the_program(program), False, 0) if program else report(ended, False, 1)


if __name__ == "__main__":
    sys.exit(main())
