#!/usr/bin/env python3
"""Runs the simulation on seeds that no one has run before, for hours.

    campaigns/simulation/run.py [--hours H] [--from SEED] [--processes N] [PROGRAM]

Run it at the top of the repository. Without a PROGRAM it builds one, without a proof ([building.py](building.py)). The seeds go up from the day's number times ten million, so each
night tries others. It ends after H hours (1), or at the first seed that goes wrong: then it prints the seed, what is
wrong, and the file with its calls, and its exit status is 1.
"""
import argparse
import datetime
import os
import pathlib
import subprocess
import sys
import tempfile
import time

sys.dont_write_bytecode = True
sys.path.insert(0, str(pathlib.Path(__file__).resolve().parent))
import building  # noqa: E402

# Seeds of one run of the program, ten seconds.
PIECE = 300


def words():
    found = argparse.ArgumentParser(description=__doc__, formatter_class=argparse.RawDescriptionHelpFormatter)
    found.add_argument("program", nargs="?", metavar="PROGRAM")
    found.add_argument("--hours", type=float, default=1)
    found.add_argument("--from", type=int, dest="first", metavar="SEED",
                       default=datetime.date.today().toordinal() * 10_000_000)
    found.add_argument("--processes", type=int, default=os.cpu_count())
    return found.parse_args()


def told(seeds, said):
    """What a run of the program said, if a seed went wrong."""
    wrong = said.splitlines()[-1] if said.strip() else f"seeds from {seeds} on: no answer"
    with tempfile.NamedTemporaryFile("w", prefix="simulate-", suffix=".txt", delete=False) as calls:
        calls.write(said)
    return f"{wrong}\nits calls: {calls.name}"


def run(program, options):
    """Runs pieces side by side; what is wrong, or None."""
    end, seed, at_work = time.monotonic() + options.hours * 3600, options.first, {}
    while at_work or time.monotonic() < end:
        while len(at_work) < options.processes and time.monotonic() < end:
            said = tempfile.TemporaryFile("w+", errors="replace")
            at_work[seed] = subprocess.Popen([program, str(PIECE), str(seed)], stdout=said), said
            seed += PIECE
        for first, (process, said) in list(at_work.items()):
            if process.poll() is None:
                continue
            del at_work[first]
            said.seek(0)
            if process.returncode != 0:
                for other, _ in at_work.values():
                    other.terminate()
                return told(first, said.read())
        time.sleep(0.1)
    print(f"seeds {options.first} to {seed - 1}: 0 wrong")
    return None


def main():
    options = words()
    with tempfile.TemporaryDirectory(prefix="simulate-") as room:
        program = options.program or str(pathlib.Path(room, "simulate"))
        wrong = None if options.program else building.build(program)
        print(f"run.py: --from {options.first}", flush=True)
        wrong = wrong or run(program, options)
    if wrong:
        sys.exit(wrong)


if __name__ == "__main__":
    main()
