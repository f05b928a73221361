#!/usr/bin/env python3
"""The short campaigns of the gate: hostile disks, hostile lines, kills, two stations, and listeners, side by side, within a
minute on two cores.

    campaigns/short.py [PROGRAM] [--seed N]

The corpus of each comes first.
"""
import pathlib
import subprocess
import sys
import time

import campaign

here = pathlib.Path(__file__).resolve().parent
# So many as take half a minute at most beside the others, on two cores.
RUNS = (
    ("hostile.py", "--disks", "5000", "--lines", "0", "--jobs", "2"),
    ("hostile.py", "--disks", "0", "--lines", "100000"),
    ("kills.py", "--rounds", "150"),
    ("stations.py",),
    ("listeners/run.py", "--windows", "5000", "--jobs", "1"),
)
# The gate tries the same each time: a change that it refuses is at fault, and not the hour.
SEED = 1


def main():
    words = campaign.words(__doc__, SEED)
    options, began = campaign.given(words), time.monotonic()
    runs = []
    for script, *counts in RUNS:
        given = [sys.executable, here / script, options.program, "--seed", str(options.seed), *counts]
        runs.append(subprocess.Popen(given, stdout=subprocess.PIPE, stderr=subprocess.STDOUT, text=True))
    failed = 0
    for counts, it in zip(RUNS, runs):
        printed, _ = it.communicate()
        print(printed, end="")
        if it.returncode:
            failed += 1
            print(f"FAILED: campaigns/{' '.join(counts)} --seed {options.seed} (status {it.returncode})")
    print(f"campaigns/short.py: {len(RUNS) - failed} of {len(RUNS)} campaigns as they should be, "
          f"{time.monotonic() - began:.0f} seconds")
    return 1 if failed else 0


sys.exit(main())
