#!/usr/bin/env python3
"""Plants each fault of mutants/ in a copy of the sources, and runs the simulation until it finds it.

    campaigns/simulation/mutants.py [--seconds N] [WORD..]

Run it at the top of the repository. A WORD picks the faults whose file's name has it. For each one it
applies the patch to a copy of the sources, builds the simulation without a proof ([building.py](building.py)), and runs it
for at most N seconds (60). It prints the seed at which the fault was found, and the question that found it. The exit status is 1 if
one was not found. Each takes two minutes to build.
"""
import pathlib
import re
import subprocess
import sys
import tempfile
import time

sys.dont_write_bytecode = True
HERE = pathlib.Path(__file__).resolve().parent
sys.path.insert(0, str(HERE))
import building  # noqa: E402

# More seeds than fit into any limit.
MANY = 1_000_000


def find(patch, seconds):
    """Whether the fault is found, and what is to be said of it."""
    with tempfile.TemporaryDirectory(prefix="mutant-") as room:
        program = pathlib.Path(room, "program")
        wrong = building.build(program, patch)
        if wrong:
            return False, "is not built:\n" + wrong
        began = time.monotonic()
        try:
            ran = subprocess.run([str(program), str(MANY)], stdout=subprocess.PIPE, timeout=seconds, errors="replace",
                                 check=False)
        except subprocess.TimeoutExpired:
            return False, f"not found in {seconds} s"
        took = time.monotonic() - began
        found = re.findall(r"^seed \d+: .*", ran.stdout, re.M)
        if not found:
            return ran.returncode != 0, f"ended with status {ran.returncode} after {took:.1f} s"
        return True, f"{found[-1]} ({took:.1f} s)"


def main():
    words, seconds = sys.argv[1:], 60
    if words[:1] == ["--seconds"]:
        seconds, words = int(words[1]), words[2:]
    missed = 0
    for patch in sorted((HERE / "mutants").glob("*.patch")):
        if words and not any(word in patch.name for word in words):
            continue
        is_found, said = find(patch, seconds)
        missed += not is_found
        print(f"{patch.stem}: {said}", flush=True)
    sys.exit(1 if missed else 0)


if __name__ == "__main__":
    main()
