"""What the campaigns share: the words that they are called with, their seed, and the corpus, which has the rows that
once failed."""
import argparse
import pathlib
import sys
import time

sys.dont_write_bytecode = True
top = pathlib.Path(__file__).resolve().parent.parent
sys.path.insert(0, str(top))
from tests import program

CORPUS = top / "campaigns/corpus"
# Of a fault that many cases show, a few rows are enough.
KEPT_AT_ONCE = 3
kept = []


def words(page, seed=None):
    """The words of a campaign, to which it adds its own; `page` is what it says of itself. Without a seed of its own it
    takes one from the clock."""
    found = argparse.ArgumentParser(description=page, formatter_class=argparse.RawDescriptionHelpFormatter)
    found.add_argument("program", nargs="?", metavar="PROGRAM", help="the built program (the one that the tests find)")
    which = "from the clock" if seed is None else str(seed)
    seed = time.time_ns() // 1_000 % 1_000_000 if seed is None else seed
    found.add_argument("--seed", type=int, metavar="N", default=seed, help=f"of what is random ({which})")
    return found


def given(found):
    """What was given. The seed is printed first, since the same seed makes the same disks, lines and commands again."""
    options = found.parse_args()
    options.program = str(pathlib.Path(options.program).resolve()) if options.program else program.find()
    print(f"{pathlib.Path(sys.argv[0]).name}: --seed {options.seed}", flush=True)
    return options


def corpus(name):
    """The rows of a file of the corpus."""
    path = CORPUS / f"{name}.txt"
    lines = path.read_text().splitlines() if path.exists() else []
    return [it for it in lines if it and not it.startswith("#")]


def keep(name, row):
    """Adds what failed to the corpus, from where each later run takes it first; but no more than a few rows a run."""
    if row in corpus(name) or len(kept) == KEPT_AT_ONCE:
        return
    kept.append(row)
    print(f"kept in campaigns/corpus/{name}.txt, which each later run takes first: {row}")
    with open(CORPUS / f"{name}.txt", "a") as file:
        file.write(f"{row}\n")
