"""The programs that the tools of this folder compare: the built one, which the environment variable MOTCAR may name,
and those in C, which are compiled for each run."""
import argparse
import pathlib
import subprocess
import sys

sys.dont_write_bytecode = True
here = pathlib.Path(__file__).resolve().parent
sys.path.insert(0, str(here.parent))
from tests import program as built

# (help is there without a program)
program = "" if {"-h", "--help"} & set(sys.argv[1:]) else built.find()


def words(page, rounds):
    """The options of a tool, to which it adds its own; `page` is what it says of itself."""
    found = argparse.ArgumentParser(description=page, formatter_class=argparse.RawDescriptionHelpFormatter)
    found.add_argument("--rounds", type=int, default=rounds, metavar="N", help=f"how often each is measured ({rounds})")
    return found


def compiled(room, name):
    """The C program of this name, in a folder."""
    subprocess.run(["cc", "-O2", "-o", f"{room}/{name}", here / f"{name}.c"], check=True)
    return f"{room}/{name}"
