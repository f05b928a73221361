#!/usr/bin/env python3
"""Runs `wrong_bodies.py` over a crate of its own, with wrong bodies of every kind, and looks at what it says of each.

It takes a minute or two: the prover itself judges.
"""
import os
import pathlib
import re
import subprocess
import sys
import tempfile

TOP = pathlib.Path(__file__).resolve().parent
SOURCE = """\
//! Functions to try wrong bodies of.
#![tactic(auto)]
ghost use Rattle.std.specs.Prelude.{◌≡◌, ◌+◌, ◌*◌, ◌≤◌};

mod far;

const STEP: u8 = 1;

/// A number that is counted up.
pub struct Counter {
    /// How far it is.
    pub number: u8,
}

impl Counter {
    /// How far it is after one step more.
    pub fn next(&self) -> u8
        requires { self.now.number ≤ 100 }
        ensures number { result ≡ self.now.number + 1 }
    {
        self.number + STEP
    }
}

/// How far it is after two steps more.
pub fn after_next(counter: &Counter) -> u8
    requires { counter.now.number ≤ 99 }
    ensures number { result ≡ counter.now.number + 2 }
{
    let next = counter.next();
    next + STEP
}

/// So many threes.
pub fn threes(count: u8) -> u64
    ensures sum { result ≡ 3 * count }
{
    let mut sum = 0;
    let mut left = count;
    while left > 0 {
        sum += 3;
        left -= 1;
    }
    sum
}
"""
FAR = """\
//! Longer ways.
ghost use Rattle.std.specs.Prelude.{◌≡◌, ◌+◌, ◌≤◌};

use crate::Counter;

impl Counter {
    /// How far it is after ten steps more.
    pub fn after_ten(&self) -> u8
        requires { self.now.number ≤ 90 }
        ensures number { result ≡ self.now.number + 10 }
    {
        self.number + 10
    }
}
"""
INVARIANTS = """\
use Rattle.std.proofs.Common.{◌≡◌, ◌+◌, ◌*◌, ◌≤◌}
use Rattle.small.proofs.threes.Given as goal

abbrev pub invariant-loop-left : goal.invariant-loop-left
invariant-loop-left l = (l.sum + 3 * l.left ≡ 3 * l.count) × (l.left ≤ l.count)

abbrev pub decreases-loop-left : goal.decreases-loop-left
decreases-loop-left l = l.left
"""
# Of each edit: its lines `old:` and `new:`, others, and what is said of it. The first batch has four bodies, each of another function; the next
# two have bodies of the same functions, and leave them open, as one does not compile and one is right; the edits of a constant stand alone.
EDITS = {
    "a_method_elsewhere": ("self.number + 10", "self.number + 11", "file: src/far.rt\n", r"refused by returns"),
    "a_step_of_none": ("self.number + STEP", "self.number + 0", "", r"refused by returns"),
    "a_step_too_far": ("    next + STEP", "    next + STEP + STEP", "", r"refused by returns"),
    "begins_at_one": ("let mut sum = 0;", "let mut sum = 1;", "", r"refused by loop-left-init"),
    "begins_above": ("let mut left = count;", "let mut left = count + 1;", "", r"refused by .*"),
    "does_not_compile": ("    next + STEP", "    next + nothing", "", r"BAD: it does not reach the prover: .*nothing.*"),
    "has_gone": ("sum += 4;", "sum += 5;", "", r"BAD: there is no such file, or an old: text does not stand in it once"),
    "means_the_same": ("let next = counter.next();", "let next = counter.next() + 0;", "", r"PASSED"),
    "names_another_local": ("let mut left = count;\n    while left > 0 {\n        left -= 1;", "let mut rest = count;\n    while rest > 0 {\n        rest -= 1;",
                            "", r"IDLE: a proof names what went: .*"),
    "of_a_constant": ("const STEP: u8 = 1;", "const STEP: u8 = 2;", "at: Counter::next\n", r"refused by returns"),
    "of_a_constant_alone": ("const STEP: u8 = 1;", "const STEP: u8 = 3;", "", r"refused by returns of Counter::next"),
}


def write(folder, name, old, new, others):
    """An edit has one pair a line of its old text."""
    pairs = zip(old.split("\n"), new.split("\n"))
    text = f"file: src/lib.rt\n{others}" + "".join(f"old: {one}\nnew: {other}\n" for one, other in pairs)
    (folder / f"{name}.edit").write_text(text)


def main():
    failed = 0

    def expect(row, wanted, came):
        nonlocal failed
        if not re.fullmatch(wanted, came, re.S):
            failed += 1
            print(f"{row}: wanted {wanted}, came {came}")

    with tempfile.TemporaryDirectory(prefix="motcar-wrong-tests-") as room:
        top, environment = pathlib.Path(room), {**os.environ, "XDG_CACHE_HOME": f"{room}/cache"}

        def tried(*words):
            ran = subprocess.run([TOP / "wrong_bodies.py", *words], cwd=top, env=environment, capture_output=True, text=True)
            return ran.returncode, ran.stdout, dict(re.findall(r"^small/(\w+): (.*)$", ran.stdout, re.M))

        folder = top / "crates/small"
        for it in ("src", "proofs/threes", "wrong"):
            (folder / it).mkdir(parents=True)
        (top / "crates.txt").write_text("# Each crate.\nsmall:\n")
        (folder / "src/lib.rt").write_text(SOURCE)
        (folder / "src/far.rt").write_text(FAR)
        (folder / "proofs/threes/Invariants.antt").write_text(INVARIANTS)
        for name, (old, new, others, _) in EDITS.items():
            write(folder / "wrong", name, old, new, others)
        expect("a look", r"small/has_gone: BAD: .*\n11 edits, 0 remembered; the others take 5 checks\n", tried("--look")[1])
        status, said, results = tried("--jobs", "2")
        expect("status", "1", str(status))
        for name, (*_, wanted) in EDITS.items():
            expect(name, wanted, results.get(name, said))
        expect("the count", r".*\n0 remembered, 9 checks, \d+ minutes of processor time\nwrong bodies: 7 refused, 4 not\n", said)
        for it in ("does_not_compile", "has_gone", "means_the_same", "names_another_local"):
            (folder / f"wrong/{it}.edit").unlink()
        expect("what was refused is remembered", r"0 small/.*\n7 remembered, 0 checks, .*: 7 refused, 0 not\n", "{} {}".format(*tried("small")))
        (folder / "src/lib.rt").write_text(SOURCE.replace("self.number + STEP", "self.number + 2"))
        expect("a crate that is not proved", r"1 .*begins_at_one: NOT TRIED: as it stands the crate is not proved: .*", "{} {}".format(*tried()))
    rows = len(EDITS) + 5
    print(f"{sys.argv[0]}: {rows - failed} of {rows} rows as they should be")
    return 1 if failed else 0


if __name__ == "__main__":
    sys.exit(main())
