#!/usr/bin/env python3
"""Tries the wrong bodies of crates, several in one check: the prover must refuse each.

    tools/wrong_bodies.py [--look] [--anew] [--jobs N] [CRATE..]

Run it at the top of the repository; with no CRATE it tries those of all crates. A wrong body is a file
crates/CRATE/wrong/NAME.edit with a line `file: src/a.rt`, and pairs of lines `old: TEXT` and `new: TEXT`. An old TEXT
stands exactly once in that file. An edit that changes no body, as that of a constant, names in a line `at: PATH` the
function whose proof refuses it.

A check looks at the edited functions and those that they call, over what the checks before it proved. It says of each
function whether a goal of its own fails, or only a function that it calls. So one check tries a wrong body of each
function. What it leaves open is tried alone. Each edit has a line, `CRATE/NAME: refused by GOAL`, or

    PASSED       it is still proved
    BAD          it does not apply, or does not reach the prover
    IDLE         it is refused only because a proof names what it took away
    NOT TRIED    there is no verdict

The status is 0 if all were refused. --look only looks whether each applies, and counts the checks. What was refused is
remembered in ~/.cache/motcar-wrong-bodies by the texts of the edit, of its crate and of the crates below, and by the
toolchain; --anew tries it again. --jobs N works on N crates at once: as many as there are processors, if it is not
given. The libraries below a crate are those that the gate left in out/; build/gate has its time. If a source is newer, or
there is none of them, `rt check` proves the crate, and makes them.
"""
import argparse
import concurrent.futures
import dataclasses
import functools
import hashlib
import os
import pathlib
import re
import resource
import shutil
import subprocess
import sys
import tempfile

PARTS = ("src", "specs", "proofs")
FUNCTION = re.compile(r"^( *)(?:pub(?:\([a-z]+\))? )?(?:const )?(?:unsafe )?fn (\w+)", re.M)
TYPE = re.compile(r"^(?:pub(?:\([a-z]+\))? )?(?:struct|enum|union|trait) (\w+)", re.M)
BLOCK = re.compile(r"^(?:pub )?(?:impl|trait)\b[^{;]*", re.M)
# What the toolchain says of a function, a type or an impl; of a goal without an answer; of an error in a proof file.
JUDGED = re.compile(r"^[a-z]+ \w+?::(\S+): (not proved|no proof|could not tell|not stated)(.*)", re.M)
NOTE = re.compile(r"^note: (src/\S+):(\d+):\d+: it is not proved that .*?\(`([\w-]+)`\)", re.M)
ERROR = re.compile(r"^(?:\./)?proofs/(\S+)/\w+\.antt:\d+:\d+: error: (?:`([\w-]+)`: )?(.*)", re.M)
# What is said where a proof names something that went, or cites such a proof.
WENT = re.compile(r"has no field|is not in scope|has no `|was not admitted")
VERDICT = re.compile(r"^(only=\d+ proved=\d+|logic=not-proved|rattle: no verdict)", re.M)
NO_FUNCTION = re.compile(r"has no function `([^`]+)`|`([^`]+)` fits several")
REFUSED = "refused by "


class NotApplied(Exception):
    """An edit whose old text does not stand once in its file."""


@dataclasses.dataclass
class Edit:
    """A wrong body: the texts that it changes, and the functions in whose bodies they stand, or whose proof refuses it."""
    crate: "Crate"
    name: str
    text: str
    changes: list
    functions: set = dataclasses.field(default_factory=set)
    is_of_bodies: bool = False
    result: str = ""

    def __str__(self):
        return f"{self.crate.name}/{self.name}"


@dataclasses.dataclass(frozen=True)
class Crate:
    """A crate of the repository, with the names that its line in crates.txt lists."""
    top: pathlib.Path
    name: str
    needs: tuple

    @property
    def folder(self):
        return self.top / "crates" / self.name

    def sources(self):
        return sorted(it for part in PARTS for it in (self.folder / part).rglob("*") if it.is_file())

    def library(self):
        return self.folder / "out/rlib" / f"{self.name}.rlib"

    def is_made(self):
        """Whether the gate made the library of the sources as they are: `rt check` leaves a stamp beside its own."""
        gate, made = self.top / "build/gate", self.library()
        return gate.is_file() and made.is_dir() and not (made.parent / "stamp").is_file() and \
            gate.stat().st_mtime > max(it.stat().st_mtime for it in self.sources())


class Repository:
    """The crates, and the toolchain that checks them."""

    def __init__(self, top):
        lines = (re.match(r"(\w+):(.*)", it) for it in (top / "crates.txt").read_text().split("\n"))
        self.crates = {it[1]: Crate(top, it[1], tuple(it[2].split())) for it in lines if it}
        page = subprocess.run(["rt", "doc"], capture_output=True, text=True, check=True).stdout.strip()
        self.kit = pathlib.Path(page).parent
        self.version = subprocess.run(["rt", "version"], capture_output=True, check=True).stdout

    @functools.lru_cache(None)
    def below(self, crate):
        """The repository's crates below this one, lowest first."""
        near = [self.crates[it] for it in crate.needs if it in self.crates]
        return list(dict.fromkeys(far for it in near for far in [*self.below(it), it]))

    @functools.lru_cache(None)
    def sum_of(self, crate):
        """A sum of all that a verdict on the crate's functions rests on."""
        texts = [(str(it.relative_to(crate.folder)), it.read_bytes()) for it in crate.sources()]
        whole = self.version, crate.needs, texts, [self.sum_of(it) for it in self.below(crate)]
        return hashlib.sha256(repr(whole).encode()).hexdigest()

    def check(self, crate, folder, kept, functions):
        """The status and the output of a check of the crate's copy in the folder: of these functions, or of all."""
        root = "src/main.rt" if (folder / "src/main.rt").is_file() else "src/lib.rt"
        words = [self.kit / "bin/rattle", "check", "--crate-name", crate.name, root, "--jobs", "1"]
        for name in ("std", *crate.needs):
            here = self.crates[name].library() if name in self.crates else self.kit / "rlibs" / f"{name}.rlib"
            words += ["--extern", f"{name}={here}"]
        for it in [self.kit / "rlibs", *(far.library().parent for far in self.below(crate))]:
            words += ["-L", f"dependency={it}"]
        words += ["--antt-project", self.kit / "rattle/logic/antt-project.json", "--logic-built", self.kit / "logic_built"]
        words += ["--incremental", kept, *(word for it in sorted(functions) for word in ("--only", it))]
        return run(words, folder)


def run(words, folder):
    ran = subprocess.run(words, cwd=folder, stdin=subprocess.DEVNULL, stdout=subprocess.PIPE, stderr=subprocess.STDOUT,
                         text=True, errors="replace", check=False)
    return ran.returncode, ran.stdout


def module_of(file):
    return [it for it in file[len("src/"):-len(".rt")].split("/") if it not in ("lib", "main", "mod")]


def block_name(head):
    """What the toolchain calls a block of methods: the type, or the type and the trait, or the trait."""
    head = head.replace("->", "")
    while "<" in head and head != (less := re.sub(r"<[^<>]*>", "", head)):
        head = less
    head = re.sub(r"^(pub )?(impl|trait)|\bwhere\b.*|:(?!:).*", "", head, flags=re.S)
    words = [it.rpartition("::")[2].strip() for it in head.split(" for ")]
    return "".join(reversed(words))


@functools.lru_cache(None)
def homes(crate):
    """The modules of the crate's types, by their names."""
    texts = {it: it.read_text() for it in crate.sources() if it.suffix == ".rt"}
    return {name: module_of(str(it.relative_to(crate.folder))) for it, text in texts.items() for name in TYPE.findall(text)}


def function_at(crate, file, text, at, with_head=False):
    """The path of the function in whose body, or whole text, the position is, by the layout of `rt fmt`; or None."""
    found = None
    for it in FUNCTION.finditer(text if file.startswith("src/") else ""):
        opens = re.compile(rf"^{it[1]}(\S.*)?{{$", re.M).search(text, it.start())
        begin = opens and (it.start() if with_head else opens.end())
        if opens and begin <= at <= text.find(f"\n{it[1]}}}", opens.end()):
            found = it
    if not found:
        return None
    block = [it[0] for it in BLOCK.finditer(text, 0, found.start())][-1:] if found[1] else []
    names = [block_name(it) for it in block]
    # (a method of a type stands where the type does, and one of a trait where it is written)
    module = homes(crate).get(*names, module_of(file)) if block and " for " not in block[0] else module_of(file)
    return "::".join([*module, *names, found[2]])


def is_of(name, functions):
    """Whether the toolchain's name is that of one of these functions, or of a closure in it."""
    words = [it for it in name.split("::") if it != "fn"]
    return any(words[:len(it)] == it for it in (path.split("::") for path in functions))


def texts_with(edits):
    """The texts with these edits, by file."""
    texts = {}
    for edit in edits:
        for file, old, new in edit.changes:
            path = edit.crate.folder / file
            text = texts.get(file) or (path.read_text() if path.is_file() else "")
            if text.count(old) != 1:
                raise NotApplied
            texts[file] = text.replace(old, new)
    return texts


def changed_functions(edit):
    """The functions in whose bodies the edit changes something."""
    texts = {file: (edit.crate.folder / file).read_text() for file, _, _ in edit.changes}
    found = set()
    for file, old, new in edit.changes:
        same = len(os.path.commonprefix([old, new]))
        found.add(function_at(edit.crate, file, texts[file], texts[file].index(old) + min(same, len(old) - 1)))
        texts[file] = texts[file].replace(old, new)
    return found - {None}


def read_edit(crate, path):
    text, file, changes, functions = path.read_text(), "", [], set()
    for named, place, old, new in re.findall(r"^(?:file: (.*?) *|at: (.*?) *|old: (.*)\nnew: ?(.*))$", text, re.M):
        file = named or file
        functions |= {place} - {""}
        changes += [] if named or place else [(file, old, new)]
    edit = Edit(crate, path.stem, text, changes, functions)
    try:
        texts_with([edit])
        changed = changed_functions(edit)
        edit.functions, edit.is_of_bodies = functions or changed, not functions and bool(changed)
    except NotApplied:
        edit.result = "BAD: there is no such file, or an old: text does not stand in it once"
    return edit


def batches_of(edits):
    """Each edit in the first batch that has none of its functions, and is not in its way."""
    def fits(edit, batch):
        try:
            texts_with([*batch, edit])
        except NotApplied:
            return False
        return edit.is_of_bodies and not any(not it.is_of_bodies or it.functions & edit.functions for it in batch)

    batches = []
    for edit in edits:
        batch = next((it for it in batches if fits(edit, it)), None)
        batches.append([edit]) if batch is None else batch.append(edit)
    return batches


def judged(crate, said):
    """What failed by itself, with the goals that refused it, by the toolchain's names; None if there is no verdict."""
    if not VERDICT.search(said):
        return None
    found = {}
    for name, what, why in JUDGED.findall(said):
        if what != "no proof" or not why.startswith(": it calls"):
            searched = why.partition("`search` did not prove ")[2].partition("; it calls")[0]
            found[name] = re.findall(r"`([\w-]+)`", searched) + ["a limit of the prover"] * (what == "could not tell")
    for file, line, goal in NOTE.findall(said):
        # (an edit changes lines, and adds none)
        text = (crate.folder / file).read_text()
        at = len("".join(text.splitlines(True)[:int(line) - 1]))
        path = function_at(crate, file, text, at, with_head=True)
        for name in [it for it in found if path and is_of(it, [path])]:
            found[name].append(goal)
    for file, goal, why in ERROR.findall(said):
        if goal and not WENT.search(why):
            found.get(file.replace("/", "::"), []).append(goal)
    return {name: ", ".join(dict.fromkeys(goals)) for name, goals in found.items()}


def decided(edit, found):
    """The edit's result by the goals of its own functions, or ""."""
    goals = [goals for name, goals in found.items() if goals and is_of(name, edit.functions)]
    return REFUSED + ", ".join(goals) if goals else ""


def decided_alone(edit, status, said):
    found, lines = judged(edit.crate, said), [it[:200] for it in said.split("\n") if it] or [""]
    errors = [it for it in lines if re.search(r"error(\[[\w-]+\])?:", it)] or lines
    if status == 0 or found is None:
        why = {0: "PASSED", 1: f"BAD: it does not reach the prover: {errors[0]}"}
        return why.get(status, f"NOT TRIED: status {status}: {errors[0]}")
    others = [f"{goals} of {name}" for name, goals in found.items() if goals]
    others += [it for it in errors if ".antt:" in it and not WENT.search(it)]
    return decided(edit, found) or (REFUSED + others[0] if others else f"IDLE: a proof names what went: {errors[0]}")


class Trial:
    """A crate's edits, tried one batch after the other over what the checks before proved."""

    def __init__(self, repository, crate, room):
        self.repository, self.crate, self.room, self.checks = repository, crate, room, 0
        (room / "kept").mkdir()

    def check(self, edits):
        """The status and the output of a check of the crate with these edits."""
        folder = self.room / "crate"
        shutil.rmtree(folder, ignore_errors=True)
        for part in PARTS:
            if (self.crate.folder / part).is_dir():
                shutil.copytree(self.crate.folder / part, folder / part)
        for file, text in texts_with(edits).items():
            (folder / file).write_text(text)
        self.checks += 1
        functions = set().union(*(it.functions for it in edits)) if all(it.functions for it in edits) else set()
        status, said = self.repository.check(self.crate, folder, self.room / "kept", functions)
        gone = NO_FUNCTION.search(said) if status == 2 else None
        name = gone and (gone[1] or gone[2])
        if name in functions:
            # (a name that was guessed wrong: all functions of its module are looked at)
            for edit in edits:
                edit.functions = {it.rpartition("::")[0] if it == name else it for it in edit.functions} - {""}
            return self.check(edits)
        return status, said

    def try_batch(self, batch):
        """Decides what it can of a batch: nothing, if a function failed that no edit of it changes."""
        found = judged(self.crate, self.check(batch)[1]) or {}
        functions = set().union(*(it.functions for it in batch))
        for edit in batch if all(is_of(it, functions) for it in found) else []:
            edit.result = decided(edit, found)

    def try_all(self, edits):
        for batch in batches_of(edits):
            if len(batch) > 1:
                self.try_batch(batch)
            for edit in batch:
                edit.result = edit.result or decided_alone(edit, *self.check([edit]))


def is_ready(repository, crate):
    """Makes the libraries below the crate, if the gate did not; returns why the crate can't be tried, or ""."""
    if all(it.is_made() for it in [*repository.below(crate), crate]):
        return ""
    status, said = run(["rt", "check", "--jobs", "1"], crate.folder)
    return f"NOT TRIED: as it stands the crate is not proved: {said[-200:]!r}" if status else ""


def try_crate(repository, crate, edits):
    """Tries these edits of the crate; how many checks that took."""
    trouble = is_ready(repository, crate)
    if trouble:
        for edit in edits:
            edit.result = trouble
        return 0
    with tempfile.TemporaryDirectory(prefix="motcar-wrong-") as room:
        trial = Trial(repository, crate, pathlib.Path(room))
        trial.try_all(edits)
    return trial.checks


class Memory:
    """What was refused earlier on this machine."""

    def __init__(self, repository, folder):
        self.repository, self.folder = repository, folder
        folder.mkdir(parents=True, exist_ok=True)

    def place(self, edit):
        whole = self.repository.sum_of(edit.crate), edit.text
        return self.folder / hashlib.sha256(repr(whole).encode()).hexdigest()

    def recall(self, edit):
        if self.place(edit).is_file():
            edit.result = self.place(edit).read_text()

    def keep(self, edit):
        if edit.result.startswith(REFUSED):
            with tempfile.NamedTemporaryFile("w", dir=self.folder, delete=False) as it:
                it.write(edit.result)
            os.replace(it.name, self.place(edit))


def tell(edits):
    for edit in edits:
        print(f"{edit}: {edit.result}", flush=True)


def words_given():
    words = argparse.ArgumentParser(description="Tries the wrong bodies of crates, several in one check.")
    words.add_argument("--look", action="store_true", help="only look whether each applies, and count the checks")
    words.add_argument("--anew", action="store_true", help="try again what was refused earlier")
    words.add_argument("--jobs", type=int, default=os.cpu_count(), metavar="N", help="how many crates at once")
    words.add_argument("crates", nargs="*", metavar="CRATE")
    return words.parse_args()


def main():
    options, repository = words_given(), Repository(pathlib.Path.cwd())
    cache = pathlib.Path(os.environ.get("XDG_CACHE_HOME") or pathlib.Path.home() / ".cache")
    memory = Memory(repository, cache / "motcar-wrong-bodies")
    crates = [repository.crates[it] for it in options.crates or repository.crates]
    edits = [read_edit(crate, it) for crate in crates for it in sorted((crate.folder / "wrong").glob("*.edit"))]
    for edit in edits if not options.anew else []:
        if not edit.result:
            memory.recall(edit)
    known = sum(it.result.startswith(REFUSED) for it in edits)
    left = {crate: [it for it in edits if it.crate == crate and not it.result] for crate in crates}
    left = dict(sorted(((crate, some) for crate, some in left.items() if some), key=lambda it: -len(it[1])))
    if options.look:
        bad = [f"{it}: {it.result}" for it in edits if it.result and not it.result.startswith(REFUSED)]
        checks = sum(len(batches_of(it)) for it in left.values())
        print(*bad, f"{len(edits)} edits, {known} remembered; the others take {checks} checks", sep="\n")
        return 1 if bad else 0
    tell([it for it in edits if it.crate not in left])
    checks = 0
    with concurrent.futures.ThreadPoolExecutor(max(options.jobs, 1)) as pool:
        tasks = {pool.submit(try_crate, repository, crate, some): crate for crate, some in left.items()}
        for task in concurrent.futures.as_completed(tasks):
            checks += task.result()
            for edit in left[tasks[task]]:
                memory.keep(edit)
            tell([it for it in edits if it.crate == tasks[task]])
    used, refused = resource.getrusage(resource.RUSAGE_CHILDREN), sum(it.result.startswith(REFUSED) for it in edits)
    print(f"{known} remembered, {checks} checks, "
          f"{(used.ru_utime + used.ru_stime) / 60:.0f} minutes of processor time")
    print(f"wrong bodies: {refused} refused, {len(edits) - refused} not")
    return 1 if refused < len(edits) else 0


if __name__ == "__main__":
    sys.exit(main())
