#!/usr/bin/env python3
"""Looks whether the documents name what is there: README's length, the clauses in BELIEVE, links and their headings, the
paths of the repository; the manual's contents and options; and in docs/PROMISES.md each function, each label of a clause and each definition; whether
their prose keeps the rules of tools/prose.py, and no sentence stands on two pages; whether each name in crates.txt is
used by the crate that names it, and docs/ARCHITECTURE.md has a row for each crate, in that order.

    tools/documents.py
"""
import functools
import itertools
import pathlib
import re
import sys

sys.dont_write_bytecode = True
import prose

top = pathlib.Path(__file__).resolve().parent.parent
README_LINES = 100
# The crates that are no part of the product.
TESTS = ("mot_memory_files", "mot_tests", "simulate", "public_names")
FOLDERS = ("docs", "tools", "tests", "campaigns", "bench", "packaging", "examples")
PAGES = [*sorted(top.glob("*.md")), *(page for folder in FOLDERS for page in sorted(top.glob(f"{folder}/**/*.md")))]
wrong = []


def anchors(page):
    """The headings of a page, as links name them."""
    heads = re.findall(r"^#+ (.*)$", page.read_text(), re.M)
    return {re.sub(r"[^\w\- ]", "", it).strip().lower().replace(" ", "-") for it in heads}


def links(page):
    text = re.sub(r"```.*?```", "", page.read_text(), flags=re.S)
    for target in re.findall(r"\]\(([^)\s]+)\)", text):
        if "://" in target:
            continue
        path, _, heading = target.partition("#")
        there = (page.parent / path).resolve() if path else page
        if not there.exists():
            wrong.append(f"{page.name}: no file {target}")
        elif heading and heading not in anchors(there):
            wrong.append(f"{page.name}: no heading {target}")


def paths(page):
    """Paths of the repository, and of a crate's files."""
    folders = "|".join((*FOLDERS, "crates"))
    for path in re.findall(rf"(?<![\w/.])((?:{folders})/(?!NAME)[\w./@-]*\w)", page.read_text()):
        if not (top / path).exists() and not (page.parent / path).exists():
            wrong.append(f"{page.name}: no {path}")
    for path in re.findall(r"`((?:mot_\w+|disk_\w+|motcar)/(?:src|specs|proofs)/[\w./-]*\w)`", page.read_text()):
        if not (top / "crates" / path).exists():
            wrong.append(f"{page.name}: no crates/{path}")
    for path in re.findall(r"`([\w/]+\.(?:antt|rt))`", page.read_text()):
        if not any(f"/{it}".endswith(f"/{path}") for it in sources()):
            wrong.append(f"{page.name}: no crate has {path}")


@functools.cache
def sources():
    """The files of all crates."""
    return [str(it) for it in top.glob("crates/*/**/*.*t")]


def functions(crate):
    """Each function of a crate by its name, `Type::name` where it has one, with the labels of its clauses."""
    found = {}
    for file in sorted((top / "crates" / crate / "src").rglob("*.rt")):
        owner = None
        name = None
        for line in file.read_text().splitlines():
            if begun := re.match(r"(?:impl|pub trait|trait)(?:<.*?>)? (?:[\w<>, ]+ for )?(\w+)", line):
                owner = begun[1]
            elif line.startswith("}"):
                owner = name = None
            if begun := re.match(r"\s*(?:pub(?:\(crate\))? )?(?:const )?fn (\w+)", line):
                name = f"{owner}::{begun[1]}" if owner and line[0] == " " else begun[1]
                found.setdefault(name, set())
            if name and (label := re.match(r"\s*ensures (\w+) \{", line)):
                found[name].add(label[1])
    # (`FileDisk` is `FileDiskFrom` where what the file held is unknown)
    found |= {it.replace("FileDiskFrom::", "FileDisk::"): labels for it, labels in found.items()}
    return found


def definitions():
    """The definitions of all crates."""
    text = "".join(it.read_text() for it in top.glob("crates/*/specs/**/*.antt"))
    return set(re.findall(r"\bpub (?:record |data )?(\w+)", text))


def names_of_code(page):
    """What a page names as a crate's own, `crate::name`, stands in its code."""
    for code in re.findall(r"`((?:mot|disk)_\w+::[^`]*)`", page.read_text()):
        for name in spread(code):
            crate, *parts = re.findall(r"\w+", name)
            if not all(re.search(rf"\b{it}\b", code_of(crate)) for it in parts):
                wrong.append(f"{page.name}: no {name}")


@functools.cache
def code_of(crate):
    return "".join(it.read_text() for it in sorted((top / "crates" / crate / "src").rglob("*.rt")))


def spread(name):
    """`crate::{A, B}::f` as its names."""
    if not (braces := re.search(r"\{(.*?)\}", name)):
        return [name]
    before, after = name[: braces.start()], name[braces.end():]
    return [full for it in braces[1].split(",") for full in spread(before + it.strip() + after)]


def row(text):
    """The functions and the labels of a row's contract: labels belong to the functions since the last parentheses."""
    since = []
    for code, labels in re.findall(r"`([^`]+)`|\(((?:[^()`]|`[^`]*`)*)\)", text):
        if code and "::" in code:
            since += spread(code)
        elif labels and since:
            yield since, labels
            since = []
    if since:
        yield since, ""


def promises():
    page, known_words = top / "docs/PROMISES.md", definitions()
    for line in page.read_text().splitlines():
        cells = line.split(" | ")
        if len(cells) != 2 or "::" not in cells[1]:
            continue
        for named, labels in row(cells[1]):
            # labels, and after a colon the definitions that they cite; then, after a semicolon, other labels
            parts = [it.partition(":") for it in labels.split(";")]
            clauses, cited = (" ".join(it[at] for it in parts) for at in (0, 2))
            for name in named:
                crate, _, function = name.partition("::")
                known = functions(crate)
                if function not in known:
                    wrong.append(f"{page.name}: no function {name}")
                    continue
                for label in re.findall(r"`(\w+)`", clauses):
                    if label not in known[function]:
                        wrong.append(f"{page.name}: no clause {label} of {name}")
            unknown = [it for it in re.findall(r"`(\w+)`", cited) if it not in known_words]
            wrong.extend(f"{page.name}: no definition {it}" for it in unknown)


def crates():
    """Each crate with the crates that it names in crates.txt."""
    for line in (top / "crates.txt").read_text().splitlines():
        if line and not line.startswith("#"):
            crate, _, below = line.partition(":")
            yield crate, below.split()


def unused():
    """The crates that a crate names, and of which its code, definitions and proofs use nothing."""
    for crate, below in crates():
        parts = [top / "crates" / crate / part for part in ("src", "specs", "proofs")]
        text = "".join(it.read_text() for part in parts for it in part.rglob("*") if it.is_file())
        yield from (f"{crate} {it}" for it in below if not re.search(rf"\bRattle\.{it}\b|\b{it}::|\buse {it}\b", text))


def names_of_crates():
    """Each name in crates.txt is used."""
    wrong.extend(f"crates.txt: {it}: nothing of the second is used" for it in unused())


def rows_of_crates():
    """The crates of docs/ARCHITECTURE.md are those of crates.txt, in their order, each with how many of the product name it."""
    table = (top / "docs/ARCHITECTURE.md").read_text().partition("## The crates")[2].partition("\nThese types")[0]
    shown = []
    for names, counts in re.findall(r"^\| \w* ?\| (`.*?`) \|.*\|([\d, ]*)\|$", table, re.M):
        shown += itertools.zip_longest(re.findall(r"`(\w+)`", names), counts.replace(",", " ").split(), fillvalue="")
    users = {crate: str(sum(crate in below for it, below in crates() if it not in TESTS)) for crate, _ in crates()}
    known = [(crate, "" if crate in TESTS else count) for crate, count in users.items()]
    wrong.extend(f"ARCHITECTURE.md: {it[0]}: crates.txt has {it[1]}" for it in zip(shown, known) if it[0] != it[1])
    if len(shown) != len(known):
        wrong.append(f"ARCHITECTURE.md has {len(shown)} of {len(known)} crates")


def repeats():
    """Where eight words of a sentence in a row stand on two pages."""
    seen, found = {}, {}
    for page in PAGES:
        name = str(page.relative_to(top))
        for number, run in prose.runs(page.read_text()):
            other, at = seen.setdefault(run, (name, number))
            if other != name:
                found.setdefault((name, number, other, at), run.replace("\x00", "`..`"))
    wrong.extend(f"{name}:{number}: stands in {other}:{at}, too: {run}.." for (name, number, other, at), run in found.items())


def clauses():
    """The two clauses of the theorem stand in the code as BELIEVE shows them."""
    said = re.findall(r"```rust\n(.*?)```", (top / "docs/BELIEVE.md").read_text(), re.S)
    code = (top / "crates/mot_playout/src/life.rt").read_text()
    wrong.extend("BELIEVE.md has other clauses than crates/mot_playout/src/life.rt" for it in said if it not in code)
    if len(said) != 2:
        wrong.append(f"BELIEVE.md shows {len(said)} clauses of the theorem, and not two")


def manual():
    """The manual's contents name each heading, and its table has the options of `play`."""
    page = (top / "docs/OPERATING.md").read_text()
    contents = page.partition("\n## ")[0]
    wrong.extend(f"OPERATING.md: its contents have no {it}" for it in sorted(anchors(top / "docs/OPERATING.md"))
                 if f"(#{it})" not in contents and it != "operating-motcar")
    table = page.partition("\n## Options of play\n")[2].partition("\n## ")[0]
    options = re.findall(r"(?m)^ +(--[\w-]+)", (top / "docs/help/play.txt").read_text())
    if sorted(re.findall(r"(?m)^\| `(--[\w-]+)", table)) != sorted(options):
        wrong.append("OPERATING.md: its table has other options than docs/help/play.txt")


clauses()
manual()
lines = len((top / "README.md").read_text().splitlines())
if lines > README_LINES:
    wrong.append(f"README.md has {lines} lines, more than {README_LINES}")
for it in PAGES:
    links(it)
    paths(it)
    names_of_code(it)
    wrong.extend(prose.faults(it.relative_to(top), it.read_text()))
promises()
names_of_crates()
rows_of_crates()
repeats()
for it in wrong:
    print(f"tools/documents.py: {it}")
print(f"tools/documents.py: {len(PAGES)} pages, {len(wrong)} faults")
sys.exit(1 if wrong else 0)
