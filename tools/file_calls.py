#!/usr/bin/env python3
"""Shows by strace which system calls the built program makes on a disk's file and its folder, and what it answers if
one of them fails or moves one byte alone; and those of `play` on the files beside its disk. Only this sees a method of
a file disk, or of the files of the machine, that makes no call, or another one.

    tools/file_calls.py [PROGRAM]            prints it all
    tools/file_calls.py [PROGRAM] --check    compares with tools/file_calls.txt (needs strace and cc)
"""
import itertools
import os
import pathlib
import re
import shutil
import subprocess
import sys
import tempfile

sys.dont_write_bytecode = True
top = pathlib.Path(__file__).resolve().parent.parent
sys.path.insert(0, str(top))
from tests import program as built

KEPT = top / "tools/file_calls.txt"

# what is run, on what input, and whether a disk is there before
CASES = {
    "format": (["format", "DISK", "--objects", "2", "--data", "20000"], b"", False),
    "check": (["check", "DISK"], b"", True),
    "put": (["serve", "DISK"], b"put a 2 3 - 010203\nlist\n", True),
    "next": (["serve", "DISK"], b"next 2\nnext 2\n", True),
}


class File:
    """A disk's file in a folder of its own, made anew for each run."""

    def __init__(self, room, program):
        self.room, self.program = room, program
        self.folder, self.disk, self.new = room / "files", room / "files/disk", room / "new"
        self.trace = room / "trace"
        built.run([program, "format", self.new, *CASES["format"][0][2:]])
        built.run([program, "serve", self.new], b"put b 2 3 - 0506\n")
        flags = ["-O2", "-shared", "-fPIC", "-o", room / "shorten.so", top / "tools/shorten.c", "-ldl"]
        subprocess.run(["cc", *flags], check=True)

    def run(self, case, before=(), **more):
        """The status and the first words of each line; and whether a file is left."""
        words, given, is_there = CASES[case]
        shutil.rmtree(self.folder, ignore_errors=True)
        self.folder.mkdir()
        if is_there:
            shutil.copy(self.new, self.disk)
        words = [str(self.disk) if it == "DISK" else it for it in words]
        status, printed, said = built.run([*before, self.program, *words], given, **more)
        text = (printed + said).decode().replace(str(self.disk), "DISK")
        lines = re.sub("packet [0-9a-f]+", "packet", text).splitlines()
        return f"status {status}: {'; '.join(lines)}{'' if self.disk.exists() else '; no file'}"

    def traced(self, case, *options):
        """The same, and the calls."""
        words = ["strace", "-f", "-y", "-o", self.trace, "-P", self.disk, "-P", self.folder, *options]
        return self.run(case, words), self.trace.read_text()

    def left(self):
        """What `check` and a turn print of the disk that a run left."""
        return built.run([self.program, "check", self.disk]), built.run([self.program, "serve", self.disk], b"turn\n")

    def plain(self, line):
        """A call without numbers that change from run to run, and without bytes."""
        line = re.sub(r"^\d+ +", "", line)
        line = re.sub(r"AT_FDCWD<[^>]*>", "AT_FDCWD", line)
        line = re.sub(rf"\d+<{re.escape(str(self.disk))}[^>]*>", "DISK", line).replace(str(self.disk), "DISK")
        line = re.sub(rf"\d+<{re.escape(str(self.folder))}>", "FOLDER", line).replace(str(self.folder), "FOLDER")
        line = re.sub(r'"(?!DISK|FOLDER)[^"]*"(\.\.\.)?', "..", line)
        line = re.sub(r"\b0x[0-9a-f]{6,}\b", "..", line)
        line = re.sub(r"st_\w+=[^,}]*(, )?|stx_\w+=[^,}]*(, )?", "", line)
        return re.sub(r" += ", " = ", line)


def calls_in(trace):
    return re.findall(r"^\d+ +(\w+)\(", trace, re.MULTILINE)


def shown(file):
    """The lines that are printed."""
    for case in CASES:
        ended, trace = file.traced(case)
        yield f"{case}: {ended}"
        calls = calls_in(trace)
        for line in trace.splitlines():
            if re.match(r"\d+ +\w+\(", line) and "exit" not in line:
                yield f"    {file.plain(line)}"
        for place, call in enumerate(calls):
            number = calls[: place + 1].count(call)
            if call == "close":
                continue
            failed, trace = file.traced(case, "-e", f"inject={call}:error=EIO:when={number}")
            met = "" if "(INJECTED)" in trace else " (not met)"
            yield f"    {call} {number} fails{met}: {failed}"
        moved = [it for it in calls if it in ("pread64", "pwrite64")]
        file.run(case)
        wanted = ended, file.left()
        others = [it for it in shortened(file, case, len(moved)) if it[1:] != wanted]
        told = others or "as ever, each time"
        yield f"    one of its {len(moved)} reads and writes moves one byte: {told}"


def shortened(file, case, count):
    """What each of the runs answers in which one read or write moves one byte alone, and what is on the disk then."""
    for number in range(1, count + 1):
        environment = {**os.environ, "LD_PRELOAD": str(file.room / "shorten.so"), "SHORTEN": str(number)}
        yield number, file.run(case, env=environment), file.left()


def play_shown(file):
    """The calls of `play` on the files beside its disk: a folder with one object, one with a file of lines, a file of
    suffixes, the status, and the file of packets."""
    room = file.room / "air"
    for name in ("objects", "lines"):
        (room / name).mkdir(parents=True)
    (room / "objects/a.txt").write_bytes(b"one\n")
    (room / "lines/1.lines").write_bytes(b"period 5\n")
    (room / "types").write_bytes(b"abc 5 0 -\n")
    shutil.copy(file.new, room / "disk")
    words = [file.program, "play", room / "disk", room / "packets", "--turns", "1", "--look", "0", "--at-once"]
    words += ["--folder", room / "objects", "--lines", room / "lines", "--types", room / "types"]
    words += ["--status", room / "status"]
    status, printed, said = built.run(["strace", "-f", "-y", "-e", "trace=%file,%desc", "-o", file.trace, *words])
    told = re.sub(r"(?<=play: motcar )\S+(?=,)", "VERSION", (printed + said).decode().replace(str(room), "ROOM"))
    yield f"play: status {status}: {'; '.join(told.splitlines())}"
    for line in file.trace.read_text().splitlines():
        is_call = re.match(r"\d+ +\w+\(", line) and not re.match(r"\d+ +(execve\(|write\([12]<)", line)
        if is_call and str(room) in line and f"{room}/disk" not in line:
            yield f"    {plain_beside(line, room)}"


def plain_beside(line, room):
    """A call without numbers that change from run to run, and without bytes."""
    line = re.sub(r"^\d+ +", "", line)
    line = re.sub(r"AT_FDCWD<[^>]*>", "AT_FDCWD", line)
    line = re.sub(rf"\d+<{re.escape(str(room))}/?([^>]*)>", lambda it: (it[1] or "ROOM").upper(), line)
    line = re.sub(rf'"{re.escape(str(room))}/([^"]*)"', lambda it: it[1].upper(), line).replace(f'"{room}"', "ROOM")
    line = re.sub(r'"[^"]*"(\.\.\.)?', "..", line)
    line = re.sub(r"\b0x[0-9a-f]{6,}\b", "..", line)
    line = re.sub(r"st_\w+=[^,}]*(, )?|stx_\w+=[^,}]*(, )?", "", line)
    line = re.sub(r"(?<=STATUS.NEW, .., )\d+\) += \d+", "LENGTH) = LENGTH", line)
    return re.sub(r" += ", " = ", line)


def compare(lines):
    """Prints each line that is not the one that is kept; the status."""
    kept = KEPT.read_text().splitlines()
    wrong = [it for it in itertools.zip_longest(kept, lines) if it[0] != it[1]]
    for wanted, came in wrong:
        print(f"a line of tools/file_calls.txt: wanted {wanted!r}, came {came!r}")
    print(f"tools/file_calls.py: {len(kept) - len(wrong)} of {len(kept)} lines as they should be")
    return 1 if wrong else 0


def main():
    words = [it for it in sys.argv[1:] if it != "--check"]
    motcar = str(pathlib.Path(words[0]).resolve()) if words else built.find()
    with tempfile.TemporaryDirectory() as name:
        file = File(pathlib.Path(name).resolve(), motcar)
        lines = [*shown(file), *play_shown(file)]
    if "--check" in sys.argv[1:]:
        return compare(lines)
    print("\n".join(lines))
    return 0


sys.exit(main())
