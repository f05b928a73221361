#!/usr/bin/env python3
"""Runs every block of commands of README.md and of docs/OPERATING.md, in their order and as it is pasted, and compares what
it prints with what stands there; and looks that those of README leave nothing in a clone that git does not ignore.

    tools/operating.py [PROGRAM]

The commands run in a temporary folder with examples/ and a copy of its logo.png; `motcar` is the built
program. A `motcar play` at the end of a block has no end without `--turns`: it gets a Ctrl-C once all that the page wants
was printed, and a second brought no more.
"""
import contextlib
import os
import pathlib
import re
import select
import shutil
import signal
import subprocess
import sys
import tempfile
import time

sys.dont_write_bytecode = True
top = pathlib.Path(__file__).resolve().parent.parent
sys.path.insert(0, str(top))
from tests import program

SECONDS, QUIET = 60, 1

def is_tracked_or_ignored(name):
    """Whether a file of this name at the top of a clone is one of the repository, or is ignored."""
    questions = (["git", "ls-files", "--error-unmatch", name], ["git", "check-ignore", name])
    return any(subprocess.run(it, cwd=top, capture_output=True).returncode == 0 for it in questions)


def blocks_of(text):
    """The commands of each block, and what it prints."""
    return re.findall(r"```sh\n(.*?)```\n(?:[^`]*?```text\n(.*?)```\n)?", text, re.DOTALL)


def printed_by(commands, wanted, **more):
    """What a block prints."""
    has_end = not re.search(r"\nmotcar play (?!.*--turns).*\n$", commands)
    shell = subprocess.Popen(["bash", "-c", commands], stdout=subprocess.PIPE, start_new_session=True, **more)
    came, end = b"", time.monotonic() + SECONDS
    while (rest := end - time.monotonic()) > 0:
        waits = rest if has_end or len(came) < len(wanted.encode()) else QUIET
        if not select.select([shell.stdout], [], [], waits)[0]:
            break
        part = os.read(shell.stdout.fileno(), 65_536)
        if not part:
            break
        came += part
    else:
        came += f"(and no end in {SECONDS} seconds)".encode()
    if not has_end:
        os.killpg(shell.pid, signal.SIGINT)
    with contextlib.suppress(subprocess.TimeoutExpired):
        shell.wait(SECONDS)
    shell.kill()
    shell.stdout.close()
    # (the page has the version of a release)
    return re.sub(r"(?<=motcar )([\d.]+)\+git[\w.]+", r"\1", came.decode())


def rows_of(name, motcar):
    """Each block of a page: what it is, what it should print and what it printed."""
    with tempfile.TemporaryDirectory() as room, tempfile.TemporaryDirectory() as path:
        shutil.copytree(top / "examples", f"{room}/examples")
        shutil.copy(top / "examples/logo.png", room)
        for it in (room, path):
            pathlib.Path(it, "motcar").symlink_to(motcar)
        environment = {**os.environ, "PATH": f"{path}:{os.environ['PATH']}"}
        for commands, wanted in blocks_of((top / name).read_text()):
            yield f"{name}:\n{commands}", wanted, printed_by(commands, wanted, cwd=room, env=environment)
        if name == "README.md":
            left = [it for it in os.listdir(room) if it != "logo.png" and not is_tracked_or_ignored(it)]
            yield "what README.md leaves in a clone", [], left


def main():
    motcar = str(pathlib.Path(sys.argv[1]).resolve()) if sys.argv[1:] else program.find()
    rows = [it for name in ("README.md", "docs/OPERATING.md") for it in rows_of(name, motcar)]
    wrong = [it for it in rows if it[1] != it[2]]
    for row, wanted, came in wrong:
        print(f"{row}: wanted {wanted!r}, came {came!r}")
    print(f"tools/operating.py: {len(rows) - len(wrong)} of {len(rows)} rows as they should be")
    return 1 if wrong else 0


sys.exit(main())
