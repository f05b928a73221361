#!/usr/bin/env python3
"""Builds the program without a proof, for tests on files: with checks of addresses and overflows, as `rt try` builds it.

    tools/tried.py PROGRAM

Run it at the top of the repository. `rt try` keeps no file of its run, and removes what it built. So this gives it a run
that does not end, `play DISK /dev/null`, and copies the program while it runs. Then `MOTCAR=PROGRAM python3 -m tests`
tests it; its bytes have __asan_init, by which tests tell it from a proved one. Nothing proves it: never install it.
"""
import os
import pathlib
import shutil
import subprocess
import sys
import tempfile
import time

sys.dont_write_bytecode = True
sys.path.insert(0, str(pathlib.Path(__file__).resolve().parent.parent))
from tests import disk  # noqa: E402


def running(room):
    """The file of the program that runs in this folder, or None."""
    for it in pathlib.Path("/proc").glob("[0-9]*/cmdline"):
        try:
            words = it.read_bytes().decode(errors="replace").split("\0")
        except OSError:
            continue
        # (the toolchain's own loader may start it)
        for word in words[:words.index("play")] if "play" in words else []:
            if word.startswith(room) and os.access(word, os.X_OK):
                return word
    return None


def main():
    if len(sys.argv) != 2:
        sys.exit("usage: tools/tried.py PROGRAM")
    with tempfile.TemporaryDirectory(prefix="motcar-tried-") as room:
        image = pathlib.Path(room, "disk")
        image.write_bytes(disk.disk_of(disk.slot()))
        words = ["rt", "try", "--seconds", "60", "--data", f"disk={image}", "--", "play", "disk", "/dev/null"]
        with tempfile.TemporaryFile() as said:
            trial = subprocess.Popen(words, cwd="crates/motcar", env={**os.environ, "TMPDIR": room},
                                     stdin=subprocess.DEVNULL, stdout=said, stderr=said)
            while not (found := running(room)) and trial.poll() is None:
                time.sleep(0.1)
            if found:
                shutil.copy(found, sys.argv[1])
                os.chmod(sys.argv[1], 0o755)
            trial.terminate()
            trial.wait()
            said.seek(0)
            if not found:
                sys.exit("tools/tried.py: no program:\n" + said.read().decode(errors="replace"))


if __name__ == "__main__":
    main()
