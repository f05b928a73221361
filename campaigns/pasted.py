#!/usr/bin/env python3
"""Pastes the manual into a shell of Debian 12 and 13, from *Install* to a logo on air and its change.

    campaigns/pasted.py [PROGRAM] [--systems bookworm,trixie] [--folder FOLDER] [--page PAGE] [--planted]

Each block of those sections of docs/OPERATING.md is typed as it stands into one shell of root at a terminal, and so is each
command in the table of *Change a logo*. A command that fails, or a line of the page that does not come, is a fault. A block
that only looks is typed again until it prints what the page says, for half a minute. A reader takes packets in the place of
the multiplexer, and the receiver of tests/dab.py has to have the new logo, then the changed one, and then one less.

PROGRAM is a Debian package, or a program of which one is made; it may be built without a proof (tools/tried.py), and the
output says so. Systems are made, kept and started as campaigns/units.py does. --page pastes another page. --planted is a
control: it puts one fault after the other into the page or the system, and each has to be found.

Exit status 1 if a row is not as it should be, 2 if it can't be run here.
"""
import argparse
import os
import pathlib
import pty
import re
import select
import shutil
import signal
import subprocess
import sys
import tempfile
import termios
import threading
import time

import units
from campaign import top
from units import Unable, until

from tests import dab, program

SECTIONS = ("Install", "Make a disk", "Put a folder on air", "Run it under systemd", "See that it sends", "Change a logo", "Upload")
SECONDS = 30
LOOKS = re.compile(r"(journalctl|grep|motcar (inspect|health)) ")
PIPE, LOGO = "/run/motcar/packets.pipe", (top / "examples/logo.png").read_bytes()
CHANGED = LOGO + b"changed"
# What the reader takes each time, and how many of the last packets tell the carousel: several turns of two logos.
TAKEN, PAUSE, HEARD = 2400, 0.05, 400
# What a failed command prints; and what the shell prints when it has run a block.
TRAP, END = r"""trap 'printf "%s\n" "failed: $BASH_COMMAND"' ERR""", "(the block has ended)"
# What a receiver has after a row of the table, or a block of the section.
AFTER = {
    "add": {b"logo.png": LOGO, b"new.png": LOGO},
    "replace": {b"logo.png": CHANGED, b"new.png": LOGO},
    "withdraw": {b"logo.png": CHANGED},
    "Upload": {b"uploaded.png": LOGO},
}
PLANTED = {
    "a path that is not there": ("/usr/share/motcar/examples/logo.png", "/usr/local/share/motcar/examples/logo.png"),
    "a unit that is not started": ("systemctl enable --now motcar\n", "systemctl enable motcar\n"),
    "an option out of its range": ("station.disk --objects 60 --data 1000000 --packet 96", "station.disk --objects 60 --packet 95"),
    "a line that does not come": ("put logo.png done object 2 directory 3", "put logo.png done object 3 directory 2"),
    "a step that is not there": ("mkfifo packets.pipe\n", ""),
    "a play without a reader": ("cat packets.pipe > /dev/null &\n", ""),
    "a change that is not renamed": (" && mv .logo.png logo.png`", "`"),
    "a file that motcar can't read": ("`cp ~/new.png .`", "`install -m 600 ~/new.png .`"),
    "a unit that does not start": None,
}
BROKEN = "[Service]\nExecStartPre=/bin/false\n"


class Block:
    """Commands of a section, and the lines that the page has after them."""

    def __init__(self, section, commands, objects=None):
        self.section, self.commands, self.wanted = section, commands, ""
        # (what a receiver has after them)
        self.objects = objects

    @property
    def is_endless(self):
        return bool(re.search(r"^motcar play (?!.*--turns).*\n\Z", self.commands, re.M))


def blocks_of(page):
    """The blocks of the sections: fenced as `sh`, or indented; a block `text` is what the one before it prints."""
    found, section, fence, indented = [], "", None, False
    for line in page.split("\n"):
        if line.startswith("#") and fence is None:
            section = line.lstrip("# ")
        if section not in SECTIONS:
            continue
        if line.startswith("```"):
            fence = None if fence is not None else line[3:]
            found += [Block(section, "")] if fence == "sh" else []
        elif fence == "sh":
            found[-1].commands += f"{line}\n"
        elif fence == "text":
            found[-1].wanted += f"{line}\n"
        elif fence is None and line.startswith("    "):
            found += [] if indented else [Block(section, "")]
            found[-1].commands += f"{line.lstrip()}\n"
            found[-1].objects = AFTER.get(section)
        elif fence is None and (change := re.match(r"\| (add|replace|withdraw) one \| `(.*)` \|", line)):
            found.append(Block(section, f"{change[2]}\n", AFTER[change[1]]))
        indented = fence is None and line.startswith("    ")
    return found


class Shell:
    """A shell of root at a terminal of its own, which does not show what is typed."""

    def __init__(self, system):
        self.here, side = pty.openpty()
        settings = termios.tcgetattr(side)
        settings[1] &= ~termios.OPOST
        settings[3] &= ~termios.ECHO
        termios.tcsetattr(side, termios.TCSANOW, settings)
        inside = ["nsenter", "--target", system.first, "--all", "--root", "--wd", "--", "env", "-i", "HOME=/root", "TERM=dumb",
                  "PATH=/usr/sbin:/usr/bin:/sbin:/bin", "setsid", "--ctty", "bash", "--norc", "--noprofile", "--noediting", "-i"]
        self.shell = subprocess.Popen(inside, stdin=side, stdout=side, stderr=side, start_new_session=True)
        os.close(side)
        self.type(f"PS1= PS2=\n{TRAP}\ncd\n")

    def type(self, text):
        """Types it; what the shell and its commands print until it has run it."""
        self.write(text)
        self.write(f"echo '{END}'\n")
        return self.printed(END)

    def write(self, text):
        os.write(self.here, text.encode())

    def printed(self, last):
        """What is printed until all these lines came."""
        came, end = "", time.monotonic() + SECONDS
        while not are_in(last, came) and (rest := end - time.monotonic()) > 0:
            if select.select([self.here], [], [], rest)[0]:
                came += os.read(self.here, 65_536).decode(errors="replace")
        return came if are_in(last, came) else f"{came}\nfailed: no end in {SECONDS} seconds"

    def paste(self, block):
        if not block.is_endless:
            return self.type(block.commands)
        self.write(block.commands)
        came = self.printed(block.wanted)
        # (Ctrl-C; what the shell says of that is no fault of the page)
        self.write("\x03")
        return came + re.sub(r"(?m)^failed: motcar play .*\n", "", self.type("\n"))

    def end(self):
        self.shell.kill()
        self.shell.wait()
        os.close(self.here)


def plain(line):
    """A line without what differs from run to run: the version's commit, an age, and the number of packets."""
    line = re.sub(r"(?<=motcar )([\d.]+)\+[\w.+]+", r"\1", line.strip())
    line = re.sub(r"^(ok: .* was written) \d+ s ago$", r"\1 N s ago", line)
    return re.sub(r"^(motcar_packets_total\S*) [1-9]\d*", r"\1 N", line)


def are_in(wanted, came):
    """Whether the lines came, in their order."""
    lines = iter([plain(it) for it in came.split("\n")])
    return all(plain(it) in lines for it in wanted.split("\n") if it)


class Multiplexer(threading.Thread):
    """Reads the pipe, faster than on air, and keeps its packets."""

    def __init__(self, path):
        super().__init__(daemon=True)
        self.path, self.came, self.ends = path, bytearray(), False

    def run(self):
        with open(self.path, "rb", buffering=0) as pipe:
            while not self.ends:
                self.came += pipe.read(TAKEN) or b""
                time.sleep(PAUSE)

    def packets(self):
        return dab.packets_in(bytes(self.came))[:-1]

    def has(self, objects):
        """Whether the last packets are a carousel of these."""
        packets = self.packets()[-HEARD:]
        while packets and not dab.packet_of(packets[0]).is_first:
            packets.pop(0)
        try:
            return dab.carousel_of(packets)[1] == objects
        except IndexError:
            return False


class Campaign(units.Campaign):
    def paste(self, shell, name, block):
        """A block; if it only looks, again until it prints what the page has."""
        end = time.monotonic() + SECONDS
        while True:
            came = shell.paste(block)
            if not LOOKS.match(block.commands) or are_in(block.wanted, came) or time.monotonic() > end:
                break
            time.sleep(1)
        row = f"{name}, {block.section}: {block.commands.split(chr(10))[0][:60]}"
        self.expect(f"{row}: commands that fail", [], re.findall(r"(?m)^failed: (.*?)\r?$", came))
        self.expect(f"{row}: what the page prints", True, are_in(block.wanted, came) or came)

    def system(self, name, options, room):
        layer = room / f"{name}.layer"
        layer.mkdir()
        system = units.System(units.debian(options.folder or room, name), layer)
        try:
            if system.run("sh", "-c", "command -v rsync")[0]:
                raise Unable(f"the {name} of this folder has no rsync: remove it, so that it is made again")
            print(f"{name}: " + system.run("systemctl", "--version")[1].split("\n")[0], flush=True)
            self.pasted(name, options, system)
        finally:
            system.end()
            # (what it mounted there went with its namespace)
            shutil.rmtree(layer)

    def pasted(self, name, options, system):
        home = system.place("/root")
        for it in options.package.iterdir():
            shutil.copy(it, home)
        if options.breaks:
            system.place("/etc/systemd/system/motcar.service.d").mkdir()
            system.place("/etc/systemd/system/motcar.service.d/broken.conf").write_text(BROKEN)
        shell, reader = Shell(system), None
        blocks = blocks_of(options.text)
        self.expect(f"{name}: sections with blocks", list(SECTIONS), list(dict.fromkeys(it.section for it in blocks)))
        for block in blocks:
            # (one fault is enough to find what was planted)
            if options.planted and self.wrong:
                break
            if block.section == "See that it sends" and not reader:
                self.expect(f"{name}: the pipe", True, bool(until(system.place(PIPE).is_fifo, 10)))
                if not system.place(PIPE).is_fifo():
                    break
                reader = Multiplexer(system.place(PIPE))
                reader.start()
            if block.section == "Change a logo" and not block.objects:
                self.heard(f"{name}: on air", reader, {b"logo.png": LOGO})
                (home / "new.png").write_bytes(LOGO)
                (home / "logo.png").write_bytes(CHANGED)
            if block.section == "Upload":
                (home / "new").mkdir(exist_ok=True)
                (home / "new/uploaded.png").write_bytes(LOGO)
            self.paste(shell, name, block)
            if block.objects:
                self.heard(f"{name}: on air after {block.commands.strip()}", reader, block.objects)
        if reader:
            self.expect(f"{name}: no packet is missing", True, dab.counts_on(reader.packets()))
            reader.ends = True
        shell.end()

    def heard(self, row, reader, objects):
        until(lambda: reader.has(objects), SECONDS)
        self.expect(row, True, reader.has(objects))


def package_of(given, room):
    """A folder with the package and its checksum, as `./motcar package` leaves them."""
    folder = room / "package"
    folder.mkdir()
    if given.endswith(".deb"):
        shutil.copy(given, folder / "motcar_0_amd64.deb")
        with open(folder / "SHA256SUMS", "w") as sums:
            subprocess.run(["sha256sum", "motcar_0_amd64.deb"], cwd=folder, stdout=sums, check=True)
        return folder
    # A copy of the repository, whose launcher says of any program that it may be packaged.
    copy = room / "copy"
    copy.mkdir()
    for it in ("README.md", "CHANGELOG.md", "docs", "examples", "packaging", "tools", "crates/motcar/src/version.rt"):
        (copy / it).parent.mkdir(parents=True, exist_ok=True)
        (shutil.copytree if (top / it).is_dir() else shutil.copy)(top / it, copy / it)
    (copy / "build").mkdir()
    shutil.copy(given, copy / "build/motcar")
    version = subprocess.run([copy / "tools/version.sh"], capture_output=True, text=True, check=True).stdout.strip()
    launcher = copy / "motcar"
    launcher.write_text(f"#!/bin/sh\necho 'motcar {version}'\necho 'proved with nothing: a package of campaigns/pasted.py'\n")
    launcher.chmod(0o755)
    made = subprocess.run(["make", "-s", "-C", copy / "packaging", "package", f"folder={folder}"], capture_output=True, text=True)
    if made.returncode:
        raise Unable(f"no package: {made.stderr.strip()}")
    return folder


def planted(options, room):
    """Each planted fault; how many were not found."""
    missed, page = 0, options.text
    for what, edit in PLANTED.items():
        assert not edit or edit[0] in page, f"the page has no {edit[0]}"
        options.text, options.breaks = page.replace(*edit) if edit else page, not edit
        print(f"planted: {what}", flush=True)
        found = Campaign()
        found.system(options.systems.split(",")[-1], options, room)
        print(f"planted: {what}: {'found' if found.wrong else 'NOT FOUND'}", flush=True)
        missed += not found.wrong
    print(f"pasted.py: {len(PLANTED) - missed} of {len(PLANTED)} rows as they should be")
    return 1 if missed else 0


def given():
    found = argparse.ArgumentParser(description=__doc__, formatter_class=argparse.RawDescriptionHelpFormatter)
    found.add_argument("program", nargs="?", metavar="PROGRAM",
                       help="the built program (the one that the tests find), or a Debian package of it")
    found.add_argument("--systems", default=",".join(units.SYSTEMS), help=f"names of Debian releases ({','.join(units.SYSTEMS)})")
    found.add_argument("--folder", type=pathlib.Path, help="where each Debian is kept (a temporary folder)")
    found.add_argument("--page", type=pathlib.Path, default=top / "docs/OPERATING.md", help="what is pasted (docs/OPERATING.md)")
    found.add_argument("--planted", action="store_true", help="a control: one fault after the other, on the last of the systems")
    options = found.parse_args()
    options.program = options.program or program.find()
    options.text, options.breaks = options.page.read_text(), False
    if options.folder:
        options.folder = options.folder.resolve()
        options.folder.mkdir(parents=True, exist_ok=True)
    return options


def main():
    options, found = given(), Campaign()
    # (so that a system ends with this)
    signal.signal(signal.SIGTERM, lambda *_: sys.exit(143))
    try:
        if why := units.lacking():
            raise Unable(why)
        with tempfile.TemporaryDirectory(prefix="motcar-pasted-") as folder:
            room = pathlib.Path(folder)
            options.package = package_of(options.program, room)
            if program.is_tried(options.program):
                print("pasted.py: the program was built without a proof", flush=True)
            if options.planted:
                return planted(options, room)
            for it in options.systems.split(","):
                found.system(it, options, room)
    except Unable as why:
        print(f"pasted.py: skipped: {why}")
        return 2
    print(f"pasted.py: {found.rows - found.wrong} of {found.rows} rows as they should be")
    return 1 if found.wrong else 0


if __name__ == "__main__":
    sys.exit(main())
