#!/usr/bin/env python3
"""Cuts the power and fails the device below motcar on real file systems; README.md beside this file has it all.

    campaigns/device/run.py [PROGRAM] [--seed N] [--systems ext4,xfs,btrfs] [--campaigns cuts,faults,full,folder] ..

It needs root on Linux, /dev/fuse and loop devices. Exit status 1 if anything was lost or unclean, 2 if it can't be
run here. The seed makes the commands and the images; when the file system writes, the system decides. Seeds that once
failed come first.
"""
import os
import pathlib
import shutil
import subprocess
import sys
import tempfile
import time

here = pathlib.Path(__file__).resolve().parent
sys.path[:0] = [str(here), str(here.parent)]

import campaign

import faults
import folder
import full
import holes
import power_cuts
import program as motcar
import renames
import systems


def words():
    parser = campaign.words(__doc__)
    parser.add_argument("--systems", default="ext4,xfs,btrfs", help=", ".join(systems.SYSTEMS))
    parser.add_argument("--campaigns", default="cuts,faults,full", help="cuts, faults, full, folder, holes, renames")
    parser.add_argument("--lives", type=int, default=2, help="of power cuts, for each file system")
    parser.add_argument("--images", type=int, default=100, help="for each life")
    parser.add_argument("--commands", type=int, default=40, help="of each life; of folder: changes of files")
    parser.add_argument("--scenarios", default=",".join(faults.SCENARIOS))
    parser.add_argument("--kinds", default=",".join(faults.KINDS), help="how a call fails")
    parser.add_argument("--most", type=int, default=40, help="faults of each scenario and kind")
    parser.add_argument("--trials", type=int, default=2, help="of a full file system")
    parser.add_argument("--without", help="a control: this call of the system does nothing (fdatasync, fadvise64); of "
                        "folder: for the folder and its files (fsync)")
    parser.add_argument("--unsynced", action="store_true", help="of folder: no file is synced before its renaming")
    parser.add_argument("--torn", action="store_true", help="of cuts: tear btrfs' first superblock, and nothing else")
    parser.add_argument("--show", action="store_true", help="a line for each fault")
    return parser


def lacking():
    if os.geteuid():
        return "only root can mount"
    wanted = ["cc", "pkg-config", "strace", "losetup", "mkfs.ext4", "mkfs.xfs", "mkfs.btrfs"]
    missing = [it for it in wanted if not shutil.which(it)]
    missing += [it for it in ("/dev/fuse", "/dev/loop-control") if not os.path.exists(it)]
    return f"not there: {', '.join(missing)}" if missing else ""


def build(room):
    flags = subprocess.run(["pkg-config", "--cflags", "--libs", "fuse3"], capture_output=True, text=True, check=True)
    words = ["cc", "-O2", "-Wall", "-o", f"{room}/block_device", here / "block_device.c", *flags.stdout.split()]
    subprocess.run(words, check=True)


def done(name, what, begun, found, notes):
    """Prints a campaign's outcome, and gives its numbers."""
    lost, unclean = (sum(mark in it for it in found) for mark in ("LOST", "UNCLEAN"))
    others = len(found) - lost - unclean
    told = ", ".join(f"{it} {notes[it]}" for it in sorted(notes) if notes[it])
    took = f"{time.monotonic() - begun:.0f} s"
    print(f"{name}, {what}: lost {lost}, unclean {unclean}, other {others}; {told}; {took}", flush=True)
    for it in found[:20]:
        print(f"    {it}", flush=True)
    return lost, unclean, others


def one(what, room, system, given, program):
    """What one campaign on one file system found, and its notes."""
    if what == "cuts":
        sizes = given.lives, given.images, given.commands
        return power_cuts.campaign(room, system, program, given.seed, *sizes, given.torn)
    if what == "faults":
        show = (lambda text: print(f"  {text}", flush=True)) if given.show else (lambda text: None)
        which = given.scenarios.split(","), given.kinds.split(","), given.most
        return faults.campaign(room, system, program, *which, show)
    if what == "folder":
        sizes = given.lives, given.images, given.commands
        return folder.campaign(room, system, given.program, given.without, given.seed, *sizes, given.unsynced)
    return full.campaign(room, system, program, given.seed, given.trials)


def campaigns(room, given, program):
    """Runs what is asked for; rows of a table."""
    rows = []
    for name in given.systems.split(","):
        system, row = systems.SYSTEMS[name], {"name": name, "bad": 0}
        for what in ("cuts", "faults", "full", "folder"):
            if what not in given.campaigns.split(",") or what in ("full", "folder") and system.kind == "bare":
                continue
            begun = time.monotonic()
            found, notes = one(what, room, system, given, program)
            numbers = done(name, what, begun, found, notes)
            row[what] = (notes, *numbers)
            row["bad"] += sum(numbers)
            if sum(numbers) and not given.without:
                sizes = f"--lives {given.lives} --images {given.images}{' --unsynced' if given.unsynced else ''}"
                campaign.keep("device", f"--systems {name} --campaigns {what} --seed {given.seed} {sizes}")
        rows.append(row)
    return rows


def print_table(rows):
    heads = ("File system", "Images of power cuts", "Lost", "Unclean", "Single faults", "Lost", "Unclean",
             "Refused until mounted again", "Images with a folder", "Lost")
    print(f"\n| {' | '.join(heads)} |\n{'|---' * len(heads)}|")
    for row in rows:
        cuts, found = row.get("cuts", ({"images": "-"}, "-", "-")), row.get("faults", ({"faults": "-"}, "-", "-"))
        beside = row.get("folder", ({"images": "-"}, "-"))
        cells = [row["name"], cuts[0]["images"], *cuts[1:3], found[0]["faults"], *found[1:3]]
        cells += [found[0].get("until mounted again", 0), beside[0]["images"], beside[1]]
        print("| " + " | ".join(str(it) for it in cells) + " |")


def main():
    parser = words()
    given, why_not = campaign.given(parser), lacking()
    if why_not:
        print(f"campaigns/device/run.py: {why_not}", file=sys.stderr)
        return 2
    in_memory = "/dev/shm" if os.path.isdir("/dev/shm") else None
    with tempfile.TemporaryDirectory(prefix="motcar-device-", dir=in_memory) as room:
        build(room)
        program = motcar.Program(given.program, given.without)
        mounted = [it for it in given.systems.split(",") if systems.SYSTEMS[it].kind != "bare"]
        for what in (holes, renames):
            if what.__name__ in given.campaigns.split(","):
                for line in what.campaign(room, mounted):
                    print(line, flush=True)
        rows = []
        for row in [] if given.without else campaign.corpus("device"):
            kept = parser.parse_args([given.program, *row.split()])
            if kept.systems in given.systems.split(",") and kept.campaigns in given.campaigns.split(","):
                print(f"of the corpus: {row}", flush=True)
                rows += campaigns(room, kept, program)
        rows += campaigns(room, given, program)
        if any({"cuts", "faults", "folder"} & set(row) for row in rows):
            print_table(rows)
        return 1 if any(row["bad"] for row in rows) else 0


sys.exit(main())
