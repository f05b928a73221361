"""A full file system: commands while it is full, and once there is room again."""
import collections
import os
import pathlib
import random

import device as devices
import judge
import program as motcar

OBJECTS, AREA = 16, 600_000


def fill(folder):
    """Takes all room, with shorter and shorter files, and then their last blocks."""
    number = 0
    for size in (1 << 20, 1 << 16, 1 << 12, 512):
        try:
            while number < 5_000:
                number += 1
                add(f"{folder}/fill{number}", size)
        except OSError:
            pass
    for at in range(1, number + 1):
        try:
            while True:
                add(f"{folder}/fill{at}", 4_096)
        except OSError:
            if at > 4:
                return


def add(path, size):
    with open(path, "ab") as file:
        file.write(b"x" * size)
        file.flush()
        os.fsync(file.fileno())


def tried(room, system, program, seed, notes):
    """What is wrong, if anything."""
    choices = random.Random(seed)
    folder = pathlib.Path(room, "judged")
    folder.mkdir(exist_ok=True)
    with devices.Device(room, system) as device:
        disk = device.disk()
        sizes = f"--objects {OBJECTS} --data {AREA} --segment 8189"
        program.run("format", disk, *sizes.split()).check_returncode()
        given, kept = motcar.Commands(choices, OBJECTS), judge.Kept(b"carousel 0 1 1 0", {})
        kept = served(program, disk, given, kept, 4, collections.Counter())
        fill(device.mounted_at)
        second = device.mounted_at / "second.disk"
        refusal = program.refusal("format", str(second), "--data", "200000")
        notes[f"`format` of a new file: {refusal or 'formatted'}"] += 1
        if refusal and second.exists():
            return "a `format` that failed has left its file"
        kept = served(program, disk, given, kept, 25, notes)
        device.copy(f"{room}/stored")
        log = devices.read_log(device.log)
        for it in device.mounted_at.glob("fill*"):
            it.unlink(missing_ok=True)
        kept_again = served(program, disk, given, kept, 4, collections.Counter())
        wrong = judge.difference(judge.look(program, disk), [kept_again])
    devices.flushed_image(log, system.size, f"{room}/flushed")
    for image in ("stored", "flushed"):
        wrong = wrong or judge.judged(program, system, f"{room}/{image}", folder, [kept])
    return wrong


def served(program, disk, given, kept, count, notes):
    """What the disk holds after so many lines, the program being started again where it is halted."""
    session = program.serve(disk)
    for _ in range(count):
        line = given.next(kept.bodies)
        reply = session.ask(line)
        if motcar.is_done(reply):
            notes["done while full"] += 1
            kept = judge.Kept(session.listing(), motcar.bodies_after(kept.bodies, line))
        elif reply is None or reply.startswith(b"refused 15"):
            notes["refused 15 while full"] += 1
            session.end()
            session = program.serve(disk)
            listing = session.listing()
            if listing is None:
                raise RuntimeError(f"it does not open while the file system is full: {session.end()}")
            if listing != kept.listing:
                kept = judge.Kept(listing, motcar.bodies_after(kept.bodies, line))
    session.end()
    return kept


def campaign(room, system, program, seed, trials):
    notes = collections.Counter()
    found = [tried(room, system, program, seed + number, notes) for number in range(trials)]
    return [it for it in found if it], notes
