"""A folder and the disk that it is played from: after a power cut the folder is not older than the disk.

A life: a new file system, a disk and a folder on it, in every second life other work beside them. Again and again an
operator changes files; then `sync` or `play` looks at the folder, at times while the operator goes on. He syncs each
new file before he renames it into the folder, or, with `--unsynced`, syncs nothing. In an image of a power cut each
file has to be as the disk has it or as the operator made it later, and the next `sync` withdraws no object whose file
the operator left there.
"""
import collections
import dataclasses
import os
import pathlib
import random
import subprocess
import threading
import time

import device as devices
import judge
import power_cuts
import program as motcar
import systems

NAMES, OLD = [f"n{number}.txt" for number in range(8)], "old.txt"
GEOMETRY = ["--objects", "12", "--data", "900000"]
SIZES = [16, 100, 2_000, 4_096, 4_097, 20_000, 60_000]
# ways that leave a whole file at every moment; the others are for times at which no look runs
AT_ONCE = ["renamed", "renamed beside", "linked", "moved", "removed"]
IN_PLACE = ["written", "written", "written over"]


@dataclasses.dataclass(frozen=True)
class Change:
    begun: int  # the log's position before it
    how: str
    body: bytes | None  # the file's bytes after it, None if it is gone


@dataclasses.dataclass
class Life(power_cuts.Life):
    acknowledged: list = dataclasses.field(default_factory=list)  # position, name, and how many of its changes at least
    changes: dict = dataclasses.field(default_factory=dict)  # of each name, in order


class Operator:
    """Changes files of the folder, and syncs a new one before its renaming, or with `unsynced` none. One file was there
    before, and stays, since a look at an empty folder withdraws nothing."""

    def __init__(self, device, choices, unsynced):
        self.device, self.choices, self.unsynced = device, choices, unsynced
        self.ways = [*AT_ONCE, *(IN_PLACE if unsynced else [])]
        self.folder, self.aside = folder_of(device.disk()), device.mounted_at / "aside"
        self.changes = {name: [] for name in (*NAMES, OLD)}
        for it in (self.folder, self.aside):
            it.mkdir()
        self.note(OLD, "written", b"old")
        self.written(OLD, b"old")
        systems.run("sync", "-f", self.folder)

    def change(self, ways):
        choices, there = self.choices, [name for name in NAMES if (self.folder / name).exists()]
        how, name = choices.choice(ways), choices.choice(NAMES)
        body = choices.randbytes(choices.choice(SIZES))
        if how not in ("moved", "removed"):
            self.note(name, how, body)
            getattr(self, how.replace(" ", "_"))(name, body)
        elif name in there:
            getattr(self, how)(name, choices.choice(NAMES))

    def removed(self, name, _):
        self.note(name, "removed", None)
        os.unlink(self.folder / name)

    def moved(self, name, to):
        if name != to:
            body = self.changes[name][-1].body
            self.note(name, "moved", None)
            self.note(to, "moved", body)
            os.rename(self.folder / name, self.folder / to)

    def note(self, name, how, body):
        self.changes[name].append(Change(self.device.position(), how, body))

    def written(self, name, body):
        (self.folder / name).write_bytes(body)

    def written_over(self, name, body):
        file = os.open(self.folder / name, os.O_RDWR | os.O_CREAT, 0o644)
        os.pwrite(file, body, 0)
        os.ftruncate(file, len(body))
        os.close(file)

    def renamed(self, name, body):
        self.new_file(self.aside / name, body, not self.unsynced)
        os.rename(self.aside / name, self.folder / name)

    def renamed_beside(self, name, body):
        self.new_file(self.folder / f".{name}", body, not self.unsynced)
        os.rename(self.folder / f".{name}", self.folder / name)

    def new_file(self, path, body, is_synced):
        with open(path, "wb") as file:
            file.write(body)
            file.flush()
            if is_synced:
                os.fsync(file.fileno())

    def linked(self, name, body):
        """A file whose bytes were synced long ago; only its name is new."""
        self.new_file(self.aside / name, body, True)
        os.link(self.aside / name, self.folder / f".{name}")
        os.unlink(self.aside / name)
        os.rename(self.folder / f".{name}", self.folder / name)


def folder_of(disk):
    return pathlib.Path(disk).parent / "objects"


def acknowledged(program, device, is_played):
    """The names that one look said it has put, replaced or withdrawn, each as its line is read."""
    disk, folder, streams = device.disk(), folder_of(device.disk()), {"stdout": subprocess.PIPE}
    words = ["sync", disk, folder, "--at-once"]
    if is_played:
        words = ["play", disk, "-", "--folder", folder, "--at-once", "--turns", "1"]
        streams = {"stdout": subprocess.DEVNULL, "stderr": subprocess.PIPE}
    with subprocess.Popen([*program.before, program.path, *words], **streams) as process:
        yield from done_of(process.stderr if is_played else process.stdout)
    if process.returncode not in (0, 1):  # 1: a file was gone before it was read
        raise RuntimeError(f"{words[0]} ended with {process.returncode}")


def done_of(lines, which=(b"put", b"replace", b"withdraw")):
    for line in lines:
        words = line.split()
        if words[2:3] == [b"done"] and words[0] in which:
            yield words[1].decode()


def recorded(room, system, path, without, seed, count, unsynced):
    choices = random.Random(seed)
    life = Life(system, ())
    with devices.Device(room, system) as device:
        operator = Operator(device, choices, unsynced)
        folder = operator.folder
        program = motcar.Program(path, without, [folder, *(folder / name for name in operator.changes)])
        motcar.Program(path).run("format", device.disk(), *GEOMETRY).check_returncode()
        life.begin = life.formatted = device.position()
        life.changes, other = operator.changes, None
        if seed % 2:
            (device.mounted_at / "other").mkdir()
            other = power_cuts.OtherWork(device.mounted_at / "other", seed)
            other.start()
        while sum(map(len, operator.changes.values())) < count:
            look_once(life, device, program, operator, choices)
        log = power_cuts.end_of(life, device, other)
    life.log = devices.read_log(log)
    return life


def look_once(life, device, program, operator, choices):
    """Some changes, and then a look; in a third of the looks the operator goes on meanwhile."""
    for _ in range(choices.randint(1, 5)):
        operator.change(operator.ways)
    if choices.random() < 0.2:
        time.sleep(choices.random() * 0.4)  # (the file system has timers of its own)
    before = {name: len(it) for name, it in operator.changes.items()}
    is_played, goes_on = choices.random() < 0.3, choices.random() < 0.3
    meanwhile = threading.Thread(target=go_on, args=(operator, choices))
    if goes_on:
        meanwhile.start()
    for name in acknowledged(program, device, is_played):
        position = device.position()
        life.told.append(position)
        life.acknowledged.append((position, name, before[name]))
    if goes_on:
        meanwhile.join()


def go_on(operator, choices):
    for _ in range(choices.randint(1, 4)):
        time.sleep(choices.random() * 0.03)
        operator.change(AT_ONCE)


def wrong_in(life, program, image, mounted_at, moment, notes):
    least = {name: count for position, name, count in life.acknowledged if position <= moment}
    whole = list(power_cuts.whole_superblocks(life, image, moment))
    with judge.opened(life.system, image, mounted_at, notes) as disk:
        if disk is None:
            return power_cuts.wrong_unmounted(whole, notes)
        if whole and not whole[0]:  # the file system is that of an earlier moment, disk and folder alike
            notes["first superblock torn"] += 1
            least = {}
        found = judge.look(program, disk)
        if found.refusal:
            return f"{judge.LOST}: the disk does not open: {found.refusal}"
        notes["objects"] += len(found.bodies)
        files, wrong = {}, {}
        for name, changes in life.changes.items():
            path = folder_of(disk) / name
            files[name] = path.read_bytes() if path.exists() else None
            body, count = found.bodies.get(name.encode()), least.get(name, 0)
            wrong[name] = what_is_wrong(changes, count, body, files[name], moment, notes)
        said = program.run("sync", disk, folder_of(disk), "--at-once").stdout.splitlines()
        withdrawn = list(done_of(said, [b"withdraw"]))
    for name in withdrawn:
        if wrong[name] or files[name] is not None:
            wrong[name] = f"{wrong[name] or 'its file is there'}, and was withdrawn"
            notes["withdrawn"] += 1
    told = "; ".join(f"{name} {it}" for name, it in wrong.items() if it)
    return f"{judge.LOST}: {told}" if told else None


def what_is_wrong(changes, least, body, file, moment, notes):
    """None if the file is as the disk has the object, or as a change after the acknowledged ones made it. What is no
    whole file may be left of a change that the operator began later, without a sync."""
    states = [None, *(it.body for it in changes)]
    held = next((at for at in range(least, len(states)) if states[at] == body), None)
    if held is None:
        return "is in the disk, but not as it was acknowledged"
    if file in states[held:]:
        return None
    if file not in states[:held] and any(it.begun <= moment for it in changes[held:]):
        notes["torn by a later change"] += 1
        return None
    how = "is gone" if file is None else "is back" if body is None else "has older bytes"
    if file not in states[:held]:
        how = "has other bytes" if file else "is empty"
    notes[how] += 1
    return f"({changes[held - 1].how if held else 'not there'}) {how}"


def campaign(room, system, path, without, seed, lives, images, changes, unsynced):
    """The faults, and notes of what was seen."""
    notes, faults = collections.Counter(), []
    program, mounted_at = motcar.Program(path), pathlib.Path(room, "cut")
    mounted_at.mkdir(exist_ok=True)
    for number in range(seed, seed + lives):
        life = recorded(room, system, path, without, number, changes, unsynced)
        notes["changes"] += sum(map(len, life.changes.values()))
        notes["acknowledged"] += len(life.told)
        for image, moment in power_cuts.images(room, life, images, random.Random(7_919 * number + 1)):
            notes["images"] += 1
            wrong = wrong_in(life, program, image, mounted_at, moment, notes)
            if wrong:
                faults.append(f"life {number}, at {moment}: {wrong}")
    return faults, notes
