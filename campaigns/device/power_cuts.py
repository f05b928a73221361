"""Power cuts: images that a cut at any moment of the program's life may have left.

A life: a new file system, other work beside the program on it, `format`, and sessions of random commands, half of
them ended by SIGKILL. An image: every write before the last flush that was done, and of those since it none, all,
one, all but one, the last ones, some, or some sectors of some. The disk in it has to open clean to the carousel after
the acknowledged commands or one more, with its bodies; a quarter of the disks are served one command more.
"""
import collections
import dataclasses
import os
import pathlib
import random
import threading
import time

import device as devices
import judge
import program as motcar
import systems

GEOMETRIES = [(6, 400_000), (4, 300_000), (16, 600_000), (8, 450_000)]
SECTOR = 512  # what the device writes whole


class OtherWork(threading.Thread):
    """Files that are made, written, synced and removed beside the disk."""

    def __init__(self, folder, seed):
        super().__init__(daemon=True)
        self.folder, self.choices, self.goes_on = folder, random.Random(seed), True

    def run(self):
        while self.goes_on:
            try:
                self.work()
            except OSError:
                pass
            time.sleep(self.choices.choice([0, 0.001, 0.003, 0.01, 0.03]))

    def work(self):
        choices, name = self.choices, f"{self.folder}/{self.choices.randrange(40)}"
        what = choices.random()
        if what < 0.5:
            with open(name, "wb") as file:
                file.write(choices.randbytes(choices.choice([10, 3_000, 30_000, 200_000])))
                file.flush()
                if choices.random() < 0.3:
                    os.fsync(file.fileno())
        elif what < 0.8:
            os.unlink(name)
        elif what < 0.9:
            folder = os.open(self.folder, os.O_RDONLY)
            os.fsync(folder)
            os.close(folder)
        else:
            systems.run("sync", "-f", self.folder)


@dataclasses.dataclass
class Life:
    system: object
    geometry: tuple
    formatted: int = 0  # the log's position when `formatted` was printed
    sent: list = dataclasses.field(default_factory=list)  # its position as each accepted command was given
    told: list = dataclasses.field(default_factory=list)  # and as its reply was read
    kept: list = dataclasses.field(default_factory=list)  # what the disk holds after so many of them
    begin: int = 0
    end: int = 0
    log: list = dataclasses.field(default_factory=list)


def recorded(room, system, program, seed, commands):
    choices = random.Random(seed)
    life = Life(system, choices.choice(GEOMETRIES))
    with devices.Device(room, system) as device:
        life.begin = device.position()
        other = None
        if system.kind != "bare":
            folder = device.mounted_at / "other"
            folder.mkdir()
            other = OtherWork(folder, seed)
            other.start()
        time.sleep(choices.random() * 0.3)
        objects, area = life.geometry
        sizes = f"--objects {objects} --data {area} --segment 8189"
        refusal = program.refusal("format", device.disk(), *sizes.split())
        life.formatted = device.position()
        if refusal:
            raise RuntimeError(f"format: {refusal}")
        given = motcar.Commands(choices, objects)
        while len(life.told) < commands:
            serve_some(life, device, program, given, choices, commands)
        log = end_of(life, device, other)
    life.log = devices.read_log(log)
    return life


def end_of(life, device, other):
    """Ends what was recorded of a life: the other work beside it stops first. The log of the device."""
    life.end = device.position()
    if other:
        other.goes_on = False
        other.join()
    device.unmount()
    return device.log


def serve_some(life, device, program, given, choices, commands):
    """A session of at most 25 commands, ended or killed."""
    session = program.serve(device.disk())
    listing = session.listing()
    if not life.kept:
        life.kept.append(judge.Kept(listing, {}))
    elif listing != life.kept[-1].listing:
        raise RuntimeError(f"opened to another carousel, without a crash: {listing}, {session.end()}")
    for _ in range(choices.randint(1, 25)):
        bodies = life.kept[-1].bodies
        line = given.next(bodies)
        sent = device.position()
        reply = session.ask(line)
        told = device.position()
        if motcar.is_done(reply):
            life.sent.append(sent)
            life.told.append(told)
            life.kept.append(judge.Kept(session.listing(), motcar.bodies_after(bodies, line)))
        elif reply is None or reply.split()[1] in (b"15", b"16"):
            raise RuntimeError(f"a fault of a device that is well: {reply}")
        if len(life.told) >= commands:
            break
        if choices.random() < 0.1:
            time.sleep(choices.random() * 0.4)  # (the file system has timers of its own)
    if choices.random() < 0.5 and not program.before:
        session.kill()
    else:
        session.end()


def some_sectors(choices, writes, rate):
    """Each write whole, its first sectors, or some of them."""
    for offset, data in writes:
        how = choices.random()
        if how < 0.2:
            yield offset, data
        elif how < 0.5:
            yield offset, data[: SECTOR * choices.randint(0, (len(data) - 1) // SECTOR)]
        else:
            for at in range(0, len(data), SECTOR):
                if choices.random() < rate:
                    yield offset + at, data[at : at + SECTOR]


def reached(choices, writes):
    """Those of the writes since the last flush that the medium has got."""
    how = choices.choice(["none", "all", "some", "some", "sectors", "sectors", "sectors", "one", "but one", "last"])
    if not writes or how == "none":
        return []
    place, rate = choices.randrange(len(writes)), choices.random()
    if how == "some":
        return [it for it in writes if choices.random() < rate]
    if how == "sectors":
        return list(some_sectors(choices, writes, rate))
    return {"all": writes, "one": writes[place : place + 1], "but one": writes[:place] + writes[place + 1 :],
            "last": writes[place:]}[how]


def torn(choices, writes, place):
    """All of the writes, but of those at this place only some first sectors."""
    return [(offset, data[: SECTOR * choices.randint(1, 7)] if offset == place else data) for offset, data in writes]


def moments(life, count, choices):
    """Positions of the log at which the power is cut: a third just before and behind flushes and replies, the others
    rather where many writes wait for a flush."""
    flushes = [at for at, it in enumerate(life.log) if it[0] == "F" and life.begin <= at <= life.end]
    edges = {at + more for at in flushes for more in (0, 1)} | set(life.told) | {life.formatted}
    edges = sorted(at for at in edges if at > life.begin)
    waiting, number = [], 0
    for kind, _, _ in life.log:
        waiting.append(number)
        number = 0 if kind == "F" else number + (kind == "W")
    places = range(life.begin + 1, life.end)
    weights = [min(12, waiting[at]) + 0.05 for at in places]
    some = choices.sample(edges, min(len(edges), count // 3))
    return sorted(some + choices.choices(places, weights, k=count - len(some)))


def images(room, life, count, choices, tears=False):
    """So many images of a life, each with its moment; where a superblock is torn on purpose, it is its first copy."""
    at, first = life.begin, life.system.superblocks[:1]
    base = devices.Image(pathlib.Path(room, "base"), life.system.size)
    base.write((offset, data) for kind, offset, data in life.log[:at] if kind == "W")
    for moment in moments(life, count, choices):
        last = max((it for it in range(at, moment) if life.log[it][0] == "F"), default=at)
        base.write((offset, data) for kind, offset, data in life.log[at:last] if kind == "W")
        at = last
        image = base.copy(pathlib.Path(room, "image"))
        waiting = [(offset, data) for kind, offset, data in life.log[last:moment] if kind == "W"]
        is_due = tears and any((offset,) == first for offset, _ in waiting)
        image.write(torn(choices, waiting, *first) if is_due else reached(choices, waiting))
        image.close()
        yield image.path, moment
    base.close()


def judged(room, life, program, count, seed, notes, tears):
    """The faults of so many images of a life."""
    choices, faults = random.Random(7_919 * seed + 1), []
    folder = pathlib.Path(room, "cut")
    folder.mkdir(exist_ok=True)
    for image, moment in images(room, life, count, choices, tears):
        notes["images"] += 1
        wrong = wrong_in(life, program, image, folder, moment, choices, notes)
        if wrong:
            faults.append(f"at {moment}: {wrong}")
    return faults


def whole_superblocks(life, image, moment):
    """Of each copy of the file system's superblock in this image, whether it is one that was ever written."""
    with open(image, "rb") as file:
        for place in life.system.superblocks:
            file.seek(place)
            kept = file.read(systems.SUPERBLOCK)
            yield any(kind == "W" and (at, data) == (place, kept) for kind, at, data in life.log[:moment])


def wrong_unmounted(whole, notes):
    """The file system can't be mounted, which is its own matter if the device tore all copies of its superblock."""
    if not whole or any(whole):
        return f"{judge.LOST}: the file system can't be mounted"
    notes["no superblock whole"] += 1
    return None


def wrong_in(life, program, image, folder, moment, choices, notes):
    told = sum(it <= moment for it in life.told)
    given = told + (told < len(life.sent) and life.sent[told] <= moment)
    whole = list(whole_superblocks(life, image, moment))
    with judge.opened(life.system, image, folder, notes) as disk:
        if disk is None:
            return wrong_unmounted(whole, notes)
        if moment < life.formatted:
            return wrong_before(program, disk, notes)
        if whole and not whole[0]:
            return wrong_set_back(program, disk, life.kept[: given + 1], notes)
        if not os.path.exists(disk):
            return f"{judge.LOST}: there is no file"
        found = judge.look(program, disk)
        wrong = judge.difference(found, life.kept[told : given + 1])
        if wrong:
            return wrong
        notes["with the command in flight"] += found.listing != life.kept[told].listing
        return wrong_after_one_more(program, disk) if choices.random() < 0.25 else None


def wrong_before(program, disk, notes):
    """`formatted` was not printed yet: there may be no disk, but one can be made."""
    if not os.path.exists(disk):
        notes["before `formatted`: no file"] += 1
        return None
    refusal = judge.look(program, disk).refusal
    notes[f"before `formatted`: {refusal.removeprefix('motcar: ') or 'a disk'}"] += 1
    if not refusal:
        return None
    if program.refusal("format", disk) and not disk.startswith("/dev/"):
        notes["before `formatted`: to be removed first"] += 1
        os.unlink(disk)
        return program.refusal("format", disk)
    return None


def wrong_set_back(program, disk, kept, notes):
    """The device tore the first copy of the superblock, which a sync of a file writes alone. By the second one the file
    system, as it was mended, is that of an earlier moment, and so is the disk in it."""
    notes["first superblock torn"] += 1
    if not os.path.exists(disk):
        return None
    found = judge.look(program, disk)
    return None if found.refusal.endswith("17 NotFormatted") else judge.difference(found, kept)


def wrong_after_one_more(program, disk):
    session = program.serve(disk)
    reply, listing = session.ask(b"period 77"), session.listing()
    session.end()
    found = judge.look(program, disk)
    is_well = motcar.is_done(reply) and found.listing == listing and found.is_clean
    return None if is_well else f"STUCK: {reply} to a command, then {found}"


def campaign(room, system, program, seed, lives, images, commands, tears):
    """The faults, and notes of what was seen."""
    notes, faults = collections.Counter(), []
    for number in range(lives):
        life = recorded(room, system, program, seed + number, commands)
        notes["commands"] += len(life.told)
        faults += judged(room, life, program, images, seed + number, notes, tears)
    return faults, notes
