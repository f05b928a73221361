"""What the program finds in an image of the device, and whether that is what was acknowledged."""
import contextlib
import dataclasses
import os

import program as motcar
import systems
from tests import dab

LOST, UNCLEAN = "LOST", "UNCLEAN"


@dataclasses.dataclass
class Kept:
    """What a disk may be found to hold."""

    listing: bytes
    bodies: dict


@dataclasses.dataclass
class Found:
    """What a disk was found to hold, or the refusal to open it."""

    refusal: str = ""
    listing: bytes = b""
    is_clean: bool = False
    bodies: dict = dataclasses.field(default_factory=dict)


def look(program, disk):
    checked = program.run("check", disk)
    if checked.returncode:
        return Found(motcar.first_line(checked.stderr))
    lines = checked.stdout.rstrip(b"\n").split(b"\n")
    objects = [line.split(b" ") for line in lines[1:-2]]
    try:
        by_number = dab.bodies_of(dab.packets_told(program.run("serve", disk, given=b"turn\n").stdout))
        bodies = {words[6]: by_number.get(int(words[1])) for words in objects}
    except (dab.Wrong, ValueError, IndexError) as fault:
        bodies = {"packets": repr(fault)}
    return Found("", b"\n".join(lines[:-2]), lines[-2] == b"clean", bodies)


def difference(found, allowed):
    """None where one of these is what was found, clean; else what is wrong."""
    if found.refusal:
        return f"{LOST}: it does not open: {found.refusal}"
    fitting = [it for it in allowed if it.listing == found.listing]
    unclean = "" if found.is_clean else ", not clean"
    if not fitting:
        first, wanted = (it.split(b"\n")[0].decode() for it in (found.listing, allowed[0].listing))
        return f"{LOST}: `{first}` where `{wanted}` was acknowledged{unclean}"
    if found.bodies not in [it.bodies for it in fitting]:
        return f"{LOST}: other bodies{unclean}"
    return UNCLEAN if unclean else None


@contextlib.contextmanager
def opened(system, image, folder, notes=None):
    """Mounts an image; gives the disk's path in it, None where it can't be mounted even after it was mended."""
    loop = systems.attach(str(image), False)
    is_mounted = False
    try:
        if system.kind == "bare":
            yield loop
            return
        if system.is_mended:
            systems.mend(system, loop)
        refused = systems.mount(system, loop, folder)
        if refused and notes is not None:
            notes["mounts refused before mending"] += 1
        if refused:
            systems.mend(system, loop)
            refused = systems.mount(system, loop, folder)
        is_mounted = not refused
        yield f"{folder}/station.disk" if is_mounted else None
    finally:
        if is_mounted:
            systems.unmount(folder)
        systems.detach(loop)


def judged(program, system, image, folder, allowed):
    """None where the disk in this image is one of the allowed, else what is wrong."""
    with opened(system, image, folder) as disk:
        if disk is None:
            return f"{LOST}: the file system can't be mounted"
        if not os.path.exists(disk):
            return f"{LOST}: there is no file"
        return difference(look(program, disk), allowed)
