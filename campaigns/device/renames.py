"""A file that was made to last, and then another one renamed over it, without motcar and without a sync: after a power
cut, is one of the two there?"""
import os
import pathlib

import device as devices
import systems

OLD, NEW = b"o" * 20_000, b"n" * 20_000


def sync(path):
    it = os.open(path, os.O_RDONLY)
    os.fsync(it)
    os.close(it)


def recorded(room, system, is_beside, is_synced):
    """The device's log, and its positions before the renaming and after a sync of a third file."""
    with devices.Device(room, system) as device:
        folder, aside = device.mounted_at / "objects", device.mounted_at / "aside"
        for it in (folder, aside):
            it.mkdir()
        systems.run("sync", "-f", folder)
        (folder / "logo").write_bytes(OLD)
        sync(folder / "logo")
        sync(folder)
        new = folder / ".logo" if is_beside else aside / "logo"
        new.write_bytes(NEW)
        if is_synced:
            sync(new)
        begin = device.position()
        os.rename(new, folder / "logo")
        (folder / "other").write_bytes(b"other")
        sync(folder / "other")
        end = device.position()
        device.unmount()
        return devices.read_log(device.log), begin, end


def found(room, system, log, moment):
    """What is there after a power cut that leaves all of the log's writes so far."""
    image = devices.Image(pathlib.Path(room, "image"), system.size)
    image.write((offset, data) for kind, offset, data in log[:moment] if kind == "W")
    image.close()
    mounted_at = pathlib.Path(room, "cut")
    mounted_at.mkdir(exist_ok=True)
    loop = systems.attach(str(image.path), False)
    try:
        if systems.mount(system, loop, mounted_at):
            return "cannot be mounted"
        path = mounted_at / "objects" / "logo"
        there = path.read_bytes() if path.exists() else None
        systems.unmount(mounted_at)
    finally:
        systems.detach(loop)
    return {OLD: "the old file", NEW: "the new file", None: "NO FILE", b"": "AN EMPTY FILE"}.get(there, "OTHER BYTES")


def campaign(room, names):
    """A row for each file system and way: what was found at the cuts from the renaming to the sync of a third file."""
    for name in names:
        system = systems.SYSTEMS[name]
        for is_beside in (False, True):
            for is_synced in (False, True):
                log, begin, end = recorded(room, system, is_beside, is_synced)
                kinds = sorted({found(room, system, log, moment) for moment in range(begin, end + 1)})
                where = "from the same folder" if is_beside else "from another folder"
                how = "synced before" if is_synced else "not synced"
                yield f"{name}: renamed {where}, {how}: {', '.join(kinds)}"
