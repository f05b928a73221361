"""A write into a hole that fails once, without motcar: is what is written and synced there again on the device?"""
import os

import device as devices
import systems

PAGE, PLACE, LENGTH = 4_096, 8_192, 65_536


def tried(room, system, has_hole, is_dropped):
    """What became of the second write."""
    with devices.Device(room, system) as device:
        path = device.mounted_at / "file"
        file = os.open(path, os.O_RDWR | os.O_CREAT)
        os.ftruncate(file, LENGTH)
        if not has_hole:
            os.pwrite(file, bytes(LENGTH), 0)
        os.fsync(file)
        folder = os.open(device.mounted_at, os.O_RDONLY)
        os.fsync(folder)
        os.close(folder)
        if not fail_a_write(device, file):
            return "the fault met the file system's own writes"
        if is_dropped:
            os.posix_fadvise(file, 0, 0, os.POSIX_FADV_DONTNEED)
        data = b"B" * PAGE
        os.pwrite(file, data, PLACE)
        try:
            os.fdatasync(file)
        except OSError as fault:
            return f"the second sync fails, too: {fault.strerror}"
        finally:
            os.close(file)
        device.unmount()
        device.mount()
        with open(path, "rb") as again:
            again.seek(PLACE)
            return "there" if again.read(PAGE) == data else "LOST, though its sync succeeded"


def fail_a_write(device, file):
    """Has a write of the page fail; whether that was met, and not a write of the file system's own."""
    for number in range(1, 13):
        body = bytes([number]) * PAGE
        os.pwrite(file, body, PLACE)
        device.fail("write", number)
        try:
            os.fdatasync(file)
        except OSError:
            pass
        met = device.faults() > 0
        device.be_well()
        if met:
            return any(kind == "w" and data.startswith(body) for kind, _, data in devices.read_log(device.log))
    return False


def campaign(room, names):
    """A row for each file system: what is lost without motcar."""
    for name in names:
        for has_hole in (True, False):
            for is_dropped in (False, True):
                told = tried(room, systems.SYSTEMS[name], has_hole, is_dropped)
                where, how = "a hole" if has_hole else "zeros", "dropped" if is_dropped else "kept"
                yield f"{name}: written into {where}, the cache {how}: {told}"
