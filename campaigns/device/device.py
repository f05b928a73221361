"""The block device that logs and fails, with a file system mounted on it; its log, and the images that it tells of."""
import os
import pathlib
import shutil
import struct
import subprocess
import time

import systems

HEAD = 16


class Device:
    """block_device with a loop device over its file; ends whole, whatever happened."""

    def __init__(self, room, system):
        self.system = system
        self.folder = pathlib.Path(room, "device")
        shutil.rmtree(self.folder, ignore_errors=True)
        self.fuse, self.mounted_at = self.folder / "fuse", self.folder / "mounted"
        self.store, self.log = self.folder / "store", self.folder / "log"
        for it in (self.fuse, self.mounted_at):
            it.mkdir(parents=True)
        words = [pathlib.Path(room, "block_device"), self.fuse, self.store, str(system.size), self.log]
        self.daemon = subprocess.Popen(words, stdout=subprocess.DEVNULL, stderr=subprocess.DEVNULL)
        self.switches = self.loop = self.holder = None
        self.is_mounted = False

    def __enter__(self):
        try:
            end = time.monotonic() + 5
            while not (self.fuse / "switches").exists():
                if self.daemon.poll() is not None or time.monotonic() > end:
                    raise RuntimeError("block_device did not begin: is there /dev/fuse, and are you root?")
                time.sleep(0.02)
            self.switches = os.open(self.fuse / "switches", os.O_RDWR)
            self.loop = systems.attach(str(self.fuse / "disk"), True)
            systems.make(self.system, self.loop)
            self.mount()
            return self
        except BaseException:
            self.__exit__()
            raise

    def __exit__(self, *_):
        try:
            if self.switches is not None:
                self.be_well()
                self.unmount()
            if self.loop:
                systems.detach(self.loop)
        finally:
            if self.switches is not None:
                os.close(self.switches)
            if self.daemon.poll() is None:
                subprocess.run(["umount", self.fuse], stderr=subprocess.DEVNULL)
            try:
                self.daemon.wait(5)
            except subprocess.TimeoutExpired:
                self.daemon.kill()
                self.daemon.wait()
                subprocess.run(["umount", "-l", self.fuse], stderr=subprocess.DEVNULL)

    def mount(self):
        if self.system.kind == "bare":
            if self.system.is_held:
                self.holder = os.open(self.loop, os.O_RDONLY)
            return
        fault = systems.mount(self.system, self.loop, self.mounted_at)
        if fault:
            raise RuntimeError(fault)
        self.is_mounted = True

    def unmount(self):
        if self.holder is not None:
            os.close(self.holder)
            self.holder = None
        if self.is_mounted:
            systems.unmount(self.mounted_at)
            self.is_mounted = False

    def disk(self):
        """The path of motcar's disk."""
        return self.loop if self.system.kind == "bare" else str(self.mounted_at / "station.disk")

    def fail(self, kind, number):
        """The numberth write or flush from now fails; `lose` is a flush whose writes are lost."""
        line = {"write": "fail write %d", "flush": "fail flush %d", "lose": "fail flush %d lose"}[kind] % number
        os.pwrite(self.switches, line.encode(), 0)

    def be_well(self):
        os.pwrite(self.switches, b"well", 0)

    def counts(self):
        """How many records the log has, and how many of them are of faults."""
        words = os.pread(self.switches, 80, 0).split()
        return int(words[1]), int(words[3])

    def position(self):
        return self.counts()[0]

    def faults(self):
        return self.counts()[1]

    def copy(self, to):
        """All that has reached the device."""
        systems.run("cp", "--sparse=always", str(self.store), to)


def read_log(path):
    """Its records, in order: kind, offset, bytes."""
    data, at, records = pathlib.Path(path).read_bytes(), 0, []
    while at + HEAD <= len(data):
        kind = chr(data[at])
        length, offset = struct.unpack_from("<IQ", data, at + 4)
        records.append((kind, offset, data[at + HEAD : at + HEAD + length]))
        at += HEAD + length
    return records


class Image:
    """A file that the log's writes are put into, sparse where they are zeros."""

    def __init__(self, path, size=None):
        self.path = path
        made = 0 if size is None else os.O_CREAT | os.O_TRUNC
        self.file = os.open(path, os.O_RDWR | made, 0o600)
        if size is not None:
            os.ftruncate(self.file, size)

    def copy(self, path):
        systems.run("cp", "--sparse=always", str(self.path), str(path))
        return Image(path)

    def write(self, writes):
        for offset, data in writes:
            if data.strip(b"\0") or os.pread(self.file, len(data), offset).strip(b"\0"):
                os.pwrite(self.file, data, offset)

    def close(self):
        os.close(self.file)


def flushed_image(log, size, path):
    """The image of those writes alone that a flush which was done covers."""
    image, waiting = Image(path, size), []
    for kind, offset, data in log:
        if kind == "W":
            waiting.append((offset, data))
        elif kind == "F":
            image.write(waiting)
        if kind == "F" or kind == "f" and offset:
            waiting = []
    image.close()
