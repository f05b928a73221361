"""The command `play` on a block device in the place of its packets: it is refused, and no byte of it changes."""
import os
import shutil
import unittest

from .air import AirCase
from .loops import Loops, has_loop_devices, make_ext4
from .program import refused

MIB = 1 << 20


@unittest.skipUnless(has_loop_devices(), "no loop devices here, or not root")
class PlayDevice(Loops, AirCase):
    def setUp(self):
        super().setUp()
        self.place = self.disk("disk", "put first 1 0 text/plain " + "61" * 9_000)
        self.image = self.room / "image"
        self.device = self.attach(self.image, 20 * MIB)

    def expect_refused(self, row, path, *options, why="a block device, which takes no packets"):
        """`play` refuses the device, and writes nothing to it."""
        os.sync()
        before = self.image.read_bytes()
        self.expect(row, refused(23, "WriteFault", f"{path}: {why}"), self.play(self.place, path, *options))
        os.sync()
        self.expect(f"{row}: it stays whole", True, before == self.image.read_bytes())

    def others(self):
        """Further paths of the device: another node, and a link."""
        node, link = self.room / "node", self.room / "link"
        os.mknod(node, 0o600 | 0o060000, os.stat(self.device).st_rdev)
        link.symlink_to(self.device)
        return [("another node", node), ("a link to it", link)]

    def test_a_clear_device(self):
        self.expect_refused("a turn", self.device, "--turns", "1")
        self.expect_refused("turns without an end", self.device)
        self.expect_refused("no turn", self.device, "--turns", "0")
        for row, path in self.others():
            self.expect_refused(row, path, "--turns", "1")

    def test_a_mounted_device(self):
        if shutil.which("mkfs.ext4") is None:
            self.leave_out("a mounted device", "no mkfs.ext4 here")
            return
        make_ext4(self.device)
        others = self.others()
        with self.mounted(self.device) as folder:
            (folder / "kept").write_bytes(b"kept")
            self.expect_refused("200 turns", self.device, "--turns", "200")
            for row, path in others:
                self.expect_refused(row, path, "--turns", "200")
        with self.mounted(self.device) as folder:
            self.expect("its file is there", b"kept", (folder / "kept").read_bytes())

    def test_a_device_that_is_a_disk(self):
        self.expect("the device is formatted", 0, self.motcar("format", self.device)[0])
        self.expect_refused("another disk", self.device, "--turns", "1")
        self.place = self.device
        self.expect_refused("the disk itself", self.device, "--turns", "1", why="the disk itself")
