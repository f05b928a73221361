"""The command `format` on a block device: one that is in use, or has something on it, stays whole."""
import os
import pathlib
import shutil
import subprocess
import unittest

from .loops import Loops, has_loop_devices, make_ext4, word
from .program import Case, refused, run

FORMATTED = (0, b"formatted 84032\n", b"")
MIB = 1 << 20
# The signature of each kind, where it stands, and what is said of it.
SIGNATURES = [
    ("ext4", 1_080, b"\x53\xef", "it has a file system (ext2, ext3 or ext4)"),
    ("XFS", 0, b"XFSB", "it has a file system (XFS)"),
    ("btrfs", 65_600, b"_BHRfS_M", "it has a file system (btrfs)"),
    ("a swap", 4_086, b"SWAPSPACE2", "it is a swap"),
    ("LUKS", 0, b"LUKS\xba\xbe", "it is an encrypted volume (LUKS)"),
    ("LVM", 512, b"LABELONE", "it is a physical volume of LVM"),
    ("md", 4_096, (0xa92b4efc).to_bytes(4, "little"), "it is a member of a RAID"),
    ("squashfs", 0, b"hsqs", "it has a file system (squashfs)"),
    ("ISO 9660", 32_769, b"CD001", "it has a file system (ISO 9660)"),
    ("GPT", 512, b"EFI PART", "it has a partition table (GPT)"),
    ("MBR", 510, b"\x55\xaa", "it has a partition table or a file system (MBR, FAT or NTFS)"),
]


@unittest.skipUnless(has_loop_devices(), "no loop devices here, or not root")
class FormatDevice(Loops, Case):
    def setUp(self):
        super().setUp()
        self.image = self.room / "image"
        self.device = self.attach(self.image, 20 * MIB)

    def put(self, at, held):
        """Writes bytes onto the device."""
        with open(self.device, "r+b") as file:
            os.pwrite(file.fileno(), held, at)
            os.fsync(file.fileno())

    def clear(self):
        self.put(0, bytes(MIB))

    def expect_refused(self, row, why, device=None):
        """`format` refuses the device for this, and no byte of it changes."""
        device = device or self.device
        os.sync()
        before = self.image.read_bytes()
        wanted = refused(15, "DeviceFault", f"{device}: {why}")
        self.expect(row, wanted, self.motcar("format", device))
        os.sync()
        self.expect(f"{row}: it stays whole", True, before == self.image.read_bytes())
        self.expect(f"{row}: nothing stands beside it", False, os.path.exists(f"{device}-wal"))

    def signed(self, what, device=None):
        return f"{what}; if nobody needs it, clear it: wipefs -a {device or self.device}"

    def test_a_clear_device(self):
        self.expect("is formatted", FORMATTED, self.motcar("format", self.device))
        self.expect("and clean", (0, b"carousel 0 1 1 0\nclean\nlayout 2\n", b""), self.motcar("check", self.device))
        wanted = refused(18, "AlreadyFormatted", f"{self.device}: it is a motcar disk already")
        self.expect("and not formatted again", wanted, self.motcar("format", self.device))
        self.expect("nothing stands beside it", False, os.path.exists(f"{self.device}-wal"))
        self.put(510, b"\x55\xaa")
        self.expect("nor with a signature in its slots", wanted, self.motcar("format", self.device))

    def test_each_signature(self):
        for name, at, held, what in SIGNATURES:
            self.clear()
            self.put(at, held)
            self.expect_refused(name, self.signed(what))
            self.clear()
            self.put(at, held[:-1] + bytes([held[-1] ^ 1]))
            self.expect(f"{name}: a bit off is none", FORMATTED, self.motcar("format", self.device))

    def test_a_device_shorter_than_where_signatures_stand(self):
        small = self.attach(self.room / "small", 4_096)
        wanted = refused(19, "DiskTooSmall", f"{small}: 4096 bytes, and the geometry asks for 84032")
        self.expect("is too short", wanted, self.motcar("format", small))

    def test_a_geometry_out_of_range_is_told_first(self):
        self.put(0, b"XFSB")
        wanted = refused(21, "BadGeometry", "--objects 0: 1 to 250")
        self.expect("no object", wanted, self.motcar("format", self.device, "--objects", "0"))

    def test_a_file_system(self):
        if shutil.which("mkfs.ext4") is None:
            self.leave_out("a file system", "no mkfs.ext4 here")
            return
        make_ext4(self.device)
        ext4 = self.signed("it has a file system (ext2, ext3 or ext4)")
        self.expect_refused("one that is not mounted", ext4)
        with self.mounted(self.device) as folder:
            (folder / "kept").write_bytes(b"kept")
            at = f"it, or a partition of it, is mounted at {folder}; unmount it first"
            self.expect_refused("one that is mounted", at)
            # (a mounted device is known by its number, whatever its first bytes are)
            node = self.room / "node"
            number = os.stat(self.device).st_rdev
            os.mknod(node, 0o600 | 0o060000, number)
            self.expect_refused("the same by another node", at, node)
            link = self.room / "link"
            link.symlink_to(self.device)
            self.expect_refused("the same by a link", at, link)
        self.expect_refused("one that was mounted", ext4)
        with self.mounted(self.device) as folder:
            self.expect("its file is there", b"kept", (folder / "kept").read_bytes())

    def test_a_device_whose_number_begins_alike(self):
        """A device is not taken for another one that is mounted."""
        if shutil.which("mkfs.ext4") is None:
            self.leave_out("another device", "no mkfs.ext4 here")
            return
        other = self.attach(self.room / "other", 20 * MIB)
        make_ext4(other)
        with self.mounted(other):
            self.expect("the one that is not mounted is formatted", FORMATTED, self.motcar("format", self.device))

    def test_a_partition(self):
        """A device whose partition is mounted is in use."""
        entry = b"\0\0\0\0\x83\0\0\0" + (2_048).to_bytes(4, "little") + (16 * MIB // 512).to_bytes(4, "little")
        self.image = self.room / "partitioned"
        self.device = self.attach(self.image, 20 * MIB, "--partscan", head=bytes(446) + entry + bytes(48) + b"\x55\xaa")
        self.expect_refused("a partition table", self.signed("it has a partition table or a file system (MBR, FAT or NTFS)"))
        part = pathlib.Path(f"{self.device}p1")
        if not part.exists():
            # (a system that reads no such table by itself is told of the partition)
            subprocess.run(["partx", "--add", self.device], check=False, capture_output=True)
        if not part.exists() or shutil.which("mkfs.ext4") is None:
            self.leave_out("a partition", "its node is not made here, or no mkfs.ext4")
            return
        make_ext4(part)
        with self.mounted(part) as folder:
            at = f"it, or a partition of it, is mounted at {folder}; unmount it first"
            self.expect_refused("the device of a mounted one", at)
            self.expect_refused("a mounted one", at, part)

    def test_a_swap(self):
        if shutil.which("mkswap") is None:
            self.leave_out("a swap", "no mkswap here")
            return
        word("mkswap", self.device)
        self.expect_refused("one that is not used", self.signed("it is a swap"))
        if run(["swapon", self.device])[0] != 0:
            self.leave_out("a swap", "swapon is not let here")
            return
        try:
            why = "it, or a partition of it, is swap space; end that by swapoff first"
            self.expect_refused("one that is used", why)
        finally:
            word("swapoff", self.device)

    def test_a_device_that_another_stands_on(self):
        if shutil.which("dmsetup") is None:
            self.leave_out("a holder", "no dmsetup here")
            return
        name = f"motcar-test-{os.getpid()}"
        table = f"0 {20 * MIB // 512} linear {self.device} 0"
        if run(["dmsetup", "create", name, "--table", table])[0] != 0:
            self.leave_out("a holder", "dmsetup is not let here")
            return
        try:
            holders = os.listdir(f"/sys/block/{os.path.basename(self.device)}/holders")
            self.expect_refused("is refused", f"the device {holders[0]} stands on it; end that device first")
        finally:
            word("dmsetup", "remove", "--retry", name)
        self.expect("and formatted later", FORMATTED, self.motcar("format", self.device))

    def test_no_table_of_what_is_mounted(self):
        """Without /proc nothing is known to be free."""
        if shutil.which("unshare") is None:
            self.leave_out("no /proc", "no unshare here")
            return
        script = 'mount -t tmpfs none /proc && exec "$0" format "$1"'
        ended = run(["unshare", "--mount", "sh", "-c", script, self.program, self.device], cwd=self.room)
        if b"DeviceFault" not in ended[2]:
            self.leave_out("no /proc", "mount is not let here")
            return
        why = f"{self.device}: /proc/self/mountinfo does not say what is mounted; mount /proc"
        # (a program that is only tried warns first that it misses /proc, too)
        said = b"".join(it for it in ended[2].splitlines(True) if it.startswith(b"motcar: "))
        self.expect("is refused", refused(15, "DeviceFault", why), (*ended[:2], said))
