"""Loop devices: files that a test attaches as block devices, and mounts."""
import contextlib
import errno
import os
import shutil
import subprocess

from .air import until


def has_loop_devices():
    """Whether this machine lets one attach a file as a block device."""
    return os.geteuid() == 0 and os.path.exists("/dev/loop-control") and shutil.which("losetup") is not None


def word(*words):
    """What a tool that has to succeed prints."""
    return subprocess.run([str(it) for it in words], check=True, capture_output=True, timeout=60).stdout.decode().strip()


def make_ext4(device):
    """Makes a file system, and leaves nothing of it to be written later."""
    word("mkfs.ext4", "-q", "-E", "lazy_itable_init=0,lazy_journal_init=0", device)


def is_free(device):
    """Whether no file system is mounted of a device, also in a copy of the mounts that another test has made."""
    try:
        os.close(os.open(device, os.O_RDONLY | os.O_EXCL))
    except OSError as error:
        if error.errno != errno.EBUSY:
            raise
        return False
    return True


class Loops:
    """What a case has that attaches files as block devices."""

    def attach(self, image, size, *options, head=b""):
        """A loop device of a new image that has these first bytes and then zeros; it is gone with the test.

        Nothing else detaches it: its number may be that of another test's device by then.
        """
        image.write_bytes(head)
        os.truncate(image, size)
        device = word("losetup", "--find", "--show", *options, image)
        self.addCleanup(word, "losetup", "--detach", device)
        return device

    @contextlib.contextmanager
    def mounted(self, device):
        """A folder in which the file system of the device is mounted."""
        folder = self.room / "mounted"
        folder.mkdir(exist_ok=True)
        word("mount", device, folder)
        try:
            yield folder
        finally:
            word("umount", folder)
            if not until(lambda: is_free(device)):
                raise RuntimeError(f"{device} is still mounted elsewhere")
