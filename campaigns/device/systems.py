"""The file systems that the campaigns run on, and the system's commands that make, mount and mend them."""
import dataclasses
import os
import subprocess
import time

MIB = 1 << 20
SUPERBLOCK = 4_096  # bytes of each copy


@dataclasses.dataclass(frozen=True)
class System:
    kind: str  # as mkfs and mount name it; `bare` is the block device itself
    size: int  # bytes of the device
    make: tuple = ()  # words for mkfs
    options: str = ""  # for mount
    is_mended: bool = False  # looked over before each mount, as a boot does
    is_held: bool = False  # another program has the device open all the time
    superblocks: tuple = ()  # where its copies are, if a device that tears one may tear them all


SYSTEMS = {
    "ext4": System("ext4", 48 * MIB, ("-O", "^resize_inode"), "commit=1"),
    "ext4-1k": System("ext4", 48 * MIB, ("-b", "1024"), "commit=1"),
    "ext4-writeback": System("ext4", 48 * MIB, (), "data=writeback,commit=1"),
    "ext4-journal": System("ext4", 64 * MIB, ("-J", "size=8"), "data=journal,commit=1"),
    "ext4-nojournal": System("ext4", 48 * MIB, ("-O", "^has_journal"), "", is_mended=True),
    "xfs": System("xfs", 64 * MIB),
    "xfs-1k": System("xfs", 64 * MIB, ("-b", "size=1024")),
    "btrfs": System("btrfs", 128 * MIB, (), "commit=1", superblocks=(64 << 10, 64 * MIB)),
    "btrfs-nodatacow": System("btrfs", 128 * MIB, (), "commit=1,nodatacow", superblocks=(64 << 10, 64 * MIB)),
    "bare": System("bare", 2 * MIB),
    "bare-held": System("bare", 2 * MIB, is_held=True),
    # these lose by themselves (docs/DISK_MODEL.md)
    "ext4-nobarrier": System("ext4", 48 * MIB, (), "commit=1,barrier=0"),
    "ext4-fast-commit": System("ext4", 48 * MIB, ("-O", "fast_commit"), "commit=1"),
}

MAKE = {
    "ext4": ["mkfs.ext4", "-q", "-F", "-E", "nodiscard,lazy_itable_init=0,lazy_journal_init=0"],
    "xfs": ["mkfs.xfs", "-q", "-f", "-K"],
    "btrfs": ["mkfs.btrfs", "-q", "-f", "-K"],
}
# mkfs.xfs makes one of less than 300 MiB only where it is told that this is a test
SMALL_XFS = {"TEST_DIR": "/test", "TEST_DEV": "/test", "QA_CHECK_FS": "1"}


def run(*words, is_checked=True, **more):
    done = subprocess.run(words, stdout=subprocess.PIPE, stderr=subprocess.STDOUT, text=True, errors="replace", **more)
    if is_checked and done.returncode:
        raise RuntimeError(f"{' '.join(words)}: {done.stdout}")
    return done


def repeated(seconds, attempt):
    """Tries until it succeeds: what holds a device or a mount is at times let go a little later."""
    end = time.monotonic() + seconds
    while True:
        done = attempt()
        if done.returncode == 0 or time.monotonic() > end:
            break
        time.sleep(0.05)
    if done.returncode:
        raise RuntimeError(f"{' '.join(done.args)}: {done.stdout}")
    return done


def make(system, device):
    if system.kind in MAKE:
        run(*MAKE[system.kind], *system.make, device, env={**os.environ, **SMALL_XFS})


def mount(system, device, folder):
    """None, or why it was refused."""
    options = ["-o", system.options] if system.options else []
    done = run("mount", "-t", system.kind, *options, device, folder, is_checked=False)
    return done.stdout.strip() if done.returncode else None


def unmount(folder):
    repeated(5, lambda: run("umount", folder, is_checked=False))


def attach(path, is_direct):
    """A loop device over a file."""
    direct = f"--direct-io={'on' if is_direct else 'off'}"
    return repeated(5, lambda: run("losetup", "-f", "--show", direct, path, is_checked=False)).stdout.split()[-1]


def detach(loop):
    run("losetup", "-d", loop)
    file = f"/sys/block/{os.path.basename(loop)}/loop/backing_file"
    end = time.monotonic() + 5
    while os.path.exists(file) and time.monotonic() < end:
        time.sleep(0.02)


def mend(system, loop):
    """What an administrator does where a mount is refused; its exit status, 0 to 2 where all is well then."""
    if system.kind == "ext4":
        return run("e2fsck", "-fy", loop, is_checked=False).returncode
    if system.kind == "xfs":
        mended = run("xfs_repair", loop, is_checked=False)
        return mended.returncode and run("xfs_repair", "-L", loop, is_checked=False).returncode
    return run("btrfs", "rescue", "super-recover", "-y", loop, is_checked=False).returncode
