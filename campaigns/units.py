#!/usr/bin/env python3
"""Starts the units of examples/ under the systemd of Debian releases, each as process 1 of a small Debian of its own.

    campaigns/units.py [PROGRAM] [--systems bookworm,trixie] [--folder FOLDER] [--old-filter]

It starts motcar and motcar@north as the manual has it: the user by systemd-sysusers, folders with a logo, disks by `motcar
format`, whose empty station.disk-wal is removed again. Then it looks whether both run, what stands in the journal, whether
whole packets come out of the pipes, and how `systemd-analyze security` rates the units. The status has to be written, also
once the other unit has stopped, and the node exporter of that Debian has to serve it by the manual's link.
The health unit of each has one line for packets that stand still, and one once they go on.
A wrong option has to end the unit for good, and a start that fails is tried after ever longer pauses, if systemd knows them.

PROGRAM may be a Debian package: dpkg installs it, and the units are those in it. It needs root, debootstrap, and the network
to get each Debian once (two minutes); --folder keeps them for later runs. A run starts over such a folder with a layer in
memory, in namespaces of its own: it leaves nothing there, and nothing on this machine. --old-filter is a control: with the filter that the units once had, no start succeeds on trixie (systemd 257).

Exit status 1 if a row is not as it should be, 2 if it can't be run here.
"""
import argparse
import contextlib
import os
import pathlib
import re
import shutil
import subprocess
import sys
import tempfile
import time

from campaign import top

from tests import dab, program

SYSTEMS = ("bookworm", "trixie")
ASKING = tuple(f"motcar-health{it}" for it in (".service", ".timer", "@.service", "@.timer"))
UNITS = ("motcar.service", "motcar@.service")
PACKAGES = "systemd,prometheus-node-exporter,rsync"
SECONDS = 30
# A file that was changed within so many seconds waits for the next look.
YOUNG = 2.1
FILTER = "SystemCallFilter=~@privileged @resources\nSystemCallErrorNumber=EPERM\n"
OLD_FILTER = "SystemCallFilter=~@privileged:EPERM @resources:EPERM\n"
# The first systemd with RestartSteps=.
KNOWS_STEPS = 254
# What process 1 would set of the machine's kernel, or mount of it.
MASKED = ("systemd-sysctl.service", "systemd-modules-load.service", "sys-kernel-debug.mount", "sys-kernel-tracing.mount",
          "dev-hugepages.mount", "apt-daily.timer", "apt-daily-upgrade.timer", "prometheus-node-exporter.service")
# Becomes process 1 of the system below $1, over which the folder $2 of the memory lies. The machine's settings are there to
# be read only.
BOOT = r"""
set -e
mount --make-rprivate /
mount -t tmpfs tmpfs "$2"
mkdir "$2/upper" "$2/work" "$2/root"
mount -t overlay overlay -o "lowerdir=$1,upperdir=$2/upper,workdir=$2/work" "$2/root"
cd "$2/root"
mount -t proc proc proc
mount --bind -o ro proc/sys proc/sys
mount -t sysfs -o ro sysfs sys
mount -t cgroup2 cgroup2 sys/fs/cgroup
mount -t tmpfs -o mode=755 tmpfs run
mount -t tmpfs -o mode=755 tmpfs dev
mkdir dev/pts dev/shm
mount -t devpts -o newinstance,ptmxmode=0666,mode=620 devpts dev/pts
mount -t tmpfs tmpfs dev/shm
ln -s pts/ptmx dev/ptmx
ln -s /proc/self/fd dev/fd
for it in null:3 zero:5 full:7 random:8 urandom:9; do mknod -m 666 "dev/${it%:*}" c 1 "${it#*:}"; done
shift 2
for it; do ln -sf /dev/null "etc/systemd/system/$it"; done
pivot_root . mnt
umount -l /mnt
exec env -i container=campaign PATH=/usr/sbin:/usr/bin:/sbin:/bin /lib/systemd/systemd --unit=basic.target --show-status=0
"""


class Unable(Exception):
    """Why it can't be run here."""


class System:
    """A Debian with systemd as its process 1."""

    def __init__(self, below, room):
        names = ("--pid", "--mount", "--ipc", "--uts", "--cgroup", "--net")
        words = ["unshare", "--fork", "--kill-child", *names, "sh", "-c", BOOT, "boot", below, room, *MASKED]
        self.said = open(room.with_suffix(".said"), "w+")
        self.outside = subprocess.Popen(words, stdin=subprocess.DEVNULL, stdout=self.said, stderr=self.said)
        until(lambda: self.outside.poll() is not None or self.is_booted())
        if self.outside.poll() is not None:
            self.said.seek(0)
            raise Unable(f"no systemd in namespaces of its own: {self.said.read().strip()}")

    def is_booted(self):
        children = pathlib.Path(f"/proc/{self.outside.pid}/task/{self.outside.pid}/children").read_text().split()
        self.first = children[0] if children else ""
        return children and self.run("systemctl", "is-system-running")[1].strip() in ("running", "degraded")

    def run(self, *words):
        """Runs a command of that system: its status, and what it printed."""
        inside = ["nsenter", "--target", self.first, "--all", "--root", "--wd", "--", *words]
        done = subprocess.run(inside, stdin=subprocess.DEVNULL, capture_output=True, timeout=SECONDS)
        return done.returncode, done.stdout.decode(errors="replace")

    def place(self, path):
        """A path of that system, as it is from here."""
        return pathlib.Path(f"/proc/{self.first}/root{path}")

    def journal(self, unit):
        return self.run("journalctl", "-u", unit, "-o", "cat", "--no-pager")[1]

    def state(self, unit):
        """As `active running`."""
        return " ".join(self.run("systemctl", "show", "--value", "-p", "ActiveState", "-p", "SubState", unit)[1].split())

    def end(self):
        self.outside.kill()
        self.outside.wait()
        self.said.close()


class Station:
    """A unit, and its places."""

    def __init__(self, system, unit):
        self.system, self.unit = system, unit
        name = unit.partition("@")[2]
        self.home = f"/var/lib/motcar/{name}".rstrip("/")
        self.pipe = f"/run/motcar/{name}/packets.pipe".replace("//", "/")
        self.status = f"/run/motcar/status/{name or 'motcar'}.prom"
        self.linked = f"/var/lib/prometheus/node-exporter/{name or 'motcar'}.prom"

    def make(self):
        """By the manual."""
        run = self.system.run
        run("install", "-d", "-o", "motcar", "-g", "motcar", self.home)
        run("install", "-d", "-o", "motcar", "-g", "motcar", "-m", "2775", f"{self.home}/objects")
        shutil.copy(top / "examples/logo.png", self.system.place(f"{self.home}/objects/logo.png"))
        sizes = ("--objects", "60", "--data", "1000000", "--packet", "96", "--address", "7")
        run("runuser", "-u", "motcar", "--", "motcar", "format", f"{self.home}/station.disk", *sizes)
        self.system.place(f"{self.home}/station.disk-wal").unlink(missing_ok=True)
        self.system.place(self.linked).symlink_to(self.status)

    def taken(self):
        """Bytes out of the pipe."""
        taken = self.system.run("sh", "-c", f"timeout 10 head -c 9600 {self.pipe} | od -An -v -tx1")[1]
        return bytes.fromhex("".join(taken.split()))

    def packets(self):
        """Whether the first bytes of the pipe are many packets, whole and in their order."""
        whole = dab.packets_in(self.taken())[:-1]
        return len(whole) > 98, dab.counts_on(whole)

    def counted(self):
        """The packets that the status counts."""
        with contextlib.suppress(OSError):
            found = re.search(r"(?m)^motcar_packets_total\S* (\d+)$", self.system.place(self.status).read_text())
            return int(found[1]) if found else 0
        return 0


class Campaign:
    def __init__(self):
        self.rows = self.wrong = 0

    def expect(self, row, wanted, came):
        self.rows += 1
        if wanted != came:
            self.wrong += 1
            print("{}: wanted {}, came {}".format(row, *program.shown(wanted, came)), flush=True)

    def start(self, name, station):
        """A start, and what has to be there after it."""
        system, row = station.system, f"{name}, {station.unit}"
        system.run("systemctl", "start", station.unit)
        until(lambda: "done object" in system.journal(station.unit), 10)
        self.expect(f"{row}: state", "active running", system.state(station.unit))
        failed = re.findall(r"code=exited, (status=\S+?)\)", system.run("systemctl", "status", "--no-pager", station.unit)[1])
        self.expect(f"{row}: how its command ended", ["status=0/SUCCESS"], failed)
        journal = system.journal(station.unit)
        self.expect(f"{row}: its first line", f", {station.home}/station.disk, 0 objects, 1 packets a turn",
                    "".join(re.findall(r"(?m)^play: motcar [\w.+~]+(.*)$", journal)) or journal)
        self.expect(f"{row}: the logo", True, "\nput logo.png done object 2 directory 3" in journal)
        self.expect(f"{row}: packets", (True, True), station.packets())
        self.expect(f"{row}: the file beside the disk", True, system.place(f"{station.home}/station.disk-wal").exists())
        rated = re.findall(r": ([\d.]+) ", system.run("systemd-analyze", "security", "--no-pager", station.unit)[1])
        self.expect(f"{row}: `systemd-analyze security` at most 0.3", True, bool(rated) and float(rated[-1]) <= 0.3)

    def goes_on(self, row, station):
        """Its status is written anew as its packets are taken."""
        before = station.counted()
        until(lambda: station.taken() and station.counted() > before, 20)
        self.expect(f"{row}: its status is written", True, station.counted() > before)

    def system(self, name, options, room):
        below = debian(options.folder or room, name)
        layer = room / f"{name}.layer"
        layer.mkdir()
        system = System(below, layer)
        try:
            release = system.run("systemctl", "--version")[1].split("\n")[0]
            print(f"{name}: {release}", flush=True)
            install(system, options)
            stations = [Station(system, it) for it in ("motcar", "motcar@north")]
            for it in stations:
                it.make()
            time.sleep(YOUNG)
            for it in stations:
                self.start(name, it)
            self.goes_on(f"{name}, motcar", stations[0])
            self.exported(name, stations)
            for it in stations:
                self.asked(name, it)
            system.run("systemctl", "stop", "motcar@north")
            self.expect(f"{name}: the timer of a station that has stopped", "inactive dead",
                        system.state("motcar-health@north.timer"))
            self.goes_on(f"{name}, motcar beside one that has stopped", stations[0])
            self.fails(name, stations[1], int(release.split()[1]))
        finally:
            system.end()

    def asked(self, name, station):
        """The line of its health, once for packets that stand still, as nobody reads them, and once as they go on."""
        system, unit = station.system, station.unit.replace("motcar", "motcar-health")
        until(lambda: station.taken() and system.place(station.status).exists(), 20)
        for age in (600, 600, 0, 0):
            at = time.time() - age
            os.utime(system.place(station.status), (at, at))
            system.run("systemctl", "start", unit)
        still = f"{station.status} was written 600 s ago: packets stand still; "
        lines = [it[:len(still)] for it in system.journal(unit).splitlines()]
        self.expect(f"{name}, {unit}: its lines", [still, "packets go on"], lines)
        system.run("systemctl", "enable", "--now", f"{unit}.timer")
        self.expect(f"{name}, {unit}.timer", "active waiting", system.state(f"{unit}.timer"))

    def fails(self, name, station, version):
        """A start with a wrong option, and starts without a disk."""
        system, row = station.system, f"{name}, {station.unit}"
        options = system.place("/etc/default/motcar-north")
        options.write_text('ARGS="--wrong"\n')
        system.run("systemctl", "start", station.unit)
        until(lambda: system.state(station.unit) == "failed failed", 5)
        self.expect(f"{row}: with a wrong option", "failed failed", system.state(station.unit))
        self.expect(f"{row}: its line", True, "error: unexpected argument '--wrong' found" in system.journal(station.unit))
        options.unlink()
        system.place(f"{station.home}/station.disk").rename(system.place(f"{station.home}/other.disk"))
        system.run("systemctl", "start", station.unit)
        time.sleep(15)
        starts = int(system.run("systemctl", "show", "--value", "-p", "NRestarts", station.unit)[1]) + 1
        wanted = range(3, 6) if version >= KNOWS_STEPS else range(6, 17)
        self.expect(f"{row}: starts in 15 s without a disk ({starts})", True, starts in wanted)
        system.run("systemctl", "stop", station.unit)

    def exported(self, name, stations):
        """The samples of both stations in the page of the node exporter; and of one that was not started since a reboot, which
        removes its status, so that the link leads nowhere."""
        system = stations[0].system
        words = ("prometheus-node-exporter", "--collector.disable-defaults", "--collector.textfile",
                 "--collector.textfile.directory=/var/lib/prometheus/node-exporter")
        system.run("systemd-run", "--unit=exporter", "--uid=prometheus", *words)
        shown = [f'motcar_info{{disk="{it.home}/station.disk",' for it in stations]
        fault = "node_textfile_scrape_error "
        page = until(lambda: fetched(system), 10)
        self.expect(f"{name}: the node exporter", [True, True, True], [it in page for it in (*shown, f"{fault}0")])
        system.place(stations[1].status).unlink(missing_ok=True)
        page = fetched(system)
        self.expect(f"{name}: with a link that leads nowhere", [True, False, True],
                    [it in page for it in (*shown, f"{fault}1")])


def fetched(system):
    """The page of the node exporter, in the network of that system."""
    read = "from urllib.request import urlopen; print(urlopen('http://127.0.0.1:9100/metrics').read().decode())"
    words = ["nsenter", "--target", system.first, "--net", "--", sys.executable, "-c", read]
    done = subprocess.run(words, capture_output=True, text=True)
    return done.stdout if done.returncode == 0 else ""


def until(done, seconds=SECONDS):
    """Waits for it; what it was at last."""
    end = time.monotonic() + seconds
    while not (found := done()) and time.monotonic() < end:
        time.sleep(0.1)
    return found


def install(system, options):
    """The program, the units and the user: by hand, or by the package that was given."""
    if options.program.endswith(".deb"):
        shutil.copy(options.program, system.place("/tmp/motcar.deb"))
        system.run("dpkg", "-i", "/tmp/motcar.deb")
        units = system.place("/usr/lib/systemd/system")
    else:
        shutil.copy(options.program, system.place("/usr/local/bin/motcar"))
        system.place("/usr/local/bin/motcar").chmod(0o755)
        shutil.copy(top / "examples/motcar.sysusers", system.place("/usr/lib/sysusers.d/motcar.conf"))
        system.run("systemd-sysusers")
        units = system.place("/etc/systemd/system")
        for it in (*UNITS, *ASKING):
            shutil.copy(top / "examples" / it, units)
    for it in UNITS if options.old_filter else ():
        text = (units / it).read_text()
        assert text.count(FILTER) == 1, f"{it} has another filter"
        (units / it).write_text(text.replace(FILTER, OLD_FILTER))
    system.run("systemctl", "daemon-reload")


def debian(folder, name):
    """The folder of a Debian, which is made if it is not there."""
    below = folder / name
    if not below.exists():
        made = folder / f"{name}.new"
        shutil.rmtree(made, ignore_errors=True)
        words = ["debootstrap", "--variant=minbase", f"--include={PACKAGES}", name, made]
        done = subprocess.run(words, stdin=subprocess.DEVNULL, capture_output=True, text=True)
        if done.returncode:
            raise Unable(f"debootstrap {name}: {done.stdout.strip()[-300:]}")
        made.rename(below)
    return below


def lacking():
    if os.geteuid():
        return "only root can make namespaces and mount"
    missing = [it for it in ("debootstrap", "unshare", "nsenter") if not shutil.which(it)]
    return f"not there: {', '.join(missing)}" if missing else ""


def given():
    found = argparse.ArgumentParser(description=__doc__, formatter_class=argparse.RawDescriptionHelpFormatter)
    found.add_argument("program", nargs="?", metavar="PROGRAM",
                       help="the built program (the one that the tests find), or a Debian package of it")
    found.add_argument("--systems", default=",".join(SYSTEMS), help=f"names of Debian releases, or of folders in --folder ({','.join(SYSTEMS)})")
    found.add_argument("--folder", type=pathlib.Path, help="where each Debian is kept (a temporary folder)")
    found.add_argument("--old-filter", action="store_true", help="a control: the units have the filter that they once had")
    options = found.parse_args()
    options.program = options.program or program.find()
    if options.folder:
        options.folder = options.folder.resolve()
        options.folder.mkdir(parents=True, exist_ok=True)
    return options


def main():
    options, found = given(), Campaign()
    try:
        if why := lacking():
            raise Unable(why)
        with tempfile.TemporaryDirectory(prefix="motcar-units-") as room:
            for it in options.systems.split(","):
                found.system(it, options, pathlib.Path(room))
    except Unable as why:
        print(f"units.py: skipped: {why}")
        return 2
    print(f"units.py: {found.rows - found.wrong} of {found.rows} rows as they should be")
    return 1 if found.wrong else 0


if __name__ == "__main__":
    sys.exit(main())
