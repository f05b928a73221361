"""The units of examples/: what they name fits together, systemd reads them without a complaint, and their command makes
the pipe as long as they say."""
import fcntl
import os
import pathlib
import re
import resource
import shlex
import shutil
import subprocess
import sys
import tempfile
import time

from tests import dab, program
from tests.air import needs_strace, traced

UNITS = ("motcar.service", "motcar@.service")
PROGRAM = "/usr/local/bin/motcar"
# The units that look at a status, each with the unit whose status it is.
HEALTH = {"motcar-health.service": "motcar.service", "motcar-health@.service": "motcar@.service"}
LENGTH_OF = "import fcntl, os; print(fcntl.fcntl(os.open('packets.pipe', os.O_RDWR), fcntl.F_GETPIPE_SZ))"
KEPT = "<4>the pipe keeps its length until motcar and the multiplexer are both stopped\n"


# What systemd says of the pauses between two starts before it knew them.
UNKNOWN = r"(?m)^.*: Unknown key 'Restart(Steps|MaxDelaySec)' in section \[Service\], ignoring\.\n"


def systemd():
    """The number of systemd's version."""
    said = subprocess.run(["systemd-analyze", "--version"], capture_output=True, text=True, check=True).stdout
    return int(re.match(r"systemd (\d+)", said)[1])


def values(text, key):
    """The words of each line of a key; a line that ends in a backslash goes on."""
    return shlex.split(" ".join(re.findall(rf"(?m)^{key}=(.*)$", text.replace("\\\n", " "))))


def program_of(text):
    """The words that run the program."""
    words = values(text, "ExecStart")
    return words[words.index(PROGRAM):]


def around(text, more=None):
    """The words before those, as systemd hands them over, for a pipe in the folder in which they run."""
    words = values(text, "ExecStart")
    given = dict(it.split("=", 1) for it in [*values(text, "Environment"), *(more or [])])
    script = words[2].replace("${PIPE}", given["PIPE"]).replace("$$", "$")
    pipe = next(it for it in words if it.endswith("/packets.pipe"))
    return [*words[:2], script.replace(pipe, "packets.pipe"), *words[3:words.index(PROGRAM)]]


class Units(program.Rows):
    def test_units(self):
        """What a unit names of the multiplexer, of the program and of its folders."""
        for name in UNITS:
            text = (program.top / "examples" / name).read_text()
            place = "/%i" if "@" in name else ""
            multiplexer = values(text, "Before")
            self.expect(f"{name}: PartOf", multiplexer, values(text, "PartOf"))
            self.expect(f"{name}: WantedBy", ["multi-user.target", *multiplexer], values(text, "WantedBy"))
            self.expect(f"{name}: options", ["-/etc/default/motcar" + place.replace("/", "-")],
                        values(text, "EnvironmentFile"))
            command = program_of(text)
            status = pathlib.PurePath(command[command.index("--status") + 1])
            folders = [f"/run/{it}" for it in values(text, "RuntimeDirectory")]
            self.expect(f"{name}: the folder of the status is made, in memory, and stays", ([str(status.parent)], ["yes"]),
                        (folders[1:], values(text, "RuntimeDirectoryPreserve")))
            self.expect(f"{name}: further options", "$ARGS", command[-1])
            self.expect(f"{name}: most objects stay", True, "--keep-most" in command)
            self.expect(f"{name}: pauses between starts, up to half a minute", ["1", "5", "30"],
                        [it for key in ("RestartSec", "RestartSteps", "RestartMaxDelaySec") for it in values(text, key)])
            self.expect(f"{name}: a wrong command line is not tried again", ["2"], values(text, "RestartPreventExitStatus"))
            self.expect(f"{name}: lines without a level are errors", (True, ["err"]),
                        ("--levels" in command, values(text, "SyslogLevel")))

    def test_options(self):
        """The program takes the options that the units give."""
        for name in UNITS:
            command = program_of((program.top / "examples" / name).read_text())
            words = [it for it in command[1:] if it != "$ARGS"]
            ended = program.run([program.find(), *words, "--help"])
            self.expect(f"{name}: {shlex.join(words)}", (0, b""), (ended[0], ended[2]))

    def test_health(self):
        """A unit that looks at a status looks at the one that the other unit writes, and its timer runs beside that."""
        for name, played in HEALTH.items():
            command = program_of((program.top / "examples" / played).read_text())
            status = command[command.index("--status") + 1]
            text = (program.top / "examples" / name).read_text()
            self.expect(f"{name}: the status", [PROGRAM, "health", status], program_of(text))
            timer = (program.top / "examples" / name.replace(".service", ".timer")).read_text()
            unit = played.replace("@", "@%i")
            self.expect(f"{name}: its timer", ([unit], [unit], ["30"]),
                        (values(timer, "PartOf"), values(timer, "WantedBy"), values(timer, "OnUnitInactiveSec")))
            self.expect(f"{name}: no lines of systemd", (["oneshot"], ["notice"]),
                        (values(text, "Type"), values(text, "LogLevelMax")))

    def test_verified(self):
        """`systemd-analyze verify`, with a program that is there."""
        if not shutil.which("systemd-analyze"):
            self.leave_out("systemd-analyze verify", "no systemd-analyze")
            return
        with tempfile.TemporaryDirectory() as room:
            # (a timer after its service, which systemd looks for)
            for name in (*UNITS, *HEALTH, *(it.replace(".service", ".timer") for it in HEALTH)):
                text = (program.top / "examples" / name).read_text()
                text = re.sub(r"(?m)^Documentation=.*\n", "", text.replace(PROGRAM, "/bin/true"))
                file = pathlib.Path(room, name.replace("@", "@north"))
                file.write_text(text)
                done = subprocess.run(["systemd-analyze", "verify", file], capture_output=True, text=True)
                said = re.sub(UNKNOWN, "", done.stderr) if systemd() < 254 else done.stderr
                self.expect(f"{name}: verified", (0, ""), (done.returncode, said))


def calls_in(name):
    """The system calls of a set of systemd, with those of the sets that it names; of the name of a call that call."""
    if not name.startswith("@"):
        return {name}
    printed = subprocess.run(["systemd-analyze", "syscall-filter", name], capture_output=True, text=True, check=True).stdout
    return set().union(*map(calls_in, re.findall(r"(?m)^    ([@a-z_]\S*)$", printed)))


def calls_allowed(text):
    """The calls that the filter of a unit lets pass. At each other call the program is killed, or, if the unit has
    SystemCallErrorNumber=, gets that error."""
    allowed = set()
    for line in re.findall(r"(?m)^SystemCallFilter=(.*)$", text):
        calls = set().union(*map(calls_in, line.lstrip("~").split()))
        allowed = allowed - calls if line.startswith("~") else allowed | calls
    return allowed


@needs_strace
class Filter(program.Case):
    def test_calls(self):
        """Of the calls of a start that has to make the file beside the disk, and of a turn with folders and a status, the
        filter of a unit refuses one, which gives that file the owner of the disk. The program goes on without it."""
        if not shutil.which("systemd-analyze"):
            self.leave_out("the calls of the filter", "no systemd-analyze")
            return
        self.new_disk("station.disk")
        for it in ("objects", "lines"):
            (self.room / it).mkdir()
        self.write("objects/logo.png", (program.top / "examples/logo.png").read_bytes())
        self.write("lines/1.lines", b"put hello 1 0 - 00\n")
        os.mkfifo(self.room / "packets.pipe")
        words = [self.program, "play", "station.disk", "packets.pipe", "--folder", "objects", "--at-once", "--lines", "lines",
                 "--status", "status", "--levels", "--turns", "2"]
        for faults in ((), ("inject=fchown:error=EPERM",)):
            (self.room / "station.disk-wal").unlink(missing_ok=True)
            with open(self.room / "packets.pipe", "r+b", buffering=0):
                ended = program.run(traced(words, *faults, out=self.room / "calls"), cwd=self.room)
            self.expect(f"{faults}: it plays", (0, True), (ended[0], (self.room / "station.disk-wal").exists()))
            made = set(re.findall(r"(?m)^\d+ +([a-z]\w*)\(", (self.room / "calls").read_text()))
            self.expect(f"{faults}: the file beside the disk is given the owner of the disk", True, "fchown" in made)
            for name in UNITS:
                text = (program.top / "examples" / name).read_text()
                self.expect(f"{name}, {faults}: calls that are refused", {"fchown"}, made - calls_allowed(text))
                self.expect(f"{name}: they are, and kill not", ["EPERM"], values(text, "SystemCallErrorNumber"))


class Lines(program.Case):
    def test_one_line_for_each_change(self):
        """What the command of a unit that looks at a status prints, time after time: a line if packets stand still, and a
        line if they go on."""
        status, flag = self.write("status", b""), self.room / "still"
        for name in HEALTH:
            words = values((program.top / "examples" / name).read_text(), "ExecStart")
            words = [words[0], words[1], words[2].replace("$$", "$"), flag, self.program, "health", status]
            old = f"<4>{status} was written N s ago: packets stand still; nobody reads them, the folder hangs, or motcar " \
                "has ended\n"
            gone = f"<4>{status}: No such file or directory\n"
            for age, wanted in ((0, ""), (0, ""), (200, old), (300, ""), (None, ""), (0, "<5>packets go on\n"), (0, ""),
                                (None, gone), (200, ""), (0, "<5>packets go on\n")):
                status.unlink(missing_ok=True)
                if age is not None:
                    status.touch()
                    os.utime(status, (time.time() - age,) * 2)
                ended = program.run(words, cwd=self.room)
                came = ended[0], re.sub(r"written \d+ s", "written N s", ended[1].decode()), ended[2]
                self.expect(f"{name}: {age} s", (0, wanted, b""), came)
            self.expect(f"{name}: no flag is left", False, flag.exists())


class Pipe(program.Case):
    def test_length(self):
        """How long the pipe is for the program that the command of a unit runs."""
        if not shutil.which("perl"):
            self.leave_out("the length of the pipe", "no perl")
            return
        os.mkfifo(self.room / "packets.pipe")
        for name in UNITS:
            text = (program.top / "examples" / name).read_text()
            for more, length in (([], 8192), (["PIPE=65536"], 65_536), (["PIPE=5000"], 8192), (["PIPE=4096"], 4096)):
                ended = program.run([*around(text, more), sys.executable, "-c", LENGTH_OF], cwd=self.room)
                self.expect(f"{name}: {more}", (0, b"%d\n" % length, b""), ended)

    def test_full(self):
        """A pipe that has more bytes in it is not made shorter, and the program is run."""
        if not shutil.which("perl"):
            self.leave_out("a pipe that is full", "no perl")
            return
        os.mkfifo(self.room / "packets.pipe")
        pipe = os.open(self.room / "packets.pipe", os.O_RDWR)
        self.addCleanup(os.close, pipe)
        os.write(pipe, bytes(20_000))
        for name in UNITS:
            text = (program.top / "examples" / name).read_text()
            ended = program.run([*around(text), sys.executable, "-c", LENGTH_OF], cwd=self.room)
            self.expect(name, (0, KEPT.encode() + b"65536\n", b""), ended)

    def test_limit_of_a_file(self):
        """At a limit of file sizes the program that the command runs is refused its write, and no signal ends it."""
        os.mkfifo(self.room / "packets.pipe")
        limit = {"preexec_fn": lambda: resource.setrlimit(resource.RLIMIT_FSIZE, (50_000, 50_000))}
        for name in UNITS:
            words = around((program.top / "examples" / name).read_text())
            status, _, said = program.run([*words, self.program, "format", "new.disk"], cwd=self.room, **limit)
            self.expect(name, (1, b"motcar: 15 DeviceFault\nmotcar: new.disk: File too large\n"), (status, said))

    def test_packets(self):
        """What the program writes into the pipe that the command made short: whole packets, through many fillings."""
        if not shutil.which("perl"):
            self.leave_out("packets through a short pipe", "no perl")
            return
        os.mkfifo(self.room / "packets.pipe")
        for packet in dab.LENGTHS:
            self.new_disk(f"{packet}.disk", "--packet", packet)
            self.serve(f"{packet}.disk", ["put a 2 3 - " + "00" * 999, "put b 2 3 - " + "11" * 1500])
            words = [*around((program.top / "examples" / UNITS[0]).read_text()), self.program]
            pipe = os.open(self.room / "packets.pipe", os.O_RDWR)
            playing = subprocess.Popen([*words, "play", f"{packet}.disk", "packets.pipe"], cwd=self.room,
                                       stdout=subprocess.DEVNULL)
            self.addCleanup(program.end, playing)
            came = b""
            while len(came) < 100_000:
                came += os.read(pipe, 96)
            self.expect(f"{packet} bytes: the pipe", 8192, fcntl.fcntl(pipe, fcntl.F_GETPIPE_SZ))
            program.end(playing)
            os.close(pipe)
            whole = dab.packets_in(came)[:-1]
            self.expect(f"{packet} bytes: indexes go on", True, dab.counts_on(whole))
