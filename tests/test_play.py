"""What `play` puts out: the packets of a carousel, turn by turn, into a pipe, a device or its standard output.

Where strace is installed it shows that each packet is one write.
"""
import os
import pty
import re
import subprocess

from .air import AirCase, needs_strace, traced, until
from .program import refused, run

PUTS = ("put first 1 0 text/plain " + "61" * 9_000, "put second 2 3 image/png " + "62" * 700, "put third 1 2 - 63",
        "period 77")


def heard(words, pipe, **more):
    """The status of a program, and all that it wrote to a pipe, which is open before the program opens it."""
    ear = os.open(pipe, os.O_RDONLY | os.O_NONBLOCK)
    player, came = subprocess.Popen(list(map(str, words)), stdout=subprocess.DEVNULL, **more), b""

    def hear():
        nonlocal came
        is_ended = player.poll() is not None
        try:
            part = os.read(ear, 65_536)
        except BlockingIOError:
            part = b""
        came += part
        return is_ended and not part

    until(hear)
    os.close(ear)
    player.kill()
    return player.wait(), came


class Play(AirCase):
    """A disk of three objects."""

    def setUp(self):
        super().setUp()
        self.place = self.disk("disk", *PUTS)

    def pipe(self, name="pipe"):
        os.mkfifo(self.room / name)
        return self.room / name

    def words(self, *more):
        return [self.program, "play", self.place, *more]

    def test_packets_into_a_pipe(self):
        pipe, wanted = self.pipe(), self.turns(self.place, 16)
        status, packets = heard(self.words(pipe, "--turns", "16"), pipe)
        self.expect("16 turns", 0, status)
        self.expect("the packets of 16 turns", b"".join(wanted), packets)
        self.expect("a multiple of 4 packets", 0, len(wanted) % 4)

    @needs_strace
    def test_each_packet_into_a_pipe_is_one_write(self):
        pipe, trace, wanted = self.pipe(), self.room / "trace", self.turns(self.place, 16)
        heard(traced(self.words(pipe, "--turns", "16"), "trace=write", paths=[pipe], out=trace), pipe)
        sizes = re.findall(r"write\(\d+, .*, (\d+)\) += (\d+)", trace.read_text())
        self.expect("each packet is one write", [(str(len(it)),) * 2 for it in wanted], sizes)

    def test_packets_to_standard_output(self):
        wanted = b"".join(self.turns(self.place, 2))
        ended = self.play(self.place, "-", "--turns", "2")
        self.expect("2 turns to standard output", (0, wanted, b""), ended)

    @needs_strace
    def test_each_packet_to_standard_output_is_one_write(self):
        trace, wanted = self.room / "trace", self.turns(self.place, 2)
        run(traced(self.words("-", "--turns", "2"), "trace=write", out=trace))
        sizes = re.findall(r"write\(1, .*, (\d+)\) += (\d+)", trace.read_text())
        self.expect("and each is one write", [(str(len(it)),) * 2 for it in wanted], sizes)

    def test_outputs_that_are_full(self):
        wanted = refused(23, "WriteFault", "standard output: No space left on device")
        status, printed, said = self.to_full("play", self.place, "-", "--turns", "2")
        self.expect("a full standard output", wanted, (status, printed, said.split(b"\n", 1)[1]))
        wanted = refused(23, "WriteFault", "/dev/full: No space left on device")
        self.expect("a full device", wanted, self.play(self.place, "/dev/full"))

    def test_the_log_beside_packets(self):
        disk, folder = self.disk("other"), self.folder({"a.txt": b"x"})
        status, packets, log = self.play(disk, "-", "--at-once", "--folder", folder, "--turns", "1")
        self.expect("the log is no packet", (0, b"".join(self.turns(disk, 1))), (status, packets))
        self.expect("but goes to standard error", b"put a.txt done object 2 directory 3\n", log)

    def test_a_pipe_that_nobody_reads(self):
        ended = self.play(self.place, self.pipe(), "--turns", "1")
        self.expect("a pipe that nobody reads", (0, b"", b""), ended)

    def test_two_programs_and_one_pipe(self):
        pipe, link, other = self.pipe(), self.room / "link", self.disk("other")
        link.symlink_to(pipe)
        first = self.player(self.place, pipe)
        ear = os.open(pipe, os.O_RDONLY)
        self.expect("a pipe has packets", True, len(os.read(ear, 96)) > 0)
        for name in (pipe, link):
            wanted = refused(23, "WriteFault", f"{name}: in use by another program")
            self.expect(f"a second play into it: {name.name}", wanted, self.play(other, name))
        first.kill()
        # (a full pipe takes no more)
        while os.read(ear, 65_536):
            pass
        self.expect("once the first is gone", 0, self.play(other, link, "--turns", "1")[0])
        os.close(ear)

    def test_two_programs_and_one_device(self):
        other = self.disk("other")
        self.player(self.place, "/dev/null")
        self.expect("a device takes packets of two", (0, b"", b""), self.play(other, "/dev/null", "--turns", "1"))

    def test_terminals(self):
        near, far = pty.openpty()
        name = os.ttyname(far)
        wanted = refused(23, "WriteFault", f"{name}: a terminal")
        self.expect("no packets go to a terminal", wanted, self.play(self.place, name))
        ended = subprocess.run(self.words("-"), stdout=far, stderr=subprocess.PIPE, timeout=60)
        wanted = 1, b"motcar: 23 WriteFault\nmotcar: standard output: a terminal\n"
        self.expect("nor to that of standard output", wanted, (ended.returncode, ended.stderr))
        os.close(near)
        os.close(far)

    def test_places_that_are_none(self):
        folder = self.folder()
        wanted = refused(23, "WriteFault", f"{folder}: Is a directory")
        self.expect("a folder is no pipe", wanted, self.play(self.place, folder))
        wanted = refused(15, "DeviceFault", "none: No such file or directory; check the path")
        self.expect("a disk that is none: play", wanted, self.motcar("play", "none", "/dev/null"))

    def test_no_turns(self):
        self.expect("no turns", (0, b"", b""), self.play(self.place, "/dev/null", "--turns", "0"))


class Words(AirCase):
    """Words of the command line that are wrong; nothing is done."""

    def test_wrong_words(self):
        disk = self.disk()
        before = disk.read_bytes()
        for words in (["play", disk], ["play", disk, "/dev/null", "--turns", "many"], ["sync", disk],
                      ["play", disk, "-", "--allow-empty", "--turns", "1"], ["play", disk, "-", "--keep-most", "--turns", "1"],
                      ["play", disk, "-", "--at-once", "--turns", "1"], ["play", disk, "-", "--directory", "often"],
                      ["play", disk, "/dev/null", "--turns", "1", "--every", "-1"],
                      ["play", disk, "-", "--folder", self.room, "--look", "often"]):
            shown = " ".join(it for it in words if isinstance(it, str))
            self.expect(f"wrong words: {shown}", (2, b""), self.motcar(*words)[:2])
        self.expect("and the disk stays", before, disk.read_bytes())

    def test_options_alone(self):
        disk = self.disk()
        before = disk.read_bytes()
        options = (("--every", "5", "--lines <DIR>"), ("--types", "types", "--folder <DIR>"),
                   ("--look", "5", "--folder <DIR>"))
        for option, value, other in options:
            said = (f"error: the following required arguments were not provided:\n  {other}\n\n"
                    "For more information, try '--help'.\n")
            self.expect(f"{option} alone", (2, b"", said.encode()),
                        self.motcar("play", disk, "/dev/null", "--turns", "1", option, value))
        self.expect("and the disk stays", before, disk.read_bytes())
