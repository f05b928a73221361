"""The log of `play`: its first and last lines, replies with the line that they answer, long lines, a log that fails."""
import os
import select
import subprocess

from .air import AirCase, needs_strace, samples, send, traced, until

LONGEST = 255


class Log(AirCase):
    """A disk, and a folder of lines."""

    def setUp(self):
        super().setUp()
        self.place, self.asked = self.disk("disk", "put there 1 0 - 61"), self.folder(name="asked")

    def told(self, text):
        """The log of a file of lines, without the first line and the last."""
        send(self.asked, "1.lines", text.encode())
        words = ["--lines", self.asked, "--every", "1", "--turns", "9"]
        return self.motcar("play", self.place, "/dev/null", *words)[1].decode().splitlines()[1:-1]

    def test_the_line_that_is_answered(self):
        """The words in front of a reply are the command, and of four the word after it, whole."""
        rows = [("withdraw {}", "withdraw {} refused 10 NoSuchName"), ("period 7 {}", "refused 1 BadLine: 3 words, 2 asked for"),
                ("raw 4 2 {}", "raw refused 5 BadBody"), ("list {}", "list refused 1 BadLine: 2 words, 1 asked for"),
                ("next {}", "next refused 8 BadNumber"), ("turn {}", "turn refused 1 BadLine: 2 words, 1 asked for"),
                ("replace {} 64 0 - 61", "replace {} refused 3 BadType")]
        for size in (1, 17, 60, 200, LONGEST):
            lines = [(line.format("z" * size), reply.format("z" * size)) for line, reply in rows]
            wanted = [f"lines 1.lines:{at} {reply}" for at, (_, reply) in enumerate(lines, 1)]
            wanted[1] = "lines 1.lines:2 period 7 refused 1 BadLine: 3 words, 2 asked for"
            self.expect(f"words of {size} bytes", wanted, self.told("".join(f"{line}\n" for line, _ in lines)))

    def test_the_digits_of_a_line(self):
        wanted = ["lines 1.lines:1 raw ", "lines 1.lines:2 put new "]
        told = self.told("raw 4 2 00\nput new 1 0 - 61626364\n")
        is_logged = any(it in " ".join(told) for it in ("4 2 00", "6162"))
        begins = [it[:len(line)] for it, line in zip(told, wanted)]
        self.expect("no digits of a body are logged", (wanted, False), (begins, is_logged))

    def test_long_names(self):
        """A line with the longest names of a file and of an object is whole, counted, and has its level."""
        def counts_of(status):
            return tuple(samples(status).get(f"motcar_{it}_total", 0) for it in ("changes", "refusals"))

        file = "n" * (LONGEST - 6) + ".lines"
        for size in (60, 240, LONGEST):
            name = "x" * size
            for text, reply, counts in ((f"withdraw {name}", "refused 10 NoSuchName", (0, 1)),
                                        (f"put {name} 1 0 - 61", "done object", (1, 0))):
                words, status = " ".join(text.split()[:2]), self.room / f"status.{size}.{counts[0]}"
                send(self.asked, file, f"{text}\n".encode())
                player = self.player(self.place, "/dev/null", "--lines", self.asked, "--levels", "--status", status)
                until(lambda: sum(counts_of(status)) > 0, 20)
                player.kill()
                told, wanted = player.lines()[1], f"{'<4>' if counts[1] else '<6>'}lines {file}:1 {words} {reply}"
                self.expect(f"a long line: {reply}, {size}", (wanted, counts), (told[:len(wanted)], counts_of(status)))
            self.serve(self.place, [f"withdraw {name}"])

    def test_the_first_line_comes_at_once(self):
        """It is there while the program plays, whatever else there is to tell."""
        for more in ([], ["--folder", self.folder()], ["--lines", self.asked]):
            player = subprocess.Popen([self.program, "play", self.place, "/dev/null", *more], stdout=subprocess.PIPE)
            with player:
                is_there = bool(select.select([player.stdout], [], [], 30)[0])
                line = os.read(player.stdout.fileno(), 4096) if is_there else b""
                player.kill()
            self.expect(f"the first line: {' '.join(map(str, more[:1]))}", b"play: motcar ", line[:13])

    def test_no_end_is_logged_of_a_run_that_a_fault_ended(self):
        folder = self.folder({"there": b"x"})
        for more in ([], ["--folder", folder], ["--lines", self.asked], ["--folder", folder, "--lines", self.asked]):
            for turns in ([], ["--turns", "3"]):
                status, told, said = self.motcar("play", self.place, "/dev/full", *more, *turns)
                ends = [it for it in told.splitlines() if it.startswith(b"play: ended")]
                row = " ".join(str(it) for it in (*more[::2], *turns))
                wanted = 1, [], b"motcar: 23 WriteFault"
                self.expect(f"a full device: {row}", wanted, (status, ends, said.splitlines()[0]))

    @needs_strace
    def test_a_log_that_fails_once(self):
        """A reply that the log does not take ends nothing, and the next one is logged."""
        disk, log = self.disk("other"), self.room / "log"
        send(self.asked, "1.lines", b"period 3\nperiod 4\n")
        words = [self.program, "play", disk, "-", "--lines", self.asked, "--every", "1", "--turns", "3"]
        words = traced(words, "trace=write", "inject=write:error=EIO:when=2", paths=[log])
        with open(log, "wb") as told:
            ended = subprocess.run(list(map(str, words)), stdout=subprocess.DEVNULL, stderr=told, timeout=60)
        count = len(self.turns(disk, 3))
        version = self.motcar("--version")[1].decode().strip()
        wanted = [f"play: {version}, {disk}, 0 objects, 1 packets a turn",
                  "lines 1.lines:2 period 4 done directory 3", f"play: ended, 3 turns, {count} packets"]
        self.expect("a log that fails once", (0, wanted), (ended.returncode, log.read_text().splitlines()))
        self.expect("and both are stored", b"period 4\n", self.motcar("export", disk)[1])
