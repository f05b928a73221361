"""Whether a disk on air sends packets, by when its status was written last: `health`."""
import json
import os
import re
import signal
import time

from .air import AirCase, needs_strace, traced, until
from .program import refused, run

STILL = ": packets stand still; nobody reads them, the folder hangs, or motcar has ended"


class Health(AirCase):
    def asked(self, path, *more):
        """The exit status, the line, and what stands on standard error."""
        status, printed, said = self.motcar("health", path, *more)
        return status, printed.decode(), said.decode()

    def aged(self, seconds):
        """A status that was written so many seconds ago."""
        at = int(time.time()) - seconds
        (self.room / "status").touch()
        os.utime(self.room / "status", (at, at))

    def expect_age(self, is_well, seconds, *more, path="status"):
        """What is said of a status of this age: it is made again if the second is over when it is looked at."""
        for _ in range(60):
            self.aged(seconds)
            came = self.asked(path, *more)
            if f"was written {seconds} s ago" in came[1]:
                break
        line = f"{'ok: ' if is_well else ''}{path} was written {seconds} s ago{'' if is_well else STILL}\n"
        self.expect(f"{path}, {seconds} s old, {more}", (0 if is_well else 1, line, ""), came)

    def test_json(self):
        """The same answer, and the age if it is known."""
        self.aged(1_000)
        status, printed, said = self.asked("status", "--json")
        came = json.loads(printed)
        age = came.pop("age")
        line = f"status was written {age} s ago{STILL}"
        self.expect("a status of 1,000 s", (1, {"ok": False, "line": line}, ""), (status, came, said))
        self.expect("and its age", True, 1_000 <= age < 1_060)
        wanted = {"ok": False, "age": None, "line": "none: No such file or directory"}
        self.expect("none", (1, wanted), (self.asked("none", "--json")[0], json.loads(self.asked("none", "--json")[1])))

    def test_ages(self):
        for is_well, seconds in ((True, 0), (True, 3), (True, 120), (False, 121), (False, 86_400)):
            self.expect_age(is_well, seconds)
        for most in (1, 2, 10, 86_400):
            self.expect_age(True, most, "--max-age", str(most))
            self.expect_age(False, most + 1, "--max-age", str(most))

    def test_a_time_that_is_to_come(self):
        """A clock that was set back."""
        self.aged(-3_600)
        self.expect("an hour to come", (0, "ok: status was written 0 s ago\n", ""), self.asked("status", "--max-age", "1"))

    def test_a_time_before_1970(self):
        path = self.room / "status"
        path.touch()
        os.utime(path, (-5, -5))
        self.expect("before 1970", 1, self.asked("status", "--max-age", "86400")[0])

    def test_no_status(self):
        (self.room / "folder").mkdir()
        (self.room / "file").touch()
        os.mkfifo(self.room / "pipe")
        (self.room / "link").symlink_to("nothing")
        rows = (("none", "No such file or directory"), ("none/status", "No such file or directory"),
                ("file/status", "Not a directory"), ("link", "No such file or directory"),
                ("folder", "not a regular file"), ("pipe", "not a regular file"), ("/dev/null", "not a regular file"))
        for path, why in rows:
            self.expect(path, (1, f"{path}: {why}\n", ""), self.asked(path))

    def test_a_link(self):
        """As monitoring reads the file behind it."""
        (self.room / "link").symlink_to("status")
        self.expect_age(True, 3, path="link")
        self.expect_age(False, 200, path="link")

    def test_numbers_out_of_range(self):
        self.aged(0)
        for number in ("0", "86401", "4294967295"):
            wanted = refused(8, "BadNumber", f"--max-age {number}: 1 to 86400")
            self.expect(number, wanted, self.motcar("health", "status", "--max-age", number))
        for words in ((), ("a", "b"), ("status", "--max-age"), ("status", "--max-age", "x")):
            self.expect(f"{words}", (2, b""), self.motcar("health", *words)[:2])

    def test_an_output_that_takes_nothing(self):
        self.aged(0)
        self.expect("a full device", refused(23, "WriteFault"), self.to_full("health", "status"))

    @needs_strace
    def test_what_is_asked(self):
        """The file is asked for once, and neither opened nor locked; nothing is read."""
        self.aged(0)
        ended = run(traced([self.program, "health", "status"], "trace=all", out=self.room / "calls"), cwd=self.room)
        self.expect("it is well", (0, b"ok: status was written"), (ended[0], ended[1][:22]))
        calls = [it for it in (self.room / "calls").read_text().splitlines() if '"status"' in it and "execve" not in it]
        self.expect("one call", 1, len(calls))
        self.expect("which asks", True, bool(re.search(r"\b(statx|stat|newfstatat)\(", calls[0])))

    def test_a_program_that_plays(self):
        """Well while packets go out, and no longer once nobody reads the pipe."""
        disk, path = self.disk("disk", "put a 1 0 - " + "61" * 5_000), self.room / "status"
        player = self.player(disk, "-", "--status", path, of_page=True)
        self.expect("at its start", True, player.hear(path.exists))
        self.expect("while packets are taken", 0, self.asked("status", "--max-age", "30")[0])
        self.expect("and no longer", True, until(lambda: self.asked("status", "--max-age", "1")[0] == 1))
        self.expect("why", True, self.asked("status", "--max-age", "1")[1].endswith(STILL + "\n"))
        taken = player.hear(lambda: self.asked("status", "--max-age", "1")[0] == 0)
        self.expect("and again once they are taken", True, taken)
        os.kill(player.ran.pid, signal.SIGSTOP)
        self.expect("a program that hangs", True, until(lambda: self.asked("status", "--max-age", "1")[0] == 1))
        os.kill(player.ran.pid, signal.SIGCONT)
