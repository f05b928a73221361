"""The runner itself (`python3 -m tests`), over a copy of it with tests that pass, fail, end in an exception, and are
left out: what it counts, what it prints last, and its status.
"""
import os
import pathlib
import shutil
import sys

from .program import Case, run, top

RUNNER = ("__init__.py", "__main__.py", "program.py")
PLANTED = '''
import os
import unittest
from .program import Case


class Planted(Case):
    def test_two_rows_of_three(self):
        for it in range(3):
            self.expect(f"row {it}", 1, 1 if it else it)

    def test_rows_that_hold(self):
        self.expect("one", 1, 1)
        self.expect("two", b"2", b"2")
        self.leave_out("a part", "this machine has none")

    def test_an_exception(self):
        self.expect("one", 1, 1)
        [][0]

    @unittest.skip("no machine has any")
    def test_left_out(self):
        self.expect("one", 1, 2)

    def test_a_folder_of_its_own(self):
        self.expect("is empty", [], list(self.room.iterdir()))
        self.write("disk", b"")

    def test_another_folder(self):
        self.test_a_folder_of_its_own()
'''

WAITING = '''
import pathlib
from . import program

program.TEST_SECONDS = 1


class Waiting(program.Case):
    def test_for_ever(self):
        self.program = "sleep"
        begun = self.begin("1000", stdin=None)
        pathlib.Path(program.top / "begun").write_text(str(begun.pid))
        begun.wait()
'''


class Runner(Case):
    def setUp(self):
        super().setUp()
        (self.room / "tests").mkdir()
        for name in RUNNER:
            shutil.copy(top / "tests" / name, self.room / "tests" / name)
        self.write("tests/test_planted.py", PLANTED.encode())

    def python(self, *words):
        """The status of Python with these words, what it printed and what it said."""
        # (the folders of tests that end their process stay, so they are made in this test's own)
        more = {"MOTCAR": self.program, "TMPDIR": str(self.room)}
        return run([sys.executable, "-B", "-m", *words], cwd=self.room, env={**os.environ, **more})

    def ran(self, *words):
        """The status of the runner, and the lines that it printed."""
        status, printed, _ = self.python("tests", *words)
        return status, printed.decode().splitlines()

    def test_what_failed_is_printed_last_with_its_command(self):
        status, lines = self.ran()
        self.expect("the last line", (1, "tests: 8 rows in 6 tests, 2 failed, 2 skipped"), (status, lines[-1]))
        alone = [it.split("python3 ")[1] for it in lines if it.startswith("alone: ")]
        planted = "-m unittest tests.test_planted.Planted.test_"
        self.expect("the commands", [f"{planted}an_exception", f"{planted}two_rows_of_three"], alone)
        self.expect("the row", ["row 0", "  wanted 1", "  came   0"], lines[lines.index("row 0"):][:3])
        self.expect("the exception", 1, lines.count("IndexError: list index out of range"))
        self.expect("what was left out comes first", ["skipped"] * 2, [it.split(":")[0] for it in lines[:2]])

    def test_the_command_that_it_prints_runs_one_test(self):
        for name, status in (("two_rows_of_three", 1), ("rows_that_hold", 0)):
            came, _, said = self.python("unittest", f"tests.test_planted.Planted.test_{name}")
            self.expect(name, (status, 1), (came, said.count(b"Ran 1 test ")))

    def test_some_tests_alone(self):
        rows = [
            (("-k", "folder"), 0, "tests: 2 rows in 2 tests, 0 failed, 0 skipped"),
            (("test_planted", "--jobs", "1"), 1, "tests: 8 rows in 6 tests, 2 failed, 2 skipped"),
            # No test is no success.
            (("-k", "nothing"), 1, "tests: 0 rows in 0 tests, 0 failed, 0 skipped"),
            (("test_nothing",), 1, "tests: 0 rows in 0 tests, 0 failed, 0 skipped"),
        ]
        for words, wanted, last in rows:
            status, lines = self.ran(*words)
            self.expect(" ".join(words), (wanted, last), (status, lines[-1]))

    def test_a_file_that_can_not_be_read(self):
        self.write("tests/test_broken.py", b"import nothing_of_this_name\n")
        status, lines = self.ran("-k", "hold")
        self.expect("it counts as failed", (1, "tests: 2 rows in 1 tests, 1 failed, 1 skipped"), (status, lines[-1]))

    def test_a_test_that_waits_for_ever(self):
        self.write("tests/test_planted.py", WAITING.encode())
        status, lines = self.ran()
        self.expect("it counts as failed", (1, "tests: 0 rows in 1 tests, 1 failed, 0 skipped"), (status, lines[-1]))
        self.expect("says why", 1, lines.count("TimeoutError: a test of more than 1 seconds"))
        begun = (self.room / "begun").read_text()
        self.expect("and leaves no program running", False, pathlib.Path("/proc", begun).exists())

    def test_a_test_that_ends_its_process(self):
        self.write("tests/test_planted.py", PLANTED.replace("[][0]", "os._exit(0)").encode())
        status, lines = self.ran("-k", "exception")
        self.expect("it counts as failed", (1, "tests: 0 rows in 1 tests, 1 failed, 0 skipped"), (status, lines[-1]))
