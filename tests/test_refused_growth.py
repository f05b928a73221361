"""With each request for memory refused in its turn, alone and with all that follow: the tests of the libraries that
hold whichever is refused, which `rt test` in the folder of their crate builds, and the command `memory`."""
import itertools
import os
import re
import shutil
import subprocess

from .program import HELLO, PACKET, Case, is_tried, refused, run, top

CRATES = ("mot_tests", "public_names")


class RefusedGrowth(Case):
    def setUp(self):
        super().setUp()
        if not shutil.which("cc"):
            self.skipTest("there is no C compiler")
        self.shim, self.mark = self.room / "refuse.so", self.room / "refused"
        source = top / "campaigns/refuse.c"
        subprocess.run(["cc", "-O2", "-shared", "-fPIC", "-o", self.shim, source, "-ldl"], check=True)

    def ends(self, words, given=b"", **more):
        """How a program ends for each request that is refused, until it makes no more: which one, and the end."""
        for number in itertools.count(1):
            self.mark.unlink(missing_ok=True)
            shim = {"LD_PRELOAD": self.shim, "REFUSE": str(number), "REFUSED": self.mark}
            ended = run(words, given, cwd=self.room, env={**os.environ, **shim, **more})
            if not self.mark.exists():
                return
            yield f"request {number} refused{' and all after it' if more else ''}", ended

    def ends_of_both(self, words, given=b""):
        yield from self.ends(words, given)
        yield from self.ends(words, given, LASTING="1")

    def test_libraries(self):
        for crate in CRATES:
            tests = top / f"crates/{crate}/out/{crate}_tests"
            if not tests.is_file():
                self.leave_out(crate, f"there is no {tests.relative_to(top)}: run rt test in crates/{crate}")
                continue
            names = re.findall(r"^\S+::a_refused_growth\w+", run([tests, "--list"])[1].decode(), re.M)
            self.expect(f"{crate} has tests that allow for it", True, bool(names))
            for name in names:
                ends = list(self.ends_of_both([tests, name]))
                self.expect(f"{name} asks for memory", True, bool(ends))
                for row, ended in ends:
                    self.expect(f"{name}: {row}", (0, b""), (ended[0], ended[2]))

    def test_memory(self):
        if is_tried(self.program):
            self.skipTest("the program was built to be tried")
        without, refused_line = refused(14, "OutOfMemory"), (0, b"refused 14 OutOfMemory\n", b"")
        ends = dict(self.ends_of_both([self.program, "memory", "--packet", "24"], HELLO))
        for row, ended in ends.items():
            self.expect(row, True, ended in ((0, PACKET, b""), without, refused_line))
        self.expect("the program says at some request that it has no memory", True, without in ends.values())
