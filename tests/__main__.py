"""Runs all tests in as many processes as there are processors, each test alone; what failed is printed last.

    python3 -m tests [-k PART] [--jobs N] [--slowest] [FILE..]

PART is a part of a test's name, FILE the name of a file without its ending (test_lines). The last line counts rows
and tests.
"""
import argparse
import concurrent.futures
import dataclasses
import os
import resource
import sys
import time
import unittest

from . import program


@dataclasses.dataclass
class Ended:
    """What one test gave."""
    name: str
    rows: int = 0
    seconds: float = 0
    processor: float = 0
    failed: list = dataclasses.field(default_factory=list)
    skipped: list = dataclasses.field(default_factory=list)


class Result(unittest.TestResult):
    """Keeps what failed in few words: of an assertion its message, of anything else where it came from."""

    def __init__(self, ended):
        super().__init__()
        self.ended = ended

    def note(self, test, error):
        is_assertion = issubclass(error[0], AssertionError)
        self.ended.failed.append(str(error[1]) if is_assertion else self._exc_info_to_string(error, test))

    def addFailure(self, test, error):
        self.note(test, error)

    addError = addFailure

    def addSubTest(self, test, subtest, error):
        if error is not None:
            self.note(test, error)

    def addSkip(self, test, reason):
        row = getattr(test, "_message", None)
        self.ended.skipped.append(f"{row}: {reason}" if isinstance(row, str) else reason)

    def addUnexpectedSuccess(self, test):
        self.ended.failed.append("a success that is not expected")


def all_tests(suite):
    for it in suite:
        if isinstance(it, unittest.TestSuite):
            yield from all_tests(it)
        else:
            yield it


def spent():
    """Processor time of this process and those that it waited for."""
    times = [resource.getrusage(it) for it in (resource.RUSAGE_SELF, resource.RUSAGE_CHILDREN)]
    return sum(it.ru_utime + it.ru_stime for it in times)


def run_one(name):
    """Runs one test by its name, in a process that is there for many."""
    began, before, ended = time.monotonic(), spent(), Ended(name)
    suite = unittest.defaultTestLoader.loadTestsFromName(name)
    tests = list(all_tests(suite))
    suite.run(Result(ended))
    ended.rows = sum(getattr(it, "rows", 0) for it in tests)
    ended.seconds, ended.processor = time.monotonic() - began, spent() - before
    return ended


def chosen(options):
    """The tests that are asked for: first those that take long. And the files that could not be read."""
    loader = unittest.TestLoader()
    found = [it for it in all_tests(loader.discover(str(program.top / "tests"), top_level_dir=str(program.top)))
             if not type(it).__module__.startswith("unittest.")]
    files = options.files or {it.id().split(".")[1] for it in found}
    tests = [it for it in found if options.part in it.id() and it.id().split(".")[1] in files]
    tests.sort(key=lambda it: not getattr(getattr(it, it._testMethodName), "takes_long", False))
    return [it.id() for it in tests], loader.errors


def run_all(names, jobs):
    """What each test gave; one whose process ended counts as failed."""
    with concurrent.futures.ProcessPoolExecutor(jobs) as workers:
        tasks = {workers.submit(run_one, it): it for it in names}
        for task in concurrent.futures.as_completed(tasks):
            try:
                yield task.result()
            except concurrent.futures.process.BrokenProcessPool:
                yield Ended(tasks[task], failed=["a process of the runner ended, in this test or another"])


def report(ended, errors, seconds, slowest):
    """Prints what was left out, what took long and what failed; the status."""
    for it in sorted(ended, key=lambda it: it.name):
        for why in it.skipped:
            print(f"skipped: {it.name}: {why}")
    if slowest:
        for it in sorted(ended, key=lambda it: -it.seconds)[:10]:
            print(f"{it.seconds:7.2f} s, {it.processor:6.2f} s of a processor: {it.name}")
        print(f"{seconds:7.2f} s, {sum(it.processor for it in ended):6.2f} s of a processor: all")
    failed = [it for it in ended if it.failed]
    named = f"MOTCAR={os.environ['MOTCAR']} " if "MOTCAR" in os.environ else ""
    for it in errors:
        print(f"FAILED: a file of tests:\n{it}")
    for it in sorted(failed, key=lambda it: it.name):
        print(f"FAILED: {it.name}\n" + "\n".join(it.failed) + f"\nalone: {named}python3 -m unittest {it.name}\n")
    print(f"tests: {sum(it.rows for it in ended)} rows in {len(ended)} tests, {len(failed) + len(errors)} failed, "
          f"{sum(len(it.skipped) for it in ended)} skipped", flush=True)
    return 1 if failed or errors or not ended else 0


def main():
    words = argparse.ArgumentParser(prog="python3 -m tests", description="Runs the tests of the built program.")
    words.add_argument("-k", dest="part", default="", help="only tests whose names have this part")
    processors = len(os.sched_getaffinity(0))
    words.add_argument("--jobs", type=int, default=processors, help="how many run at once (as many as processors)")
    words.add_argument("--slowest", action="store_true", help="print the ten that took longest, and the time of all")
    words.add_argument("files", nargs="*", help="only these files: test_lines")
    options = words.parse_args()
    program.find()
    began, ended = time.monotonic(), []
    names, errors = chosen(options)
    is_seen = sys.stderr.isatty()
    for it in run_all(names, options.jobs):
        ended.append(it)
        if is_seen:
            print(f"\r{len(ended)} of {len(names)} tests", end="", file=sys.stderr, flush=True)
    if is_seen:
        print("\r\033[K", end="", file=sys.stderr, flush=True)
    sys.exit(report(ended, errors, time.monotonic() - began, options.slowest))


if __name__ == "__main__":
    main()
