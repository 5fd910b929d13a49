"""Runs the tests of the built program that ask it from outside (tests/), and those of the client for Python (clients/python/tests/), many side by side.

  ./check outside [WORD..]
                         all of them, or those whose names have one of these words
      --program PATH     the program; else crates/s4d/out/s4d, which `rt ci` leaves
      --jobs N           how many run side by side; else 8
      --times            a line for each test, with its seconds
      --list             runs nothing, and prints their names

It prints what fails, and one last line: how many passed and failed, the time, and the processor time with that of the program.
"""
import os
import sys
import threading
import time
import unittest
from concurrent.futures import ThreadPoolExecutor
from pathlib import Path

from tools.lib.commands import Options
from tools.lib.processes import spent
from tools.lib.programs import TOP, is_program

# Where tests are.
FOLDERS = ("tests", "clients/python/tests")
OPTIONS = Options(flags=("times", "list"), numbers={"jobs": 8}, texts=("program",), words="WORD")


class Told(unittest.TestResult):
    """What became of some tests: how many passed, and the texts of what failed."""

    def __init__(self):
        super().__init__()
        self.passed = 0

    def addSuccess(self, test):
        super().addSuccess(test)
        self.passed += 1

    def texts(self):
        wrong = self.errors + self.failures + [(test, f"isn't tried: {why}") for test, why in self.skipped]
        return [f"{test.id()}: FAILED\n{text}" for test, text in wrong]


def tests_in(suite):
    """The tests of a suite, one by one."""
    for it in suite:
        if isinstance(it, unittest.TestSuite):
            yield from tests_in(it)
        else:
            yield it


def has_set_up(test):
    """Whether the tests of its class share something that is made for them once."""
    return type(test).setUpClass.__func__ is not unittest.TestCase.setUpClass.__func__


def all_tests():
    """The tests of all folders."""
    for folder in FOLDERS:
        yield from tests_in(unittest.TestLoader().discover(str(TOP / folder), top_level_dir=str(TOP)))


def groups(words):
    """The tests whose names have one of the words, or all: lists of those that have to run in one row."""
    found = {}
    for test in all_tests():
        if not words or any(word in test.id() for word in words):
            found.setdefault(type(test) if has_set_up(test) else test.id(), []).append(test)
    return list(found.values())


class Runs:
    """Runs groups of tests, and counts."""

    def __init__(self, times):
        self.times, self.passed, self.failed, self.lock = times, 0, 0, threading.Lock()

    def run(self, group):
        told, count, name, start = Told(), len(group), group[0].id(), time.monotonic()
        unittest.TestSuite(group).run(told)
        with self.lock:
            self.passed += told.passed
            self.failed += count - told.passed
            for text in told.texts():
                print(text, flush=True)
            if self.times:
                print(f"{time.monotonic() - start:6.1f} s  {name}" + (f" and {count - 1} more" if count > 1 else ""), flush=True)


def run(given):
    if given.program:
        os.environ["S4D"] = str(Path(given.program).resolve())
    # (it goes by what was just said of the program)
    from tests.program import PROGRAM

    start, found = time.monotonic(), groups(given.words)
    if given.list:
        for test in (it for group in found for it in group):
            print(test.id())
        return True
    if not is_program(PROGRAM):
        sys.exit(f"outside: {PROGRAM} is no program: call `rt ci`, or name one by --program PATH")
    runs = Runs(given.times)
    with ThreadPoolExecutor(given.jobs) as pool:
        list(pool.map(runs.run, found))
    passed, failed = runs.passed, runs.failed
    print(f"{passed} tests passed, {failed} failed, in {time.monotonic() - start:.1f} s, {spent():.1f} s of processor time")
    return passed and not failed
