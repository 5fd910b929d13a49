"""The worked rows, and what tests of them have in common."""
import tempfile
import unittest
from pathlib import Path

from tests import ways
from tests.program import run
from tools.lib.programs import TOP
from tools.lib.rows import Shelf, index_of

SHELF = Shelf(TOP)


def of_rows(kind):
    """Gives a class of tests one for each row of this kind, which its method `check` takes: the row's name, and what else it needs."""

    def with_tests(case):
        for it, name, *more in index_of(TOP):
            if it == kind:
                setattr(case, f"test_{name}", lambda self, name=name, more=more: self.check(name, *more))
        return case

    return with_tests


def text(name, kind):
    """The text of a row, or no bytes where it has none of that kind."""
    return SHELF.text(name, kind) or b""


class Row(unittest.TestCase):
    """What a row's texts say of runs."""

    maxDiff = None

    def check_run(self, words, given, written, fault=b"", folder=None):
        """That the program writes this, and then ends with this fault, or well."""
        ran = run(words, given, folder)
        self.assertEqual((ran.out, ran.err), (written, fault))
        self.assertEqual(ran.status, 1 if fault else 0)

    def check_hall(self, logins, arrivals, written, fault=b""):
        """That so is written of arrivals on a hall of these logins."""
        with tempfile.TemporaryDirectory() as folder:
            Path(folder, "logins").write_bytes(logins)
            self.check_run(["hall", "logins"], arrivals, written, fault, folder)

    def check_ways(self, script, written, asked):
        """That a script is told the same in these ways."""
        told = ways.told(script, asked)
        self.assertEqual(list(told), list(asked))
        for way in asked:
            self.assertEqual(told[way], written, way)


def ways_of(script):
    """The ways in which a script without a fault is told what it is told: with cuts where it has none itself, and with sweeps and without a drive's
    count of what it holds where it doesn't ask for that."""
    lines = script.split(b"\n")
    if any(line.startswith(b"cut ") for line in lines):
        return [ways.AT_ONCE]
    return [ways.AT_ONCE, *ways.CUT] + ([] if b"used" in lines else [*ways.SWEPT, *ways.TALKS])
