"""Journals of starts in a folder, as `s4d history` tells of them."""
import tempfile
import unittest
from pathlib import Path

from tests.journals import CALLS, LINES, RECORDS, Chain, Kept, call, journal, json_of, row_of
from tests.program import run
from tests.test_history_scripts import SCRIPT, TWO_CELLS

# The SetWindow has the place that it would have in the first cell.
LISTED = """\
0 0 0 5 2 0 create 0 -> made 2.0.1
1 1 0 6 1 0 create 1 -> made 1.1.1
2 1 1 8 3 0 create 2 -> made 3.2.1
3 0 1 9 0 0 setwindow 4 -> done
"""
# The same records with what is known of them, where their calls and connections are.
FIRST, SECOND = ({"connection": number, "peer": f"127.0.0.1:5000{number}"} for number in (1, 2))
ROWS = [
    row_of(0, (0, 0), 5, 2, "create 0", "made 2.0.1", object="2.0.1", purse="2.0", **SECOND),
    row_of(1, (1, 0), 6, 1, "create 1", "made 1.1.1", object="1.1.1", purse="1.1", **FIRST),
    row_of(2, (1, 1), 8, 3, "create 2", "made 3.2.1", object="3.2.1", purse="3.2"),
    row_of(3, (0, 1), 9, 0, "setwindow 4", "done", **SECOND),
]
JSON = json_of(*ROWS)
# What is found of its cells: the SetWindow isn't in the blocks of the first, and its call names a place that isn't there.
CELLS = """\
start 2 cell 0 records 1
start 2 cell 0 lacks 1
start 2 cell 0 beyond 1
start 2 cell 1 records 3
start 2 without an end
"""
# The same where no calls are written yet.
UNCALLED = """\
start 2 cell 0 records 1
start 2 cell 0 lacks 1
start 2 cell 0 uncalled 1
start 2 cell 1 records 3
start 2 cell 1 uncalled 2
start 2 without an end
"""
# The texts of lines of two connections.
TEXTS = (
    '{"connection":1,"peer":"127.0.0.1:50001","wall":1,"moment":1,"event":"opened"',
    '{"connection":2,"peer":"127.0.0.1:50002","wall":2,"moment":2,"event":"opened"',
)
WHOLE, SUM = journal(2, *TWO_CELLS)


def calls(told=2):
    """Calls of all records, and of one that isn't there. The second of cell 1 came by no connection. They tell of so many records of cell 1."""
    chain = Chain(SUM)
    first = chain.calls(0, [call(1, 0, 1), call(0, 0, 2)])
    return first + chain.calls(1, [call(1, 1, 0), call(0, 1, 2)], (1, told))


def kept(told=2):
    """A folder with a start of number 2, whose calls tell of so many records of cell 1."""
    return Kept(WHOLE, calls(told), Chain(SUM).lines(*TEXTS))


class Starts(unittest.TestCase):
    maxDiff = None

    def test_starts_are_told(self):
        with kept() as it:
            self.assertEqual(it.tell("script").text, SCRIPT)
            self.assertEqual(it.tell("list", "--start", 2).text, LISTED)
            self.assertEqual(it.tell("list", "--start", 1).fault, "no start 1")

    def test_starts_are_told_as_json(self):
        with kept() as it:
            self.assertEqual(it.tell("list", "--json").text, JSON)

    def test_starts_of_which_nothing_is_wrong_are_found(self):
        with kept() as it:
            told = it.check()
            self.assertEqual(told.fault, "")
            self.assertTrue(told.lines[0].startswith("start 2 blocks 4 sum "))
            self.assertTrue(told.lines[1].startswith("start 2 calls blocks 2 sum "))
            self.assertTrue(told.lines[2].startswith("start 2 connections lines 2 sum "))
            self.assertEqual("".join(f"{line}\n" for line in told.lines[3:]), CELLS)
            it.write(CALLS, b"")
            told = it.check()
            self.assertEqual(told.fault, "")
            self.assertTrue(told.text.endswith(UNCALLED), told.text)

    def test_files_in_pieces_are_read(self):
        # A file that goes on in another one is one file. What stands in the first file behind byte 90 was lost.
        with kept() as it:
            whole = it.check()
            it.write(RECORDS, WHOLE[:90] + b"lost")
            it.write(f"{RECORDS}-90", WHOLE[90:])
            told = it.check()
            self.assertEqual((told.fault, told.text), ("", whole.text))

    def test_changed_starts_are_found(self):
        with kept() as it:
            it.write(RECORDS, WHOLE[:100] + bytes([WHOLE[100] ^ 1]) + WHOLE[101:])
            self.assertEqual(it.check().fault, "start 2: byte 76: no block")
        with kept() as it:
            changed = calls()
            it.write(CALLS, changed[:10] + bytes([changed[10] ^ 1]) + changed[11:])
            self.assertEqual(it.check().fault, "start 2: calls: byte 0: no block")
        with kept() as it:
            it.write(LINES, Chain(bytes(32)).lines(*TEXTS))
            self.assertEqual(it.check().fault, "start 2: lines: byte 0: no line")

    def test_records_without_calls_are_found(self):
        # The calls say that they tell of the SetWindow too, which is a record of cell 1 that wants none; and of one more that isn't there.
        with kept(told=4) as it:
            self.assertEqual(it.check().fault, "")
        with kept() as it:
            it.write(CALLS, Chain(SUM).calls(0, [call(1, 0, 1)], (0, 2)))
            self.assertEqual(it.check().fault, "start 2: calls: cell 1 record 1: no call")
            it.write(CALLS, Chain(SUM).calls(0, [call(1, 0, 1), call(1, 0, 2)]))
            self.assertEqual(it.check().fault, "start 2: calls: cell 1 record 0: too many calls")

    def test_wanted_sums_are_found(self):
        # Each file's last sum is one that may be wanted.
        with kept() as it:
            sums = [line.partition(" sum ")[2] for line in it.check().lines if " sum " in line]
            self.assertEqual(len(sums), 3)
            for sum in sums:
                self.assertEqual(it.check("--sum", sum).fault, "")
            self.assertEqual(it.check("--sum", "07" * 32).fault, "start 2: another sum")

    def test_folders_without_starts_are_told(self):
        with tempfile.TemporaryDirectory() as room:
            Path(room, "bare").mkdir()
            for folder, fault in (("bare", b"s4d: no journal in bare\n"), ("bare/nowhere", b"s4d: cannot read bare/nowhere: No such file or directory\n")):
                ran = run(["history", "check", folder], folder=room)
                self.assertEqual((ran.status, ran.err), (1, fault))


if __name__ == "__main__":
    unittest.main()
