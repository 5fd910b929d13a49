"""Records that want calls, and files of calls, as `s4d history check` tells of them."""
import unittest

from tests.journals import Chain, Kept, call, creation, journal, setting

# What the check tells last of a cell, behind how many records it has.
UNCALLED, BEYOND = "start 2 cell {} uncalled {}", "start 2 cell {} beyond {}"


def of_cell(lines, cell):
    """What is told of a cell."""
    return [line for line in lines if line.startswith(f"start 2 cell {cell} ")]


def counts(cell, records, uncalled=0, beyond=0):
    """The lines of a cell with so many records."""
    wanted = [f"start 2 cell {cell} records {records}"]
    return wanted + [UNCALLED.format(cell, uncalled)] * (uncalled > 0) + [BEYOND.format(cell, beyond)] * (beyond > 0)


# Of two cells each has a record of its own in front of one of all cells.
EACH = ((0, creation(5, 2)), (0, setting(6)), (1, creation(5, 7)), (1, setting(6)))
# Cell 1 has two records of its own, and cell 0 has none.
TWO = ((1, creation(5, 7)), (1, creation(6, 7, serial=2)))


def two_blocks(sum, told=(1, 1)):
    """Two blocks of calls, of two workers, behind a header with that sum; and where the first one ends."""
    chain = Chain(sum)
    first = chain.calls(0, [call(1, 0, 12), call(0, 1, 13)], told)
    return first + chain.calls(1, [call(1, 2, 12), call(1, 1, 14)]), len(first)


class Calls(unittest.TestCase):
    def check(self, batches, calls, cells=2):
        """What is told of a journal with these calls, which are made of its header's sum."""
        records, sum = journal(cells, *batches)
        with Kept(records, calls(sum)) as kept:
            return kept.check()

    def test_records_want_their_calls(self):
        # A record of all cells wants one in the first cell alone.
        told = self.check(EACH, lambda sum: b"")
        self.assertEqual(of_cell(told.lines, 0), counts(0, 2, uncalled=2))
        self.assertEqual(of_cell(told.lines, 1), counts(1, 2, uncalled=1))
        told = self.check(EACH, lambda sum: Chain(sum).calls(0, [call(0, 0, 1), call(0, 1, 1), call(1, 0, 1)]))
        self.assertEqual(of_cell(told.lines, 0), counts(0, 2))
        self.assertEqual(of_cell(told.lines, 1), counts(1, 2))

    def test_calls_are_taken(self):
        # Of the first cell the record of all cells has its call, and the one before it hasn't, but should.
        told = self.check(EACH, lambda sum: two_blocks(sum)[0])
        self.assertEqual(told.fault, "start 2: calls: cell 0 record 0: no call")
        # Where nothing of that cell is told, the other one may come yet.
        told = self.check(EACH[:3] + TWO[1:], lambda sum: two_blocks(sum, (0, 1))[0])
        self.assertEqual(of_cell(told.lines, 0), counts(0, 2, uncalled=1))
        self.assertEqual(of_cell(told.lines, 1), ["start 2 cell 1 records 2", "start 2 cell 1 lacks 1", BEYOND.format(1, 1)])

    def test_so_many_records_are_told(self):
        # One record is told to have its call: the first, and not the second.
        for places, fault in (((0, 1), ""), ((0, 2), "start 2: calls: cell 1 record 1: no call")):
            told = self.check(TWO, lambda sum: Chain(sum).calls(0, [call(1, 0, 12)], places))
            self.assertEqual(told.fault, fault)
            self.assertEqual(of_cell(told.lines, 1)[1:], [] if fault else [UNCALLED.format(1, 1)])

    def test_calls_too_many_are_found(self):
        # The record of all cells in cell 1 wants no call, and the file has one.
        told = self.check(EACH, lambda sum: two_blocks(sum, (0, 1))[0])
        self.assertEqual(told.fault, "start 2: calls: cell 1 record 1: too many calls")

    def test_calls_are_cut_anywhere(self):
        # Of the first bytes, however many, the calls are taken whose blocks lie wholly in them.
        records, sum = journal(2, *TWO)
        whole, end = two_blocks(sum)
        with Kept(records) as kept:
            for length in range(len(whole)):
                kept.write("calls", whole[:length])
                told = kept.check()
                self.assertEqual(told.fault, "", length)
                self.assertEqual(of_cell(told.lines, 1), counts(1, 2, uncalled=1 if length >= end else 2), length)

    def test_records_are_told_by_whole_blocks(self):
        # The first block tells of a record of cell 1 that has no call in it.
        records, sum = journal(2, *TWO)
        chain = Chain(sum)
        first = chain.calls(0, [call(1, 1, 12)], (1, 1))
        whole = first + chain.calls(1, [call(1, 0, 14)])
        with Kept(records) as kept:
            for length in range(len(whole)):
                kept.write("calls", whole[:length])
                self.assertEqual(kept.check().fault, "start 2: calls: cell 1 record 0: no call" if length >= len(first) else "", length)

    def test_calls_are_changed_anywhere(self):
        # A changed byte behind the length of a block is found.
        records, sum = journal(2, *EACH)
        whole, end = two_blocks(sum)
        with Kept(records) as kept:
            for place in range(4, end):
                changed = bytearray(whole)
                changed[place] ^= 1
                kept.write("calls", changed)
                self.assertEqual(kept.check().fault, "start 2: calls: byte 0: no block", place)

    def test_uncalled_records_are_counted(self):
        # The records 0 and 2 of cell 3 have their calls, and the records 1 and 3 haven't.
        four = [(3, creation(5, 7), creation(6, 7, serial=2), creation(7, 7, serial=3), creation(8, 7, serial=4))]
        two = [call(3, 0, 1), call(3, 2, 1)]
        for place, fault in ((0, ""), (1, ""), (2, "start 2: calls: cell 3 record 1: no call")):
            told = self.check(four, lambda sum: Chain(sum).calls(0, two, (0, 0, 0, place)), cells=4)
            self.assertEqual(told.fault, fault)
            self.assertEqual(of_cell(told.lines, 3), counts(3, 4, uncalled=0 if fault else 2))
        # Where all have theirs, more may be told than there are.
        both = [(3, creation(5, 7), creation(6, 7, serial=2))]
        told = self.check(both, lambda sum: Chain(sum).calls(0, [call(3, 0, 1), call(3, 1, 1)], (0, 0, 0, 2**64 - 1)), cells=4)
        self.assertEqual((told.fault, of_cell(told.lines, 3)), ("", counts(3, 2)))


if __name__ == "__main__":
    unittest.main()
