"""Lists and sums of journals, among them one that another program made (docs/JOURNAL.md), as `s4d history` tells them."""
import unittest

from tests.journals import RECORDS, Chain, Kept, call, create, creation, header, journal, json_of, made, object_of, record, row_of, setting

# A header, a block of cell 3 and one of cell 0, and their sums.
JOURNAL = bytes.fromhex(
    "5334444a524e4c31000000000000000a000000040000000000000005"
    "0000018bcfe568000000000000000000"
    "6c2f04c8ada88c19995a3a636afc5692138689a8b5e2c134d761efaf30d3047e"
    "0000002c0000000300000001000000000000000700000007000000010100000002010000000009010000000700000001"
    "613e5ff0fb1635697f02e4c1441785855daa150c5e0fa60c126da7acf68a9d7e"
    "0000002d000000000000000100000000000000090000000800000002020000000902000000070000000100000003080104"
    "51c9db83fe05feaba7112cb302f711fb35d84691e20854680749080a3625751d"
)
# Where the header and its sum end, and where the first block ends.
FRONT, FIRST = 76, 156
# A block of two calls, under the sum of the header.
CALLS = bytes.fromhex(
    "000000540000000200000002000000030000000000000000000000000000000c000000000000000000000005"
    "000000000000000d000000040000000000000006000000000000000000000000000000000000000000000001"
    "f5122cf69e6c33a6d415724920395c79440e60e2e674305832ee4df5c15aad42"
)
# The lines of the records in both blocks, where both are of cell 3, in which the purses of 7 are; what stands there is theirs.
FIRST_LINE, SECOND_LINE = "0 3 0 7 7 1 create 0 -> made 7.0.1\n", "1 3 1 9 8 2 delete 7.0.1 -> denied delete\n"
THEIRS = {"object": "7.0.1", "purse": "7.0"}
FIRST_ROW = row_of(0, (3, 0), 7, 7, "create 0", "made 7.0.1", wall=1700000000002, client=1, **THEIRS)
SECOND_ROW = row_of(1, (3, 1), 9, 8, "delete 7.0.1", "denied delete", wall=1700000000004, client=2, version=2, refused=True, **THEIRS)


def made_here(cell):
    """The header and its sum, the first block, and the second one of that cell."""
    front, first = header(4, first=5, wall=1700000000000)
    chain = Chain(first)
    one = chain.batch(3, record(7, 7, create(), made(7), client=1))
    return front + first, one, chain.batch(cell, record(9, 8, b"\x02" + object_of(7), b"\x08\x01\x04", client=2, version=2))


# The same journal, but for the second record, which stands in its own cell.
ORDERED = b"".join(made_here(3))


def changed(place):
    """The journal with another byte at that place."""
    it = bytearray(ORDERED)
    it[place] ^= 1
    return it


class Lists(unittest.TestCase):
    def setUp(self):
        self.kept = Kept(JOURNAL)
        self.addCleanup(self.kept.room.cleanup)

    def listed(self, records, *flags):
        """The lines of what stands in the bytes, or else its fault."""
        self.kept.write(RECORDS, records)
        told = self.kept.tell("list", *flags)
        return told.fault or told.text

    def tallied(self, records):
        """How many blocks there are, their last sum, and where they are torn."""
        self.kept.write(RECORDS, records)
        lines = self.kept.check().lines
        return [line.removeprefix("start 2 ") for line in lines if line.startswith(("start 2 blocks ", "start 2 torn "))]

    def test_what_makes_journals_here_makes_that_of_another_program(self):
        front, one, two = made_here(0)
        self.assertEqual(front + one + two, JOURNAL)
        self.assertEqual((len(front), len(front + one)), (FRONT, FIRST))

    def test_a_journal_is_listed(self):
        self.assertEqual(self.listed(ORDERED), FIRST_LINE + SECOND_LINE)
        # A record that stands in another cell than its own is told behind those before it.
        self.kept.write(RECORDS, JOURNAL)
        told = self.kept.tell("list")
        self.assertEqual((told.text, told.fault), (FIRST_LINE, "start 2: cell 0: a record of another cell"))

    def test_a_span_of_moments_is_listed(self):
        self.assertEqual(self.listed(ORDERED, "--from", 8, "--to", 9), SECOND_LINE)

    def test_a_journal_is_tallied(self):
        self.assertEqual(len(JOURNAL), 237)
        self.assertEqual(self.tallied(JOURNAL), [f"blocks 2 sum {JOURNAL[205:].hex()}"])
        self.assertEqual(self.tallied(JOURNAL + b"\x00"), [f"blocks 2 sum {JOURNAL[205:].hex()}", "torn 237 238"])

    def test_a_journal_is_cut_anywhere(self):
        # Of the first bytes, however many, the records are listed whose blocks lie wholly in them.
        for length in range(len(ORDERED)):
            told, tallied = self.listed(ORDERED[:length]), self.tallied(ORDERED[:length])
            if length < FRONT:
                self.assertEqual((told, tallied), ("start 2: no journal", []), length)
                continue
            self.assertEqual(told, "" if length < FIRST else FIRST_LINE, length)
            count, end = (0, FRONT) if length < FIRST else (1, FIRST)
            # What goes on there goes on behind the sum of the last block, or of the header.
            wanted = [f"blocks {count} sum {ORDERED[end - 32 : end].hex()}"]
            self.assertEqual(tallied, wanted if length == end else [*wanted, f"torn {end} {length}"], length)

    def test_a_journal_is_changed_anywhere(self):
        # Wherever a byte is changed, the journal isn't whole with all of its records. Where one of the two middle bytes of a block's length is greater, the
        # block seems to go on behind the end of the bytes. What stands before is listed in each case.
        for place in range(len(ORDERED)):
            self.kept.write(RECORDS, changed(place))
            told, tallied = self.kept.tell("list"), self.tallied(changed(place))
            front, before = (FRONT, "") if place < FIRST else (FIRST, FIRST_LINE)
            if place < FRONT:
                self.assertEqual((told.fault, told.text, tallied), ("start 2: no journal", "", []), place)
            elif place - front in (1, 2):
                self.assertEqual((told.fault, told.text, tallied[1:]), ("", before, [f"torn {front} {len(ORDERED)}"]), place)
            else:
                self.assertEqual((told.fault, told.text, tallied), (f"start 2: byte {front}: no block", before, []), place)

    def test_the_fields_of_a_journal_are_told(self):
        # The wall clock at a moment is that of the first moment and what is between them. A script has its window, and which version its callers speak.
        self.assertEqual(self.listed(ORDERED, "--json"), json_of(FIRST_ROW, SECOND_ROW))
        self.assertEqual(self.kept.tell("script").lines, ["window 10 wire 2", "7 7/1 create 0", "9 8 delete 7.0.1"])
        self.assertEqual(self.kept.tell("script", "--to", 8).lines, ["window 10", "7 7 create 0"])

    def test_calls_are_no_records(self):
        # A block of calls is none of records, though its sum is right.
        self.assertEqual(Chain(JOURNAL[44:FRONT]).calls(2, [call(3, 0, 12), call(0, 5, 13)], (6, 0, 0, 1)), CALLS)
        self.assertEqual(self.listed(JOURNAL[:FRONT] + CALLS), "start 2: byte 76: no block")
        with Kept(JOURNAL, CALLS) as kept:
            self.assertIn(f"start 2 calls blocks 1 sum {CALLS[88:].hex()}", kept.check().lines)

    def test_batches_have_places(self):
        # The first cell has four records, and then two and two; the second one has none but the last.
        four = (0, *(creation(5, 2, serial=serial) for serial in range(1, 5)))
        two, third = (0, creation(5, 2, serial=5), setting(6)), (0, creation(7, 2, serial=6), setting(8))
        records, _ = journal(2, four, two, third, (1, creation(5, 7)))
        places = [line.split(" ")[:4] for line in self.listed(records).splitlines()]
        # Cell 1 ends before the records of all cells, which have their places in cell 0.
        wanted = [(0, 0, 5), (0, 1, 5), (0, 2, 5), (0, 3, 5), (0, 4, 5), (1, 0, 5), (0, 5, 6), (0, 6, 7), (0, 7, 8)]
        self.assertEqual(places, [[str(n), *map(str, place)] for n, place in enumerate(wanted)])
        # There is no third cell.
        records, _ = journal(2, two, (2, creation(5, 2)))
        self.assertEqual(self.listed(records), "start 2: no cell 2")


if __name__ == "__main__":
    unittest.main()
