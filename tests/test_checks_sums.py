"""Sums that were kept, as `s4d history check --sums` compares them with journals."""
import os
import unittest
from pathlib import Path

from tests.journals import CALLS, LINES, RECORDS, Chain, call, creation, journal, setting
from tests.starts import Folder, Start, begun, chained, ended

# How many bytes a header of format 2 has, with its sum.
FRONT = 172
WHAT = "a kept sum is 'START BYTES HEX'"
SUM = "07" * 32


def ends(start):
    """Where each block of a start's records ends, the header's first, and the sum that stands there."""
    place, found = 0, []
    for piece in start.pieces[RECORDS]:
        place += len(piece)
        found.append((place, piece[-32:].hex()))
    return found


def lines_of(start, numbers=None):
    """The lines of kept sums of these ends of a start, or of all."""
    lines = [f"{start.number} {place} {sum}" for place, sum in ends(start)]
    return [lines[number] for number in numbers or range(len(lines))]


def kept(start, numbers=None):
    """What is told of these sums."""
    last = len(start.pieces[RECORDS]) - 1
    told = [f"start {start.number} bytes {place} kept, {last - number} blocks follow" for number, (place, _) in enumerate(ends(start))]
    return [told[number] for number in numbers or range(len(told))]


# Lines that are no kept sum.
BAD = {
    "an empty one": "",
    "two words": f"1 {SUM}",
    "four words": f"1 172 {SUM} 1",
    "two spaces": f"1  172 {SUM}",
    "a space in front": f" 1 172 {SUM}",
    "a space behind": f"1 172 {SUM} ",
    "a tab": f"1\t172\t{SUM}",
    "a carriage return": f"1 172 {SUM}\r",
    "a start that is no number": f"one 172 {SUM}",
    "a start with a zero before it": f"01 172 {SUM}",
    "bytes that are no number": f"1 0xac {SUM}",
    "bytes below 0": f"1 -172 {SUM}",
    "bytes beyond all numbers": f"1 18446744073709551616 {SUM}",
    "a digit less": f"1 172 {SUM[1:]}",
    "two digits more": f"1 172 {SUM}07",
    "another letter": f"1 172 {SUM[:-1]}g",
    "a line of a server's errors": f"s4d: journal: start 1 bytes 172 sum {SUM}",
}


class Sums(unittest.TestCase):
    maxDiff = None

    def setUp(self):
        self.first, self.second = chained(ended, ended)
        self.it = Folder(self.first, self.second)
        self.addCleanup(self.it.room.cleanup)

    def write(self, *lines, name="sums", end="\n"):
        """A file of these lines."""
        Path(self.it.room.name, name).write_text("\n".join(lines) + (end if lines else ""))

    def told(self, *flags, names=("sums",)):
        """What is told of the folder and these files of sums."""
        return self.it.check(*flags, *[word for name in names for word in ("--sums", name)])

    def check(self, lines, *flags, kept_1=(), kept_2=(), fault=""):
        """That so much is told of the kept sums of both starts, and nothing else is wrong."""
        self.write(*lines)
        told = self.told(*flags)
        self.assertEqual([line for line in told.lines if " kept" in line], [*kept_1, *kept_2])
        self.assertEqual((told.fault, told.lines[-1]), (fault, "start 2 sound"))

    def fault(self, lines, fault, *flags):
        self.write(*lines)
        self.assertEqual(self.told(*flags).fault, fault)

    def test_kept_sums_are_found(self):
        # The header's, that of a block in the middle, and the last one.
        for number in range(5):
            self.check(lines_of(self.first, [number]), kept_1=kept(self.first, [number]))
        both = lines_of(self.first) + lines_of(self.second)
        self.check(both, kept_1=kept(self.first), kept_2=kept(self.second))
        # They may stand in any order, and any of them twice.
        self.check([*reversed(both), *both[2:4]], kept_1=kept(self.first), kept_2=kept(self.second))
        self.check([])
        self.write(*lines_of(self.first, [2]), end="")
        self.assertEqual(self.told().fault, "")

    def test_where_kept_sums_stand(self):
        # Behind what is told of the records.
        self.write(*lines_of(self.first, [0, 4]))
        tallied = self.first.tallies()
        self.assertEqual(self.told("--start", 1).lines, [tallied[0], *kept(self.first, [0, 4]), *tallied[1:], *self.first.cells(), "start 1 sound"])
        # And of where they are torn.
        broken = begun()
        size = broken.size(RECORDS)
        with Folder(broken) as it:
            it.write(1, RECORDS, broken.data(RECORDS) + b"\0")
            Path(it.room.name, "sums").write_text("\n".join(lines_of(broken, [4])))
            told = it.check("--sums", "sums")
        self.assertEqual(told.lines[1:3], [f"start 1 torn {size} {size + 1}", *kept(broken, [4])])

    def test_files_of_kept_sums(self):
        self.write(*lines_of(self.first, [1]), *lines_of(self.second, [4]), name="old")
        self.write(*lines_of(self.first, [1, 3]), name="new")
        told = self.told(names=("new", "old", "new"))
        self.assertEqual([line for line in told.lines if " kept" in line], kept(self.first, [1, 3]) + kept(self.second, [4]))
        self.assertEqual(told.fault, "")
        # Each of them counts.
        self.write(f"1 {FRONT} {SUM}", name="last")
        for names in (("last", "old"), ("old", "last")):
            self.assertEqual(self.told(names=names).fault, f"start 1: bytes {FRONT}: another sum")

    def test_sums_that_are_not_there(self):
        (_, first), (one, _), (two, sum), *_, (last, _) = ends(self.first)
        for line, fault in {
            f"1 {FRONT} {SUM}": f"bytes {FRONT}: another sum",
            f"1 {last} {SUM}": f"bytes {last}: another sum",
            # The sum of the block before, or of the one behind.
            f"1 {one} {first}": f"bytes {one}: another sum",
            f"1 {one} {sum}": f"bytes {one}: another sum",
            f"1 {one + 1} {SUM}": f"bytes {one + 1}: no block ends there",
            f"1 {two - 1} {sum}": f"bytes {two - 1}: no block ends there",
            f"1 {last + 1} {SUM}": f"bytes {last + 1}: no block ends there",
            f"1 {2**64 - 1} {SUM}": f"bytes {2**64 - 1}: no block ends there",
            f"1 0 {SUM}": "bytes 0: no block ends there",
            f"1 140 {SUM}": "bytes 140: no block ends there",
        }.items():
            with self.subTest(line):
                self.fault([line], f"start 1: {fault}")
                # Also among others.
                self.fault([*lines_of(self.first), *lines_of(self.second), line], f"start 1: {fault}")
                self.fault([line], f"start 1: {fault}", "--start", 1)

    def test_sums_of_another_journal(self):
        # It began otherwise, or went on otherwise, or they are those of another file.
        other = ended(1, b"\1" * 32)
        self.fault(lines_of(other), f"start 1: bytes {FRONT}: another sum")
        other = ended(1, ticks=5)
        self.fault(lines_of(other), f"start 1: bytes {ends(other)[3][0]}: another sum")
        self.fault([f"1 {self.first.size(CALLS)} {self.first.last(CALLS).hex()}"], f"start 1: bytes {self.first.size(CALLS)}: no block ends there")

    def test_sums_of_starts_that_are_not_there(self):
        # All starts are told of before.
        self.check(lines_of(ended(9)), fault=f"start 9: bytes {FRONT}: no such start")
        self.check([*lines_of(self.first, [1]), f"3 371 {SUM}", f"0 371 {SUM}"], kept_1=kept(self.first, [1]), fault="start 0: bytes 371: no such start")
        # Of a start alone the others' are passed over.
        self.check([f"9 371 {SUM}", f"1 5 {SUM}", *lines_of(self.second, [4])], "--start", 2, kept_2=kept(self.second, [4]))

    def test_a_start_alone_that_is_not_there(self):
        self.fault([f"9 371 {SUM}"], "no start 9", "--start", 9)

    def test_a_newest_start_that_is_gone(self):
        self.write(*lines_of(self.first, [4]), *lines_of(self.second, [4]))
        self.it.rename(2, "old")
        told = self.told()
        self.assertEqual((told.fault, told.lines[-1]), (f"start 2: bytes {self.second.size(RECORDS)}: no such start", "start 1 sound"))

    def test_records_that_were_cut(self):
        # Also where nothing else tells of them.
        start = begun()
        del start.pieces[RECORDS][-1]
        with Folder(start) as it:
            Path(it.room.name, "sums").write_text("\n".join(lines_of(begun())) + "\n")
            told = it.check("--sums", "sums")
        self.assertEqual(told.fault, f"start 1: bytes {begun().size(RECORDS)}: no block ends there")

    def test_files_that_were_emptied(self):
        # Nothing but what was kept elsewhere tells that there was more.
        (start,) = chained(ended)
        with Folder(start) as it:
            for name in (RECORDS, CALLS, LINES):
                it.write(1, name, b"")
            self.assertEqual(it.check().fault, "start 1: broken off")
            Path(it.room.name, "sums").write_text("\n".join(lines_of(start, [4])))
            self.assertEqual(it.check("--sums", "sums").fault, f"start 1: bytes {start.size(RECORDS)}: no block ends there")
            self.assertEqual(it.check("--sum", start.last(RECORDS).hex()).fault, "start 1: another sum")

    def test_records_that_were_written_anew(self):
        # All sums of it are right, and it says that it ended.
        anew = ended(ticks=5)
        with Folder(anew) as it:
            self.assertEqual(it.check().fault, "")
            Path(it.room.name, "sums").write_text("\n".join(lines_of(ended())) + "\n")
            self.assertEqual(it.check("--sums", "sums").fault, f"start 1: bytes {ends(anew)[3][0]}: another sum")

    def test_sums_of_format_1(self):
        records, first = journal(1, (0, creation(5, 2)), (0, setting(6)))
        calls = Chain(first).calls(0, [call(0, 0, 0), call(0, 1, 0)])
        for name, data in ((RECORDS, records), (CALLS, calls), (LINES, b"")):
            self.it.write(3, name, data)
        end = 76 + 4 + int.from_bytes(records[76:80]) + 32
        self.write(f"3 76 {first.hex()}", f"3 {end} {records[end - 32 : end].hex()}", f"3 {len(records)} {records[-32:].hex()}")
        told = self.told("--start", 3)
        wanted = [f"start 3 bytes {place} kept, {count} blocks follow" for place, count in ((76, 2), (end, 1), (len(records), 0))]
        self.assertEqual(([line for line in told.lines if " kept" in line], told.lines[-1], told.fault), (wanted, "start 3 without an end", ""))

    def test_sums_of_records_in_pieces(self):
        # A file that goes on in another one is one file.
        end, _ = ends(self.first)[2]
        data = self.first.data(RECORDS)
        self.it.write(1, RECORDS, data[:end] + b"lost")
        self.it.write(1, f"{RECORDS}-{end}", data[end:])
        self.check(lines_of(self.first), kept_1=kept(self.first))

    def test_bad_lines(self):
        good = lines_of(self.first, [0])
        for what, line in BAD.items():
            with self.subTest(what):
                self.write(*good, line, *good)
                told = self.told()
                self.assertEqual((told.fault, told.text), (f"sums line 2: {WHAT}", ""))
        self.write("", name="other")
        self.assertEqual(self.told(names=("sums", "other")).fault, f"sums line 2: {WHAT}")
        self.assertEqual(self.told(names=("other",)).fault, f"other line 1: {WHAT}")

    def test_files_that_cannot_be_read(self):
        # They are looked at before anything is written, whatever the folder has.
        os.mkfifo(Path(self.it.room.name, "pipe"))
        for name in ("nowhere", "kept", "pipe", "sums/nowhere"):
            with self.subTest(name):
                self.write(*lines_of(self.first))
                told = self.told(names=("sums", name))
                self.assertEqual((told.fault, told.text), (f"cannot read {name}", ""))
        # What is no text has a line that is none.
        self.write(*lines_of(self.first, [0]), name="no text")
        with open(Path(self.it.room.name, "no text"), "ab") as file:
            file.write(b"1 172 \xff\n")
        for name, number in (("no text", 2), ("kept/1/records", 1)):
            told = self.told(names=(name,))
            self.assertEqual((told.fault, told.text), (f"{name} line {number}: {WHAT}", ""))

    def test_the_last_sums_are_still_compared(self):
        self.write(*lines_of(self.first, [2]))
        self.assertEqual(self.told("--start", 1, "--sum", self.first.last(RECORDS).hex()).fault, "")
        self.assertEqual(self.told("--start", 1, "--sum", SUM).fault, "start 1: another sum")
        # An old sum is no last one.
        self.assertEqual(self.it.check("--start", 1, "--sum", ends(self.first)[2][1]).fault, "start 1: another sum")


class Many(unittest.TestCase):
    def test_many_blocks_and_sums(self):
        start = Start(1)
        for serial in range(1, 301):
            start.batch(0, creation(serial, 2, serial=serial))
        start.tell(*[(0, place, 0) for place in range(300)])
        start.end()
        with Folder(start) as it:
            Path(it.room.name, "sums").write_text("\n".join(reversed(lines_of(start))) + "\n")
            told = it.check("--sums", "sums")
        self.assertEqual(([line for line in told.lines if " kept" in line], told.fault), (kept(start), ""))


if __name__ == "__main__":
    unittest.main()
