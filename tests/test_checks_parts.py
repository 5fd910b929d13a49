"""Starts of which a part of a file is gone, as `s4d history check` tells of them: files that go on in others, whose names say from which byte on."""
import unittest

from tests.journals import CALLS, LINES, RECORDS
from tests.starts import NAMES, Folder, begun, chained, ended, held, sum_in

GONE = "start 1: parts of its files are gone"


class Parts(unittest.TestCase):
    maxDiff = None

    def place(self, start, name, count):
        """Where so many pieces of a file end."""
        return sum(map(len, start.pieces[name][:count]))

    def split(self, folder, start, name, front, behind):
        """Has a file lack what is between its first so many pieces and those from such a one on: without any in front there is no file of its name.
        Gives where the gap begins and ends."""
        first, last = self.place(start, name, front), self.place(start, name, behind)
        path = folder.folder / "1" / name
        if front:
            path.write_bytes(start.data(name)[:first])
        else:
            path.unlink()
        (folder.folder / "1" / f"{name}-{last}").write_bytes(start.data(name)[last:])
        return first, last

    def gap(self, start, name, front, behind):
        """What is told of a file with that gap: of what is in front of it, of the gap, and of what is behind it, where anything is."""
        (word, parts), heads = NAMES[name], int(name == RECORDS)
        first, last = self.place(start, name, front), self.place(start, name, behind)
        count = len(start.pieces[name]) - behind
        told = [f"start 1 {word}gone {first} {last}"]
        if count:
            told.append(f"start 1 {word}from {last} {parts} {count} sum {start.last(name).hex()}")
        if front:
            told.insert(0, f"start 1 {word}{parts} {front - heads} sum {sum_in(start.pieces[name][front - 1], name).hex()}")
        return told

    def of_none(self, start, name):
        """What is told in front of the gap of a file whose first bytes are gone, where the header is there."""
        word, parts = NAMES[name]
        return f"start 1 {word}{parts} 0 sum {start.first.hex()}"

    def check_headless(self, start, behind, lines):
        """That this is told of a start whose records are there from such a block on, and all of whose calls and lines are there."""
        with Folder(start) as it:
            self.split(it, start, RECORDS, 0, behind)
            told = it.check()
        # The sum under which the others begin is that of the header.
        of_others = [start.tally(name).replace("blocks", "from 0 blocks").replace("lines", "from 0 lines") for name in (CALLS, LINES)]
        self.assertEqual((told.lines, told.fault), ([*self.gap(start, RECORDS, 0, behind), *of_others, *lines, "start 1 in part"], GONE))

    def test_records_without_their_header(self):
        # By the end it is known how many records of a cell are gone.
        start = ended()
        self.check_headless(start, 3, ["start 1 cell 0 last 1", "start 1 cell 0 gone 1", "start 1 cell 1 last 1", "start 1 cell 1 gone 2"])
        self.check_headless(start, 4, ["start 1 cell 0 gone 2", "start 1 cell 1 last 1", "start 1 cell 1 gone 2"])
        self.check_headless(start, 1, ["start 1 cell 0 last 2", "start 1 cell 1 last 3"])

    def test_records_without_their_header_and_without_an_end(self):
        start = begun()
        self.check_headless(start, 3, ["start 1 cell 0 last 1", "start 1 cell 1 last 1"])
        self.check_headless(start, 4, ["start 1 cell 1 last 1"])

    def test_nothing_behind_what_is_gone(self):
        # The server goes on there, and has written nothing yet; or nobody asked before it ended. What the last sum was isn't known then.
        start = begun()
        self.check_headless(start, 5, [])
        start = ended()
        self.check_headless(start, 5, ["start 1 cell 0 gone 2", "start 1 cell 1 gone 3"])
        with Folder(start) as it:
            for name, behind in ((RECORDS, 5), (CALLS, 2), (LINES, 9)):
                self.split(it, start, name, 0, behind)
            told = it.check()
        gaps = [*self.gap(start, RECORDS, 0, 5), *self.gap(start, CALLS, 0, 2), *self.gap(start, LINES, 0, 9)]
        self.assertEqual((told.lines, told.fault), ([*gaps, "start 1 cell 0 gone 2", "start 1 cell 1 gone 3", "start 1 in part"], GONE))

    def test_records_with_a_gap(self):
        # Of cell 1 the first block is gone, and of cell 0 nothing.
        start = ended()
        with Folder(start) as it:
            self.split(it, start, RECORDS, 2, 3)
            told = it.check()
        gap, others = self.gap(start, RECORDS, 2, 3), start.tallies()[1:]
        self.assertEqual((told.lines[:5], told.lines[-1], told.fault), ([*gap, *others], "start 1 in part", GONE))
        of_cells = {"cell 0 records 1", "cell 0 last 1", "cell 1 records 0", "cell 1 last 1", "cell 1 gone 2"}
        self.assertLessEqual({f"start 1 {line}" for line in of_cells}, set(told.lines))
        self.assertNotIn("start 1 cell 0 gone", told.text)

    def test_calls_with_a_gap(self):
        start = ended()
        for front, behind in ((0, 1), (1, 2)):
            with Folder(start) as it:
                self.split(it, start, CALLS, front, behind)
                told = it.check()
            self.assertEqual((told.fault, told.lines[-1]), (GONE, "start 1 in part"))
            gap = [self.of_none(start, CALLS)] * (not front) + self.gap(start, CALLS, front, behind)
            self.assertEqual(told.lines[1 : 1 + len(gap)], gap)

    def test_lines_with_a_gap(self):
        start = ended()
        for front, behind in ((0, 1), (0, 9), (3, 5), (9, 10)):
            with Folder(start) as it:
                self.split(it, start, LINES, front, behind)
                told = it.check()
            self.assertEqual((told.fault, told.lines[-1]), (GONE, "start 1 in part"))
            gap = [self.of_none(start, LINES)] * (not front) + self.gap(start, LINES, front, behind)
            self.assertEqual(told.lines[2 : 2 + len(gap)], gap)

    def test_ends_of_parts_are_compared(self):
        # It said more than there is behind the gap.
        start = ended()
        was = start.size(RECORDS)
        with Folder(start) as it:
            _, place = self.split(it, start, RECORDS, 0, 3)
            path = it.folder / "1" / f"{RECORDS}-{place}"
            path.write_bytes(path.read_bytes()[: -len(start.pieces[RECORDS][-1])])
            left = was - len(start.pieces[RECORDS][-1])
            self.assertEqual(it.check().fault, f"start 1: records: {was} bytes at its end, and now {left}")

    def test_sums_that_are_wanted_of_parts(self):
        start = ended()
        with Folder(start) as it:
            self.split(it, start, RECORDS, 0, 3)
            for name in NAMES:
                self.assertEqual(it.check("--sum", start.last(name).hex()).fault, GONE)
            self.assertEqual(it.check("--sum", start.first.hex()).fault, "start 1: another sum")

    def test_sums_that_were_kept_of_parts(self):
        # They vouch for what stands behind the gap, whose first block is taken as it is.
        start = ended()
        with Folder(start) as it:
            _, place = self.split(it, start, RECORDS, 0, 3)
            first, last = place + len(start.pieces[RECORDS][3]), start.size(RECORDS)
            sums = it.folder.parent / "sums"
            sums.write_text(f"1 {first} {start.pieces[RECORDS][3][-32:].hex()}\n1 {last} {start.last(RECORDS).hex()}\n")
            told = it.check("--sums", "sums")
            kept = [f"start 1 bytes {first} kept, 1 blocks follow", f"start 1 bytes {last} kept, 0 blocks follow"]
            self.assertEqual((told.lines[2:4], told.fault), (kept, GONE))
            sums.write_text(f"1 {first} {'07' * 32}\n")
            self.assertEqual(it.check("--sums", "sums").fault, f"start 1: bytes {first}: another sum")

    def test_pieces_that_are_changed(self):
        start = ended()
        with Folder(start) as it:
            _, place = self.split(it, start, RECORDS, 0, 3)
            path = it.folder / "1" / f"{RECORDS}-{place}"
            data = bytearray(path.read_bytes())
            # The first block is taken as it is, and what is behind stands under its sum.
            second = place + len(start.pieces[RECORDS][3])
            data[second - place + 10] ^= 1
            path.write_bytes(data)
            self.assertEqual(it.check().fault, f"start 1: byte {second}: no block")

    def test_pieces_that_follow_each_other(self):
        # A file in several whole pieces is one file.
        start = ended()
        for name in NAMES:
            with Folder(start) as it:
                data, pieces = start.data(name), start.pieces[name]
                place = len(pieces[0])
                it.write(1, name, data[:place] + b"lost")
                for piece in pieces[1:]:
                    it.write(1, f"{name}-{place}", piece + b"lost" * (place + len(piece) < len(data)))
                    place += len(piece)
                told = it.check()
            self.assertEqual((told.lines, told.fault), (start.told(), ""))

    def test_a_list_and_a_script_of_parts(self):
        # They tell of nothing where the header is gone.
        start = ended()
        with Folder(start) as it:
            self.split(it, start, RECORDS, 0, 3)
            for telling in ("list", "script"):
                self.assertEqual(it.tell(telling).text, "")

    def test_the_next_start_stands_behind_what_is_there(self):
        first, second = chained(ended, ended)
        with Folder(first, second) as it:
            self.split(it, first, RECORDS, 0, 3)
            told = it.check()
        self.assertEqual((told.lines[-6:], told.fault), (second.told(), GONE))

    def test_a_start_in_part_goes_on(self):
        # It's told that parts are gone before that it goes on.
        start = begun()
        with Folder(start) as it, held(it.folder):
            self.split(it, start, RECORDS, 0, 3)
            told = it.check()
        self.assertEqual((told.lines[-1], told.fault), ("start 1 in part", GONE))


if __name__ == "__main__":
    unittest.main()
