"""Scripts of journals, as `s4d history script` tells them: of two cells, of which a crash left a record of all cells in one alone, and of callers of
both versions of the wire."""
import unittest
from struct import pack

from tests.journals import DONE, Kept, create, creation, journal, made, object_of, record, setting, write
from tests.program import Ended, run

# Two cells. A SetWindow stands in cell 1 alone, and cell 0 ends before it.
TWO_CELLS = ((1, creation(6, 1, number=1)), (0, creation(5, 2)), (1, creation(8, 3, number=2)), (1, setting(9)))
SCRIPT = """\
window 10
5 2 create 0
6 1 create 1
8 3 create 2
9 0 setwindow 4
"""
# The most bytes that a caller of version 2 writes and reads at once.
MOST = b"a" * 65536
# A Read of so many of the first object of principal 2, and its reply by version 2.
READ = b"\x03" + object_of(2) + pack(">IIB", 0, len(MOST), 0)
DATA = b"\x02\x01\x00" + pack(">QI", 5, len(MOST)) + MOST
# What a server asks by itself where nobody else does: a PList of principal 2 at the last moment, which is in the future.
ASKED = record(7, 0, b"\x0e" + pack(">IBBQ", 2, 0, 1, 2**64 - 1), b"\x08\x04")
# Callers who speak version 2, but for what is asked where nobody else does.
SECOND = [(0, it) for it in (creation(5, 2, version=2), record(6, 2, write(MOST, 2), DONE, version=2), ASKED, record(8, 2, READ, DATA, version=2))]
# One byte more than a caller of version 1 writes at once.
MORE = b"a" * 4097
# Callers of both versions: principal 2 speaks now one, now the other, and principal 3 version 1.
BOTH = [
    (0, it)
    for it in (
        creation(5, 2, version=2),
        record(6, 2, write(b"a"), DONE),
        creation(6, 3),
        record(7, 2, write(MORE), b"\x08\x07"),
        record(8, 2, write(MORE, 2), DONE, version=2),
        record(9, 2, b"\x03" + object_of(2) + pack(">IIB", 0, 5000, 0), b"\x02\x01\x00" + pack(">QH", 5, 4096) + MORE[1:]),
        record(9, 3, b"\x02" + object_of(2), b"\x08\x01\x04"),
    )
]
SCRIPT_OF_BOTH = f"""\
window 10 wire 2
5 2 create 0
6 2/1 write 2.0.1 0 61
6 3/1 create 0
7 2/1 write 2.0.1 0 {MORE.hex()}
8 2 write 2.0.1 0 {MORE.hex()}
9 2/1 read 2.0.1 0 5000
9 3/1 delete 2.0.1
"""
REPLIES_TO_BOTH = f"""\
made 2.0.1
done
made 3.0.1
too-long
done
data {MORE[1:].hex()} by 0 since 5
denied delete
"""


def told(cells, batches, *words):
    """What is told of such a journal."""
    with Kept(journal(cells, *batches)[0]) as kept:
        return kept.tell(*words)


class Scripts(unittest.TestCase):
    def test_cells_are_merged(self):
        self.assertEqual(told(2, TWO_CELLS, "script").text, SCRIPT)

    def test_records_of_other_cells_are_refused(self):
        # Among three cells the records stand in others than their own.
        self.assertEqual(told(3, TWO_CELLS, "script").fault, "start 2: cell 0: a record of another cell")

    def test_callers_of_version_2_have_a_script(self):
        # It begins so. A caller who speaks version 1 says so, whatever they ask.
        script = told(1, SECOND, "script").text
        self.assertTrue(script.startswith("window 10 wire 2\n5 2 create 0\n6 2 write 2.0.1 0 6161"))
        self.assertTrue(script.endswith("61\n7 0/1 plist 2 at 18446744073709551615\n8 2 read 2.0.1 0 65536\n"))

    def test_they_are_listed_and_checked(self):
        self.assertTrue(told(1, SECOND, "list").text.startswith("0 0 0 5 2 0 create 0 -> made 2.0.1\n1 0 1 6 2 0 write "))
        checked = told(1, SECOND, "check")
        self.assertEqual(checked.fault, "")
        self.assertIn("start 2 cell 0 records 4", checked.lines)
        self.assertEqual(checked.lines[-1], "start 2 without an end")

    def test_callers_of_both_versions_have_a_script(self):
        self.assertEqual(told(1, BOTH, "script").text, SCRIPT_OF_BOTH)

    def test_what_it_is_answered_is_what_was_replied(self):
        replied = [line.partition(" -> ")[2] for line in told(1, BOTH, "list").lines]
        self.assertEqual("".join(f"{it}\n" for it in replied), REPLIES_TO_BOTH)
        self.assertEqual(run(["run"], SCRIPT_OF_BOTH.encode()), Ended(0, REPLIES_TO_BOTH.encode(), b""))
        self.assertEqual(told(1, BOTH, "check").lines[-1], "start 2 without an end")

    def test_its_lines_are_struck_as_they_stand(self):
        # Principal 3 made an object of its own, which can't matter to 2; that they tried to delete one of 2's can.
        struck, replies = SCRIPT_OF_BOTH.replace("6 3/1 create 0\n", ""), REPLIES_TO_BOTH.replace("made 3.0.1\n", "")
        self.assertEqual(run(["strike", "2"], SCRIPT_OF_BOTH.encode()), Ended(0, struck.encode(), b""))
        self.assertEqual(run(["run"], struck.encode()), Ended(0, replies.encode(), b""))

    def test_a_span_of_one_version_says_it_once(self):
        # Only the records of the span count.
        self.assertEqual(told(1, BOTH, "script", "--from", 6, "--to", 6).text, "window 10\n6 2 write 2.0.1 0 61\n6 3 create 0\n")
        self.assertEqual(told(1, BOTH, "script", "--from", 5, "--to", 5).text, "window 10 wire 2\n5 2 create 0\n")


class Replays(unittest.TestCase):
    """Principal 7 made two objects, and was replied that they have these serials."""

    def check(self, serial):
        return told(1, [(0, creation(5, 7)), (0, record(6, 7, create(), made(7, serial=serial)))], "check")

    def test_what_a_drive_answers_is_replayed(self):
        checked = self.check(2)
        self.assertEqual((checked.fault, checked.lines[-3:]), ("", ["start 2 cell 0 records 2", "start 2 cell 0 uncalled 2", "start 2 without an end"]))

    def test_another_reply_is_found(self):
        self.assertEqual(self.check(3).fault, "start 2: cell 0 record 1: another reply")


if __name__ == "__main__":
    unittest.main()
