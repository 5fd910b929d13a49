"""Halls: what they send for a piece and for a list of them at once, and what they hold; and their logins."""
import tempfile
import unittest
from pathlib import Path

from tests import ways
from tests.program import run

LOGINS = "7 000102030405060708090a0b0c0d0e0f\n"
BOTH_LOGINS = f"{LOGINS}9 000102030405060708090a0b0c0d0e10\n"
# The Hello of 7 and that of 9, and what 7 asks: an object, to write `hello` to it, to read it. And a list of the names of 7.
HELLO = "0000001a00010000000700000001000102030405060708090a0b0c0d0e0f"
HELLO_OF_9 = "0000001a00010000000900000001000102030405060708090a0b0c0d0e10"
CREATE, LIST = "000000020100", "000000070e000000070000"
WRITE = "0000001404000000070000000100000000000568656c6c6f"
READ = "00000012030000000700000001000000000000000500"
# What is answered: 7.0.1 or 9.0.1 is made, `hello` is read of the object that was made at 6, 9 may not read it, and there are no names.
WELCOME, DONE = "000000021001", "0000000100"
MADE, MADE_BY_9 = "00000009010000000700000001", "00000009010000000900000001"
DATA, DENIED, NO_NAMES = "00000012020100000000000000000600" + "0568656c6c6f", "00000003080101", "00000003060000"

# A piece that comes on a connection at a moment, and what is sent there: principal 7 makes an object, writes to it and reads it.
ALONE = [(1, 5, HELLO, WELCOME), (1, 6, CREATE, MADE), (1, 7, WRITE, DONE), (1, 8, READ, DATA)]
# The same, where a stranger comes on another connection.
STRANGER_BETWEEN = [
    (1, 5, HELLO, WELCOME),
    (2, 5, HELLO_OF_9, WELCOME),
    (1, 6, CREATE, MADE),
    (2, 6, CREATE, MADE_BY_9),
    (1, 7, WRITE, DONE),
    (2, 7, READ, DENIED),
    (2, 7, LIST, NO_NAMES),
    (1, 8, READ, DATA),
]
# A connection is opened, and the two that were open go on.
AFTER = [(3, 8, HELLO, WELCOME), (3, 9, READ, DATA), (1, 9, READ, DATA), (2, 10, READ, DENIED), (1, 11, WRITE, DONE)]
# An object is made and written. It is read as the data before the write are expired, since the newest record is above a window of 10.
WRITTEN, EXPIRED = ALONE[:3], [(1, 17, READ, DATA)]
# Texts of logins, and the line of each that is told.
FAULTY_LOGINS = {
    "7 000102030405060708090a0b0c0d0e0f\n\n": 2,
    "07 000102030405060708090a0b0c0d0e0f": 1,
    "4294967295 000102030405060708090a0b0c0d0e0f": 1,
    "7 000102030405060708090a0b0c0d0e\n": 1,
    "7 000102030405060708090a0b0c0d0e0f\n7 ffffffffffffffffffffffffffffffff\nx": 2,
}


def pieces(rows):
    return [f"{moment} {conn} {piece}" for conn, moment, piece, _ in rows]


def sent_one_by_one(rows):
    return [f"{conn} {sent}" for conn, _, _, sent in rows]


def sent_at_once(rows):
    """A line for each connection, with all that is sent on it."""
    return [f"{it} {''.join(sent for conn, _, _, sent in rows if conn == it)}" for it in sorted({row[0] for row in rows})]


class Halls(unittest.TestCase):
    def told(self, window, lines, count=0, logins=BOTH_LOGINS):
        """What a hall tells that is given so many lines at once, and then the others one by one."""
        with tempfile.NamedTemporaryFile("w") as file:
            file.write(logins)
            file.flush()
            text = "".join(f"{line}\n" for line in (f"window {window}", *lines))
            return ways.sent(file.name, text.encode(), count).decode().splitlines()

    def test_arrivals_are_answered_as_they_come(self):
        told = self.told(100, pieces(ALONE), logins=LOGINS)
        self.assertEqual([line for line in told if not line.startswith("used ")], sent_one_by_one(ALONE))

    def test_what_is_expired_is_swept(self):
        # Its object has three current values, and the data before the write.
        told = self.told(10, [*pieces(WRITTEN), "sweep 9", *pieces(EXPIRED), "sweep 9"], logins=LOGINS)
        sent, rest = sent_one_by_one(WRITTEN), told[1 + 2 * len(WRITTEN) :]
        self.assertEqual(told[1 : 1 + 2 * len(WRITTEN) : 2], sent)
        self.assertEqual(rest, ["freed 0", "used 4", f"1 {DATA}", "used 4", "freed 1", "used 3"])

    def test_a_hall_is_given_all_at_once(self):
        self.assertEqual(self.told(100, pieces(ALONE), 4), [*sent_at_once(ALONE), "used 4"])

    def test_a_hall_goes_on_after_a_run(self):
        # The first connection is sent the same where a stranger's requests stand between its own. An object has three values, and there are the data
        # before a write.
        told = self.told(100, pieces(STRANGER_BETWEEN + AFTER), len(STRANGER_BETWEEN))
        self.assertEqual(told[:3], [*sent_at_once(STRANGER_BETWEEN), "used 7"])
        self.assertEqual(sent_at_once(STRANGER_BETWEEN)[0], sent_at_once(ALONE)[0])
        self.assertEqual(told[3::2], sent_one_by_one(AFTER))
        self.assertEqual(told[-1], "used 8")


class Logins(unittest.TestCase):
    """What `s4d hall` tells of the file that it is to take its logins of."""

    def told(self, logins, name="logins"):
        with tempfile.TemporaryDirectory() as folder:
            Path(folder, "logins").write_bytes(logins)
            text = "".join(f"{line}\n" for line in ("window 100", *pieces(ALONE)))
            ran = run(["hall", name], text.encode(), folder)
            return ran.out.decode(), ran.err.decode(), ran.status

    def test_logins_of_a_file(self):
        self.assertEqual(self.told(LOGINS.encode()), (f"{sent_at_once(ALONE)[0]}\n", "", 0))

    def test_logins_that_cannot_be_read(self):
        # No UTF-8, in a line that would be bad in any case; a file that isn't there; and a folder, which can be opened, and not read.
        wanted = ("", "s4d: cannot read logins\n", 1)
        self.assertEqual(self.told(b"\xff"), wanted)
        for name in ("there-is-no-such-file/first.logins", "."):
            self.assertEqual(self.told(b"", name), wanted, name)

    def test_the_first_faulty_line_is_told(self):
        for logins, line in FAULTY_LOGINS.items():
            self.assertEqual(self.told(logins.encode()), ("", f"s4d: logins line {line}\n", 1), logins)


if __name__ == "__main__":
    unittest.main()
