"""One object, as callers of either version of the wire write and read it. Callers of both speak to one drive, each on a connection of its own."""
import tempfile
import unittest
from pathlib import Path

from tests.program import Ended, run

SECRET = "000102030405060708090a0b0c0d0e0f"
# The object 7.0.1.
OBJECT = bytes.fromhex("00000007 00 00 0001")

# Replies: it was made, all is done, and what there would be is too long.
MADE, DONE, TOO_LONG = bytes.fromhex("01 00000007 00 00 0001"), b"\0", b"\x08\x07"
# What stands before the data of a reply: its kind, and a grant by entry 0 since moment 1.
GRANTED = bytes.fromhex("02 01 00 0000000000000001")


def u32(number):
    return number.to_bytes(4, "big")


def data(version, text):
    """Data behind their length, as a version spells it."""
    return len(text).to_bytes(2 if version == 1 else 4, "big") + text


def frame(body):
    return u32(len(body)) + body


# Bodies of requests, by the version that spells them.


def create(version):
    return b"\x01\x00"


def write(offset, text):
    return lambda version: b"\x04" + OBJECT + u32(offset) + data(version, text)


def append(text):
    return lambda version: b"\x05" + OBJECT + data(version, text)


def truncate(length):
    return lambda version: b"\x06" + OBJECT + u32(length)


def read(offset, length):
    return lambda version: b"\x03" + OBJECT + u32(offset) + u32(length) + b"\0"


# By which version principal 7 asks, what it asks, and what it is told: a reply, or so many bytes, the last of which is this one.
ROWS = [
    (2, create, MADE),
    (1, write(4096, b"a"), TOO_LONG),
    (2, write(4096, b"a"), DONE),
    (2, write(65535, b"b"), DONE),
    (2, write(65536, b"b"), TOO_LONG),
    (2, read(65534, 10), (2, b"b")),
    (2, append(b"c"), TOO_LONG),
    (2, truncate(65537), TOO_LONG),
    (2, truncate(65536), DONE),
    (1, read(0, 8000), (4096, b"\0")),
    (1, read(1, 8000), (4096, b"a")),
    (2, read(0, 8000), (8000, b"\0")),
    (1, append(b"c"), TOO_LONG),
    (1, write(4095, b"d"), DONE),
    (2, read(4095, 2), (2, b"a")),
    (2, read(0, 70000), (65536, b"b")),
    (1, truncate(4097), TOO_LONG),
    (1, truncate(4096), DONE),
    (2, read(0, 70000), (4096, b"d")),
]


def bodies(sent):
    """The bodies of the frames that a connection was sent."""
    while sent:
        length = int.from_bytes(sent[:4], "big")
        yield sent[4 : 4 + length]
        sent = sent[4 + length :]

# First lines, the word by which principal 7 speaks the other version behind each, and words that make a line a bad one.
WORDS = (
    ("window 100", "7/2", ("7/1", "7/3", "7/0", "7/", "/2", "/", "07/2", "7/02", "7/2/2", "7//2", "7/+2", "7/two", "7.2", "everyone/2", "4294967295/2")),
    ("window 100 wire 2", "7/1", ("7/2", "7/3", "7/0", "7/", "/1", "/", "07/1", "7/01", "7/1/1", "7//1", "7/+1", "7/one", "7.1", "everyone/1", "4294967295/1")),
)


class Versions(unittest.TestCase):
    def sent(self, lines):
        """The bodies that each connection is sent on which these arrivals come, all at moment 1."""
        with tempfile.TemporaryDirectory() as folder:
            Path(folder, "logins").write_text(f"7 {SECRET}\n", encoding="utf-8")
            text = "".join(f"1 {conn} {piece.hex()}\n" for conn, piece in lines)
            ran = run(["hall", "logins"], f"window 100\n{text}".encode(), folder)
        self.assertEqual((ran.status, ran.err), (0, b""))
        words = [line.split(" ") for line in ran.out.decode().splitlines()]
        return {int(conn): bodies(bytes.fromhex(sent)) for conn, sent in words}

    def test_limits_are_those_of_the_callers_version(self):
        hellos = [(it, bytes.fromhex(f"0000001a 00 0{it} 00000007 00000003 {SECRET}")) for it in (1, 2)]
        sent = self.sent(hellos + [(version, frame(asked(version))) for version, asked, _ in ROWS])
        for version in (1, 2):
            self.assertEqual(next(sent[version]), bytes((16, version)))
        for index, (version, _, wanted) in enumerate(ROWS):
            told = next(sent[version])
            if isinstance(wanted, tuple):
                count, last = wanted
                spelled = told.removeprefix(GRANTED)
                told, wanted = (spelled, spelled[-1:]), (data(version, spelled[-count:]), last)
            self.assertEqual(told, wanted, f"row {index}")
        self.assertEqual([list(sent[version]) for version in (1, 2)], [[], []])

    def test_a_line_says_the_other_version_in_one_way(self):
        for first, other, bad in WORDS:
            good = f"{first}\n1 {other} create 0\n".encode()
            self.assertEqual(run(["run"], good), Ended(0, b"made 7.0.1\n", b""))
            self.assertEqual(run(["strike", "7"], good), Ended(0, good, b""))
            for word in bad:
                script = f"{first}\n1 7 create 0\n2 {word} create 0\n".encode()
                fault = b"s4d: line 3: bad line\n"
                with self.subTest(first=first, word=word):
                    self.assertEqual(run(["run"], script), Ended(1, b"made 7.0.1\n", fault))
                    self.assertEqual(run(["strike", "7"], script), Ended(1, b"", fault))

    def test_arrivals_say_none(self):
        with tempfile.TemporaryDirectory() as folder:
            Path(folder, "logins").write_text(f"7 {SECRET}\n", encoding="utf-8")
            for line in ("5 7/2 00", "5 1/2 00", "5/2 1 00", "5 7/2 create 0"):
                ran = run(["hall", "logins"], f"window 100\n{line}\n".encode(), folder)
                self.assertEqual(ran, Ended(1, b"", b"s4d: line 2: bad line\n"), line)


if __name__ == "__main__":
    unittest.main()
