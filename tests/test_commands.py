"""What the commands read and write, and the lines of their faults."""
import os
import subprocess
import sys
import tempfile
import unittest
from pathlib import Path

from tests.calling import Side, asking
from tests.causes import VERB, cause
from tests.frames import ANSWER
from tests.program import SECONDS, Ended, command, run
from tools.lib.servers import address

# The first script, and what is written for it.
SCRIPT = b"window 100\n5 7 create 0\n10 7 write 7.0.1 0 68656c6c6f\n11 7 read 7.0.1 0 100\n"
REPLIES = b"made 7.0.1\ndone\ndata 68656c6c6f by 0 since 5\n"
# Logins, arrivals at a hall that lets them in, and what is sent.
LOGINS = b"7 000102030405060708090a0b0c0d0e0f\n"
ARRIVALS = b"window 100\n5 1 0000001a00010000000700000001000102030405060708090a0b0c0d0e0f\n"
SENT = b"1 000000021001\n"
CREATE = b"1 7 create 0\n"
# Words, what is read (where it's a path, that), and what comes of them. A list of arrivals is no script.
ROWS = (
    (["--version"], b"", Ended(0, b"s4d 0.1.0\n", b"")),
    (["run"], SCRIPT, Ended(0, REPLIES, b"")),
    (["run"], ARRIVALS, "line 2: bad line"),
    (["hall", "logins"], ARRIVALS, Ended(0, SENT, b"")),
    (["hall", "none"], ARRIVALS, "cannot read logins"),
    (["strike", "9"], SCRIPT, Ended(0, b"window 100\n", b"")),
    (["strike", "7"], SCRIPT, Ended(0, SCRIPT, b"")),
    (["strike", "7"], ARRIVALS, "line 2: bad line"),
    (asking("nowhere", "create", "0"), b"", "cannot connect: invalid socket address"),
    (["strike", "7"], b"window 100\n" + CREATE * 10 + b"\n", "line 12: bad line"),
    (["strike", "7"], b"window 100\n2 7 create 0\n" + CREATE, "line 3: moment goes back"),
    (["hall", "bad"], b"", "logins line 3"),
    (["run"], Path("/"), "cannot read"),
    (asking("nowhere", "wirte", "7.0.1", "0", "61"), b"", f"bad request: {cause(1, 'wirte', VERB)}"),
    (asking("nowhere", "write", "7.0.1", "0", "61" * 8178), b"", "bad request: it is longer than a frame takes"),
)
# Starts a program whose files may have so many bytes; what it writes behind that fails.
BOUNDED = "import os, resource, sys; size = int(sys.argv[1]); resource.setrlimit(resource.RLIMIT_FSIZE, (size, size)); os.execv(sys.argv[2], sys.argv[2:])"
CANNOT_WRITE = b"s4d: cannot write: File too large\n"


def ran(words, given, folder):
    """What comes of the words, where this is read."""
    if isinstance(given, bytes):
        return run(words, given, folder)
    opened = os.open(given, os.O_RDONLY)
    try:
        done = subprocess.run(command(words), stdin=opened, capture_output=True, timeout=SECONDS)
    finally:
        os.close(opened)
    return Ended(done.returncode, done.stdout, done.stderr)


class Commands(unittest.TestCase):
    """Commands in a folder with good logins, and bad ones. A fault is one line on standard error with status 1, and nothing is written before."""

    def test_each_command_reads_and_writes_what_is_wanted(self):
        with tempfile.TemporaryDirectory() as room:
            (Path(room) / "logins").write_bytes(LOGINS)
            (Path(room) / "bad").write_bytes(LOGINS + LOGINS.replace(b"7", b"8", 1) + b"9 0\n")
            for words, given, wanted in ROWS:
                with self.subTest(words=[it[:40] for it in words], given=given):
                    if isinstance(wanted, str):
                        wanted = Ended(1, b"", f"s4d: {wanted}\n".encode())
                    self.assertEqual(ran(words, given, room), wanted)


class NoRoom(unittest.TestCase):
    """Commands for whose output there are four bytes: a text that is asked for, and the text of a reply."""

    def bounded(self, words, folder):
        """The command, started where its output may have four bytes."""
        with open(Path(folder) / "output", "wb") as output:
            words = [sys.executable, "-c", BOUNDED, "4", *command(words)]
            return subprocess.Popen(words, stdin=subprocess.DEVNULL, stdout=output, stderr=subprocess.PIPE, restore_signals=False)

    def check(self, process, folder, output):
        _, errors = process.communicate(timeout=SECONDS)
        self.assertEqual((process.returncode, errors), (1, CANNOT_WRITE))
        self.assertEqual((Path(folder) / "output").read_bytes(), output)

    def test_a_text_that_has_no_room_cannot_be_written(self):
        with tempfile.TemporaryDirectory() as room:
            self.check(self.bounded(["--version"], room), room, b"s4d ")

    def test_a_reply_that_has_no_room_cannot_be_written(self):
        with tempfile.TemporaryDirectory() as room:
            place = address()
            side = Side(place)
            process = self.bounded(asking(place, "create", "0"), room)
            side.answer([ANSWER])
            self.check(process, room, b"made")
