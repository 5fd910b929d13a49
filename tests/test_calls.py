"""Calls of the program over connections whose other side is played here, and over those of a server."""
import re
import time
import unittest

from tests.calling import SECRET, Side, asking
from tests.frames import ANSWER, BAD_LENGTH, BAD_LOGIN, CALL, CREATE, DENIED, HELLO, MADE, MALFORMED, WELCOME
from tests.program import Ended, end, run, start
from tests.serving import Server
from tools.lib.servers import address

# Another secret than that of principal 7.
OTHER_SECRET = SECRET[:-1] + "e"
# What comes of a call.
MADE_FIRST = Ended(0, b"made 7.0.1\n", b"")
READ_DENIED = Ended(0, b"denied read\n", b"")
LOST = Ended(1, b"", b"s4d: connection lost\n")
SESSION_FAULTS = (b"1: malformed", b"2: bad login", b"3: frame length")
FAULT_MALFORMED, FAULT_BAD_LOGIN, FAULT_BAD_LENGTH = (Ended(1, b"", b"s4d: session fault %s\n" % fault) for fault in SESSION_FAULTS)
NOBODY = Ended(1, b"", b"s4d: cannot connect: Connection refused\n")
# Places that are no address, and why nobody is reached there.
NO_PLACES = {"nowhere": "invalid socket address", "127.0.0.1:65536": "invalid port value", "127.0.0.1:http": "invalid port value"}
# Frames that the peer says, and what comes of the call: faults in the place of the Welcome, and in that of the reply; an end in both; another
# kind or version in the place of the Welcome; lengths that no frame has; bodies that are no reply.
ANSWERS = (
    ([WELCOME, MADE], MADE_FIRST),
    ([WELCOME, DENIED], READ_DENIED),
    ([MALFORMED], FAULT_MALFORMED),
    ([BAD_LOGIN], FAULT_BAD_LOGIN),
    ([BAD_LENGTH], FAULT_BAD_LENGTH),
    ([WELCOME, MALFORMED], FAULT_MALFORMED),
    ([WELCOME, BAD_LOGIN], FAULT_BAD_LOGIN),
    ([WELCOME, BAD_LENGTH], FAULT_BAD_LENGTH),
    ([], LOST),
    ([WELCOME, bytes.fromhex("00000009 01 00000007 00 0000")], LOST),
    ([MADE, WELCOME, MADE], LOST),
    ([bytes.fromhex("00000002 10 02"), WELCOME, MADE], LOST),
    ([bytes.fromhex("00000003 10 01 00"), WELCOME, MADE], LOST),
    ([bytes.fromhex("00000002 11 00"), WELCOME, MADE], LOST),
    ([bytes.fromhex("00000002 11 04"), WELCOME, MADE], LOST),
    ([bytes.fromhex("00000003 11 01 00"), WELCOME, MADE], LOST),
    ([bytes.fromhex("00000000"), WELCOME, MADE], LOST),
    ([bytes.fromhex("00002001"), WELCOME, MADE], LOST),
    ([bytes.fromhex("ffffffff"), WELCOME, MADE], LOST),
    ([MADE, MADE], LOST),
    ([bytes.fromhex("00000002 10 02"), MADE], LOST),
    ([bytes.fromhex("00000003 10 01 00"), MADE], LOST),
    ([WELCOME, WELCOME, MADE], LOST),
    ([WELCOME, CREATE, MADE], LOST),
    ([WELCOME, bytes.fromhex("00000002 00 00"), MADE], LOST),
    ([WELCOME, bytes.fromhex("00000001 09"), MADE], LOST),
    ([WELCOME, bytes.fromhex("00000000"), MADE], LOST),
    ([WELCOME, bytes.fromhex("00002001"), MADE], LOST),
)


class Answers(unittest.TestCase):
    """What the program tells of a call, by what its peer says. It sends the call, and nothing else."""

    def check(self, pieces, wanted, **given):
        place = address()
        side = Side(place)
        process = start(asking(place, "create", "0"))
        heard = side.answer(pieces, **given)
        self.assertEqual((end(process), heard), (wanted, CALL))

    def test_a_call_is_answered_by_what_its_peer_says(self):
        for frames, wanted in ANSWERS:
            with self.subTest(b" ".join(frames).hex()):
                self.check([b"".join(frames)], wanted)

    def test_what_is_said_behind_the_reply_changes_nothing(self):
        self.check([ANSWER + b"\0"], MADE_FIRST)

    def test_narrow_peers_change_nothing(self):
        for width in (1, 2, 3, 4, 5, 7, 16, 35):
            with self.subTest(width):
                self.check([ANSWER[at : at + width] for at in range(0, len(ANSWER), width)], MADE_FIRST)

    def test_broken_peers_are_lost(self):
        for count in range(len(ANSWER)):
            for resets in (False, True):
                with self.subTest(count=count, resets=resets):
                    self.check([ANSWER[:count]], LOST, resets=resets)


class Messages(unittest.TestCase):
    """What is sent for a request by version 1. A body has 8192 bytes at most, and that of a Write 15 beside its data."""

    def write(self, place, count):
        return asking(place, "write", "7.0.1", "0", "61" * count)

    def test_a_request_that_fills_a_frame_is_sent(self):
        message = HELLO + bytes.fromhex("00002000 04 00000007 00 000001 00000000 1ff1") + b"a" * 8177
        place = address()
        side = Side(place)
        process = start(self.write(place, 8177))
        heard = side.answer([ANSWER], hears=message)
        self.assertEqual((end(process), heard), (MADE_FIRST, message))
        self.assertEqual(len(message), 30 + 4 + 8192)

    def test_a_request_that_fits_no_frame_is_a_bad_one(self):
        for count in (8178, 65535):
            with self.subTest(count):
                self.assertEqual(run(self.write("nowhere", count)), Ended(1, b"", b"s4d: bad request: it is longer than a frame takes\n"))


class Waits(unittest.TestCase):
    """Calls at places where nobody listens yet."""

    def test_a_call_waits_for_who_listens_later(self):
        place = address()
        process = start(asking(place, "create", "0", flags=["--wait", "30000"]))
        time.sleep(0.3)
        heard = Side(place).answer([ANSWER])
        self.assertEqual((end(process), heard), (MADE_FIRST, CALL))

    def test_a_call_gives_up_where_nobody_listens(self):
        for place, why in ((address(), "Connection refused"), *NO_PLACES.items()):
            begin = time.monotonic()
            ran = run(asking(place, "create", "0", flags=["--wait", "60"]))
            self.assertEqual(ran, Ended(1, b"", f"s4d: cannot connect: {why}\n".encode()))
            self.assertGreaterEqual(time.monotonic() - begin, 0.06)

    def test_a_call_tries_once(self):
        self.assertEqual(run(asking(address(), "create", "0")), NOBODY)

    def test_a_host_that_nobody_knows_is_told(self):
        # What the system's resolver says of it depends on whether there is one.
        ran = run(asking("nobody.invalid:4710", "create", "0"))
        self.assertEqual((ran.status, ran.out), (1, b""))
        self.assertRegex(ran.err.decode(), r"^s4d: cannot connect: failed to lookup address information: .+\n$")


class Served(unittest.TestCase):
    """Calls of a server."""

    def test_a_server_is_called(self):
        with Server(cells=1, connections=3, open=16) as server:
            said = [run(asking(server.address, *asked.split(" "))) for asked in ("create 0", "write 7.0.1 0 68656c6c6f", "read 7.0.1 0 100")]
            self.assertEqual(said[:2], [MADE_FIRST, Ended(0, b"done\n", b"")])
            moment = re.fullmatch(rb"data 68656c6c6f by 0 since ([0-9]+)\n", said[2].out)
            self.assertTrue(moment and int(moment[1]) in server.moments(), said[2])
            server.check_end(self, (3, 3))

    def test_a_wrong_secret_is_a_fault_of_the_session(self):
        with Server(cells=1, open=16) as server:
            ran = run(asking(server.address, "create", "0", secret=OTHER_SECRET))
            self.assertEqual(ran, FAULT_BAD_LOGIN)
            server.check_end(self, (0, 0))
