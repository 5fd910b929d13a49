"""Connections that threads share, that are cut at any byte, and in whose middle something is raised."""
import queue
import threading
import unittest
from concurrent.futures import ThreadPoolExecutor
from unittest import mock

from .peer import BAD_LOGIN, DENIED_READ, DONE, MALFORMED, SECRET, WELCOME, Peer, data, echo, serving
from visorgal import BadLogin, Closed, Denied, Drive, Lost, Malformed, ObjectId, Rights, Unreadable
from visorgal.requests import Read, Write

MADE = ObjectId(7, 0, 1)


def drive_of(peer, **more):
    return Drive(peer.address, 7, 1, SECRET, **{"timeout": 60.0, **more})


class Sharing(unittest.TestCase):
    """Threads that share a connection."""

    def test_each_thread_has_the_reply_to_its_own_request(self):
        with Peer(serving(echo)) as peer, drive_of(peer) as drive, ThreadPoolExecutor(8) as pool:
            offsets = range(600)
            told = list(pool.map(lambda offset: drive.read(MADE, offset).data, offsets))
        self.assertEqual(told, [it.to_bytes(4, "big") for it in offsets])

    def test_one_is_closed_while_another_waits(self):
        asked, lost = threading.Event(), threading.Event()
        with Peer(serving(lambda *_: asked.set() or lost.wait(60) and DONE)) as peer, drive_of(peer) as drive:
            threading.Thread(target=lambda: asked.wait(60) and drive.close()).start()
            with self.assertRaisesRegex(Lost, "it was closed"):
                drive.append(MADE, b"x")
            lost.set()

    def test_one_is_closed_while_another_waits_for_many(self):
        for _ in range(20):
            asked = threading.Event()
            with Peer(serving(lambda *_, asked=asked: asked.set() or DONE)) as peer, drive_of(peer) as drive:
                threading.Thread(target=lambda: asked.wait(60) and drive.close()).start()
                with self.assertRaises((Lost, Closed)):
                    for _ in range(10000):
                        drive.ask_all([Write(MADE, 0, b"x")] * 100)


class Cutting(unittest.TestCase):
    """What comes is cut, and isn't what was asked for."""

    def test_an_end_at_any_byte_is_told_and_closes(self):
        whole = data(b"hello")
        for place in range(len(whole)):
            with self.subTest(place=place), Peer(self.cut(whole[:place])) as peer, drive_of(peer) as drive:
                with self.assertRaises(Lost):
                    drive.read(MADE)
                self.assertFalse(drive.is_open)
                with self.assertRaisesRegex(Closed, "the drive closed the connection"):
                    drive.read(MADE)

    def test_an_end_at_any_byte_of_a_welcome_is_told(self):
        for place in range(len(WELCOME[2])):
            with self.subTest(place=place), Peer(lambda talk, _, place=place: talk.frame() and talk.say(WELCOME[2][:place])) as peer:
                with self.assertRaises(Lost):
                    drive_of(peer)

    @staticmethod
    def cut(said):
        def play(talk, _):
            talk.greet()
            talk.frame()
            talk.say(said)

        return play

    def test_what_is_no_reply_closes(self):
        rows = (
            ("another kind", DONE, Unreadable),
            ("no kind", bytes.fromhex("00000001 20"), Unreadable),
            ("a byte too many", bytes.fromhex("00000002 00 00"), Unreadable),
            ("a frame of no length", bytes(4), Unreadable),
            ("a frame that is too long", bytes.fromhex("00020001"), Unreadable),
            ("a second Welcome", WELCOME[2], Unreadable),
            ("a fault", MALFORMED, Malformed),
            ("two replies", data(b"a") + data(b"b"), Unreadable),
        )
        for name, said, raised in rows:
            with self.subTest(name), Peer(serving(lambda *_, said=said: said)) as peer, drive_of(peer) as drive:
                with self.assertRaises(raised):
                    drive.read(MADE)
                self.assertFalse(drive.is_open)

    def test_a_login_that_is_bad_is_told(self):
        with Peer(lambda talk, _: talk.frame() and talk.say(BAD_LOGIN)) as peer, self.assertRaises(BadLogin):
            drive_of(peer)

    def test_a_welcome_of_another_version_is_none(self):
        with Peer(lambda talk, _: talk.frame() and talk.say(WELCOME[1])) as peer, self.assertRaises(Unreadable):
            drive_of(peer)


class Failing:
    """A socket of which the call of that number, from 0 on, raises a MemoryError."""

    def __init__(self, there, number):
        self.there, self.left = there, number

    def __getattr__(self, name):
        call = getattr(self.there, name)
        if name not in ("send", "sendall", "recv"):
            return call
        self.left -= 1
        if self.left < 0:
            raise MemoryError
        return call


class Raising(unittest.TestCase):
    """Something is raised in the middle of an exchange."""

    def test_what_is_raised_at_any_step_closes_and_no_reply_is_another_s(self):
        asked = [Read(MADE, offset, 4) for offset in range(40)]
        raised = 0
        with Peer(serving(echo)) as peer, drive_of(peer) as drive:
            for number in range(30):
                for some in (asked[:1], asked):
                    drive._socket = Failing(drive._socket, number)
                    try:
                        drive.ask_all(some)
                        drive._socket = drive._socket.there
                    except MemoryError:
                        raised += 1
                        self.assertFalse(drive.is_open)
                        drive.reconnect()
                    self.assertEqual(drive.read(MADE, 77).data, b"\0\0\0\x4d")
        # (each is sent at once, and comes at once at least)
        self.assertGreaterEqual(raised, 4)

    def test_a_reply_that_does_not_come_in_time_is_lost(self):
        with Peer(serving(lambda *_: b"\0\0")) as peer, drive_of(peer) as drive:
            drive.timeout = 0.2
            drive._socket.settimeout(0.2)
            with self.assertRaisesRegex(Lost, "0.2 seconds"):
                drive.read(MADE)
            with self.assertRaisesRegex(Closed, "0.2 seconds"):
                drive.read(MADE)

    def test_an_interrupt_closes_and_a_late_reply_is_nobody_s(self):
        """The first connection replies late: the reply to what was asked behind the interrupt isn't that one."""
        with Peer(serving(echo)) as peer, drive_of(peer) as drive:
            # (of this connection alone: other tests run beside this one)
            with mock.patch.object(drive._incoming, "add", side_effect=KeyboardInterrupt), self.assertRaises(KeyboardInterrupt):
                drive.read(MADE, 1)
            with self.assertRaisesRegex(Closed, "KeyboardInterrupt was raised in the middle"):
                drive.read(MADE, 2)
            drive.reconnect()
            self.assertEqual(drive.read(MADE, 3).data, b"\0\0\0\3")
            self.assertEqual(peer.count, 2)

    def test_a_refusal_leaves_the_connection_open(self):
        with Peer(serving(lambda *_: DENIED_READ)) as peer, drive_of(peer) as drive:
            for _ in range(2):
                with self.assertRaises(Denied) as raised:
                    drive.read(MADE)
                self.assertEqual(raised.exception.lacking, Rights.READ)
            self.assertTrue(drive.is_open)

    def test_what_is_out_of_its_range_is_not_sent(self):
        with Peer(serving(echo)) as peer, drive_of(peer) as drive:
            for ask in (lambda: drive.create(16), lambda: drive.read(MADE, -1), lambda: drive.write(MADE, bytes(131072)), lambda: drive.bind("A", MADE)):
                with self.assertRaises(ValueError):
                    ask()
            self.assertEqual(drive.read(MADE, 5).data, b"\0\0\0\5")


class Reconnecting(unittest.TestCase):
    """Connections that the drive closes."""

    def test_one_that_was_closed_while_it_was_idle_is_opened_anew(self):
        asked = []

        def answer(body, number):
            asked.append((number, body[9:13]))
            return data(body[9:13])

        def play(talk, number):
            talk.greet()
            while (body := talk.frame()) is not None:
                talk.say(answer(body, number))
                if number == 0:
                    return

        with Peer(play) as peer, drive_of(peer) as drive:
            drive.read(MADE, 1)
            peer.ended.wait(60)
            self.assertEqual(drive.read(MADE, 2).data, b"\0\0\0\2")
        self.assertEqual(asked, [(0, b"\0\0\0\1"), (1, b"\0\0\0\2")])

    def test_one_that_ends_behind_a_request_is_not(self):
        with Peer(serving(lambda *_: None)) as peer, drive_of(peer) as drive:
            with self.assertRaises(Lost):
                drive.append(MADE, b"x")
            self.assertEqual(peer.count, 1)


class Pipelines(unittest.TestCase):
    """Requests that are sent together."""

    def test_answers_come_in_their_order(self):
        with Peer(serving(echo)) as peer, drive_of(peer) as drive:
            with drive.pipeline() as pipeline:
                answers = [pipeline.ask(Read(MADE, offset, 4)) for offset in range(500)]
                self.assertFalse(answers[0].is_there)
            self.assertEqual([it.value().data for it in answers], [it.to_bytes(4, "big") for it in range(500)])

    def test_both_sides_may_have_much_to_say(self):
        """The peer takes no more once a reply waits, as the drive does."""
        with Peer(serving(lambda *_: data(bytes(65536)))) as peer, drive_of(peer) as drive:
            with drive.pipeline() as pipeline:
                for _ in range(200):
                    pipeline.ask(Write(MADE, 0, bytes(65536)))
                    answer = pipeline.ask(Read(MADE, 0, 65536))
                with self.assertRaises(Unreadable):
                    # (a Write isn't given data)
                    pipeline.send()
            self.assertFalse(answer.is_there)
        with Peer(serving(lambda body, _: data(bytes(65536)) if body[0] == 3 else DONE)) as peer, drive_of(peer) as drive, drive.pipeline() as pipeline:
            for _ in range(200):
                pipeline.ask(Write(MADE, 0, bytes(65536)))
                answer = pipeline.ask(Read(MADE, 0, 65536))
        self.assertEqual(len(answer.value().data), 65536)

    def test_those_that_came_before_an_end_are_there(self):
        with Peer(serving(lambda body, _: data(body[9:13]) if body[12] < 3 else None)) as peer, drive_of(peer) as drive:
            pipeline = drive.pipeline()
            answers = [pipeline.ask(Read(MADE, offset, 4)) for offset in range(6)]
            with self.assertRaises(Lost):
                pipeline.send()
            self.assertEqual([it.is_there for it in answers], [True] * 3 + [False] * 3)
            with self.assertRaises(LookupError):
                answers[3].value()

    def test_nothing_is_sent_where_something_is_raised(self):
        asked = []
        with Peer(serving(lambda body, _: asked.append(body) or DONE)) as peer, drive_of(peer) as drive:
            with self.assertRaises(ZeroDivisionError), drive.pipeline() as pipeline:
                pipeline.ask(Write(MADE, 0, b"x"))
                raise ZeroDivisionError
            drive.append(MADE, b"y")
        self.assertEqual([it[0] for it in asked], [5])

    def test_refusals_are_raised_where_they_are_asked_for(self):
        with Peer(serving(lambda *_: DENIED_READ)) as peer, drive_of(peer) as drive:
            with drive.pipeline() as pipeline:
                answer = pipeline.ask(Read(MADE, 0, 1))
            with self.assertRaises(Denied):
                answer.value()


class Given(unittest.TestCase):
    """What a drive is given."""

    def test_secrets_are_not_shown(self):
        for secret in (b"short", "zz" * 16, "00" * 15, SECRET + b"\0"):
            with self.assertRaises(ValueError) as raised:
                Drive("127.0.0.1:1", 7, 1, secret)
            self.assertNotIn(str(secret), str(raised.exception))
        with Peer(serving(echo)) as peer, drive_of(peer) as drive:
            self.assertNotIn(SECRET.hex(), repr(drive))
            self.assertNotIn(repr(SECRET), repr(drive))

    def test_a_secret_may_be_digits(self):
        hellos = queue.Queue()
        with Peer(lambda talk, _: hellos.put(talk.greet())) as peer:
            for secret in (SECRET, SECRET.hex()):
                Drive(peer.address, 7, 1, secret).close()
                # (the peer welcomes first, and tells then what it was told)
                self.assertEqual(hellos.get(timeout=60), b"\0\2\0\0\0\7\0\0\0\1" + SECRET)

    def test_addresses_and_versions_that_are_none(self):
        for address in ("127.0.0.1", ":4710", "127.0.0.1:", "127.0.0.1:x", "127.0.0.1:65536", "127.0.0.1:0"):
            with self.assertRaises(ValueError):
                Drive(address, 7, 1, SECRET)
        with self.assertRaises(ValueError):
            Drive("127.0.0.1:1", 7, 1, SECRET, version=3)
