"""What peers of a served drive are sent, and what the server tells at its end."""
import contextlib
import socket
import unittest

from tests.frames import BAD_LENGTH, BAD_LOGIN, CALL, CREATE, CUT_WRITE, DATA, DONE, HELLO, MADE, READ, WELCOME, WRITE, WRONG_HELLO
from tests.peers import NOW, exactly, rest_of
from tests.program import run
from tests.serving import Server, until
from tools.lib.servers import everything

# How many peers are silent beside one that asks.
SILENT = 300
# How many are silent while the server ends.
SILENT_TO_THE_END = 100
# How often a peer asks that hears nothing, and how many bytes it hears at first, where it hears late: up to its second Read.
ASKED, BEGUN = 20000, 8000
# How often it is tried: on a busy machine the second for which a server waits may be over before a peer has read what it was sent.
TRIES = 6
# It writes 4000 bytes to 7.0.1, and reads them.
LONG_WRITE = bytes.fromhex("00000faf 04 00000007 00 000001 00000000 0fa0") + b"a" * 4000
LONG_READ = bytes.fromhex("00000012 03 00000007 00 000001 00000000 00000fa0 00")
LONG_DATA = (bytes.fromhex("00000fad 02 01 00"), NOW, bytes.fromhex("0fa0"), b"a" * 4000)
# More than the system keeps for a peer.
MUCH = HELLO + CREATE + LONG_WRITE + LONG_READ * ASKED
# What a server with a journal writes to standard error at its end: the sums of its files.
SUMS = r"(s4d: journal: start 1 (calls |connections |)bytes [0-9]+ sum [0-9a-f]{64}\n){3}"
# What peers say, and are sent, of which only the first one and the last one are well.
BROKEN = [[HELLO, CREATE, CUT_WRITE], [bytes(4)], [WRONG_HELLO], [HELLO, WRITE, READ]]
SENT_TO_BROKEN = [[WELCOME, MADE], [BAD_LENGTH], [BAD_LOGIN], [WELCOME, DONE, DATA]]


class Case(unittest.TestCase):
    """A server, and peers that ask it."""

    def check_said(self, server, said, sent):
        """That peers are sent these pieces, who say these frames and then no more, one after the other."""
        for number, (frames, wanted) in enumerate(zip(said, sent, strict=True)):
            got = server.tell(*frames)
            self.assertTrue(server.is_sent(got, wanted), f"peer {number} is sent {got.hex()}")

    def check_late_hearing(self, is_ready, errors="", check=lambda server, records: None, **settings):
        """That a peer that asks for more than the system keeps for it, hears the begin, and hears the rest once the server is to end, is sent the
        replies to all that was recorded. A server that closes it before it has read all of them is asked again."""
        for left in reversed(range(TRIES)):
            with Server(connections=9, idle=60000, **settings) as server:
                got, records = self.late_hearing(server, is_ready, errors)
                check(server, records)
            whole = 6 + 13 + 5 + (4 + 4013) * (records - 2)
            if len(got) == whole or not left:
                break
        self.assertEqual(len(got), whole)
        self.assertTrue(server.is_sent(got, [WELCOME, MADE, DONE, *[LONG_DATA] * (records - 2)]))

    def late_hearing(self, server, is_ready, errors):
        """What such a peer heard, and how many records there are. The server is to end once it is ready for that, and a silent peer tells that it knows."""
        with server.connect() as peer, server.connect() as silent:
            peer.sendall(MUCH)
            got = exactly(peer, BEGUN)
            until(lambda: is_ready(server), "the server may be ended")
            server.ask_to_end()
            self.assertEqual(everything(silent), b"")
            # It is closed after a second, also where bytes of it are still unread: then it ends by a reset.
            got += rest_of(peer)
        return got, server.check_end(self, (4, ASKED + 2), errors=errors)


class InTurn(Case):
    """Peers who say something one after the other, and then no more."""

    def check(self, said, sent, records, counts=None, **settings):
        with Server(**settings) as server:
            self.check_said(server, said, sent)
            server.check_end(self, (records, records), counts)

    def test_three_connections_are_served_in_turn(self):
        # Those of 7 are in the second one of two cells.
        said = [[HELLO, CREATE], [HELLO, WRITE], [HELLO, READ]]
        self.check(said, [[WELCOME, MADE], [WELCOME, DONE], [WELCOME, DATA]], 3, [0, 3], connections=3)

    def test_broken_streams_end_their_own_connections_alone(self):
        self.check(BROKEN, SENT_TO_BROKEN, 3, workers=2, connections=4)

    def test_a_setup_is_carried_out_first(self):
        self.check([[HELLO, READ]], [[WELCOME, DATA]], 3, setup="7 create 0\n7 write 7.0.1 0 68656c6c6f\n")

    def test_each_cell_counts_its_own_requests_and_the_wide_ones(self):
        # Those of 8 are in the first cell, those of 7 in the second one, and the window's in both.
        setup = "8 create 0\n7 create 0\n0 setwindow 200\n"
        self.check([[HELLO, WRITE, READ]], [[WELCOME, DONE, DATA]], 5, [2, 4], setup=setup)

    def test_a_server_without_a_status_tells_no_counts(self):
        self.check([[HELLO, CREATE]], [[WELCOME, MADE]], 1, tells=False)


class Together(Case):
    """Peers who are there at one time."""

    def check_among_silent(self, workers):
        """That one is answered who asks for a Create while others are silent."""
        with Server(workers=workers, connections=SILENT + 1) as server, contextlib.ExitStack() as silent:
            for _ in range(SILENT):
                silent.enter_context(server.connect())
            self.assertEqual(server.tell(CALL), WELCOME + MADE)
            silent.close()
            server.check_end(self, (1, 1))

    def test_one_worker_answers_among_300_silent_peers(self):
        self.check_among_silent(1)

    def test_four_workers_answer_among_300_silent_peers(self):
        self.check_among_silent(4)

    def test_a_peer_that_never_reads_holds_no_worker_and_is_closed(self):
        with Server(connections=2, idle=3000) as server, server.connect() as deaf:
            # Its connection may end before it has asked for all.
            with contextlib.suppress(ConnectionError):
                deaf.sendall(MUCH)
            self.assertEqual(len(server.tell(CALL)), len(WELCOME + MADE))
            server.check_end(self, (4, ASKED + 2))

    def test_a_connection_above_the_bound_is_closed_at_once(self):
        with Server(connections=2, open=1) as server:
            with server.connect() as first:
                first.sendall(CALL)
                self.assertEqual(exactly(first, 6), WELCOME)
                # A connection that is closed at once may end by a reset.
                with server.connect() as second:
                    self.assertEqual(rest_of(second), b"")
                first.shutdown(socket.SHUT_WR)
                self.assertEqual(everything(first), MADE)
            until(lambda: self.is_served(server), "a third peer is served")
            server.check_end(self, (1, 1))

    def is_served(self, server):
        """Whether a peer is served now that says who it is."""
        try:
            return server.tell(HELLO) != b""
        except ConnectionError:
            return False


class ToTheEnd(Case):
    """Servers that are ended by their files."""

    def test_at_the_end_a_peer_was_told_all_and_silent_ones_are_closed(self):
        with Server(workers=2, connections=0, idle=60000) as server, contextlib.ExitStack() as open_ones:
            silent = [open_ones.enter_context(server.connect()) for _ in range(SILENT_TO_THE_END)]
            peer = open_ones.enter_context(server.connect())
            peer.sendall(CALL)
            self.assertEqual(exactly(peer, 19), WELCOME + MADE)
            server.ask_to_end()
            self.assertEqual([everything(it) for it in [peer, *silent]], [b""] * (SILENT_TO_THE_END + 1))
            server.check_end(self, (1, 1))

    def is_stuck(self, server):
        """Whether the server replies no more: it told twice of as many replies, a second apart."""
        told = server.status()
        until(lambda: server.status() != told, "the status is written anew")
        return told is not None and told["replies"] == server.status()["replies"] > 0

    def test_at_the_end_a_peer_hears_the_replies_to_all_that_was_read(self):
        self.check_late_hearing(self.is_stuck)


class Journals(Case):
    """Servers that keep their history in a folder, which then has all of it."""

    def check_journal(self, server, records):
        """That the journal is sound, is that of the first start there, and has so many records."""
        told = run(["history", "check", "journal"], folder=server.folder)
        self.assertEqual((told.status, told.err), (0, b""))
        lines = told.out.decode().splitlines()
        self.assertEqual(lines[-1], "start 1 sound")
        self.assertEqual(sum(int(line.split(" records ")[1]) for line in lines if " records " in line), records, told.out)

    def test_a_journal_has_what_was_recorded(self):
        with Server(workers=2, connections=4, keeps=True) as server:
            self.check_said(server, BROKEN, SENT_TO_BROKEN)
            self.check_journal(server, server.check_end(self, (3, 3), errors=SUMS))

    def test_a_journal_has_all_of_a_server_that_is_ended(self):
        self.check_late_hearing(lambda _: True, SUMS, self.check_journal, keeps=True)
