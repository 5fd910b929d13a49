"""Calls of the program whose requests stand in lines of its input (docs/SCRIPTS.md, "Lines of calls")."""
import re
import socket
import subprocess
import tempfile
import time
import unittest
from pathlib import Path

from tests.calling import SECRET
from tests.causes import CALLER, NUMBER, OBJECT, REQUESTS, RETURN, VERB, cause
from tests.frames import CREATE, DENIED, HELLO, MADE, MALFORMED, WELCOME
from tests.peers import exactly, rest_of
from tests.program import SECONDS, Ended, command, run
from tests.serving import LOGINS, Server, until
from tools.lib.servers import PATIENCE, address, host_and_port

# The least and the greatest number of requests that may be ahead, and one between.
DEPTHS = (1, 64, 1024)
# What is told where all was asked and something was refused.
REFUSED = b"s4d: a request was refused\n"
# The most bytes of a line, without its line feed.
LONGEST = 524288


def lines(*rows):
    """Rows as an input."""
    return "".join(f"{row}\n" for row in rows).encode()


def words(place, *flags):
    """The words by which principal 7 asks that place for what lines spell."""
    return ["call", *flags, place, 7, 1, SECRET, "-"]


def company(place, logins, *flags):
    """The words by which each line's principal asks."""
    return ["call", *flags, place, 1, "--logins", logins, "-"]


def at(number, why):
    """What is told where a line ends it."""
    return f"s4d: line {number}: {why}\n".encode()


def bad(number, why):
    return at(number, f"bad request: {why}")


def has_ended(status):
    """Whether 7 was removed from the logins, and no connection is open."""
    return bool(status) and status["logins"]["removed"] == [7] and not status["connections"]["open"]


def without_moments(out):
    """Replies without the moments since which entries are there, which the server's clock gives."""
    return re.sub(rb"since [0-9]+", b"since M", out)


class Coprocess:
    """The program, which is given a line once the one before it is replied."""

    def __init__(self, asked):
        pipe = subprocess.PIPE
        self.process = subprocess.Popen(command(asked), stdin=pipe, stdout=pipe, stderr=pipe)

    def ask(self, line):
        """The line of the reply."""
        self.process.stdin.write(lines(line))
        self.process.stdin.flush()
        return self.process.stdout.readline()

    def end(self, line=None):
        """What comes of a last line, and the status."""
        out, err = self.process.communicate(lines(line) if line else b"", timeout=SECONDS)
        return Ended(self.process.returncode, out, err)


class OneCaller(unittest.TestCase):
    """All lines are asked by principal 7, over one connection: the server ends behind it."""

    def check(self, given, out, records, status=0, err=b"", flags=()):
        """What comes of lines, at each depth, and how many records they leave."""
        for depth in DEPTHS:
            with self.subTest(depth=depth), Server(cells=1, open=16) as server:
                ran = run(words(server.address, "--depth", depth, *flags), given)
                self.assertEqual(Ended(ran.status, without_moments(ran.out), ran.err), Ended(status, out, err))
                server.check_end(self, (records, records))

    def test_each_line_is_asked_and_each_reply_told_in_order(self):
        numbers = range(1, 101)
        given = [row for number in numbers for row in ("create 0", f"write 7.0.{number} 0 {number:04x}", f"read 7.0.{number} 0 100")]
        out = [row for number in numbers for row in (f"made 7.0.{number}", "done", f"data {number:04x} by 0 since M")]
        self.check(lines(*given), lines(*out), len(given))

    def test_a_page_is_one_line(self):
        given = lines("create 0", "pcreate b 7.0.1", "pcreate a 7.0.1", "plist 7")
        names = "names 2 end; name a 7.0.1 by 0 since M; name b 7.0.1 by 0 since M"
        self.check(given, lines("made 7.0.1", "done", "done", names), 4)

    def test_all_is_asked_though_something_is_refused(self):
        given = lines("create 0", "read 8.0.1 0 1", "delete 7.0.1")
        self.check(given, lines("made 7.0.1", "denied read", "done"), 3, 3, REFUSED)

    def test_what_stands_before_a_bad_line_is_told(self):
        given = lines("create 0", "create 0", "create 16", "create 0")
        self.check(given, lines("made 7.0.1", "made 7.0.2"), 2, 1, bad(3, cause(2, "16", NUMBER)))

    def test_lines_that_are_none_end_it(self):
        first, one = lines("create 0"), lines("made 7.0.1")
        self.check(first + b"create 0\r\n", one, 1, 1, bad(2, cause(2, "0", RETURN)))
        self.check(first + b"\n" + first, one, 1, 1, bad(2, "the line is empty"))
        self.check(first + b"create 0", one, 1, 1, bad(2, "no line feed stands behind it"))
        self.check(first + b"7" * LONGEST + b"\n", one, 1, 1, bad(2, cause(1, "", VERB)))
        self.check(first + b"7" * (LONGEST + 1) + b"\n", one, 1, 1, bad(2, "it has more than 524288 bytes"))
        self.check(first + b"7" * (LONGEST + 1), one, 1, 1, bad(2, "it has more than 524288 bytes"))
        self.check(first + b"create \xff\n", one, 1, 1, bad(2, "word 2 '?': it isn't UTF-8"))

    def test_no_line_is_no_request(self):
        self.check(b"", b"", 0)

    def test_a_request_has_the_words_that_follow_a_principal(self):
        with Server(cells=1, open=1024, connections=0) as server:
            for line, number, word, wanted in REQUESTS:
                ran = run(words(server.address), lines(line))
                self.assertEqual(ran, Ended(1, b"", bad(1, cause(number, word, wanted))), line)
            server.ask_to_end()
            server.check_end(self, (0, 0))

    def test_each_version_has_its_frames(self):
        given = lines("create 0", f"write 7.0.1 0 {'61' * 8178}")
        self.check(given, lines("made 7.0.1"), 1, 1, bad(2, "it is longer than a frame takes"))
        whole = "61" * 65536
        given = lines("create 0", f"write 7.0.1 0 {whole}", "read 7.0.1 0 65536")
        self.check(given, lines("made 7.0.1", "done", f"data {whole} by 0 since M"), 3, flags=("--wire", 2))

    def test_much_is_asked_and_replied_at_once(self):
        whole = "61" * 65536
        given = ["create 0", f"write 7.0.1 0 {whole}"] + ["read 7.0.1 0 65536", f"write 7.0.1 0 {whole}"] * 4
        out = ["made 7.0.1", "done"] + [f"data {whole} by 0 since M", "done"] * 4
        self.check(lines(*given), lines(*out), len(given), flags=("--wire", 2))

    def test_it_waits_for_no_line_while_a_reply_is_missing(self):
        for depth in DEPTHS:
            with Server(cells=1, open=16) as server:
                asked = Coprocess(words(server.address, "--depth", depth))
                self.assertEqual([asked.ask("create 0") for _ in range(3)], [b"made 7.0.1\n", b"made 7.0.2\n", b"made 7.0.3\n"])
                self.assertEqual(asked.end(), Ended(0, b"", b""))
                server.check_end(self, (3, 3))


class Peers(unittest.TestCase):
    """What comes of lines whose peer is played here."""

    def play(self, given, pieces, heard=b"", flags=()):
        """What the program writes that asks a peer: this says each piece once it has heard so much, and then no more."""
        place = address()
        with socket.create_server(host_and_port(place)) as listener:
            listener.settimeout(PATIENCE)
            process = subprocess.Popen(command(words(place, *flags)), stdin=subprocess.PIPE, stdout=subprocess.PIPE, stderr=subprocess.PIPE)
            with listener.accept()[0] as peer:
                peer.settimeout(PATIENCE)
                process.stdin.write(given)
                process.stdin.close()
                process.stdin = None
                for before, piece in pieces:
                    self.assertEqual(exactly(peer, len(before)), before)
                    peer.sendall(piece)
                peer.shutdown(socket.SHUT_WR)
                self.assertEqual(rest_of(peer), heard)
                out, err = process.communicate(timeout=SECONDS)
        return Ended(process.returncode, out, err)

    def test_a_line_whose_reply_is_missing_is_named(self):
        given = lines("create 0", "create 0", "create 0")
        made = b"made 7.0.1\n"
        for told, why in ((b"", "connection lost"), (MADE[:5], "connection lost"), (WELCOME, "connection lost"), (MALFORMED, "session fault 1: malformed")):
            pieces = [(HELLO, WELCOME), (CREATE, MADE), (CREATE, told)]
            self.assertEqual(self.play(given, pieces), Ended(1, made, at(2, why)))
            pieces = [(HELLO, WELCOME), (CREATE * 3, MADE * 2 + told)]
            self.assertEqual(self.play(given, pieces, flags=("--depth", 64)), Ended(1, made * 2, at(3, why)))

    def test_a_refusal_is_told_at_the_end(self):
        pieces = [(HELLO, WELCOME), (CREATE, DENIED), (CREATE, MADE)]
        self.assertEqual(self.play(lines("create 0", "create 0"), pieces), Ended(3, b"denied read\nmade 7.0.1\n", REFUSED))

    def test_without_a_welcome_no_line_is_named(self):
        for told, why in ((b"", b"connection lost"), (MALFORMED, b"session fault 1: malformed"), (MADE, b"connection lost")):
            self.assertEqual(self.play(lines("create 0"), [(HELLO, told)]), Ended(1, b"", b"s4d: " + why + b"\n"))

    def test_so_many_requests_are_ahead_and_no_more(self):
        for depth in (1, 3, 1024):
            place, given = address(), lines(*["create 0"] * 1100)
            with socket.create_server(host_and_port(place)) as listener:
                listener.settimeout(PATIENCE)
                process = subprocess.Popen(command(words(place, "--depth", depth)), stdin=subprocess.PIPE, stdout=subprocess.PIPE, stderr=subprocess.PIPE)
                with listener.accept()[0] as peer:
                    peer.settimeout(PATIENCE)
                    self.assertEqual(exactly(peer, len(HELLO)), HELLO)
                    process.stdin.write(given)
                    process.stdin.close()
                    process.stdin = None
                    peer.sendall(WELCOME)
                    self.assertEqual(exactly(peer, len(CREATE) * depth), CREATE * depth)
                    time.sleep(0.2)
                    peer.setblocking(False)
                    with self.assertRaises(BlockingIOError):
                        peer.recv(1)
                    peer.settimeout(PATIENCE)
                    for _ in range(1100 - depth):
                        peer.sendall(MADE)
                        self.assertEqual(exactly(peer, len(CREATE)), CREATE)
                    peer.sendall(MADE * depth)
                    self.assertEqual(rest_of(peer), b"")
                out, err = process.communicate(timeout=SECONDS)
            self.assertEqual(Ended(process.returncode, out, err), Ended(0, b"made 7.0.1\n" * 1100, b""))

    def test_nobody_listens(self):
        ran = run(words("nowhere"), lines("create 0"))
        self.assertEqual((ran.status, ran.out), (1, b""))
        self.assertRegex(ran.err, rb"\As4d: cannot connect[^\n]*\n\Z")


class EachCaller(unittest.TestCase):
    """Each line names its principal, and may have the reply that is wanted."""

    def setUp(self):
        folder = tempfile.TemporaryDirectory(prefix="s4d-")
        self.addCleanup(folder.cleanup)
        self.logins = Path(folder.name) / "logins"
        self.write(LOGINS)

    def write(self, text, mode=0o600):
        self.logins.write_text(text, encoding="utf-8")
        self.logins.chmod(mode)

    def check(self, given, wanted, records, connections=1, flags=()):
        """What comes of lines at a server that ends behind so many connections, and how many records they leave."""
        with Server(cells=1, open=16, connections=connections) as server:
            ran = run(company(server.address, self.logins, *flags), given)
            self.assertEqual(Ended(ran.status, without_moments(ran.out), ran.err), wanted)
            server.check_end(self, (records, records))

    def test_each_caller_has_one_connection_for_each_version(self):
        given = lines(
            "7 create 0 => made 7.0.1",
            "8/2 create 0 => made 8.0.1",
            "7/2 write 7.0.1 0 6162 => done",
            "8 read 7.0.1 0 2 => denied read",
            "7/1 setacl 7.0.1 8 1 => done",
            "8/1 delete 7.0.1 => denied delete",
            "8/2 delete 8.0.1",
            "7 delete 7.0.1",
        )
        out = lines("made 7.0.1", "made 8.0.1", "done", "denied read", "done", "denied delete", "done", "done")
        self.check(given, Ended(0, out, b""), 8, connections=4)

    def test_who_has_no_mark_speaks_the_version_of_the_command(self):
        whole = "61" * 65536
        given = lines("7 create 0 => made 7.0.1", f"7/2 write 7.0.1 0 {whole} => done", f"7 read 7.0.1 0 1 => data 61 by 0 since {0}")
        with Server(cells=1, open=16) as server:
            ran = run(company(server.address, self.logins, "--wire", 2), given)
            told = re.fullmatch(rb"made 7\.0\.1\ndone\n(data 61 by 0 since [0-9]+)\n", ran.out)
            self.assertTrue(told, ran)
            self.assertEqual((ran.status, ran.err), (3, at(3, f"the reply is '{told[1].decode()}', and 'data 61 by 0 since 0' is wanted")))
            server.check_end(self, (3, 3))

    def test_it_ends_at_the_first_reply_that_is_not_wanted(self):
        given = lines("7 create 0 => made 7.0.1", "7 create 0 => made 7.0.3", "7 create 0 => made 7.0.3")
        out, err = lines("made 7.0.1", "made 7.0.2"), at(2, "the reply is 'made 7.0.2', and 'made 7.0.3' is wanted")
        self.check(given, Ended(3, out, err), 2)

    def test_a_page_is_wanted_in_one_line(self):
        given = lines("7 create 0", "7 plist 7 => names 0 end", "7 plist 8 => names 1 end; name a 8.0.1 by owner")
        out, err = lines("made 7.0.1", "names 0 end", "names 0 end"), at(3, "the reply is 'names 0 end', and 'names 1 end; name a 8.0.1 by owner' is wanted")
        self.check(given, Ended(3, out, err), 3)

    def test_a_refusal_that_is_not_wanted_is_told_at_the_end(self):
        self.check(lines("7 read 8.0.1 0 1", "7 create 0"), Ended(3, lines("denied read", "made 7.0.1"), REFUSED), 2)
        self.check(lines("7 read 8.0.1 0 1 => denied read"), Ended(0, lines("denied read"), b""), 1)

    def test_lines_that_are_none_end_it(self):
        first, one = "7 create 0 => made 7.0.1", lines("made 7.0.1")
        for line, why in (
            ("7 create 16 => made 7.0.2", cause(3, "16", NUMBER)),
            ("07 create 0", cause(1, "07", CALLER)),
            ("7/3 create 0", cause(1, "7/3", CALLER)),
            ("7", cause(2, None, VERB)),
            ("7 walk", cause(2, "walk", VERB)),
            ("7 delete 7.0 => done", cause(3, "7.0", OBJECT)),
            ("7 create 0\r", cause(3, "0", RETURN)),
            ("7 create 0 => made 7.0.2\r", "a carriage return stands behind the reply"),
            ("", "the line is empty"),
        ):
            with self.subTest(line):
                self.check(lines(first, line, first), Ended(1, one, bad(2, why)), 1)

    def test_who_has_no_login_is_not_connected(self):
        self.check(lines("7 create 0", "9 create 0"), Ended(1, lines("made 7.0.1"), at(2, "the logins have no principal 9")), 1)

    def test_a_wrong_secret_is_a_fault_of_its_line(self):
        self.write(LOGINS.replace("1011", "1010"))
        self.check(lines("7 create 0", "8 create 0"), Ended(1, lines("made 7.0.1"), at(2, "session fault 2: bad login")), 1, connections=2)

    def test_a_secret_that_is_taken_back_ends_it_at_the_next_line(self):
        for asked in (lambda place: words(place), lambda place: company(place, self.logins)):
            with Server(cells=1, open=16, connections=0) as server:
                mark = "" if asked(server.address)[-2] == SECRET else "7 "
                process = Coprocess(asked(server.address))
                self.assertEqual(process.ask(f"{mark}create 0"), b"made 7.0.1\n")
                server.write("logins", "8 101112131415161718191a1b1c1d1e1f\n")
                until(lambda server=server: has_ended(server.status()), "the connection is ended")
                self.assertEqual(process.end(f"{mark}create 0"), Ended(1, b"", at(2, "connection lost")))
                server.ask_to_end()
                server.check_end(self, (1, 1), errors=r"(?s).*")

    def test_logins_that_others_may_write_are_not_taken(self):
        self.write(LOGINS, 0o622)
        ran = run(company("nowhere", self.logins), lines("7 create 0"))
        self.assertEqual((ran.status, ran.out), (1, b""))
        self.assertTrue(ran.err.startswith(b"s4d: others may write the logins"), ran)

    def test_nobody_listens(self):
        ran = run(company("nowhere", self.logins), lines("7 create 0"))
        self.assertEqual((ran.status, ran.out), (1, b""))
        self.assertRegex(ran.err, rb"\As4d: line 1: cannot connect[^\n]*\n\Z")
        self.assertEqual(run(company("nowhere", self.logins), b""), Ended(0, b"", b""))
