"""Logins that fail, and logins that change while a server runs."""
import json
import os
import tempfile
import threading
import time
import unittest
from pathlib import Path

from tests.frames import BAD_LOGIN, CALL, CREATE, HELLO, MADE, OTHER_HELLO, OTHER_MADE, WELCOME, WRONG_HELLO
from tests.peers import exactly, hello
from tests.program import run
from tests.serving import LOGINS, SECRETS, Server, until
from tools.lib.servers import address, everything

# The least time for which a late answer waits, in seconds. It is told by a clock that goes in steps of a tenth.
WAITS = 0.85
# Who isn't among the logins.
STRANGER = hello(4294967294, 1, SECRETS[7])
# How often it is tried to be served while an answer waits: on a busy machine a second may be over before that.
GUESSES = 20
# The logins once 7 has the secret that was wrong before, with and without 8, and no logins.
CHANGED = "7 000102030405060708090a0b0c0d0e0e\n8 101112131415161718191a1b1c1d1e1f\n"
SHORTER = "7 000102030405060708090a0b0c0d0e0e\n"
BAD, BAD_CAUSE = "7 is a good principal\n", "one space stands between principal and secret, and no other"
# The logins of a server in their turn, and whom each of them adds, changes and removes: 7 and 8 are there at first.
TURNS = (
    (CHANGED, [], [7], []),
    (SHORTER, [], [], [8]),
    ("4294967294 000102030405060708090a0b0c0d0e0f\n0 000102030405060708090A0B0C0D0E0E\n7 000102030405060708090A0B0C0D0E0E\n", [0, 4294967294], [], []),
    ("9 000102030405060708090a0b0c0d0e0f\n7 101112131415161718191a1b1c1d1e1f\n", [9], [7], [0, 4294967294]),
    ("", [], [], [7, 9]),
    ("7 101112131415161718191a1b1c1d1e1f\n", [7], [], []),
)


def has_answer(peer):
    """Whether there is something to read now, which is taken."""
    peer.setblocking(False)
    try:
        return peer.recv(1) != b""
    except BlockingIOError:
        return False
    finally:
        peer.settimeout(60)


def change_behind(pipe, logins):
    """Changes the logins beside a setup that is a pipe, once it is opened: the logins were read before."""
    with open(pipe, "wb"):
        new = pipe.parent / "new"
        new.write_text(logins, encoding="utf-8")
        new.chmod(0o600)
        os.replace(new, pipe.parent / "logins")


def made(peer):
    """What is replied to a Create, or nothing where the connection ended."""
    try:
        peer.sendall(CREATE)
        return exactly(peer, 13)
    except ConnectionError:
        return None


class Logins(unittest.TestCase):
    """Principals 7 and 8, who says a wrong secret of 7, and a stranger."""

    def late_answer(self, server, wrong):
        """The answer to a wrong Hello, which waits, or none where it was there before 7 and 8 were welcomed."""
        start = time.monotonic()
        with server.connect() as late:
            late.sendall(wrong)
            self.assertEqual([server.tell(HELLO), server.tell(OTHER_HELLO)], [WELCOME, WELCOME])
            if has_answer(late):
                everything(late)
                answer = None
            else:
                answer = exactly(late, len(BAD_LOGIN))
        self.assertGreaterEqual(time.monotonic() - start, WAITS)
        return answer

    def test_the_answer_to_each_failed_login_waits_and_nobody_else_does(self):
        with Server(connections=0, idle=60000, hello=60000) as server:
            for wrong in (WRONG_HELLO, STRANGER):
                answers = (self.late_answer(server, wrong) for _ in range(GUESSES))
                self.assertEqual(next((it for it in answers if it), None), BAD_LOGIN)
            self.assertEqual(server.tell(CALL), WELCOME + MADE)
            server.ask_to_end()
            server.check_end(self, (1, 1))

    def test_logins_are_read_again_and_a_bad_file_changes_nothing(self):
        with Server(workers=2, connections=0, idle=60000, hello=60000) as server:
            seven, eight = server.welcomed(HELLO), server.welcomed(OTHER_HELLO)
            with seven, eight:
                server.write("logins", CHANGED)
                until(lambda: server.tell(HELLO) == BAD_LOGIN, "the old secret of 7 is good no more")
                self.assertEqual(server.tell(WRONG_HELLO, CREATE), WELCOME + MADE)
                self.assertEqual(everything(seven), b"")
                self.assertEqual(made(eight), OTHER_MADE)
                server.write("logins", BAD)
                until(lambda: server.errors(), "the server tells that its logins are bad")
                self.assertEqual(server.tell(WRONG_HELLO), WELCOME)
                server.write("logins", SHORTER)
                until(lambda: made(eight) is None, "the connection of 8 is ended")
            server.ask_to_end()
            server.check_end(self, (2, 20002), errors=f"s4d: logins line 1: logins: {BAD_CAUSE}\n")

    def test_logins_that_change_before_it_listens_are_taken(self):
        with tempfile.TemporaryDirectory() as room:
            os.mkfifo(Path(room, "pipe"))
            changing = threading.Thread(target=change_behind, args=(Path(room, "pipe"), CHANGED), daemon=True)
            changing.start()
            with Server("--setup", "pipe", setup=None, connections=0, idle=60000, hello=60000, how={"folder": room}) as server:
                changing.join()
                until(lambda: server.tell(HELLO) == BAD_LOGIN, "the old secret of 7 is good no more")
                self.assertEqual(server.tell(WRONG_HELLO, CREATE), WELCOME + MADE)
                server.ask_to_end()
                server.check_end(self, (1, 1))

    def test_a_pipe_in_the_place_of_logins_is_not_opened(self):
        with Server(connections=0, idle=60000, hello=60000) as server:
            until(server.status, "the server looks after its files")
            os.mkfifo(server.folder / "pipe")
            os.replace(server.folder / "pipe", server.folder / "logins")
            until(lambda: server.errors(), "the server tells that its logins can't be read")
            told = server.status()
            until(lambda: server.status() != told, "the status is written anew")
            self.assertEqual(server.tell(CALL), WELCOME + MADE)
            server.write("logins", CHANGED)
            until(lambda: server.tell(HELLO) == BAD_LOGIN, "the old secret of 7 is good no more")
            server.ask_to_end()
            server.check_end(self, (1, 1), errors="s4d: cannot read logins: logins: it is no regular file, and gave no text\n")

    def logins_told(self, server):
        """What the journal tells of logins that were taken: a line each."""
        lines = (server.folder / "journal" / "1" / "connections.jsonl").read_text(encoding="utf-8").splitlines()
        return [told for told in map(json.loads, lines) if told["event"] == "logins"]

    def test_each_change_of_the_logins_is_on_record(self):
        with Server(connections=0, idle=60000, hello=60000, keeps=True) as server:
            until(server.status, "the server looks after its files")
            began = server.status()["began"]
            self.assertEqual(server.status()["logins"], {"read": began, "added": [], "changed": [], "removed": []})
            self.assertLess(abs(time.time() * 1000 - began), 120_000)
            for number, (table, added, changed, removed) in enumerate(TURNS, 1):
                with self.subTest(table):
                    server.write("logins", table)
                    until(lambda: len(self.logins_told(server)) == number, "the journal has the change")
                    told = self.logins_told(server)[-1]
                    whom = {"added": added, "changed": changed, "removed": removed}
                    wanted = {"connection": None, "peer": None, "event": "logins", **whom}
                    self.assertEqual({name: told[name] for name in wanted}, wanted)
                    self.assertEqual(set(told), {*wanted, "wall", "moment", "sum"})
                    until(lambda: {name: server.status()["logins"][name] for name in whom} == whom, "the status has the change")
                    self.assertLess(abs(server.status()["logins"]["read"] - told["wall"]), 60_000)
            server.write("logins", BAD)
            until(lambda: server.errors(), "the server tells that its logins are bad")
            read = server.status()["logins"]["read"]
            server.ask_to_end()
            server.check_end(self, (0, 0), errors=f"s4d: logins line 1: logins: {BAD_CAUSE}\n(s4d: journal: .*\n)*")
            self.assertEqual(len(self.logins_told(server)), len(TURNS))
            self.assertEqual(server.status()["logins"]["read"], read)
            for secret in ("0001020304", "1011121314"):
                self.assertNotIn(secret, (server.folder / "journal" / "1" / "connections.jsonl").read_text(encoding="utf-8").lower().replace('"sum"', ""))

    def test_logins_that_others_may_write_are_refused(self):
        with tempfile.TemporaryDirectory() as room:
            logins = Path(room, "logins")
            logins.write_text(LOGINS, encoding="utf-8")
            for mode in (0o666, 0o620, 0o602):
                logins.chmod(mode)
                ran = run(["serve", address(), "logins"], folder=room)
                self.assertEqual((ran.status, ran.out, ran.err), (1, b"", f"s4d: others may write the logins: logins: its mode is {mode:o}\n".encode()), mode)

    def test_logins_that_others_may_write_are_not_taken_while_it_serves(self):
        with Server(connections=0, idle=60000, hello=60000) as server:
            until(server.status, "the server looks after its files")
            new = server.folder / "new"
            new.write_text(CHANGED, encoding="utf-8")
            new.chmod(0o622)
            os.replace(new, server.folder / "logins")
            until(server.errors, "the server tells that others may write its logins")
            self.assertEqual(server.tell(CALL), WELCOME + MADE)
            server.write("logins", CHANGED)
            until(lambda: server.tell(HELLO) == BAD_LOGIN, "the old secret of 7 is good no more")
            server.ask_to_end()
            server.check_end(self, (1, 1), errors="s4d: others may write the logins: logins: its mode is 622\n")
