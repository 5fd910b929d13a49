"""What a call says to the drive that its words name."""
import socket
import tempfile
import threading
import time
import unittest
from pathlib import Path

from tests.causes import BYTES, cause
from tests.command_lines import NO_SECRET
from tests.journals import object_of
from tests.peers import frame, hello
from tests.program import SECONDS, run
from tools.lib.servers import address

SECRET = "000102030405060708090a0b0c0d0e0f"
# What is asked: a Create in the purse of that number, a Write of `hello` at the begin of 7.0.1, a Read of its first 100 bytes at 9.
FIRST, LAST = frame(b"\x01\x00"), frame(b"\x01\x0f")
WRITE = frame(b"\x04" + object_of(7, 0, 1) + b"\0\0\0\0" + b"\0\5hello")
READ = frame(b"\x03" + object_of(7, 0, 1) + b"\0\0\0\0" + b"\0\0\0\x64" + b"\x01" + bytes(7) + b"\x09")
MADE = frame(b"\x01" + object_of(7, 0, 1))
# The words of a call, in which `nowhere` stands for the address; who says so with which client by which version, and what they ask.
CALLS = {
    f"nowhere|7|1|{SECRET}|create|0": (7, 1, 1, FIRST),
    f"nowhere|7|1|{SECRET}|write|7.0.1|0|68656c6c6f": (7, 1, 1, WRITE),
    f"nowhere|7|1|{SECRET}|read|7.0.1|0|100|at|9": (7, 1, 1, READ),
    f"nowhere|0|0|{SECRET.upper()}|create|15": (0, 0, 1, LAST),
    f"nowhere|4294967294|4294967295|{SECRET.upper()}|create|15": (4294967294, 4294967295, 1, LAST),
    f"nowhere|1|4294967294|{SECRET.upper()}|create|15": (1, 4294967294, 1, LAST),
    f"--wait|0|nowhere|7|1|{SECRET}|create|0": (7, 1, 1, FIRST),
    f"--wire|1|nowhere|7|1|{SECRET}|create|0": (7, 1, 1, FIRST),
    f"--wire|2|nowhere|7|1|{SECRET}|create|0": (7, 1, 2, FIRST),
}
# Calls to an address at which somebody listens a while later.
PATIENT = {
    f"--wait|5000|nowhere|7|1|{SECRET}|create|0": (7, 1, 1, FIRST),
    f"nowhere|7|1|{SECRET}|read|7.0.1|0|100|at|9|--wait|18446744073709551615": (7, 1, 1, READ),
}
# Files, and what they have.
FILES = {
    "secret": b" \t000102030405060708090a0b0c0d0e0f \n",
    "hello": b"68656c6c6f\n",
    "two_words": b"68656c6c6f 68\n",
    "no_text": b"68\xff\n",
    "nothing": b"",
}
# Calls that name files.
BY_FILES = {"nowhere|7|1|@secret|create|0": (7, 1, 1, FIRST), "nowhere|7|1|@secret|write|7.0.1|0|@hello": (7, 1, 1, WRITE)}
# Of these files none has what is wanted: one isn't there, one is a folder, one is no text, and others spell something else.
NO_FILES = {
    "nowhere|7|1|@missing|create|0": "cannot read missing: No such file or directory",
    "nowhere|7|1|@secret|write|7.0.1|0|@missing/hello": "cannot read missing/hello: No such file or directory",
    "nowhere|7|1|@.|create|0": "cannot read .: Is a directory",
    "nowhere|7|1|@no_text|create|0": "cannot read no_text: it isn't UTF-8",
    "nowhere|7|1|@secret|write|7.0.1|0|@two_words": "bad request: word 4 '68656c6c6f?68': each word stands by itself, and this one has a space",
    "nowhere|7|1|@secret|write|7.0.1|0|@nothing": f"bad request: {cause(4, '', BYTES)}",
}


class Peer(threading.Thread):
    """Listens at an address of its own, from the begin on or some seconds later; takes so many bytes of the first connection, and answers a Welcome and
    a Made."""

    def __init__(self, count, version, late=0):
        super().__init__(daemon=True)
        self.address, self.count, self.version, self.late, self.said = address(), count, version, late, b""
        host, port = self.address.split(":")
        self.listener = socket.socket()
        self.listener.settimeout(SECONDS)
        self.listener.bind((host, int(port)))
        if not late:
            self.listener.listen()
        self.start()

    def run(self):
        if self.late:
            time.sleep(self.late)
            self.listener.listen()
        with self.listener, self.listener.accept()[0] as call:
            call.settimeout(SECONDS)
            while len(self.said) < self.count and (more := call.recv(1 << 16)):
                self.said += more
            call.sendall(frame(bytes([16, self.version])) + MADE)
            # All that it says is said together.
            while more := call.recv(1 << 16):
                self.said += more


class Calls(unittest.TestCase):
    def check(self, words, wanted, folder=None, late=0):
        """That these words have a call say this, and that it writes the reply."""
        who, client, version, asked = wanted
        said = hello(who, client, bytes(range(16)), version) + asked
        peer = Peer(len(said), version, late)
        words = [peer.address if word == "nowhere" else word for word in words.split("|")]
        ran = run(["call", *words], folder=folder)
        peer.join(SECONDS)
        self.assertEqual((ran.err, ran.out, ran.status), (b"", b"made 7.0.1\n", 0))
        self.assertEqual(peer.said, said)

    def test_calls_say_what_their_words_spell(self):
        for words, wanted in CALLS.items():
            with self.subTest(words=words):
                self.check(words, wanted)

    def test_calls_wait_for_who_listens_later(self):
        for words, wanted in PATIENT.items():
            with self.subTest(words=words):
                self.check(words, wanted, late=1)

    def test_calls_wait_for_so_long_and_no_longer(self):
        for wait, least, most in ((0, 0, 60), (5000, 5, SECONDS)):
            start = time.monotonic()
            ran = run(["call", "--wait", wait, address(), 7, 1, SECRET, "create", 0])
            self.assertEqual((ran.status, ran.out), (1, b""))
            self.assertTrue(least <= time.monotonic() - start < most, wait)

    def test_words_that_name_files(self):
        with tempfile.TemporaryDirectory() as folder:
            for name, content in FILES.items():
                Path(folder, name).write_bytes(content)
            for words, wanted in BY_FILES.items():
                with self.subTest(words=words):
                    self.check(words, wanted, folder)
            for words, wanted in NO_FILES.items():
                with self.subTest(words=words):
                    ran = run(["call", *words.split("|")], folder=folder)
                    self.assertEqual((ran.err.decode(), ran.out, ran.status), (f"s4d: {wanted}\n", b"", 1))
            ran = run(["call", *"nowhere|7|1|@hello|create|0".split("|")], folder=folder)
            self.assertEqual((ran.err.decode(), ran.status), (f"s4d: error: {NO_SECRET}\n\nFor more information, try '--help'.\n", 2))

    def test_a_request_fits_a_frame(self):
        # A body has 8192 bytes at most, and that of an Append 11 beside its data.
        data = b"f" * 8181
        appended = frame(b"\x05" + object_of(7, 0, 1) + len(data).to_bytes(2, "big") + data)
        self.check(f"nowhere|7|1|{SECRET}|append|7.0.1|{data.hex()}", (7, 1, 1, appended))
        ran = run(["call", "nowhere", 7, 1, SECRET, "append", "7.0.1", data.hex() + "66"])
        self.assertEqual((ran.err, ran.status), (b"s4d: bad request: it is longer than a frame takes\n", 1))

    def test_a_file_has_room_for_a_whole_object_of_version_2(self):
        data = bytes(range(256)) * 256
        written = frame(b"\x04" + object_of(7, 0, 1) + b"\0\0\0\0" + len(data).to_bytes(4, "big") + data)
        with tempfile.TemporaryDirectory() as folder:
            Path(folder, "whole").write_text(f"{data.hex()}\n")
            self.check(f"--wire|2|nowhere|7|1|{SECRET}|write|7.0.1|0|@whole", (7, 1, 2, written), folder)
            Path(folder, "longer").write_text("0" * 262145)
            ran = run(["call", "nowhere", 7, 1, SECRET, "write", "7.0.1", 0, "@longer"], folder=folder)
            self.assertEqual((ran.err, ran.status), (b"s4d: cannot read longer: it is longer than 262144 bytes\n", 1))


if __name__ == "__main__":
    unittest.main()
