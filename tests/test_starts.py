"""Servers that don't start."""
import socket
import tempfile
import unittest
from pathlib import Path

from tests.causes import EMPTY, SPACE, VERB, cause
from tests.program import Ended, run
from tools.lib.servers import address, host_and_port

# What a server is to carry out first, and the line that tells why it doesn't start.
SETUPS = (
    ("\n", f"s4d: setup line 1: {EMPTY}"),
    ("0 setbudget 7.0 100\n\n7 create 0\n", f"s4d: setup line 2: {EMPTY}"),
    ("0 setbudget 7.0 100\n7 wirte 7.0.1 0 61", f"s4d: setup line 2: {cause(2, 'wirte', VERB)}"),
    ("1 7 create 0\n", f"s4d: setup line 1: {cause(2, '7', VERB)}"),
    ("7\n", f"s4d: setup line 1: {cause(2, None, VERB)}"),
    ("7 create 0\n7 create 0 ", f"s4d: setup line 2: {cause(4, '', SPACE)}"),
    ("7 create 0\n8 read 7.0.1 0 1\n7 wirte\n", "s4d: setup line 2: denied read"),
    ("7 setbudget 7.0 1\n", "s4d: setup line 1: denied admin"),
    ("0 setbudget 7.0 0\n7 create 0\n7 write 7.0.1 0 61\n", "s4d: setup line 3: over-budget 0 64 0"),
)
# The paths of files that can't be had, for the setup and for the status, and the line that tells so.
FILES = (
    ("/tmp", None, "s4d: cannot read /tmp: Is a directory"),
    ("/tmp/s4d/nothing", None, "s4d: cannot read /tmp/s4d/nothing: No such file or directory"),
    ("/dev/null", "/tmp", "s4d: cannot write /tmp: it is a folder"),
    ("/dev/null", "/tmp/s4d/nothing", "s4d: cannot write /tmp/s4d/nothing: No such file or directory"),
    ("/dev/null", "/dev/null/it", "s4d: cannot write /dev/null/it: Not a directory"),
)
# Addresses and files that can't be had, those of --until.
PLACES = (
    ("no address", None, "s4d: cannot listen: invalid socket address"),
    ("no address", "/tmp/s4d/nothing", "s4d: cannot listen: invalid socket address"),
    ("127.0.0.1:65536", None, "s4d: cannot listen: invalid port value"),
    ("192.0.2.1:0", None, "s4d: cannot listen: Cannot assign requested address"),
    ("no address", "/tmp", "s4d: the file of --until is there already"),
    ("no address", "/dev/null/end", "s4d: cannot look for the file of --until: Not a directory"),
)


class Starts(unittest.TestCase):
    """Servers of no logins, on any port."""

    def check(self, wanted, address="127.0.0.1:0", **files):
        """That a server with these files ends with this line on standard error, and writes nothing else."""
        words = [word for name, path in files.items() if path for word in (f"--{name}", path)]
        self.assertEqual(run(["serve", address, "/dev/null", *words]), Ended(1, b"", wanted.encode() + b"\n"))

    def test_a_bad_setup_ends_the_start(self):
        with tempfile.TemporaryDirectory() as room:
            path = Path(room) / "setup"
            for text, wanted in SETUPS:
                with self.subTest(setup=text):
                    path.write_text(text)
                    self.check(wanted, setup=path)

    def test_a_file_that_cannot_be_had_ends_the_start(self):
        for setup, status, wanted in FILES:
            with self.subTest(wanted):
                self.check(wanted, setup=setup, status=status)

    def test_a_place_that_cannot_be_had_ends_the_start(self):
        for address, path, wanted in PLACES:
            with self.subTest(wanted):
                self.check(wanted, address, until=path)

    def test_a_port_that_another_has_ends_the_start(self):
        place = address()
        with socket.create_server(host_and_port(place)):
            self.check("s4d: cannot listen: Address already in use", place)

    def test_a_setup_that_is_no_text_ends_the_start(self):
        with tempfile.TemporaryDirectory() as room:
            path = Path(room) / "setup"
            path.write_bytes(b"7 create 0\n\xff\n")
            self.check(f"s4d: cannot read {path}: it isn't UTF-8", setup=path)
