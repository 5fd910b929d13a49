"""What a server tells of itself in its status, and by its clock."""
import functools
import os
import re
import stat
import tempfile
import time
import unittest
from datetime import datetime
from pathlib import Path

from tests.frames import BAD_LOGIN, CREATE, FOREIGN_WRITE, HELLO, MADE, WRITE_DENIED, WRONG_HELLO
from tests.peers import exactly, hello
from tests.serving import SECRETS, Server, until
from tools.lib.servers import PORT

# What is told once one connection is welcomed and asked for a Create, one is silent, one had a wrong secret, and one was of a principal who isn't among
# the logins: places in the status, and the numbers there.
WANTED = {
    "port": PORT,
    "connections/accepted": 4,
    "connections/turned_away": 0,
    "connections/open": 2,
    "connections/greeting": 1,
    "connections/welcomed": 1,
    "connections/leaving": 0,
    "connections/principals/0/who": 7,
    "connections/principals/0/count": 1,
    "connections/principals/1": None,
    "connections/addresses/0/address": "127.0.0.1",
    "connections/addresses/0/count": 2,
    "connections/addresses/1": None,
    "window": 100,
    "version": "0.1.0",
    "failed_logins/all": 2,
    "failed_logins/others": 1,
    "failed_logins/principals/0/who": 7,
    "failed_logins/principals/0/count": 1,
    "records": 2,
    "values": 3,
    "replies": 2,
    "refusals/no_object": 0,
    "refusals/denied": 1,
    "refusals/no_memory": 0,
}
# The same as text, but for the times, the memory and the cells, where so many connections were accepted.
TEXT = """\
info{version="0.1.0"} 1
accepted_total 3
turned_away_total 0
open_connections 1
connections{state="greeting"} 0
connections{state="welcomed"} 1
connections{state="leaving"} 0
principal_connections{who="7"} 1
address_connections{address="127.0.0.1"} 1
failed_logins_total 2
foreign_logins_total 1
failed_logins{who="7"} 1
replies_total 2
refusals_total{kind="denied"} 1
refusals_total{kind="no_object"} 0
refusals_total{kind="no_memory"} 0
journal_start 1
journal_fails 0
window_seconds 0.100
"""
# A line of figures: a name, labels, and a number.
FIGURE = re.compile(r'visorgal_([a-z_]+)(\{[a-z]+="[^"\\\n]*"\})? (\d+(?:\.\d{3})?)')
# Who isn't among the logins.
STRANGER = hello(4294967294, 1, SECRETS[7])
# How often the status is read at least while the server writes it, and how long it rests in between, in seconds.
READ, REST = 100, 0.02
# First moments, and the greatest moments that a clock may then tell within a minute.
MOMENTS = ((0, 60000), (1764115200000, 1764115260000), (9223372036854775807, 9223372036854835807))


def at(status, place):
    """What stands at a place of the status, or none."""
    try:
        return functools.reduce(lambda it, name: it[int(name) if isinstance(it, list) else name], place.split("/"), status)
    except (LookupError, TypeError):
        return None


class Status(unittest.TestCase):
    """Servers that tell of themselves in a file, each second."""

    def test_what_a_server_tells_of_itself_is_whole_at_each_time(self):
        with Server(workers=2, connections=0, idle=60000, hello=60000) as server, server.welcomed(HELLO) as seven:
            seven.sendall(CREATE + FOREIGN_WRITE)
            self.assertEqual(exactly(seven, 20), MADE + WRITE_DENIED)
            with server.connect():
                self.assertEqual([server.tell(it) for it in (WRONG_HELLO, STRANGER)], [BAD_LOGIN] * 2)
                self.read_often(server)
                server.ask_to_end()
            server.check_end(self, (2, 2))

    def read_often(self, server):
        """Reads the status often, while that is written anew. Each time it has to be whole, and at the end it tells what is wanted."""
        last, read, told = time.monotonic() + 60, 0, None
        while read < READ or told != WANTED or len(status["cells"]) != 2:
            self.assertLess(time.monotonic(), last, told)
            time.sleep(REST)
            status = server.status()
            if status is not None:
                read, told = read + 1, {place: at(status, place) for place in WANTED}

    def check_written_beside(self, put):
        """That the status is written anew where something else was put beside it, under the name of the file that takes its place."""
        with Server(connections=0) as server:
            until(lambda: server.status() is not None, "the status is there")
            told = server.status()
            put(server.folder)
            until(lambda: server.status()["moment"] > told["moment"] + 2000, "the status is written anew")
            self.assertFalse((server.folder / "status.new").is_fifo())
            server.ask_to_end()
            server.check_end(self, (0, 0))

    def test_a_pipe_beside_the_status_is_not_opened(self):
        self.check_written_beside(lambda folder: os.mkfifo(folder / "status.new"))

    def test_a_link_beside_the_status_is_not_followed(self):
        with tempfile.TemporaryDirectory() as room:
            other = Path(room, "other")
            other.write_text("another's", encoding="utf-8")
            self.check_written_beside(lambda folder: os.symlink(other, folder / "status.new"))
            self.assertEqual(other.read_text(encoding="utf-8"), "another's")

    def test_a_clock_begins_at_its_first_moment(self):
        for first, most in MOMENTS:
            with self.subTest(first=first), Server(first_moment=first) as server:
                until(lambda: server.status() is not None, "the status is there")
                moment = server.status()["moment"]
                self.assertTrue(first <= moment <= most, moment)
                self.assertIn(moment, server.moments())
                server.ask_to_end()
                server.check_end(self, (0, 0))

    def figures(self, path):
        """The lines of figures in a file of --status-text, each behind what it is."""
        name, told = None, []
        for line in path.read_text(encoding="utf-8").splitlines():
            if line.startswith("# HELP "):
                name = re.fullmatch(r"# HELP visorgal_([a-z_]+) \S.*\.", line)[1]
            elif line.startswith("# TYPE "):
                self.assertEqual(line, f"# TYPE visorgal_{name} {'counter' if name.endswith('_total') else 'gauge'}")
            else:
                figure = FIGURE.fullmatch(line)
                self.assertTrue(figure and figure[1] == name, line)
                told.append(line.removeprefix("visorgal_"))
        self.assertEqual(len(told), len({it.rsplit(" ", 1)[0] for it in told}))
        return told

    def test_the_same_is_told_as_text(self):
        with Server("--status-text", "figures", connections=0, idle=60000, hello=60000, keeps=True) as server, server.welcomed(HELLO) as seven:
            seven.sendall(CREATE + FOREIGN_WRITE)
            self.assertEqual(exactly(seven, 20), MADE + WRITE_DENIED)
            self.assertEqual([server.tell(it) for it in (WRONG_HELLO, STRANGER)], [BAD_LOGIN] * 2)
            path = server.folder / "figures"
            until(lambda: path.exists() and set(TEXT.splitlines()) <= set(self.figures(path)), "the text has what happened")
            for name in ("start_time_seconds", "logins_time_seconds"):
                told = next(it for it in self.figures(path) if it.startswith(name))
                self.assertLess(abs(float(told.split()[1]) - time.time()), 120)
            behind = next(it for it in self.figures(path) if it.startswith("journal_behind_seconds"))
            self.assertLess(float(behind.split()[1]), 60)
            server.ask_to_end()
            server.check_end(self, (2, 2), errors="(s4d: journal: .*\n)*")

    def test_a_status_is_private_unless_its_file_was_not(self):
        with tempfile.TemporaryDirectory() as room:
            public = Path(room, "public")
            public.touch()
            public.chmod(0o644)
            with Server("--status-text", public, connections=0) as server:
                until(lambda: server.status() is not None and public.stat().st_size > 0, "both are written")
                self.assertEqual(stat.S_IMODE((server.folder / "status").stat().st_mode), 0o600)
                self.assertEqual(stat.S_IMODE(public.stat().st_mode), 0o644)
                server.ask_to_end()
                server.check_end(self, (0, 0))

    def test_a_link_beside_a_file_is_not_followed_at_the_start(self):
        with tempfile.TemporaryDirectory() as room:
            other = Path(room, "other")
            other.write_text("another's", encoding="utf-8")
            os.symlink(other, Path(room, "figures.new"))
            with Server("--status-text", Path(room, "figures"), connections=0) as server:
                until(lambda: Path(room, "figures").exists(), "the text is written")
                self.assertEqual(other.read_text(encoding="utf-8"), "another's")
                server.ask_to_end()
                server.check_end(self, (0, 0))

    def test_lines_on_standard_error_begin_with_the_time(self):
        with Server("--log-times", connections=0, keeps=True) as server:
            until(server.status, "the server looks after its files")
            server.write("logins", "7 is a good principal\n")
            until(lambda: server.errors(), "the server tells that its logins are bad")
            server.ask_to_end()
            time_of_day = r"\d{4}-\d\d-\d\dT\d\d:\d\d:\d\d\.\d{3}Z"
            server.check_end(self, (0, 0), errors=f"{time_of_day} s4d: logins line 1: logins: one space stands between principal and secret, and no other\n({time_of_day} s4d: journal: start 1 .*\n){{3}}")
            told = server.errors()[:23]
            self.assertLess(abs(datetime.fromisoformat(told + "+00:00").timestamp() - time.time()), 120)
