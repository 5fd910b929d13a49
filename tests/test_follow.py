"""Lists that follow a start (`s4d history list FOLDER --follow`): of journals that are written here piece by piece, and of a server's."""
import csv
import io
import json
import subprocess
import tempfile
import time
import unittest
from contextlib import contextmanager
from pathlib import Path

from tests import frames
from tests.journals import CALLS, KEYS, LINES, RECORDS, creation, setting, tell_of
from tests.program import PROGRAM, SECONDS, command
from tests.serving import Server, until
from tests.starts import NAMES, Folder, begun, chained, ended, event

# How long it is waited to see that nothing comes, in seconds: for more than two looks.
LOOKS = 2.5
# The lines of `begun`: its first piece, by moments, and its second one.
FIRST = ["0 0 5 2 0 create 0 -> made 2.0.1", "1 0 5 7 0 create 0 -> made 7.0.1", "1 1 6 7 0 create 0 -> made 7.0.2"]
SECOND = ["0 1 7 0 0 setwindow 4 -> done"]
# By which connection each of them came.
CONNECTIONS = [1, 2, 2, 3]


class Follower:
    """A list that follows a start of a folder."""

    def __init__(self, room, folder, *flags):
        self.room = tempfile.TemporaryDirectory(prefix="s4d-follow-")
        self.out = Path(self.room.name, "out")
        with open(self.out, "wb") as out:
            words = command(["history", "list", folder, "--follow", *flags])
            self.process = subprocess.Popen(words, cwd=room, stdin=subprocess.DEVNULL, stdout=out, stderr=subprocess.PIPE)

    def text(self):
        return self.out.read_text(encoding="utf-8")

    def lines(self):
        return self.text().splitlines()

    def end(self):
        """Its lines once it has ended, and what it says then beside them; its status has to fit that."""
        said = self.process.communicate(timeout=SECONDS)[1].decode()
        assert self.process.returncode == (1 if said else 0), (self.process.returncode, said)
        return self.lines(), said

    def close(self):
        self.process.kill()
        self.process.communicate()
        self.room.cleanup()


def grow(folder, start, *names):
    """Has files of a start go on up to what it has now, as a server does: records first, and lines last."""
    for name in names or NAMES:
        path = folder.folder / str(start.number) / name
        with open(path, "ab") as file:
            file.write(start.data(name)[path.stat().st_size :])


class Follows(unittest.TestCase):
    maxDiff = None

    @contextmanager
    def follow(self, *starts, flags=()):
        """A folder of these starts, and a list that follows one of them."""
        with Folder(*starts) as folder:
            follower = Follower(folder.room.name, folder.folder.name, *flags)
            try:
                yield folder, follower
            finally:
                follower.close()

    def has(self, follower, lines):
        """These lines come, and no others."""
        until(lambda: len(follower.lines()) >= len(lines), f"{len(lines)} lines are written")
        self.assertEqual(follower.lines(), lines)

    def stays(self, follower, lines):
        """These lines are there, no others come, and it goes on."""
        time.sleep(LOOKS)
        self.assertEqual((follower.lines(), follower.process.poll()), (lines, None))

    def ends(self, follower, lines, said=""):
        """It ends with these lines."""
        self.assertEqual(follower.end(), (lines, said))

    def test_a_start_that_ended_is_listed_piece_by_piece(self):
        with self.follow(ended()) as (_, it):
            self.ends(it, FIRST + SECOND)

    def test_a_start_that_goes_on_is_followed(self):
        start = begun()
        with self.follow(start) as (folder, it):
            self.has(it, FIRST + SECOND)
            # A piece whose records are earlier than others of the piece before, and in another order than their cells were walked.
            start.batch(1, creation(9, 7, serial=3), creation(10, 7, serial=4))
            start.batch(0, creation(6, 2, serial=2), creation(9, 2, serial=3))
            start.tell((1, 3, 2), (0, 2, 1), (1, 4, 2), (0, 3, 1))
            third = ["0 2 6 2 0 create 0 -> made 2.0.2", "0 3 9 2 0 create 0 -> made 2.0.3"]
            third += ["1 3 9 7 0 create 0 -> made 7.0.3", "1 4 10 7 0 create 0 -> made 7.0.4"]
            grow(folder, start)
            self.has(it, FIRST + SECOND + third)
            self.stays(it, FIRST + SECOND + third)
            grow(folder, start.end())
            self.ends(it, FIRST + SECOND + third)

    def test_records_come_once_their_piece_is_told(self):
        start = begun()
        with self.follow(start) as (folder, it):
            self.has(it, FIRST + SECOND)
            start.batch(0, creation(8, 2, serial=2))
            grow(folder, start)
            self.stays(it, FIRST + SECOND)
            start.tell((0, 2, 1))
            grow(folder, start)
            self.has(it, FIRST + SECOND + ["0 2 8 2 0 create 0 -> made 2.0.2"])

    def test_records_that_are_told_and_are_not_there_are_waited_for(self):
        start, more = begun(), ["0 2 8 2 0 create 0 -> made 2.0.2"]
        with self.follow(start) as (folder, it):
            self.has(it, FIRST + SECOND)
            start.batch(0, creation(8, 2, serial=2))
            start.tell((0, 2, 1))
            # Half of the block is there, and all of the calls.
            with open(folder.folder / "1" / RECORDS, "ab") as file:
                file.write(start.pieces[RECORDS][-1][:30])
            grow(folder, start, CALLS)
            self.stays(it, FIRST + SECOND)
            grow(folder, start)
            self.has(it, FIRST + SECOND + more)

    def test_a_newer_start_ends_it(self):
        first, second = chained(begun, begun)
        # A record that no piece has, and whose call isn't there; then it broke off.
        first.batch(0, creation(8, 2, serial=2))
        with self.follow(first) as (folder, it):
            self.has(it, FIRST + SECOND)
            self.stays(it, FIRST + SECOND)
            folder.put(second)
            self.ends(it, FIRST + SECOND + ["0 2 8 2 0 create 0 -> made 2.0.2"])

    def test_an_older_start_is_listed_and_over(self):
        with self.follow(*chained(begun, begun), flags=["--start", 1]) as (_, it):
            self.ends(it, FIRST + SECOND)

    def test_lines_of_json_and_of_csv_have_no_numbers(self):
        with self.follow(ended(), flags=["--json"]) as (folder, it):
            lines, said = it.end()
            rows = [json.loads(line) for line in lines]
            self.assertEqual((said, [list(row) for row in rows]), ("", [KEYS] * 4))
            self.assertEqual([row["n"] for row in rows], [None] * 4)
            self.assertEqual([row["connection"] for row in rows], CONNECTIONS)
            self.assertEqual([row["peer"] for row in rows], [f"127.0.0.1:5000{number}" for number in CONNECTIONS])
            # All else is as without the flag, where the order is the same here.
            plain = [json.loads(line) | {"n": None} for line in folder.tell("list", "--json").lines]
            self.assertEqual(rows, plain)
        with self.follow(ended(), flags=["--csv"]) as (_, it):
            lines, said = it.end()
            self.assertEqual((said, lines[0]), ("", ",".join(KEYS)))
            told = list(csv.DictReader(io.StringIO("\n".join(lines))))
            self.assertEqual([row["n"] for row in told], [""] * 4)
            self.assertEqual([row["connection"] for row in told], [str(number) for number in CONNECTIONS])

    def test_flags_leave_what_fits_them(self):
        lines = FIRST + SECOND
        chosen = {
            ("--who", 7): [1, 2],
            ("--connection", 1): [0],
            ("--connection", 9): [],
            ("--peer", "127.0.0.1:50002"): [1, 2],
            ("--peer", "127.0.0.2"): [],
            ("--from", 6): [2, 3],
            ("--changes",): [0, 1, 2, 3],
            ("--verb", "setwindow", "--connection", 3): [3],
        }
        for flags, places in chosen.items():
            with self.follow(ended(), flags=flags) as (_, it):
                self.ends(it, [lines[place] for place in places])

    def peers(self, follower, count):
        """By which connections and which peers so many records came, once they are written."""
        until(lambda: len(follower.lines()) >= count, f"{count} lines are written")
        rows = [json.loads(line) for line in follower.lines()]
        return [(row["connection"], row["peer"]) for row in rows]

    def test_a_piece_waits_for_lines_of_connections_for_one_look(self):
        start = begun(connections=(1, 2))
        known = [(number, f"127.0.0.1:5000{number}") for number in CONNECTIONS[:3]]
        with self.follow(start, flags=["--json"]) as (folder, it):
            # Nobody tells of connection 3.
            self.assertEqual(self.peers(it, 4), [*known, (3, None)])
            # The line of another one comes behind its call, which was seen by then or not.
            start.batch(0, creation(8, 2, serial=2))
            start.tell((0, 2, 4))
            grow(folder, start, RECORDS, CALLS)
            start.add(event(4, "opened"))
            grow(folder, start, LINES)
            self.assertEqual(self.peers(it, 5), [*known, (3, None), (4, "127.0.0.1:50004")])

    def test_files_may_go_on_in_others(self):
        start = begun()
        with self.follow(start) as (folder, it):
            self.has(it, FIRST + SECOND)
            sizes = {name: start.size(name) for name in NAMES}
            start.batch(0, creation(8, 2, serial=2))
            start.tell((0, 2, 1))
            start.end()
            # What stands in the old files behind that place counts for nothing.
            for name in (LINES, CALLS, RECORDS):
                (folder.folder / "1" / f"{name}-{sizes[name]}").write_bytes(start.data(name)[sizes[name] :])
                with open(folder.folder / "1" / name, "ab") as file:
                    file.write(b"lost")
            self.ends(it, FIRST + SECOND + ["0 2 8 2 0 create 0 -> made 2.0.2"])

    def test_what_is_no_block_ends_it(self):
        start = begun()
        with self.follow(start) as (folder, it):
            self.has(it, FIRST + SECOND)
            with open(folder.folder / "1" / CALLS, "ab") as file:
                file.write(bytes(40))
            self.ends(it, FIRST + SECOND, f"s4d: start 1: calls: byte {start.size(CALLS)}: no block\n")

    def test_an_output_that_is_taken_in_part_ends_well(self):
        start = begun()
        with Folder(start) as folder:
            words = [PROGRAM, "history", "list", folder.folder, "--follow"]
            with subprocess.Popen(words, stdin=subprocess.DEVNULL, stdout=subprocess.PIPE, stderr=subprocess.PIPE) as ran:
                self.assertEqual(ran.stdout.readline().decode(), f"{FIRST[0]}\n")
                ran.stdout.close()
                start.batch(0, setting(8))
                start.batch(1, setting(8))
                start.tell((0, 2, 1))
                grow(folder, start)
                self.assertEqual((ran.wait(SECONDS), ran.stderr.read()), (0, b""))


class Served(unittest.TestCase):
    def test_a_server_is_followed_to_its_end(self):
        with Server(keeps=True, connections=0, tells=False) as server:
            it = Follower(server.folder, "journal", "--json")
            try:
                for count, (hello, answer) in enumerate(((frames.HELLO, frames.ANSWER), (frames.OTHER_HELLO, frames.WELCOME + frames.OTHER_MADE)), 1):
                    self.assertEqual(server.tell(hello, frames.CREATE), answer)
                    until(lambda: len(it.lines()) == count, "the record is listed")
                server.end()
                lines, said = it.end()
            finally:
                it.close()
            rows, plain = [json.loads(line) for line in lines], tell_of(server.folder, "list", "journal", "--json")
            self.assertEqual((said, plain.fault), ("", ""))
            self.assertEqual(rows, [json.loads(line) | {"n": None} for line in plain.lines])
            self.assertEqual([(row["who"], row["verb"], row["connection"]) for row in rows], [(7, "create", 1), (8, "create", 2)])
            self.assertTrue(all(row["peer"].startswith("127.0.0.1:") for row in rows), rows)


if __name__ == "__main__":
    unittest.main()
