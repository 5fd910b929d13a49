"""Lists of chosen records: each flag leaves those lines of the whole list that fit it, with their numbers; and the forms of a line."""
import csv
import io
import json
import subprocess
import unittest
from struct import pack

from tests.journals import DONE, KEYS, Chain, Kept, call, create, creation, header, json_of, object_of, record, row_of, setting, write
from tests.program import PROGRAM, SECONDS

# The milliseconds since 1970 at 2026-11-29T10:03 in UTC, which is moment 5, the first of the start.
WALL = 1795946580000
ADMIN = b"\x00"
NAMED = b"\x04home" + object_of(2)
# A page of two names, and what a list has of it.
PAGE = b"\x06\x02" + (NAMED + ADMIN) + (b"\x02up" + object_of(2, serial=2) + ADMIN) + b"\x01"
PAGE_TEXT = "names 2 more; name home 2.0.1 by admin; name up 2.0.2 by admin"
READ = b"\x03" + object_of(2) + pack(">IIB", 0, 1, 0)
# Each record with its cell of two, by which connection it came, and what a list has of it.
OWN = {"object": "2.0.1", "purse": "2.0"}
RECORDS = [
    (0, 1, creation(5, 2), row_of(0, (0, 0), 5, 2, "create 0", "made 2.0.1", **OWN)),
    (0, 1, record(6, 2, write(b"a"), DONE, client=9), row_of(1, (0, 1), 6, 2, "write 2.0.1 0 61", "done", client=9, **OWN)),
    (0, 1, record(6, 2, b"\x0c" + NAMED, DONE), row_of(2, (0, 2), 6, 2, "pcreate home 2.0.1", "done", name="home", **OWN)),
    (0, 2, record(7, 3, READ, b"\x08\x01\x01", version=2), row_of(3, (0, 3), 7, 3, "read 2.0.1 0 1", "denied read", version=2, refused=True, **OWN)),
    (1, 2, creation(7, 3, number=1), row_of(4, (1, 0), 7, 3, "create 1", "made 3.1.1", object="3.1.1", purse="3.1")),
    (0, 2, record(8, 3, b"\x02" + object_of(2), b"\x08\x01\x04"), row_of(5, (0, 4), 8, 3, "delete 2.0.1", "denied delete", refused=True, **OWN)),
    (0, 3, record(8, 0, b"\x0e" + pack(">IBB", 2, 0, 0), PAGE), row_of(6, (0, 5), 8, 0, "plist 2", PAGE_TEXT)),
    (0, 3, record(9, 0, b"\x0f" + pack(">IB", 2, 0) + b"\x04home\x00", b"\x05\x00" + object_of(2)), row_of(7, (0, 6), 9, 0, "pmount 2.0 home", "mounted 2.0.1 by admin", name="home", **OWN)),
    (0, 3, setting(9), row_of(8, (0, 7), 9, 0, "setwindow 4", "done")),
    (1, 3, setting(9), None),
    (0, 3, record(10, 0, b"\x11" + object_of(2) + pack(">QQ", 1, 2), DONE), row_of(9, (0, 8), 10, 0, "flusho 2.0.1 1 2", "done", **OWN)),
]
PEERS = {1: "127.0.0.1:50001", 2: "127.0.0.5:50002", 3: "[::1]:50003"}


def rows():
    """What the list has as a whole."""
    known = ((connection, row) for _, connection, _, row in RECORDS if row)
    return [row | {"wall": WALL + row["moment"] - 5, "connection": connection, "peer": PEERS[connection]} for connection, row in known]


def kept():
    """A folder with these records, in blocks that aren't in the order of the moments, and with their calls and connections."""
    front, first = header(2, first=5, wall=WALL)
    by_cell = {cell: [bytes_of for number, _, bytes_of, _ in RECORDS if number == cell] for cell in (1, 0)}
    chain = Chain(first)
    records = front + first + b"".join(chain.batch(cell, *records) for cell, records in by_cell.items())
    calls = [call(row["cell"], row["place"], connection) for _, connection, _, row in RECORDS if row]
    opened = [f'{{"connection":{number},"peer":"{peer}","wall":{WALL},"moment":5,"event":"opened"' for number, peer in PEERS.items()]
    return Kept(records, Chain(first).calls(0, calls), Chain(first).lines(*opened))


def lines_of(chosen):
    """The lines of these rows."""
    keys = ("n", "cell", "place", "moment", "who", "client", "ask")
    return "".join(f"{' '.join(str(row[key]) for key in keys)} -> {row['reply']}\n" for row in chosen)


def field_of(value):
    """A value as a field of CSV has it."""
    return "" if value is None else str(value).lower() if isinstance(value, bool) else str(value)


def is_change(row):
    return not row["refused"] and row["verb"] in ("create", "write", "pcreate", "setwindow", "flusho")


# Flags, and which rows fit them.
FLAGS = {
    "--who 2": lambda row: row["who"] == 2,
    "--who 0": lambda row: row["who"] == 0,
    "--client 9": lambda row: row["client"] == 9,
    "--connection 2": lambda row: row["connection"] == 2,
    "--peer 127.0.0.5": lambda row: row["connection"] == 2,
    "--peer 127.0.0.5:50002": lambda row: row["connection"] == 2,
    "--peer 127.0.0.5:50001": lambda row: False,
    "--peer ::ffff:127.0.0.1": lambda row: row["connection"] == 1,
    "--peer ::1": lambda row: row["connection"] == 3,
    "--peer [::1]:50003": lambda row: row["connection"] == 3,
    "--object 2.0.1": lambda row: row["object"] == "2.0.1",
    "--object 2.0": lambda row: row["purse"] == "2.0",
    "--object 2": lambda row: row["purse"] == "2.0" or row["verb"] == "plist",
    "--object 3": lambda row: row["purse"] == "3.1",
    "--object 0": lambda row: False,
    "--verb create": lambda row: row["verb"] == "create",
    "--verb acl-user": lambda row: False,
    "--refused": lambda row: row["refused"],
    "--changes": is_change,
    "--reads": lambda row: row["verb"] in ("read", "plist", "pmount"),
    "--reads --refused": lambda row: row["verb"] == "read",
    "--from 8": lambda row: row["moment"] >= 8,
    "--to 8": lambda row: row["moment"] <= 8,
    "--from 7 --to 8": lambda row: 7 <= row["moment"] <= 8,
    "--from 2026-11-29T10:03": lambda row: True,
    "--from 2026-11-29T10:03:00.002": lambda row: row["moment"] >= 7,
    "--to 2026-11-29T10:03:00.002": lambda row: row["moment"] <= 7,
    "--to 2026-11-29T10:03": lambda row: row["moment"] <= 5,
    "--to 2026-11-29T10:02:59.999": lambda row: False,
    "--from 2026-11-29T10:04": lambda row: False,
    "--from 1970-01-01T00:00 --to 9999-12-31T23:59:59.999": lambda row: True,
    "--who 3 --object 2.0.1 --refused --verb delete --peer 127.0.0.5": lambda row: row["n"] == 5,
}


class Filters(unittest.TestCase):
    maxDiff = None

    def setUp(self):
        self.kept = kept()
        self.addCleanup(self.kept.room.cleanup)

    def check(self, text, *flags):
        told = self.kept.tell("list", *flags)
        self.assertEqual((told.fault, told.text), ("", text), flags)

    def test_all_records_are_listed_in_one_order(self):
        self.check(json_of(*rows()), "--json")
        self.check(lines_of(rows()))
        script = self.kept.tell("script").lines[1:]
        self.assertEqual([line.split(" ", 2)[2] for line in script], [row["ask"] for row in rows()])

    def test_each_flag_leaves_what_fits_it(self):
        for flags, fits in FLAGS.items():
            chosen = [row for row in rows() if fits(row)]
            self.check(json_of(*chosen), "--json", *flags.split(" "))
            self.check(lines_of(chosen), *flags.split(" "))

    def test_lists_are_written_as_csv(self):
        for flags in ([], ["--changes"]):
            chosen = [row for row in rows() if not flags or is_change(row)]
            told = self.kept.tell("list", "--csv", *flags)
            self.assertEqual(told.lines[0], ",".join(KEYS))
            read = list(csv.DictReader(io.StringIO(told.text)))
            self.assertEqual(read, [{key: field_of(value) for key, value in row.items()} for row in chosen])

    def test_all_starts_are_told(self):
        self.kept.start.rename(self.kept.folder / "1")
        with kept() as other:
            other.start.rename(self.kept.folder / "12")
        self.check(f"start 1\n{lines_of(rows())}start 12\n{lines_of(rows())}", "--start", "all")
        both = [row | {"start": number} for number in (1, 12) for row in rows() if row["refused"]]
        self.check(json_of(*both), "--start", "all", "--json", "--refused")
        self.check(json_of(*both[2:]), "--json", "--refused")
        self.check(json_of(*both[:2]), "--start", 1, "--json", "--refused")

    def test_spans_of_scripts_are_times_of_the_day_too(self):
        told = self.kept.tell("script", "--from", "2026-11-29T10:03:00.004", "--to", "2026-11-29T10:03:00.005")
        self.assertEqual(told.text, "window 10\n9 0 pmount 2.0 home\n9 0 setwindow 4\n10 0 flusho 2.0.1 1 2\n")

    def test_a_peer_that_is_no_address_is_told_as_it_stands(self):
        # Only a file that somebody made has one, under sums of its own.
        front, first = header(1)
        chain, line = Chain(first), json.dumps({"connection": 1, "peer": 'a "b", c', "event": "opened"})
        with Kept(front + first + chain.batch(0, creation(5, 2)), Chain(first).calls(0, [call(0, 0, 1)]), Chain(first).lines(line[:-1])) as it:
            self.assertEqual(json.loads(it.tell("list", "--json").text)["peer"], 'a "b", c')
            self.assertEqual(next(csv.DictReader(io.StringIO(it.tell("list", "--csv").text)))["peer"], 'a "b", c')
            self.assertEqual(it.tell("list", "--peer", "127.0.0.1").text, "")


class Outputs(unittest.TestCase):
    def test_an_output_that_is_taken_in_part_ends_well(self):
        # More than a pipe holds.
        front, first = header(1)
        many = [creation(5, 2, serial=1 + number % 60000) for number in range(30)]
        chain = Chain(first)
        with Kept(front + first + b"".join(chain.batch(0, *many) for _ in range(200))) as it:
            for words in (["list"], ["list", "--json"], ["list", "--csv"], ["script"]):
                ran = subprocess.Popen([PROGRAM, "history", words[0], it.folder, *words[1:]], stdout=subprocess.PIPE, stderr=subprocess.PIPE, stdin=subprocess.DEVNULL)
                self.assertTrue(ran.stdout.readline())
                ran.stdout.close()
                told = ran.stderr.read()
                self.assertEqual((ran.wait(SECONDS), told), (0, b""), words)
                ran.stderr.close()


if __name__ == "__main__":
    unittest.main()
