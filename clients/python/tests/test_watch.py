"""The page of a drive's status."""
import fcntl
import io
import json
import os
import struct
import subprocess
import sys
import tempfile
import termios
import time
import unittest
from pathlib import Path

from visorgal.status import NoStatus, Status
from visorgal.watch import Reading, page, watch

CONNECTIONS = {"accepted": 3, "turned_away": 0, "open": 2, "greeting": 1, "welcomed": 1, "leaving": 0}
JOURNAL = {"start": 3, "bytes": 2_000_000, "sum": "00", "calls": {"bytes": 12, "sum": "00"}, "connections": {"bytes": 0, "sum": "00"}, "fails": False}
TOLD = {
    "moment": 10_000,
    "port": 4710,
    "resident_bytes": 12_345_678,
    "connections": CONNECTIONS,
    "failed_logins": {"all": 4, "others": 1, "principals": [{"who": 9, "count": 1}, {"who": 7, "count": 3}]},
    "records": 1200,
    "values": 3,
    "cells": [{"records": 1200, "values": 3, "last": 9_500, "horizon": 0}],
    "replies": 1000,
    "refusals": {"denied": 12, "no_object": 0, "no_memory": 0},
    "journal": JOURNAL,
}
ALONE = [
    "port 4710, moment 10000",
    "records        1,200, 3 values",
    "replies        1,000",
    "memory         12.3 MB",
    "connections    2 open: 1 not welcomed, 1 welcomed, 0 leaving",
    "               3 let in ever, 0 turned away",
    "failed logins  7: 3, 9: 1, others: 1",
    "refused        denied 12",
    "journal        start 3: records 2.0 MB, calls 12 bytes, connections 0 bytes",
    "cell 0         1,200 records, 3 values, the newest 0.5 s ago",
]
# What is told two seconds later, and of that what wants a look and what has a rate.
LATER = {
    "moment": 12_000,
    "resident_bytes": 12_345_600,
    "connections": CONNECTIONS | {"accepted": 5, "turned_away": 1},
    "failed_logins": {"all": 9, "others": 1, "principals": [{"who": 7, "count": 8}]},
    "records": 3200,
    "replies": 3001,
    "refusals": {"denied": 12, "no_object": 0, "no_memory": 4},
    "journal": JOURNAL | {"bytes": 5_000_000, "fails": True},
}
WARNINGS = [
    "! the journal can't be written",
    "! failed logins: 4 more",
    "! requests are refused for want of memory",
    "! connections are turned away",
]
RATES = [
    "records        3,200 (+1,000.0/s), 3 values",
    "replies        3,001 (+1,000.5/s)",
    "memory         12.3 MB (-39 bytes/s)",
    "refused        denied 12 (+0.0/s)",
    "               no_memory 4 (+2.0/s)",
    "journal        start 3: records 5.0 MB (+1.5 MB/s), calls 12 bytes, connections 0 bytes",
]


def status(**changes):
    return Status.of(TOLD | changes)


class Pages(unittest.TestCase):
    def test_a_status_alone_has_no_rates(self):
        self.assertEqual(page(Reading(status(), 0.5)), ALONE)

    def test_two_of_one_start_have_rates_and_what_wants_a_look_stands_first(self):
        lines = page(Reading(status(**LATER), 0.5), status())
        self.assertEqual(lines[:4], WARNINGS)
        self.assertEqual([line for line in lines if "/s)" in line], RATES)

    def test_another_start_has_none(self):
        for before in (status(moment=20_000), status(replies=1001), status(connections=CONNECTIONS | {"accepted": 4})):
            self.assertEqual(page(Reading(status(), 0.5), before), ALONE)

    def test_an_old_one_is_told(self):
        self.assertEqual(page(Reading(status(), 3600)), ["! this is 3,600 s old: the drive ended, hangs, or can't write it", *ALONE])

    def test_what_isnt_there_is_told(self):
        lines = page(Reading(status(resident_bytes=None, journal=None, failed_logins={"all": 0, "others": 0, "principals": []}, refusals={}), 0))
        self.assertEqual([lines[3], *lines[6:9]], ["memory         not told", "failed logins  none", "refused        none", "journal        none is kept"])

    def test_many_principals_are_told_by_the_most(self):
        many = [{"who": who, "count": who} for who in range(1, 21)]
        (line,) = (it for it in page(Reading(status(failed_logins={"all": 210, "others": 0, "principals": many}), 0)) if it.startswith("failed"))
        self.assertEqual(line, "failed logins  20: 20, 19: 19, 18: 18, 17: 17, 16: 16, 15: 15, 14: 14, 13: 13, 12 more principals")


class Files(unittest.TestCase):
    def setUp(self):
        room = tempfile.TemporaryDirectory()
        self.addCleanup(room.cleanup)
        self.path = Path(room.name) / "status"

    def pages(self, times):
        out = io.StringIO()
        watch(self.path, out, 0, times)
        return out.getvalue()

    def test_what_is_no_status_is_told_and_it_goes_on(self):
        whole = json.dumps(TOLD)
        lacking = {name: it for name, it in TOLD.items() if name != "cells"}
        cases = (
            (None, "No such file or directory"),
            ("", "it is no line of JSON"),
            (whole[: len(whole) // 2], "it is no line of JSON"),
            (b"\xff", "it is no line of JSON"),
            ("7", "'int' object is not subscriptable"),
            (json.dumps(lacking), "it has no 'cells'"),
            (json.dumps(TOLD | {"records": "\x1b[H"}), r"'\x1b[H' is no number"),
            (json.dumps(TOLD | {"replies": True}), "True is no number"),
        )
        for text, why in cases:
            with self.subTest(text=text):
                if text is not None:
                    self.path.write_bytes(text if isinstance(text, bytes) else text.encode())
                with self.assertRaises(NoStatus):
                    Status.read(self.path)
                self.assertEqual(self.pages(2), f"! {self.path}: {why}\n\n! {self.path}: {why}\n")

    def test_a_terminal_is_drawn_over_and_no_line_is_longer(self):
        self.path.write_text(json.dumps(TOLD), encoding="utf-8")
        for columns, lines in ((0, ALONE), (20, [line[:20] for line in ALONE])):
            above, below = os.openpty()
            fcntl.ioctl(below, termios.TIOCSWINSZ, struct.pack("4H", 24, columns, 0, 0))
            with os.fdopen(above, "rb", 0) as seen, os.fdopen(below, "w") as out:
                watch(self.path, out, 0, 1)
                wanted, came = "\x1b[H\x1b[J" + "".join(f"{line}\r\n" for line in lines), b""
                while len(came) < len(wanted):
                    came += seen.read(4096)
                self.assertEqual(came.decode(), wanted)

    def test_names_of_a_later_drive_are_passed_over(self):
        self.path.write_text(json.dumps(TOLD | {"window": 7}), encoding="utf-8")
        self.assertEqual(Status.read(self.path), status())

    def test_how_old_it_is_counts_from_when_it_was_written(self):
        self.path.write_text(json.dumps(TOLD), encoding="utf-8")
        self.assertLess(Reading.of(self.path).age, 60)
        os.utime(self.path, (time.time() - 600,) * 2)
        self.assertTrue(600 <= Reading.of(self.path).age < 660)

    def test_the_command_writes_pages_and_ends_where_nobody_reads_on(self):
        self.path.write_text(json.dumps(TOLD), encoding="utf-8")
        # (so that it isn't old, however slow the machine is)
        os.utime(self.path, (time.time() + 3600,) * 2)
        words = [sys.executable, "-m", "visorgal", "watch", str(self.path)]
        where = {"cwd": Path(__file__).resolve().parent.parent / "src", "text": True, "stdout": subprocess.PIPE, "stderr": subprocess.PIPE}
        once = subprocess.run([*words, "--once"], **where, check=True)
        self.assertEqual((once.stdout, once.stderr), ("\n".join([*ALONE, ""]), ""))
        with subprocess.Popen([*words, "--every", "0.1"], **where) as process:
            self.assertEqual(process.stdout.readline(), ALONE[0] + "\n")
            process.stdout.close()
            self.assertEqual((process.stderr.read(), process.wait(60)), ("", 0))
        for every in ("0", "x", "nan", "-1", "1e9"):
            wrong = subprocess.run([*words, "--every", every], **where)
            self.assertEqual(wrong.returncode, 2)
            self.assertIn("a time is 0.1 to 3600 seconds", wrong.stderr)
