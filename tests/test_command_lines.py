"""What command lines are told that ask for texts, or that spell no command; and what runs, halls, strikes and histories are asked by their words."""
import subprocess
import tempfile
import unittest
from pathlib import Path

from tests import helps
from tests.command_lines import CALLERS, FLAGS, NO_TEXT, PRINCIPALS, REQUESTS, VALUES, WORDS
from tests.journals import Kept, creation, journal, json_of, row_of
from tests.program import PROGRAM, SECONDS

# What is told behind most faults.
AFTER = "\n\nFor more information, try '--help'."
TEXTS = {
    "--help": helps.HELP,
    "help": helps.HELP,
    "run|--help": helps.RUN_HELP,
    "help|run": helps.RUN_HELP,
    "hall|--help": helps.HALL_HELP,
    "strike|--help": helps.STRIKE_HELP,
    "help|strike": helps.STRIKE_HELP,
    "check|--help": helps.CHECK_HELP,
    "serve|--help": helps.SERVE_HELP,
    "call|--help": helps.CALL_HELP,
    "history|--help": helps.HISTORY_HELP,
    "--version": "s4d 0.1.0\n",
    "-V": "s4d 0.1.0\n",
}


class Words(unittest.TestCase):
    maxDiff = None

    def check(self, words, written, fault, status, given=b"", folder=None):
        """That so is written and told of these words, with a `|` between each two, and that the program, called by its name, ends with that status."""
        with self.subTest(words=words):
            spelled = ["s4d", *(words.split("|") if words else [])]
            ran = subprocess.run(spelled, executable=PROGRAM, input=given, capture_output=True, cwd=folder, timeout=SECONDS)
            self.assertEqual((ran.stdout.decode(), ran.stderr.decode(), ran.returncode), (written, fault, status))


class Told(Words):
    """Command lines that ask for a text, or spell nothing."""

    def check_refused(self, rows):
        for words, wanted in rows.items():
            self.check(words, "", f"s4d: error: {wanted}{AFTER}\n", 2)

    def test_texts_that_are_asked_for(self):
        for words, wanted in TEXTS.items():
            self.check(words, wanted, "", 0)

    def test_words_that_are_too_few_or_too_many(self):
        self.check_refused(WORDS)

    def test_words_that_are_no_text(self):
        for words, wanted in NO_TEXT.items():
            self.check(words, "", f"s4d: error: {wanted}\n", 2)

    def test_principals_that_nobody_is(self):
        self.check_refused(PRINCIPALS)

    def test_flags_that_are_out_of_bounds(self):
        self.check_refused(FLAGS)

    def test_flags_without_a_value(self):
        self.check_refused(VALUES)

    def test_calls_of_nobody(self):
        self.check_refused(CALLERS)

    def test_calls_of_no_request(self):
        for words, wanted in REQUESTS.items():
            self.check(words, "", f"s4d: bad request: {wanted}\n", 1)


class Spelled(Words):
    """Command lines that spell a command, which is carried out."""

    def test_a_run(self):
        self.check("run", "made 7.0.1\n", "", 0, b"window 1\n1 7 create 0\n")

    def test_logins_that_are_named(self):
        # Of three files each has the login of another principal.
        files = {"first.logins": 7, "a folder/second": 8, "-": 9}
        with tempfile.TemporaryDirectory() as folder:
            Path(folder, "a folder").mkdir()
            for name, who in files.items():
                Path(folder, name).write_text(f"{who} 000102030405060708090a0b0c0d0e0f\n")
            hellos = [f"0000001a0001{who:08x}00000001000102030405060708090a0b0c0d0e0f" for who in files.values()]
            arrivals = "".join(f"5 {conn} {hello}\n" for conn, hello in enumerate(hellos, 7))
            for name, who in files.items():
                sent = "".join(f"{conn} {'000000021001' if conn == who else '000000021102'}\n" for conn in files.values())
                self.check(f"hall|{name}", sent, "", 0, f"window 1\n{arrivals}".encode(), folder)

    def test_principals_that_are_named(self):
        lines = {who: f"1 {who} create 0\n" for who in (1, 9, 4294967294)}
        for who, line in lines.items():
            self.check(f"strike|{who}", f"window 5\n{line}", "", 0, f"window 5\n{''.join(lines.values())}".encode())

    def test_histories_that_are_named(self):
        # The start of number 3 has records at 4, 5, 9 and 10, and the newest one has another.
        moments = (4, 5, 9, 10)
        third, _ = journal(1, (0, *(creation(moment, 7, serial=serial) for serial, moment in enumerate(moments, 1))))
        newest, _ = journal(1, (0, creation(6, 8)))
        lines = [f"{place} 0 {place} {moment} 7 0 create 0 -> made 7.0.{place + 1}\n" for place, moment in enumerate(moments)]
        with Kept(third, number=3) as kept:
            (kept.folder / "4").mkdir()
            for name, content in (("records", newest), ("calls", b""), ("connections.jsonl", b"")):
                (kept.folder / "4" / name).write_bytes(content)
            kept.folder.rename(Path(kept.room.name, "a folder"))
            last = "0 0 0 6 8 0 create 0 -> made 8.0.1\n"
            self.check("history|list|a folder", last, "", 0, folder=kept.room.name)
            both = f"start 3\n{''.join(lines)}start 4\n{last}"
            self.check("history|list|a folder|--start|all", both, "", 0, folder=kept.room.name)
            self.check("history|list|a folder|--start|3|--from|5|--to|9", "".join(lines[1:3]), "", 0, folder=kept.room.name)
            row = row_of(0, (0, 0), 6, 8, "create 0", "made 8.0.1", start=4, object="8.0.1", purse="8.0")
            self.check("history|list|--json|a folder", json_of(row), "", 0, folder=kept.room.name)


if __name__ == "__main__":
    unittest.main()
