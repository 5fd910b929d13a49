"""What `serve --check` tells of files and flags, without a server."""
import tempfile
import unittest
from pathlib import Path

from tests.program import Ended, run
from tests.serving import LOGINS, Server
from tests.test_starts import FILES, SETUPS


class Checks(unittest.TestCase):
    """Checks in a folder with logins, of an address that nobody could have."""

    def setUp(self):
        self.room = tempfile.TemporaryDirectory()
        self.addCleanup(self.room.cleanup)
        self.folder = Path(self.room.name)
        (self.folder / "logins").write_text(LOGINS, encoding="utf-8")
        (self.folder / "logins").chmod(0o600)

    def checked(self, *words, logins="logins"):
        return run(["serve", "nowhere", logins, "--check", *words], folder=self.folder)

    def check_fault(self, wanted, *words, **given):
        self.assertEqual(self.checked(*words, **given), Ended(1, b"", f"s4d: {wanted}\n".encode()))

    def test_what_is_well_is_told_in_a_line_and_leaves_nothing(self):
        (self.folder / "setup").write_text("7 create 0\n0 setbudget 7.0 100\n", encoding="utf-8")
        there = sorted(self.folder.iterdir())
        words = ["--setup", "setup", "--status", "status", "--status-text", "text", "--journal", "kept/here", "--until", "end"]
        self.assertEqual(self.checked(*words), Ended(0, b"would listen nowhere\n", b""))
        self.assertEqual(self.checked(), Ended(0, b"would listen nowhere\n", b""))
        self.assertEqual([it.name for it in sorted(self.folder.rglob("*")) if it not in there], ["kept"])

    def test_a_bad_setup_is_told(self):
        for text, wanted in SETUPS:
            with self.subTest(setup=text):
                (self.folder / "setup").write_text(text, encoding="utf-8")
                self.check_fault(wanted.removeprefix("s4d: "), "--setup", "setup")

    def test_files_that_cannot_be_had_are_told(self):
        for setup, status, wanted in FILES:
            with self.subTest(wanted):
                self.check_fault(wanted.removeprefix("s4d: "), "--setup", setup, *["--status", status] * bool(status))

    def test_bad_logins_are_told(self):
        (self.folder / "bad").write_text(LOGINS + "9 00\n", encoding="utf-8")
        (self.folder / "bad").chmod(0o600)
        self.check_fault("logins line 3: bad: a secret has 32 digits", logins="bad")
        self.check_fault("cannot read logins: missing: No such file or directory", logins="missing")
        (self.folder / "logins").chmod(0o620)
        self.check_fault("others may write the logins: logins: its mode is 620")

    def test_the_file_that_ends_it_is_told(self):
        (self.folder / "end").touch()
        self.check_fault("the file of --until is there already", "--until", "end")

    def test_the_folder_of_a_journal_is_told(self):
        (self.folder / "other").mkdir()
        (self.folder / "other" / "something").touch()
        self.check_fault("no folder of journals: other", "--journal", "other")
        (self.folder / "open").mkdir()
        (self.folder / "open").chmod(0o777)
        self.check_fault("others may write into open", "--journal", "open")
        self.check_fault("cannot write logins/kept: Not a directory", "--journal", "logins/kept")

    def test_the_journal_of_a_server_that_serves_is_held(self):
        with Server(keeps=True, connections=0) as server:
            kept = server.folder / "journal"
            self.check_fault(f"another server keeps its journal in {kept}", "--journal", kept)
            before = sorted(it.name for it in kept.iterdir())
            server.kill()
        self.assertIn("1", before)

    def test_a_journal_that_nobody_holds_is_left_as_it_is(self):
        with Server(keeps=True, connections=0) as server:
            kept = server.folder / "journal"
            server.process.kill()
            server.process.wait()
            before = sorted(it.name for it in kept.rglob("*"))
            self.assertEqual(self.checked("--journal", kept), Ended(0, b"would listen nowhere\n", b""))
            self.assertEqual(sorted(it.name for it in kept.rglob("*")), before)

    def test_flags_are_looked_at_first(self):
        ran = self.checked("--cells", "17", logins="missing")
        self.assertEqual((ran.status, ran.out), (2, b""))
