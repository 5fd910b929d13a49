"""A file of sums that a server adds to, each minute and at its end."""
import os
import re
import tempfile
import unittest
from pathlib import Path

from tests import frames
from tests.journals import RECORDS, read_start
from tests.program import run
from tests.serving import LOGINS, Server, until
from tools.lib.servers import address

# What else a server with a journal writes to standard error at its end.
TOLD = r"(s4d: journal: start [12] .*\n){3}"


class Sums(unittest.TestCase):
    def setUp(self):
        room = tempfile.TemporaryDirectory()
        self.addCleanup(room.cleanup)
        self.room = Path(room.name)
        self.sums = self.room / "sums"

    def serve(self, errors=TOLD):
        """What a server of the next start in the folder had, which was asked for a Create and ended, with such errors."""
        with Server("--journal", self.room / "kept", "--sums", self.sums, connections=0, tells=False) as server:
            yield server
            self.assertEqual(server.tell(frames.HELLO, frames.CREATE), frames.ANSWER)
            server.ask_to_end()
            server.closed(errors)

    def line_of(self, number):
        """The last line about a start."""
        written = read_start(self.room / "kept" / str(number))
        return f"{number} {written.bytes[RECORDS]} {written.sums[RECORDS].hex()}"

    def test_sums_are_added(self):
        for number in (1, 2):
            for _ in self.serve():
                until(lambda: re.search(f"^{number} ", self.sums.read_text(), re.MULTILINE), "a sum is there")
        lines = self.sums.read_text().splitlines()
        self.assertEqual(self.sums.stat().st_mode & 0o777, 0o600)
        for number in (1, 2):
            own = [line for line in lines if line.startswith(f"{number} ")]
            first = (self.room / "kept" / str(number) / RECORDS).read_bytes()[140:172].hex()
            # The first one comes at the begin, when there are no records yet.
            self.assertEqual((own[0], own[-1]), (f"{number} 172 {first}", self.line_of(number)))
        self.assertTrue(all(re.fullmatch("[12] [0-9]+ [0-9a-f]{64}", line) for line in lines), lines)
        self.assertEqual(lines, sorted(lines, key=lambda line: list(map(int, line.split(" ")[:2]))))

    def test_a_file_that_goes_away_is_made_again(self):
        for _ in self.serve():
            until(self.sums.read_text, "a sum is there")
            self.sums.unlink()
        self.assertEqual(self.sums.read_text().splitlines()[-1], self.line_of(1))

    def test_sums_that_cannot_be_written_are_told_once(self):
        fault = f"s4d: cannot write {self.sums}: it is no regular file\n"
        for _ in self.serve(TOLD + re.escape(fault)):
            until(self.sums.read_text, "a sum is there")
            self.sums.unlink()
            os.mkfifo(self.sums)
        self.assertTrue(self.sums.is_fifo())

    def test_files_that_cannot_be_written_are_refused(self):
        (self.room / "logins").write_text(LOGINS)
        (self.room / "logins").chmod(0o600)
        (self.room / "another").write_text("another's")
        (self.room / "link").symlink_to(self.room / "another")
        os.mkfifo(self.room / "pipe")
        irregular = "it is no regular file"
        rows = {".": irregular, "pipe": irregular, "link": irregular, "nowhere/sums": "No such file or directory", "logins/sums": "Not a directory"}
        for path, why in rows.items():
            ran = run(["serve", address(), "logins", "--journal", "kept", "--sums", path], folder=self.room)
            self.assertEqual((ran.status, ran.out, ran.err), (1, b"", f"s4d: cannot write {path}: {why}\n".encode()))
        self.assertEqual((self.room / "another").read_text(), "another's")
        self.assertFalse((self.room / "kept").exists())


if __name__ == "__main__":
    unittest.main()
