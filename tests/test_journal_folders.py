"""Starts that servers begin in a folder of journals."""
import os
import tempfile
import unittest
from pathlib import Path

from tests.program import run
from tests.serving import LOGINS, Server
from tools.lib.servers import address

FOLDER = "a new one/journals"


class Starts(unittest.TestCase):
    def check(self, room, journal, fault):
        """That a server that is to keep this journal doesn't start."""
        Path(room, "logins").write_text(LOGINS)
        Path(room, "logins").chmod(0o600)
        ran = run(["serve", address(), "logins", "--journal", journal], folder=room)
        self.assertEqual((ran.status, ran.out, ran.err), (1, b"", f"s4d: {fault}\n".encode()))

    def begin(self, room, number):
        """A server that begins the start of that number."""
        server = Server("--journal", Path(room, FOLDER), tells=False, connections=0)
        self.addCleanup(server.kill)
        self.assertEqual(sorted(it.name for it in Path(room, FOLDER).iterdir()), [*map(str, range(1, number + 1)), "lock"])
        return server

    def test_starts_are_begun_one_after_the_other(self):
        with tempfile.TemporaryDirectory() as room:
            first = self.begin(room, 1)
            self.check(room, FOLDER, f"another server keeps its journal in {FOLDER}")
            first.kill()
            # As if it had ended before it had a header.
            records = Path(room, FOLDER, "1", "records")
            records.write_bytes(b"")
            self.begin(room, 2).kill()
            self.assertEqual(records.read_bytes(), b"")
            Path(room, FOLDER, "2", "records").write_bytes(bytes(76))
            self.check(room, FOLDER, "start 2: no journal")

    def test_a_folder_of_another_is_left_as_it_is(self):
        with tempfile.TemporaryDirectory() as room:
            Path(room, "mine").mkdir()
            Path(room, "mine", "letter").write_text("hello")
            self.check(room, "mine", "no folder of journals: mine")
            self.check(room, "mine/letter", "cannot write mine/letter: File exists")
            self.assertEqual([it.name for it in Path(room, "mine").iterdir()], ["letter"])
            self.assertEqual(Path(room, "mine", "letter").read_text(), "hello")

    def test_a_folder_that_others_may_write_into_is_refused(self):
        with tempfile.TemporaryDirectory() as room:
            self.begin(room, 1).kill()
            for mode in (0o777, 0o720, 0o702):
                Path(room, FOLDER).chmod(mode)
                self.check(room, FOLDER, f"others may write into {FOLDER}")
            Path(room, FOLDER).chmod(0o755)
            self.begin(room, 2).kill()

    def test_a_lock_that_is_no_file_is_not_opened(self):
        with tempfile.TemporaryDirectory() as room:
            Path(room, "mine").mkdir(0o700)
            os.mkfifo(Path(room, "mine", "lock"))
            self.check(room, "mine", "cannot write mine: its lock is no regular file")
            os.remove(Path(room, "mine", "lock"))
            Path(room, "mine", "lock").symlink_to(Path(room, "logins"))
            self.check(room, "mine", "cannot write mine: its lock is no regular file")
            self.assertEqual(Path(room, "logins").read_text(), LOGINS)


if __name__ == "__main__":
    unittest.main()
