"""Runs whose input or output fails: nothing more is written, and the fault is told."""
import os
import subprocess
import tempfile
import unittest
from pathlib import Path

from tests.program import PROGRAM, SECONDS
from tests.worked import text
from tools.lib.programs import TOP

EXAMPLES = TOP / "examples"
# Words of the command line, what is run, and what it writes.
RUNS = (
    (["run"], text("first", "script"), text("first", "expected")),
    (["hall", str(EXAMPLES / "first.logins")], text("first", "arrivals"), text("first", "sent")),
    (["strike", "8"], text("intrusion", "script"), text("intrusion", "struck")),
)


class Files(unittest.TestCase):
    def run_between(self, words, source, sink, room=None):
        """What is told of a run, and its status, where files may have so many bytes. Python ignores the signal of a file that has no room, and so does
        what it starts."""
        limit = ["prlimit", f"--fsize={room}"] if room is not None else []
        how = {"stderr": subprocess.PIPE, "timeout": SECONDS, "restore_signals": False}
        ran = subprocess.run([*limit, PROGRAM, *words], stdin=source, stdout=sink, **how)
        return ran.stderr.decode(), ran.returncode

    def test_inputs_that_fail(self):
        # A folder can be opened, and not read.
        for words, _, _ in RUNS:
            with tempfile.TemporaryDirectory() as folder, tempfile.TemporaryFile() as sink:
                source = os.open(folder, os.O_RDONLY)
                self.assertEqual(self.run_between(words, source, sink), ("s4d: cannot read\n", 1))
                os.close(source)
                self.assertEqual(sink.seek(0, os.SEEK_END), 0)

    def test_outputs_that_fail(self):
        # What is written where there is less and less room is a beginning of the whole.
        with tempfile.TemporaryDirectory() as folder:
            given, written = Path(folder, "given"), Path(folder, "written")
            for words, input, wanted in RUNS:
                given.write_bytes(input)
                for room in range(0, len(wanted), 7):
                    with given.open("rb") as source, written.open("wb") as sink:
                        self.assertEqual(self.run_between(words, source, sink, room), ("s4d: cannot write\n", 1), room)
                    self.assertEqual(written.read_bytes(), wanted[:room])
                with given.open("rb") as source, written.open("wb") as sink:
                    self.assertEqual(self.run_between(words, source, sink, len(wanted)), ("", 0))
                self.assertEqual(written.read_bytes(), wanted)


if __name__ == "__main__":
    unittest.main()
