"""What `check` tells of the lines of files, and what `--why` tells of runs."""
import os
import subprocess
import tempfile
import unittest
from pathlib import Path

from tests.causes import ARRIVALS, BEGINS, BYTES, CALLER, LINES, LOGINS, OBJECT, OPENINGS, REQUESTS, SECRET, SETUPS, VERB, WINDOWS, cause
from tests.program import SECONDS, Ended, command, run
from tools.lib.programs import TOP

# What is right before a line that is tried: the first line of a script, or of arrivals.
FIRST = b"window 5\n"
# Files that are well, and what is told of each behind its name.
WELL = {
    "first.script": "a script, 4 lines, all well",
    "first.arrivals": "arrivals, 5 lines, all well",
    "first.logins": "logins, 2 lines, all well",
    "intrusion.script": "a script, 56 lines, all well",
}
# Texts, what they are told to be by their lines, and how many lines they have.
KINDS = (
    (b"", "logins", 0),
    (f"7 {SECRET}\n".encode(), "logins", 1),
    (b"window 5", "a script", 1),
    (b"window 5 wire 2\n5 7/1 create 0\n5 7 create 0\nused\ncut 0\nsweep 1\n", "a script", 6),
    (b"window 5\nsweep 1\n5 1 00\n5 2 empty\n", "arrivals", 4),
    (b"7 create 0\n0 setwindow 5\n", "a setup", 2),
)
# Texts with bad lines, and what is told of these behind the file's name.
TEXTS = (
    (b"window 5\n9 7 create 0\n5 7 create 0\n9 7 create 0\n", ["line 3: moment goes back: a line above has the moment 9"]),
    (b"window 5\n9 1 00\n8 1 00\n", ["line 3: moment goes back: a line above has the moment 9"]),
    (f"7 {SECRET}\n9 {SECRET}\n7 {SECRET[::-1]}\n".encode(), ["line 3: its principal stands in line 1"]),
    (
        b"window 5\n1 7 creat 0\n\n1 7 delete 7.0\n1 7 create 0\r\n",
        [
            f"line 2: {cause(3, 'creat', VERB)}",
            "line 3: the line is empty",
            f"line 4: {cause(4, '7.0', OBJECT)}",
            "line 5: word 4 '0': a carriage return stands behind it",
        ],
    ),
    (b"7 create 0\n1 7 create 0\n7 wirte 7.0.1 0 61\n", [f"line 2: {cause(2, '7', VERB)}", f"line 3: {cause(2, 'wirte', VERB)}"]),
)


class Files(unittest.TestCase):
    """Files in a folder of their own."""

    def setUp(self):
        self.room = tempfile.TemporaryDirectory()
        self.addCleanup(self.room.cleanup)
        self.folder = Path(self.room.name)

    def checked(self, text, *flags):
        """What comes of the check of a file with this text."""
        (self.folder / "it").write_bytes(text)
        return run(["check", *flags, "it"], folder=self.folder)

    def check_lines(self, text, told, *flags):
        """That these lines are told of a file with this text, and no secret."""
        with self.subTest(text, flags=flags):
            wanted = Ended(1, "".join(f"it {line}\n" for line in told).encode(), b"s4d: bad files: 1 of 1\n")
            self.assertEqual(self.checked(text, *flags), wanted)
            self.assertNotIn(SECRET[1:-1], " ".join(told))

    def test_lines_of_scripts(self):
        for line, wanted in LINES.items():
            self.check_lines(FIRST + line + b"\n", [f"line 2: {wanted}"], "--as", "script")
        for line, wanted in OPENINGS.items():
            self.check_lines(line + b"\n", [f"line 1: {wanted}"], "--as", "script")

    def test_requests_of_scripts_and_setups(self):
        for request, number, word, wanted in REQUESTS:
            self.check_lines(f"window 5\n5 7 {request}\n".encode(), [f"line 2: {cause(number + 2, word, wanted)}"], "--as", "script")
            self.check_lines(f"7 {request}".encode(), [f"line 1: {cause(number + 1, word, wanted)}"], "--as", "setup")

    def test_lines_of_arrivals(self):
        for line, wanted in ARRIVALS.items():
            self.check_lines(FIRST + line + b"\n", [f"line 2: {wanted}"], "--as", "arrivals")
        for line, wanted in WINDOWS.items():
            self.check_lines(line, [f"line 1: {wanted}"], "--as", "arrivals")

    def test_lines_of_setups(self):
        for line, wanted in SETUPS.items():
            self.check_lines(line + b"\n", [f"line 1: {wanted}"], "--as", "setup")

    def test_lines_of_logins(self):
        for line, wanted in LOGINS.items():
            self.check_lines(line + b"\n", [f"line 1: {wanted}"], "--as", "logins")
        self.check_lines(f"7 {SECRET}\n\xff {SECRET}\n".encode("latin-1"), [f"line 2: {LOGINS[b'seven ' + SECRET.encode()]}"])

    def test_texts_with_bad_lines(self):
        for text, told in TEXTS:
            self.check_lines(text, told)

    def test_what_a_text_is_is_told_by_its_lines(self):
        for text, kind, count in KINDS:
            with self.subTest(text):
                self.assertEqual(self.checked(text), Ended(0, f"it: {kind}, {count} lines, all well\n".encode(), b""))

    def test_files_that_are_well(self):
        told = "".join(f"{name}: {what}\n" for name, what in WELL.items())
        self.assertEqual(run(["check", *WELL], folder=TOP / "examples"), Ended(0, told.encode(), b""))

    def test_each_file_is_told_of(self):
        (self.folder / "bad").write_bytes(b"window 5\nused 1\n")
        (self.folder / "good").write_bytes(FIRST)
        told = (
            "bad line 2: word 2 '1': the line ends before it\n"
            "missing: cannot read: No such file or directory\n"
            "good: a script, 1 lines, all well\n"
            ".: cannot read: Is a directory\n"
            "good/it: cannot read: Not a directory\n"
        )
        ran = run(["check", "bad", "missing", "good", ".", "good/it"], folder=self.folder)
        self.assertEqual(ran, Ended(1, told.encode(), b"s4d: bad files: 4 of 5\n"))

    def test_an_output_that_fails(self):
        (self.folder / "good").write_bytes(FIRST)
        with open("/dev/full", "wb") as full:
            done = subprocess.run(command(["check", self.folder / "good"]), stdout=full, stderr=subprocess.PIPE, timeout=SECONDS)
        self.assertEqual((done.returncode, done.stderr), (1, b"s4d: cannot write: No space left on device\n"))


class Why(unittest.TestCase):
    """Runs, halls and strikes whose faults are explained: the first line stays as it is without that."""

    def setUp(self):
        self.room = tempfile.TemporaryDirectory()
        self.addCleanup(self.room.cleanup)
        self.folder = Path(self.room.name)
        (self.folder / "logins").write_text(f"7 {SECRET}\n", encoding="utf-8")

    def check_why(self, words, given, fault, why, out=b""):
        """That so is written, and that fault told, with its cause where that is wanted, and without it else."""
        for flags, told in (([], f"s4d: {fault}\n"), (["--why"], f"s4d: {fault}\ns4d: why: {why}\n" if why else f"s4d: {fault}\n")):
            with self.subTest(words=words, given=given, flags=flags):
                self.assertEqual(run([words[0], *flags, *words[1:]], given, self.folder), Ended(1, out, told.encode()))

    def test_bad_lines_of_scripts(self):
        for words in (["run"], ["strike", "9"]):
            for line, wanted in LINES.items():
                self.check_why(words, FIRST + line + b"\n", "line 2: bad line", wanted)
            for line, wanted in OPENINGS.items():
                self.check_why(words, line + b"\n", "line 1: bad line", wanted)

    def test_bad_lines_of_arrivals(self):
        for line, wanted in ARRIVALS.items():
            self.check_why(["hall", "logins"], FIRST + line + b"\n", "line 2: bad line", wanted)
        for line, wanted in WINDOWS.items():
            self.check_why(["hall", "logins"], line + b"\n", "line 1: bad line", wanted)

    def test_moments_that_go_back(self):
        above = "a line above has the moment 9"
        script = b"window 5\n9 7 create 0\n8 7 create 0\n"
        self.check_why(["run"], script, "line 3: moment goes back", above, b"made 7.0.1\n")
        self.check_why(["strike", "9"], script, "line 3: moment goes back", above)
        self.check_why(["hall", "logins"], b"window 5\n9 1 00\n8 1 00\n", "line 3: moment goes back", above)
        # It says by itself what is wrong.
        self.check_why(["run"], b"window 5\ncut 9\n", "line 2: cut above horizon", None)

    def test_lines_before_the_fault_are_run(self):
        script = b"window 5\n9 7 create 0\n9 7 write 7.0.1 0 hello\n"
        self.check_why(["run"], script, "line 3: bad line", cause(6, "hello", BYTES), b"made 7.0.1\n")

    def test_versions_of_a_script(self):
        script = b"window 5 wire 2\n5 7/1 create 0\n5 7/2 create 0\n"
        self.check_why(["run"], script, "line 3: bad line", cause(2, "7/2", CALLER), b"made 7.0.1\n")

    def test_logins_of_halls(self):
        for line, wanted in LOGINS.items():
            (self.folder / "bad").write_bytes(f"7 {SECRET}\n".encode() + line + b"\n")
            self.check_why(["hall", "bad"], b"", "logins line 2", f"bad: {wanted}")
        (self.folder / "bad").write_bytes(b"7 \xff\n")
        rows = {"missing": "No such file or directory", ".": "Is a directory", "logins/it": "Not a directory", "bad": "it isn't UTF-8"}
        for name, wanted in rows.items():
            self.check_why(["hall", name], b"", "cannot read logins", f"{name}: {wanted}")

    def test_inputs_and_outputs_that_fail(self):
        for words in (["run"], ["strike", "9"], ["hall", "logins"]):
            source = os.open(self.folder, os.O_RDONLY)
            done = subprocess.run(command([*words, "--why"]), stdin=source, capture_output=True, cwd=self.folder, timeout=SECONDS)
            os.close(source)
            self.assertEqual((done.returncode, done.stdout, done.stderr), (1, b"", b"s4d: cannot read\ns4d: why: Is a directory\n"))
        for flags, why in (([], b""), (["--why"], b"s4d: why: No space left on device\n")):
            with open("/dev/full", "wb") as full:
                words = command(["run", *flags])
                done = subprocess.run(words, input=b"window 5\nused\n", stdout=full, stderr=subprocess.PIPE, timeout=SECONDS)
            self.assertEqual((done.returncode, done.stderr), (1, b"s4d: cannot write\n" + why))

    def test_what_is_well_is_run_as_without(self):
        script = b"window 5\n1 7 create 0\n"
        for words, given in ((["run"], script), (["strike", "7"], script), (["hall", "logins"], FIRST)):
            ran = run(words, given, self.folder)
            self.assertEqual((ran.status, run([words[0], "--why", *words[1:]], given, self.folder)), (0, ran))

    def test_a_comment_is_a_bad_line(self):
        self.check_why(["run"], FIRST + b"# 5 7 create 0\n", "line 2: bad line", cause(1, "#", BEGINS))


if __name__ == "__main__":
    unittest.main()
