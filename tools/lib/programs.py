"""The programs that checks run: where they are built, and what they write."""
import os
import subprocess
import sys
from dataclasses import dataclass
from pathlib import Path

# The top of this checkout.
TOP = Path(__file__).resolve().parent.parent.parent
# Where `rt ci` and `rt run` leave the program, and where ./first-run does.
LEFT, FIRST = TOP / "crates/s4d/out/s4d", TOP / "bin/s4d"
# Where `rt ci` and `rt run` leave the program that makes calls of the library.
CALLING = TOP / "crates/s4_row_tests/out/s4_row_tests"


@dataclass(frozen=True)
class Ended:
    """What a run wrote, and its status."""

    status: int
    out: bytes
    err: bytes


def run(program, words, given=b"", folder=None, seconds=None):
    """Runs a program on these words of the command line and these bytes of its input, in a folder, for so many seconds at most."""
    ran = subprocess.run([str(program), *map(str, words)], input=given, capture_output=True, cwd=folder, timeout=seconds, check=False)
    return Ended(ran.returncode, ran.stdout, ran.stderr)


def is_program(path):
    return bool(path) and os.access(path, os.X_OK)


def built_program():
    """The program as it was built last, or none."""
    return max(filter(is_program, (LEFT, FIRST)), key=lambda it: it.stat().st_mtime, default=None)


def program_of(name, given):
    """The program that a command of this name is given, or that was built last. Without one the command ends."""
    path = Path(given.program) if given.program else built_program()
    if not is_program(path):
        sys.exit(f"{name}: there is no built program: call ./first-run, or name one by --program PATH")
    return path.resolve()
