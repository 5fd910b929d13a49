"""The program that is tested, and how it is run."""
import os
import subprocess
from pathlib import Path

from tools.lib import programs
from tools.lib.programs import LEFT, Ended

# Where `rt ci` and `rt run` leave the program, unless S4D names another.
PROGRAM = Path(os.environ.get("S4D") or LEFT).resolve()
# A run that takes longer has failed.
SECONDS = 240


def command(words):
    """The words by which the system starts the program."""
    return [str(PROGRAM), *map(str, words)]


def run(words, given=b"", folder=None):
    """Runs the program on these words of the command line and these bytes of its input, in a folder."""
    return programs.run(PROGRAM, words, given, folder, SECONDS)


def start(words):
    """The program, which runs on these words and no input."""
    return subprocess.Popen(command(words), stdin=subprocess.DEVNULL, stdout=subprocess.PIPE, stderr=subprocess.PIPE)


def end(process):
    """What a run that was started wrote, and its status, once it has ended. One that takes longer than it may is ended."""
    try:
        out, err = process.communicate(timeout=SECONDS)
    except subprocess.TimeoutExpired:
        process.kill()
        process.communicate()
        raise
    return Ended(process.returncode, out, err)
