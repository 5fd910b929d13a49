"""The proved program that tells what scripts and arrivals are told in ways that s4d doesn't have."""
import os
from pathlib import Path

from tests.program import SECONDS
from tools.lib import programs
from tools.lib.programs import CALLING

# Where `rt ci` and `rt run` leave it, unless S4_ROW_TESTS names another.
WAYS = Path(os.environ.get("S4_ROW_TESTS") or CALLING).resolve()

# To a drive over the plain store that is given all steps at once.
AT_ONCE = "at-once"
# To a drive over either store that is cut at its horizon behind each line; and where two values are freed behind each cut.
CUT = ("plain", "arena")
SWEPT = ("plain-swept", "arena-swept")
# In conversations, a connection for each request, with a front of one cell and of two, whose cells are cut behind each request.
TALKS = ("one-cell", "two-cells")
# The same with two cells that are never cut.
UNCUT = "two-cells-uncut"


def run(words, given):
    """What it writes for these words and this input. It ends with a fault where a line isn't one, and where there was no memory."""
    ran = programs.run(WAYS, words, given, seconds=SECONDS)
    if ran.status or ran.err:
        raise AssertionError(f"{WAYS} ends with {ran.status} and tells {ran.err.decode(errors='replace')}")
    return ran.out


def told(script, ways):
    """What a script without a fault is told in each of these ways."""
    found = {}
    for line in run(ways, script).splitlines(keepends=True):
        if line.startswith(b"--- "):
            text = found.setdefault(line[4:-1].decode(), [])
        else:
            text.append(line)
    return {way: b"".join(text) for way, text in found.items()}


def struck(script, who):
    """The lines of the requests that stay of a script's list of steps once the principal's strangers are struck out."""
    return run(("strike", who), script)


def sent(logins, arrivals, count):
    """What a hall of the logins in this file sends that is given so many arrivals at once and then the others one by one, and how much it holds then
    and behind each."""
    return run(("hall", logins, count), arrivals)
