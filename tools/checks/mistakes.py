"""Plants mistakes in the program's code, of which tests have to tell.

  ./check mistakes [WORD..]
                 each mistake of tests/mistakes, or those in whose lines of mistakes.list one of the words stands: it is made in a copy of this
                 checkout, what the line names is built there unproved, as `rt try` does it, and has to find it
     --look      builds nothing, and looks whether each mistake can be made
     --jobs N    so many side by side; else 1

A program takes some five minutes of processor time to be built so, and two gigabytes. First it is built without a mistake: all that the lines name
has to pass then. A contract stands against some of these mistakes too; here it is seen that the tests don't need it.
"""
import os
import shutil
import subprocess
import tempfile
from concurrent.futures import ThreadPoolExecutor
from dataclasses import dataclass
from pathlib import Path

from tools.lib.commands import Options
from tools.lib.edits import Edit, Unusable, read_edit
from tools.lib.findings import Wrong
from tools.lib.programs import TOP
from tools.lib.unproved import ROWS, SERVER, built_unproved, tests_pass

OPTIONS = Options(flags=("look",), numbers={"jobs": 1}, words="WORD")
PLACE = TOP / "tests/mistakes"
LIST = PLACE / "mistakes.list"
# The word of a line that names a crate of tests, and no check.
TESTS = "tests"


@dataclass(frozen=True)
class Mistake:
    """A mistake, and the words of what has to find it."""

    edit: Edit
    found_by: tuple


def mistakes():
    """All mistakes, each with its line: `CRATE/NAME: WORD..`."""
    for line in LIST.read_text(encoding="utf-8").splitlines():
        if line and not line.startswith("#"):
            name, _, words = line.partition(": ")
            try:
                yield line, Mistake(read_edit(name.partition("/")[0], PLACE / f"{name}.edit"), tuple(words.split()))
            except (OSError, Unusable) as why:
                raise Wrong(f"{name}: {why}") from why


def made(edit, root):
    """The files of a checkout with this mistake, by their paths."""
    folder = root / "crates" / edit.crate
    try:
        return {folder / file: text for file, text in edit.applied(folder, {}).items()}
    except Unusable as why:
        raise Wrong(f"{edit}: {why}") from why


def copied(room, edit):
    """What this checkout's program is built from, with a mistake or as it stands."""
    sources = room / "sources"
    shutil.copytree(TOP / "crates", sources / "crates", ignore=shutil.ignore_patterns("out"))
    for it in ("crates.txt", "HANDLES"):
        shutil.copy(TOP / it, sources / it)
    for path, text in (made(edit, sources) if edit else {}).items():
        path.write_text(text, encoding="utf-8")
    return sources


def passes(words, program, ways):
    """Whether this check passes with this program, and what it said at its end."""
    where = {"cwd": TOP, "env": os.environ | {"S4_ROW_TESTS": str(ways)}}
    done = subprocess.run(["./check", *words, "--program", str(program)], capture_output=True, text=True, check=False, **where)
    return done.returncode == 0, (done.stdout + done.stderr).strip().splitlines()[-1:]


def tried(edit, room, ways, lines):
    """What finds this mistake, of the words of these lines, and what it said at its end."""
    room.mkdir()
    sources, found = copied(room, edit), {}
    for words in dict.fromkeys(lines):
        if words[0] == TESTS:
            is_well, said = tests_pass(sources, words[1])
        else:
            program = room / SERVER
            is_well, said = passes(words, program if program.exists() else built_unproved(sources, SERVER, room), ways)
        if not is_well:
            found[words] = " ".join(said)
    shutil.rmtree(room)
    return found


def run(given):
    every = [it for line, it in mistakes() if not given.words or any(word in line for word in given.words)]
    for it in every:
        made(it.edit, TOP)
    if given.look or not every:
        print(f"mistakes: {len(every)} can be made")
        return bool(every)
    with tempfile.TemporaryDirectory(prefix="mistakes-") as place, ThreadPoolExecutor(given.jobs) as pool:
        room = Path(place)
        ways = built_unproved(TOP, ROWS, room)
        for words, said in tried(None, room / "plain", ways, [it.found_by for it in every]).items():
            raise Wrong(f"without a mistake {' '.join(words)} doesn't pass: {said}")
        missed = 0
        for number, found in enumerate(pool.map(lambda it: tried(it[1].edit, room / str(it[0]), ways, [it[1].found_by]), enumerate(every))):
            it = every[number]
            missed += not found
            print(f"{it.edit}: {'found' if found else 'NOT FOUND'} by {' '.join(it.found_by)}: {found.get(it.found_by, 'all passed')}", flush=True)
    print(f"mistakes: {len(every) - missed} of {len(every)} are found")
    return not missed
