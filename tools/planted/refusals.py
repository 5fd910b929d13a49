"""Small programs with planted mistakes, to see that the refusals find each."""
import tempfile

from tools.lib.findings import tell
from tools.lib.growth import KINDS, grown
from tools.lib.holding import READS as READ, WRITES as WRITTEN, held
from tools.lib.rows import Row
from tools.lib.sweeps import Sweeper
from tools.planted.calls import self_test_of_calls
from tools.planted.compiling import compiled_to
from tools.planted.places import self_test_of_places

LINES = 5
# What is planted, by its number in wrong_program.c: a word of what has to be said of it, and of how many of the lines it shows in the
# output where these are refused. Nothing is wrong with the first.
PLANTS = {
    "nothing": (None, 0),
    "a line is lost": ("it writes", LINES),
    "a line is cut": ("its beginning is", LINES),
    "what is refused is made": ("it writes", LINES - 1),
    "the end is missing": ("it writes", LINES),
    "another status": ("status 3", LINES),
    "a crash": ("ended by signal 6", LINES),
    "refusals ever after": ("requests are refused, and only", LINES - 1),
    "another answer": ("it writes", LINES),
    "it never ends": ("ended by signal 14", LINES),
    "a list of no number": ("can't be read", LINES),
}


def planted_row(name):
    given = b"window 1\n" + b"1 7 create 0\n" * LINES
    return Row("script", name, ("run",), given, b"".join(b"made 7.0.%d\n" % (it + 1) for it in range(LINES)))


def faults_of(name, wanted, seen, swept):
    """What isn't said of a planted mistake, though it should be, or is said though it shouldn't."""
    if swept.allocations != LINES + 1 or any(it.endswith("weren't met") for it in swept.wrong):
        return [f"with this planted: {name}, {swept.line()}, and not of {LINES + 1}"]
    told = [it for it in swept.wrong if wanted is None or wanted in it and " allocation " in it]
    if len(told) != seen:
        return [f"with this planted: {name}, {len(told)} refusals of single allocations are told to be wrong, and not {seen}", *told]
    return []


# How the vector of wrong_growth.c grows, by its number there, and a word of what has to be said of it.
GROWTHS = {
    "twofold": None,
    "by a hundred": "are asked for in all",
    "fourfold": "asks for twice as many",
    "fourfold by new blocks": "asks for twice as many",
    "twofold by new blocks": None,
}

# What wrong_reads.c keeps of each read, by its number there, and a word of what has to be said of it.
READS = {
    "a record": None,
    "a copy of the value": "are held for each",
    "nothing": "are held for each",
    "a record of other bytes": "the replies are others",
}

# What wrong_cuts.c does at a cut, by its number there, and a word of what has to be said of it.
CUTS = {
    "gives back": None,
    "keeps the memory": "are held for each",
    "keeps all but every tenth": "are held for each",
    "tells another number": "the replies are others",
}


def faults_of_growths(room):
    """What isn't said of a planted growth, though it should be, or is said though it shouldn't."""
    faults = []
    for number, (name, wanted) in enumerate(GROWTHS.items()):
        said = grown(compiled_to(room, "wrong_growth.c", "GROWTH", number), KINDS[0]).wrong
        if bool(wanted) != bool(said) or not all(wanted in it for it in said):
            faults.append(f"of a vector that grows {name} is said: {said}")
    return faults


def faults_of_holding(room, source, name, plants, kinds):
    """What isn't said of what a program is planted to hold, though it should be, or is said though it shouldn't."""
    faults = []
    for number, (plant, wanted) in enumerate(plants.items()):
        program = compiled_to(room, source, name, number)
        for kind in kinds:
            said = held(program, kind).wrong
            if bool(wanted) != bool(said) or not all(wanted in it for it in said):
                faults.append(f"{source}, {plant}: of {kind} is said: {said}")
    return faults


def self_test_of_programs(jobs):
    """Tries what is planted in programs. Returns whether each mistake is found, and nothing in the program without one."""
    faults = []
    with tempfile.TemporaryDirectory(prefix="refusals-") as room:
        for number, (name, (wanted, seen)) in enumerate(PLANTS.items()):
            program = compiled_to(room, "wrong_program.c", "MISTAKE", number)
            program.seconds = 3 if name == "it never ends" else program.seconds
            faults += faults_of(name, wanted, seen, Sweeper(program, jobs).sweep(planted_row(name)))
        faults += faults_of_growths(room)
        faults += faults_of_holding(room, "wrong_reads.c", "READS", READS, READ)
        faults += faults_of_holding(room, "wrong_cuts.c", "CUTS", CUTS, WRITTEN)
    count = len(PLANTS) - 1 + sum(wanted is not None for it in (GROWTHS, READS, CUTS) for wanted in it.values())
    return tell([f"refusals: {it}" for it in faults], f"refusals: {count} planted mistakes are found, and none in right programs")


def self_test(given):
    """Tries all that is planted for refusals: in programs, in calls and in sources."""
    return all([self_test_of_programs(given.jobs), self_test_of_calls(given.jobs), self_test_of_places()])
