"""Small programs that make calls and have planted mistakes, to see that each is found."""
import tempfile

from tools.lib.calls import Calling, sweep_all
from tools.lib.findings import tell
from tools.planted.compiling import compiled_to

# What is planted, by its number in wrong_calls.c: a word of what has to be said of it, and how often, of the three refusals alone and three in
# pairs of five cases, of two cases of reads, and of six of talks. Nothing is wrong with the first.
PLANTS = {
    "nothing": ("", 0),
    "a refusal that no call tells": ("no call tells it", 15),
    "a change where there was no memory": ("it says", 30),
    "a crash": ("ended by signal 6", 30),
    "an end": ("status 1", 30),
    "a refusal that is told twice": ("refusals were met, and", 30),
    "a call without an end": ("begin and end in turn", 30),
    "fewer allocations where some are refused": ("2 refusals fell into its calls, which make 3", 5),
    # (the SetWindows may)
    "calls that ask for no memory": ("ask for no memory", 3),
    "a reply in whose place there is an error": ("and not as many as", 1),
    "a fault with ample memory": ("with ample memory", 1),
    "memory for one more at a time": ("are asked for in all", 1),
    "memory for four times as many": ("asks for twice as many", 1),
    "room for refunds at a SetWindow": ("and not the number of those of set_window_over_none", 1),
    "a copy of each value that is read": ("are held for each", 1),
    "reads that leave nothing": ("are held for each", 2),
    "a buffer that isn't given back": ("are held by a talk", 6),
}


def self_test_of_calls(jobs):
    """Tries what is planted. Returns whether each mistake is found, and nothing in the program without one."""
    faults = []
    with tempfile.TemporaryDirectory(prefix="refusals-") as room:
        for number, (name, (wanted, count)) in enumerate(PLANTS.items()):
            program = compiled_to(room, "wrong_calls.c", "MISTAKE", number, Calling)
            told = [why for called in sweep_all(program, jobs) for why in called.wrong if wanted in why]
            if len(told) != count:
                faults += [f"with this planted: {name}, {len(told)} runs or cases are told to be wrong so, and not {count}", *told]
    return tell([f"refusals: {it}" for it in faults], f"refusals: {len(PLANTS) - 1} planted mistakes of calls are found, and none in a right program")
