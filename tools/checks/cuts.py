"""Puts cuts between the lines of scripts, and compares the replies with those without them.

  ./check cuts          all worked scripts that run without a fault and have no cuts, with a cut at the horizon behind each line (of those with more than
                        1000 lines behind 200, evenly spread), and again at moments up to the horizon, behind a third of the lines
      --random N        N scripts made at random besides
      --lines N         of so many lines each; else 2000
      --seed N          from this seed on; else 1
      --against PROGRAM what the random scripts are compared with: `PROGRAM run`, without cuts; else the program itself
      --program PATH    the program; else bin/s4d or crates/s4d/out/s4d, the one that was built last
      --jobs N          so many runs side by side; else as many as there are processors
      --self-test       replies with planted mistakes, each of which has to be found

A run is right where it writes what is written without cuts, and each cut tells how many records went: those before its moment that an
earlier one has left.
"""
from concurrent.futures import ThreadPoolExecutor

from tools.lib import programs
from tools.lib.chance import at_random
from tools.lib.commands import Options, processors
from tools.lib.cutting import Cutting, at_the_horizon, behind_each, by_chance, parted, sparse
from tools.lib.findings import first_difference, tell_all
from tools.lib.programs import TOP, program_of
from tools.lib.rows import rows_of

OPTIONS = Options(flags=("self-test",), numbers={"random": 0, "lines": 2000, "seed": 1, "jobs": processors}, texts=("against", "program"))


def replied(program, script):
    """What the program writes for a script."""
    ran = programs.run(program, ["run"], script)
    return ran.out + ran.err


def differs(name, cutting, replies, wanted):
    """In which line the replies to a script with cuts differ from those without, or from what a cut should tell."""
    kept, told = parted(replies)
    if told != cutting.told:
        pairs = [(it, other) for it, other in zip(told, cutting.told) if it != other] or [(f"{len(told)} cuts", f"{len(cutting.told)} cuts")]
        return f"{name}: '{pairs[0][0]}' in the place of '{pairs[0][1]}'"
    if kept == wanted.decode():
        return None
    ours, theirs = kept.split("\n"), wanted.decode().split("\n")
    place = first_difference(ours, theirs)
    if place == min(len(ours), len(theirs)):
        return f"{name}: more or fewer replies"
    return f"{name}: reply {place + 1} is another: '{ours[place]}' in the place of '{theirs[place]}'"


def ways(script, seed):
    """How cuts are put between the lines of a script: a name, and the script with them."""
    few = script.count("\n") <= 1000
    yield "at the horizon", Cutting(script, behind_each if few else sparse(200), at_the_horizon)
    yield "by chance", Cutting(script, *by_chance(seed, 0.33 if few else 0.02))


def of_row(program, row, seed):
    """What is wrong with a row, with each way of cutting."""
    script = row.given.decode()
    return [differs(f"{row.name}, {way}", it, replied(program, it.script()), row.wanted) for way, it in ways(script, seed)]


def of_chance(program, other, seed, count):
    """What is wrong with a script made at random."""
    script = at_random(seed, count)
    wanted = replied(other, script.encode())
    return [differs(f"seed {seed}, {way}", it, replied(program, it.script()), wanted) for way, it in ways(script, seed)]


def run(given):
    program = program_of("cuts", given)
    rows = [it for it in rows_of(TOP) if it.kind == "script" and it.given.startswith(b"window ") and b"\ncut " not in it.given]
    with ThreadPoolExecutor(given.jobs) as pool:
        tried = [pool.submit(of_row, program, it, number) for number, it in enumerate(rows)]
        tried += [pool.submit(of_chance, program, given.against or program, given.seed + it, given.lines) for it in range(given.random)]
        found = [it for task in tried for it in task.result()]
    wrong = [it for it in found if it]
    return tell_all(wrong[:20], f"cuts: {len(found)} runs of {len(rows)} rows and {given.random} random scripts, {len(wrong)} wrong")
