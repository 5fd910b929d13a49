"""Compares what s4d sends for bytes of many connections, made at random, with what is to be sent.

  ./check streams       20 lists of arrivals and sweeps, by callers of both versions of the wire, each against the same bytes in other pieces and
                        without sweeps
      --random N        so many of them
      --lines N         of so many lines each; else 400
      --seed N          from this seed on; else 1
      --most N          with data of so many bytes at most; else a byte more than version 2 has
      --against PROGRAM what they are compared with: what `PROGRAM hall` sends for them
      --write FOLDER    writes each as a row into this folder, with what that sends, and compares nothing
      --program PATH    the program; else bin/s4d or crates/s4d/out/s4d, the one that was built last
      --jobs N          so many side by side; else as many as there are processors
      --self-test       what is sent with planted mistakes, each of which has to be found
"""
import tempfile
from concurrent.futures import ThreadPoolExecutor
from pathlib import Path

from tools.lib import programs
from tools.lib.commands import Options, processors
from tools.lib.findings import first_difference, tell_all
from tools.lib.programs import program_of
from tools.lib.streams import in_pieces, streams_at_random

MOST = 65537
OPTIONS = Options(
    flags=("self-test",),
    numbers={"random": 20, "lines": 400, "seed": 1, "most": MOST, "jobs": processors},
    texts=("program", "against", "write"),
)


def sent(program, logins, arrivals):
    """What a program sends for arrivals, or why it ends."""
    with tempfile.NamedTemporaryFile(mode="w", encoding="ascii") as table:
        table.write(logins)
        table.flush()
        ran = programs.run(program, ["hall", table.name], arrivals.encode())
    return (ran.out + ran.err).decode(errors="replace")


def differs(name, found, wanted):
    """In which line two lists of what is sent differ, where they do."""
    if found == wanted:
        return None
    ours, theirs = found.splitlines(), wanted.splitlines()
    place = first_difference(ours, theirs)
    is_missing = place == min(len(ours), len(theirs))
    return f"{name}: line {place + 1} of what is sent is another: {'it is missing' if is_missing else [ours[place][:120], theirs[place][:120]]}"


def of_chance(given, seed):
    """What is wrong with what is sent for streams made at random."""
    logins, arrivals = streams_at_random(seed, given.lines, given.most)
    wanted = sent(given.against, logins, arrivals) if given.against else sent(given.program, logins, in_pieces(arrivals, seed))
    return differs(f"seed {seed}", sent(given.program, logins, arrivals), wanted)


def write(given, seed):
    """Writes streams made at random as a row, and what is sent for them."""
    logins, arrivals = streams_at_random(seed, given.lines, given.most)
    for kind, text in ("logins", logins), ("arrivals", arrivals), ("expected", sent(given.against, logins, arrivals)):
        (Path(given.write) / f"hall_at_random_{seed}.{kind}").write_text(text, encoding="ascii")


def run(given):
    seeds = range(given.seed, given.seed + given.random)
    if given.write:
        for seed in seeds:
            write(given, seed)
        return True
    given.program = program_of("streams", given)
    with ThreadPoolExecutor(given.jobs) as pool:
        wrong = [it for it in pool.map(lambda seed: of_chance(given, seed), seeds) if it]
    return tell_all(wrong, f"streams: {given.random} lists of {given.lines} lines, {len(wrong)} wrong")
