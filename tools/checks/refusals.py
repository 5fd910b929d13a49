"""Refuses each allocation of s4d in turn, from outside, and judges what it writes then.

  ./check refusals [CASE..]
                          all worked rows that run without a fault, and a server ('serve'), or those of these names: each
                          allocation of a run is refused, alone and with the next one, up to the first run that meets no refusal, a
                          server's by threads; of rows with more than 1000 lines 500 or fewer, evenly spread; and 'growth': what
                          scripts of 1000 and 4000 requests of each kind ask for, in all and at once, and how vectors grow there;
                          and 'holding': what scripts of 2000 and 4000 reads of a value hold, which is less than a copy of it for each,
                          and what such scripts of writes hold at most, with cuts between them, which is the same
  ./check refusals calls  the library's calls themselves, on the worked cases of the program s4_row_tests: each allocation of these calls is
                          refused, alone and with the next one, and none beside them; and what reads through a front hold; by this name alone
      --quick             six of each row and thread alone and six in pairs, evenly spread
      --look              runs nothing: whether each place of the sources that makes a refusal of memory by hand is in tools/refusals.list,
                          and each place of the list in the sources
      --self-test         small programs with planted mistakes, and sources with planted refusals, each of which has to be found
      --program PATH      the program; else bin/s4d or crates/s4d/out/s4d, the one that was built last
      --calls PATH        the program that calls the library; else crates/s4_row_tests/out/s4_row_tests
      --jobs N            so many runs side by side; else as many as there are processors

A run is right where it writes what is wanted, but for requests that are told that there was no memory: these weren't carried out, so all
else is what the program writes without them. Or it writes whole lines of the beginning of that, and ends with the status 1 and
's4d: no memory' on standard error. A server may also end the connection for which there was no memory, and no other: what clients then
hear, and what the history has, is what a hall writes that is asked what was carried out.

A case of calls is right where one tells each refusal, all is as before then, and the same call is answered as without it. A call may do without
an allocation where it tells the refusal of that and the next one. As many refusals have to fall into the calls as these make allocations
with ample memory.
"""
import itertools
import os
import sys
import tempfile
from pathlib import Path

from tools.lib.by_hand import look
from tools.lib.calls import Calling, sweep_all as call_all
from tools.lib.commands import Options, processors
from tools.lib.growth import KINDS, grown
from tools.lib.holding import KINDS as HELD, held
from tools.lib.processes import spent
from tools.lib.programs import CALLING, TOP, is_program, program_of
from tools.lib.refusing import Program, has_compiler
from tools.lib.rows import rows_of
from tools.lib.server_sweeps import ServerSweep
from tools.lib.sweeps import Sweeper

OPTIONS = Options(flags=("quick", "look", "self-test"), numbers={"jobs": processors}, texts=("program", "calls"), words="CASE")
SERVE, GROWTH, HOLDING, CALLS = "serve", "growth", "holding", "calls"
CASES = TOP / "crates/s4_row_tests/data"


def calling_of(given, room):
    path = Path(given.calls) if given.calls else CALLING
    if not is_program(path):
        sys.exit("refusals: there is no built program that calls the library: call rt ci, or name one by --calls PATH")
    return Calling(path, room)


def chosen(names):
    """The rows of these names, or all, and whether a server is swept, and growth and what reads hold measured too."""
    rows = rows_of(TOP)
    others = [SERVE, GROWTH, HOLDING]
    lacking = [it for it in names if it not in [*others, *(row.name for row in rows)]]
    if lacking:
        sys.exit(f"refusals: {lacking[0]} is no row that runs without a fault")
    return [it for it in rows if not names or it.name in names], *(not names or it in names for it in others)


def sweep_all(program, given):
    """Sweeps the rows and a server, prints what came of each, and tells whether all runs were right."""
    rows, serves, grows, holds = chosen(given.words)
    wrong, known, met = 0, 0, 0
    sweeper = Sweeper(program, given.jobs, given.quick)
    swept_rows = (sweeper.sweep(it) for it in rows)
    servers = (it for _ in range(serves) for it in ServerSweep(program, given.jobs, given.quick).sweep())
    growths = (grown(program, it) for it in KINDS * grows)
    holdings = (held(program, it) for it in HELD * holds)
    for swept in itertools.chain(swept_rows, servers, growths, holdings):
        lines = [swept.line(), *(f"WRONG: {it}" for it in swept.wrong), *(f"known: {it}: {count} runs" for it, count in swept.known.items())]
        print("\n".join(lines), flush=True)
        wrong, known, met = wrong + len(swept.wrong), known + sum(swept.known.values()), met + sum(swept.met.values())
    print(f"refusals: {met} runs with a refusal, {wrong} wrong, {known} known to be wrong, in {spent():.1f} s of processor time")
    return not wrong


def sweep_calls(program, jobs):
    """Sweeps the calls of the library, which are made in the folder of the texts of its cases, and tells whether all was right."""
    os.chdir(CASES)
    swept = call_all(program, jobs)
    for it in swept:
        print("\n".join([it.line(), *(f"WRONG: {why}" for why in it.wrong)]), flush=True)
    met, made, wrong = (sum(it) for it in zip(*((it.met, it.allocations, len(it.wrong)) for it in swept)))
    print(f"refusals: {met} refusals in {made} allocations of the library's calls, {wrong} wrong, in {spent():.1f} s of processor time")
    return not wrong


def run(given):
    if given.look:
        return look(TOP)
    if not has_compiler():
        sys.exit("refusals: there is no C compiler: cc, or the one that CC names")
    if CALLS in given.words and given.words != [CALLS]:
        sys.exit("refusals: calls stands alone")
    with tempfile.TemporaryDirectory(prefix="refusals-") as room:
        if CALLS in given.words:
            return sweep_calls(calling_of(given, Path(room)), given.jobs)
        return sweep_all(Program(program_of("refusals", given), Path(room)), given)
