"""Measures the memory of a server over time under load, with and without --cut, and what a request takes.

  ./check measure memory
                         two servers, one behind the other, each for 60 seconds under as much load as it takes: one without and one with --cut.
                         Then four for 30 seconds each, at half and at a tenth of that load, to see what a request takes
      --seconds N        each of the two for so many seconds
      --paced N          each of the four for so many seconds; 0 for none
      --rate N           at a load of N requests a second in all, in the place of as much as a server takes
      --share S          one server with --cut alone, at this share of the full load. That is measured before, on one without it
      --hour             the same as --seconds 3600 --share 0.1
      --falls            one server with --cut alone, under full load for 22 seconds, and then at a tenth of what it took for 20
      --csv FILE         writes the samples, four of each second
      --plot FILE        draws the memory over time, as SVG; with the sum of the samples' file, where they are written too
      --draw FILE        measures nothing: judges and draws the samples that an earlier call wrote into FILE
      --workers N        of each server; else 4
      --processes N, --connections N, --depth N
                         the load: so many processes; else 3, each of so many connections; else 4, each of which asks for so many things at
                         once; else 64
      --most-bytes N     a server is ended once it has more bytes resident; else half of those that the machine has to give at the begin
      --program PATH     the program; else bin/s4d or crates/s4d/out/s4d, the one that was built last
      --self-test        plants memory that isn't flat, and other mistakes, each of which has to be told

A server has a window of 10 seconds and four cells, one of which is asked nothing. It is asked for writes and reads of 16 and of 1024 bytes, in
equal numbers, and each byte of each reply is compared. One more process asks for one thing at a time, and takes the time of each reply.

It fails where the memory with --cut isn't flat behind two windows, or is above 1.5 times (bytes a record without --cut) x (records of two
windows); where p99 with --cut is above twice that without, of the requests that were made or of requests made each millisecond, also while
one isn't answered; where more than 1.5 times the records of a window are left 15 seconds behind a load that fell; and where a reply, a refusal
or a count isn't as it should be.
"""
import os
from pathlib import Path

from tools.lib.commands import Options
from tools.lib.falling import judge_fall, run_falling
from tools.lib.findings import tell_all
from tools.lib.levels import judge, plot_of, read_samples, table, write_samples
from tools.lib.loads import shape_of
from tools.lib.memory import CELLS, IDLE, WINDOW, Plan, mebibytes, run_server
from tools.lib.pictures import with_sum
from tools.lib.processes import available, exit_when_told
from tools.lib.programs import program_of

HOUR, TENTH = 3600, 0.1
# For how many seconds the full load is measured, where a share of it is what matters.
BEFORE = 10


def measured(plan, given):
    """All runs."""
    if given.falls:
        return run_falling(plan, given.rate, TENTH)
    if given.share:
        runs = [run_server(plan, False, 1, given.rate, BEFORE)]
        if runs[0].wrong:
            return runs
        return runs + [run_server(plan, True, given.share, runs[0].rate * given.share, plan.seconds)]
    runs = [run_server(plan, cuts, 1, given.rate, plan.seconds) for cuts in (False, True)]
    full = min(run.rate for run in runs)
    if full and given.paced:
        runs += [run_server(plan, cuts, share, full * share, given.paced) for share in (0.5, TENTH) for cuts in (False, True)]
    return runs


def told(runs, given):
    """Prints what was measured, and writes the files. Returns whether nothing is wrong."""
    rows, wrong = judge_fall(*runs, WINDOW) if given.falls else judge(runs, WINDOW)
    print(table(rows))
    for note in [f"{run.name}: {run.early}" for run in runs if run.early] + [note for run in runs for note in run.notes]:
        print(note)
    if given.csv:
        write_samples(runs, given.csv)
    if given.plot and any(run.cuts and run.samples for run in runs):
        svg, samples = plot_of(runs, WINDOW).svg(), given.csv or given.draw
        Path(given.plot).write_text(with_sum(svg, Path(samples)) if samples else svg, encoding="utf-8")
    return tell_all([f"WRONG: {why}" for why in wrong], f"memory: {len(runs)} servers, {len(wrong)} things are wrong")


def half_of_memory():
    return available() // 2


OPTIONS = Options(
    flags=("hour", "falls", "self-test"),
    numbers={
        **{"seconds": 60.0, "paced": 30.0, "rate": 0.0, "share": 0.0},
        **{"workers": 4, "processes": 3, "connections": 4, "depth": 64, "most-bytes": half_of_memory},
    },
    texts=("csv", "plot", "draw", "program"),
)


def run(given):
    exit_when_told()
    if given.hour:
        given.seconds, given.share = HOUR, TENTH
    if given.draw:
        return told(read_samples(given.draw), given)
    shape = shape_of(given.processes, given.connections, given.depth, CELLS, IDLE)
    program = program_of("memory", given)
    plan = Plan(program, given.workers, shape, given.seconds, given.most_bytes, tell_each=60 if given.seconds >= 600 else 10)
    print(f"memory: {program}, a window of {WINDOW} ms, {CELLS} cells and {plan.workers} workers, on {os.cpu_count()} processors; "
          f"{shape.processes} processes of {shape.connections} connections ask for {shape.depth} things at once each; "
          f"full load is {f'{given.rate:,.0f} requests a second' if given.rate else 'as much as a server takes'}; "
          f"a server may have {mebibytes(plan.most_bytes)}", flush=True)
    return told(measured(plan, given), given)
