"""Counts the instructions of the processor that a server takes for a request of each kind, by callgrind.

  ./check measure instructions
                      a server with one worker and one cell, which one client asks for one kind of request, 64 at once. What it takes for so many more of
                      them, divided by how many that are, is what one takes, with its share of a turn and of what the threads do by themselves
      --requests N    so many, and then twice as many; else 2000
      --journal       the server keeps a journal
      --cut           the server drops what is older than a second
      --against PATH  that program beside, as the one before a change. Fails where a request that clients ask for all the time takes more than 3 in a
                      hundred more than by that one
      --program PATH  the program; else bin/s4d or crates/s4d/out/s4d, the one that was built last

It needs valgrind. Other processes of the machine change nothing in what it counts.
"""
import re
import shutil
import tempfile
from pathlib import Path

from tools.lib import client as it
from tools.lib.asked_alike import CLIENT, KINDS, VERSION, WHO
from tools.lib.commands import Options
from tools.lib.findings import Wrong, tell_all
from tools.lib.processes import exit_when_told
from tools.lib.programs import is_program, program_of
from tools.lib.servers import SECRETS, Server

OPTIONS = Options(flags=("journal", "cut"), numbers={"requests": 2000}, texts=("program", "against"))
DEPTH, MOST = 64, 1.03
WORDS = ("--workers", 1, "--cells", 1, "--idle", 0, "--hello", 0, "--open", 16, "--connections", 0)
COLLECTED = re.compile(r"Collected\s*:\s*(\d+)")
COUNTING = """#!/bin/sh
exec {valgrind} --tool=callgrind --callgrind-out-file=/dev/null {program} "$@"
"""


def counted(counting, kind, count, words):
    """The instructions of a server that was asked for a kind of request so many times."""
    with Server(counting, *WORDS, *words, tells=False) as server:
        with it.Drive(server.address, WHO, CLIENT, SECRETS[WHO], VERSION, timeout=600) as drive:
            asked = kind.made(drive, drive.create())
            for begin in range(0, count, DEPTH):
                with drive.pipeline() as pipeline:
                    for _ in range(min(DEPTH, count - begin)):
                        pipeline.ask(asked)
        _, errors = server.end()
        found = COLLECTED.search("\n".join(errors))
        if found is None:
            raise Wrong(f"{kind.name}: callgrind says nothing: {' '.join(errors[-3:])}")
        return int(found[1])


def of_one(program, kind, count, words):
    """The instructions that a program takes for one request of a kind."""
    valgrind = shutil.which("valgrind")
    if valgrind is None:
        raise Wrong("valgrind isn't there")
    with tempfile.TemporaryDirectory(prefix="counting-") as room:
        counting = Path(room) / "s4d"
        counting.write_text(COUNTING.format(valgrind=valgrind, program=program), encoding="utf-8")
        counting.chmod(0o755)
        less, more = (counted(counting, kind, many, words) for many in (count, 2 * count))
        return (more - less) / count


def run(given):
    exit_when_told()
    program, against = program_of("instructions", given), given.against and Path(given.against).resolve()
    if against and not is_program(against):
        raise Wrong(f"{against} is no program")
    words = ("--window", 1000, "--cut") if given.cut else ("--window", 1000000)
    if given.journal:
        words += ("--journal", "journal")
    print("| A request | Instructions |" + " Before | Of these |" * bool(against) + "\n|---|---|" + "---|---|" * bool(against), flush=True)
    wrong = []
    for kind in KINDS:
        now = of_one(program, kind, given.requests, words)
        row = f"| {kind.name} | {now:,.0f} |"
        if against:
            before = of_one(against, kind, given.requests, words)
            row += f" {before:,.0f} | {now / before:.3f} |"
            if kind.is_ordinary and now > before * MOST:
                wrong.append(f"WRONG: {kind.name}: {now / before:.3f} of what it took before")
        print(row, flush=True)
    return tell_all(wrong, f"instructions: {len(KINDS)} kinds, {len(wrong)} things are wrong")
