"""Counts what requests walk: the instructions of the processor that one of each kind takes in a drive that holds little and in one that holds much, by callgrind.

  ./check measure walks          each kind of request, asked by a script of a drive with a few objects, values, names and records, and of one with many.
                                 Only the drive's step is counted, not its line. Fails where the second is more than three times the first
  ./check measure walks WORD..   the kinds whose names have such a word
      --few N            so many objects, names and values of one object, and three times as many records and more; else 16
      --many N           the same of the drive that holds much; else 8000
      --program PATH     the program; else bin/s4d or crates/s4d/out/s4d, the one that was built last

It needs valgrind, and takes some minutes. Other processes of the machine change nothing in what it counts.
"""
import re
import shutil

from tools.lib.commands import Options
from tools.lib.findings import Wrong, tell_all
from tools.lib.programs import program_of, run as run_program
from tools.lib.worlds import ASKED, World, kinds

OPTIONS = Options(numbers={"few": 16, "many": 8000}, texts=("program",), words="WORD")
MOST = 3.0
COLLECTED = re.compile(rb"Collected\s*:\s*(\d+)")
# What is counted: the function by which a drive answers one request.
STEP = "s4_drive::drive::Drive::step::*"


def counted(valgrind, program, lines):
    """The instructions that a drive takes for the requests of a script, and what the program writes."""
    script = "".join(f"{it}\n" for it in lines).encode()
    ended = run_program(valgrind, ("--tool=callgrind", "--callgrind-out-file=/dev/null", f"--toggle-collect={STEP}", program, "run"), script)
    found = COLLECTED.search(ended.err)
    if ended.status or found is None or int(found[1]) == 0:
        raise Wrong(f"nothing is counted of {STEP}; it ends with the status {ended.status}: {ended.err[-200:].decode(errors='replace')}")
    return int(found[1]), ended.out


class Counts:
    """What requests take in one world."""

    def __init__(self, valgrind, program, size):
        self.counted = lambda lines: counted(valgrind, program, lines)
        self.world = list(World(size).lines())
        self.filled, self.said = self.counted(self.world)
        self.kinds = {it.name: it for it in kinds(size)}

    def of_one(self, name):
        """The instructions of one request of a kind, and how the last reply begins."""
        took, said = self.counted([*self.world, *self.kinds[name].asked()])
        reply = said[len(self.said) :].split(b"\n")[0].split(b" ")[0].decode()
        return (took - self.filled) / ASKED, reply


def run(given):
    program, valgrind = program_of("walks", given), shutil.which("valgrind")
    if valgrind is None:
        raise Wrong("valgrind isn't there")
    few, many = (Counts(valgrind, program, size) for size in (given.few, given.many))
    print(f"| A request | What there is more of | {given.few} of it | {given.many} of it | Of these | Replied |\n|---|---|---:|---:|---:|---|", flush=True)
    wrong = []
    for kind in (it for it in kinds(given.few) if not given.words or any(word in it.name for word in given.words)):
        (less, _), (more, reply) = few.of_one(kind.name), many.of_one(kind.name)
        print(f"| {kind.name} | {kind.grows} | {less:,.0f} | {more:,.0f} | {more / less:.2f} | {reply} |", flush=True)
        if more > MOST * less:
            wrong.append(f"WRONG: {kind.name}: {more / less:.2f} times what it takes where there is little")
    return tell_all(wrong, f"walks: {len(wrong)} things are wrong")
