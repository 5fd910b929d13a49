"""Each allocation of a row's run refused in turn, alone and with the next one."""
import os
from concurrent.futures import ThreadPoolExecutor
from dataclasses import dataclass, field

from tools.lib.judging import JUDGES, judged
from tools.lib.refusing import Refusal

# Of how many allocations of a large row each kind of refusal is tried, and of how many of each row when it is to be quick; of fewer where
# all runs together would take more lines than these.
SPREAD, SPREAD_LINES = 500, 1_500_000
QUICK, QUICK_LINES = 6, 100_000


@dataclass
class Swept:
    """What came of a row: how many runs met refusals, alone and in pairs, of how many allocations, and what was wrong."""

    name: str
    allocations: int = 0
    met: dict = field(default_factory=dict)
    tried: dict = field(default_factory=dict)
    wrong: list = field(default_factory=list)
    known: dict = field(default_factory=dict)
    told: str = ""

    def line(self):
        if self.told:
            return f"{self.name}: {self.told}"
        runs = " and ".join(f"{self.met[it]} refusals met {'alone' if it == 1 else 'in pairs'}" for it in sorted(self.met))
        return f"{self.name}: {runs or 'no refusals met'}, of {self.allocations} allocations"


def spread(most, count):
    """So many numbers from 1 to the most, evenly spread; all where there are no more."""
    if most <= count:
        return list(range(1, most + 1))
    return sorted({1 + (2 * it + 1) * (most - 1) // (2 * count) for it in range(count)})


class Sweeper:
    """Sweeps rows, so many runs side by side."""

    def __init__(self, program, jobs, quick=False):
        self.program, self.quick = program, quick
        self.pool = ThreadPoolExecutor(jobs)

    def numbers(self, row, judge, allocations):
        """Which allocations are refused, and whether these are all. A quick sweep leaves out those of an empty text's run, where there are others."""
        lines = 1 + row.given.count(b"\n")
        if self.quick:
            first = self.program.run(judge.words(), os.devnull).told.get("allocations", 0) % allocations
            chosen = spread(allocations - first, max(1, min(QUICK, QUICK_LINES // lines)))
            return [first + it for it in chosen], False
        count = min(SPREAD, SPREAD_LINES // lines) if row.is_large() else allocations
        return spread(allocations, count), allocations <= count

    def sweep(self, row):
        """Sweeps a row."""
        given = self.program.file("given", row.given)
        logins = None if row.logins is None else self.program.file("logins", row.logins)
        judge, swept = JUDGES[row.kind](self.program, row, logins), Swept(str(row))
        ample = self.program.run(judge.words(), given)
        swept.allocations = ample.told.get("allocations", 0)
        if not swept.allocations:
            swept.wrong.append(f"{swept.name}: the program asks for no memory that the library sees")
            return swept
        why = judged(lambda: judge.judge(ample))
        if why:
            swept.wrong.append(f"{swept.name}, with ample memory: {why}")
        for count in (1, 2):
            self.sweep_by(count, row, judge, given, swept)
        return swept

    def sweep_by(self, count, row, judge, given, swept):
        """Refuses so many allocations at a time."""
        numbers, whole = self.numbers(row, judge, swept.allocations)
        runs = self.pool.map(lambda it: self.tried(judge, given, Refusal(it, count)), numbers)
        swept.tried[count], swept.met[count], unmet = len(numbers), 0, 0
        for ran, why, refusal in runs:
            swept.met[count] += ran.met() > 0
            unmet += ran.met_none()
            if why:
                swept.wrong.append(f"{swept.name}, {refusal} refused: {why}")
        if unmet:
            swept.wrong.append(f"{swept.name}: {unmet} of {len(numbers)} refusals weren't met")
        while whole and ran_on(self, judge, given, count, swept):
            pass

    def tried(self, judge, given, refusal):
        """A run with this refusal, and why it isn't right."""
        ran = self.program.run(judge.words(), given, refusal)
        return ran, judged(lambda: judge.judge(ran)), refusal


def ran_on(sweeper, judge, given, count, swept):
    """Refuses the allocation behind the last one, and tells whether it was met after all."""
    ran, why, refusal = sweeper.tried(judge, given, Refusal(swept.tried[count] + 1, count))
    if not ran.met():
        return False
    swept.tried[count] += 1
    swept.met[count] += 1
    if why:
        swept.wrong.append(f"{swept.name}, {refusal} refused: {why}")
    return True
