"""Writes what each crate and each part of the gate costs into the tables of docs/CONTRIBUTING.md.

  ./check measure costs          by the logs of docs/measured/
  ./check measure costs LOG..    by these logs, the newest last: of each crate the newest log tells

A log is what .ci/run printed, from nothing, with nothing beside it on the machine: the same check costs up to half as much again beside
others. Seconds are of processor time, where nothing else is said.
"""
import re
import sys
from pathlib import Path

from tools.lib.commands import Options
from tools.lib.crates import Repository
from tools.lib.programs import TOP
from tools.measures.proofs import KINDS

OPTIONS = Options(words="LOG")
PAGE, LOGS = "docs/CONTRIBUTING.md", "docs/measured"
COLUMNS = (*KINDS, "above")
OF_KIND = re.compile(r"costs of ([a-z -]+): (.*)")
OF_PART = re.compile(r"(.+): (\d+) s of processor time, in (\d+) s(?:, on (\d+) processors)?")
OF_RUN = re.compile(r"the gate of (\S+) on (\S+), (\d+) processors \((.*)\)")


class Log:
    """What a run of the gate printed: where it ran, what each crate's checks took, and what each part."""

    def __init__(self, path):
        self.path, self.run, self.costs, self.parts = path, None, {}, []
        for line in path.read_text(encoding="utf-8", errors="replace").split("\n"):
            if run := OF_RUN.fullmatch(line):
                self.run = run.groups()
            elif kind := OF_KIND.fullmatch(line):
                self.costs |= {(crate, kind[1]): int(seconds) for crate, seconds in re.findall(r"(\w+) (\d+)", kind[2])}
            elif part := OF_PART.fullmatch(line):
                self.parts.append((part[1], int(part[2]), int(part[3])))
        if not self.run or not self.parts or not self.costs:
            sys.exit(f"costs: {path} is no log of a run of the gate that came to its end")

    def lines(self):
        """The rows of what the parts took."""
        commit, day, processors, model = self.run
        whole = self.parts[-1][1]
        yield f"| **{processors} processors**, {day}, `{commit}` ({model}; `s4_types` took {self.costs.get(('s4_types', 'proof'), 0)} s) | | | |"
        for name, seconds, time in self.parts:
            yield f"| {name} | {seconds} | {time} | {100 * seconds / whole:.0f} % |"


def crates_table(repository, costs):
    """What each crate's checks take, with those of all crates above it added up."""
    lines = [f"| Crate | {' | '.join(COLUMNS)} |", f"|---{'|---:' * len(COLUMNS)}|"]
    for name in repository.crates:
        above = [it for it in repository.crates if name in repository.below(it)]
        found = {kind: costs.get((name, kind), 0) for kind in KINDS}
        found["above"] = sum(costs.get((it, kind), 0) for it in above for kind in ("proof", "tests"))
        lines.append(f"| `{name}` | {' | '.join(str(found[it] or '') for it in COLUMNS)} |")
    sums = [str(sum(costs.get((name, kind), 0) for name in repository.crates)) for kind in KINDS]
    return "\n".join([*lines, f"| all | {' | '.join([*sums, ''])} |"])


def put(page, name, text):
    """The page with this text between its marks of that name."""
    begin, end = f"<!-- {name} -->", f"<!-- end of {name} -->"
    return f"{page[: page.index(begin)]}{begin}\n{text}\n{page[page.index(end) :]}"


def run(given):
    logs = [Log(Path(it)) for it in given.words or sorted((TOP / LOGS).glob("*.log"))]
    if not logs:
        sys.exit(f"costs: there is no log in {LOGS}")
    costs = {key: seconds for log in logs for key, seconds in log.costs.items()}
    page = (TOP / PAGE).read_text(encoding="utf-8")
    page = put(page, "costs", crates_table(Repository(TOP), costs))
    parts = ["| Part | seconds | time | share |", "|---|---:|---:|---:|", *(line for log in logs for line in log.lines())]
    (TOP / PAGE).write_text(put(page, "parts", "\n".join(parts)), encoding="utf-8")
    return True
