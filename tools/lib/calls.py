"""Each allocation of the library's calls refused in turn, on the worked cases of the program s4_row_tests."""
import os
import re
from concurrent.futures import ThreadPoolExecutor
from dataclasses import dataclass, field

from tools.lib.findings import Wrong
from tools.lib.growth import faults_of_growth
from tools.lib.holding import READS as KINDS_OF_READS, faults_of_holding
from tools.lib.refusing import NONE, Program, Refusal

# The word that has the program make these calls, and nothing else; one case's, where its name comes next.
PART = "calls"
# What the program says of a case, and of all that it carried out.
CASE = re.compile(rb"(\w+): as expected, without memory: (\d+) replies, (\d+) errors\n")
END = b"%d cases, 0 not as expected\n"
MARKS = (b"the call begins\n", b"the call ends\n")
# A case in which just so many refusals have to be told by replies as another case's calls ask for allocations: a hall, whose drive steps
# through the same requests.
REPLIES = {"arrive": "step_arena_three_calls_at_five"}
# A case whose calls ask for just so many allocations as another's: a SetWindow asks for nothing more where the cells hold values. Both may
# ask for none.
ALLOCATIONS = {"set_window_over_values": "set_window_over_none"}
# Cases of many calls, of which it is measured too that in all they ask for no more memory than a small multiple of what is held.
MEASURED = ("serve_many",)
# Cases of so many reads of one value, of which it is measured how much they hold, and nothing is refused.
READS = {"read_whole_values": 2_000, "read_single_bytes": 2_000}
# Cases of a talk that waits for its peer, and how many bytes its buffers may hold then. With the last three what was carried out is held too.
TALKS = {
    "talk_silent": 16,
    "talk_announcing": 16 << 10,
    "talk_half_a_frame": 160 << 10,
    "talk_reading_all": 16 << 10,
    "talk_reading_nothing": 320 << 10,
    "talk_behind_a_greatest_frame": 320 << 10,
}


class Calling(Program):
    """The program, of which what it asks for in the calls that it marks is counted and refused, and nothing else."""

    def environment(self, tells, words):
        return super().environment(tells, words | {"REFUSE_MARKS": "1"})

    def call(self, name, refusal=NONE, measures=False):
        return self.run([PART, name], os.devnull, refusal, measures)

    def names(self):
        """The names of all cases; none where the program says something else with ample memory."""
        ran = self.run([PART], os.devnull)
        names = [it[1].decode() for it in CASE.finditer(ran.output)]
        wanted = b"".join(b"%s: as expected, without memory: 0 replies, 0 errors\n" % it.encode() for it in names)
        return names if ran.status == 0 and ran.output == wanted + END % len(names) else []


@dataclass
class Called:
    """What came of a case: how many calls there are and how many allocations they make with ample memory; how many refusals fell into the
    calls, how many were told by replies and by errors, and how many calls did without; and how many pairs of refusals were tried."""

    name: str
    calls: int = 0
    allocations: int = 0
    met: int = 0
    replies: int = 0
    errors: int = 0
    without: int = 0
    pairs: int = 0
    measured: str = ""
    wrong: list = field(default_factory=list)

    def line(self):
        if self.measured:
            return f"{self.name}: {self.measured}"
        told = f"{self.replies} are told by a reply, {self.errors} by an error, {self.without} are done without"
        return f"{self.name}: {self.met} refusals in the calls, of {self.allocations} allocations of {self.calls} calls; {told}; {self.pairs} in pairs"


def told_in(name, ran):
    """How many calls told by a reply that there was no memory, and how many by an error."""
    told, marks = CASE.match(ran.output), ran.errors.splitlines(keepends=True)
    if ran.status != 0:
        raise Wrong(f"it ended with status {ran.status}" if ran.status > 0 else f"it was ended by signal {-ran.status}")
    if not told or told[1].decode() != name or ran.output[told.end() :] != END % 1:
        raise Wrong(f"it says {ran.output.decode(errors='replace')!r}")
    if not marks or len(marks) % 2 or any(it != MARKS[place % 2] for place, it in enumerate(marks)) or ran.told.get("calls_ended") != len(marks) // 2:
        raise Wrong("its calls don't begin and end in turn")
    replies, errors = int(told[2]), int(told[3])
    if replies + errors > ran.met():
        raise Wrong(f"{ran.met()} refusals were met, and {replies} replies and {errors} errors told them")
    return replies, errors


class Caller:
    """Sweeps the cases of a program, so many runs side by side."""

    def __init__(self, program, jobs):
        self.program, self.pool = program, ThreadPoolExecutor(jobs)

    def sweep(self, name):
        """Refuses each allocation of a case's calls, alone and with the next one, up to the first run that meets no refusal."""
        ample, called = self.program.call(name), Called(name)
        called.calls, called.allocations = ample.told.get("calls_ended", 0), ample.told.get("allocations", 0)
        self.told(called, "with ample memory", ample)
        if not called.allocations and name not in [*ALLOCATIONS, *ALLOCATIONS.values()]:
            called.wrong.append(f"{name}: its calls ask for no memory")
        if name in MEASURED:
            called.wrong += faults_of_growth(name, self.program.call(name, measures=True))
        if all([self.refuse(called, *it) for it in self.runs(name, called.allocations, 1)]):
            while called.met < 2 * called.allocations and self.refuse(called, *self.ran(name, Refusal(called.met + 1))):
                pass
        if called.met < called.allocations:
            called.wrong.append(f"{name}: {called.met} refusals fell into its calls, which make {called.allocations} allocations with ample memory")
        for refusal, ran in self.runs(name, called.allocations, 2):
            self.refuse_two(called, refusal, ran)
        return called

    def measure(self, name):
        """Measures what the reads or the talk of a case hold in the end."""
        ran, called = self.program.call(name, measures=True), Called(name)
        held = ran.told.get("held_by_calls", 0)
        self.told(called, "with ample memory", ran)
        if name in READS:
            count = READS[name]
            called.wrong += faults_of_holding(KINDS_OF_READS[0], name, held, count)
            called.measured = f"{held / count:.1f} bytes held for each of {count} reads"
        else:
            most = TALKS[name]
            called.wrong += [f"{name}: {held} bytes are held by a talk, and at most {most} are wanted"] if held > most else []
            called.measured = f"{held} bytes held, at most {most} wanted"
        return called

    def ran(self, name, refusal):
        return refusal, self.program.call(name, refusal)

    def runs(self, name, most, count):
        return self.pool.map(lambda it: self.ran(name, Refusal(it, count)), range(1, most + 1))

    def told(self, called, when, ran):
        try:
            return told_in(called.name, ran)
        except Wrong as why:
            called.wrong.append(f"{called.name}, {when}: {why}")
            return None

    def refuse(self, called, refusal, ran):
        """Takes a run with a refusal, and tells whether it was met. The library tells nothing of a run that a signal ended."""
        told = self.told(called, f"{refusal} of its calls refused", ran)
        replies, errors = told or (0, 0)
        called.replies += replies
        called.errors += errors
        called.met += ran.met() > 0
        called.without += ran.met() > 0 and told == (0, 0)
        return ran.met() > 0

    def refuse_two(self, called, refusal, ran):
        """Takes a run with two refusals. A call may do without an allocation, where it asks for a smaller one then; without both it can't."""
        told = self.told(called, f"{refusal} of its calls refused", ran)
        called.pairs += 1
        if told == (0, 0):
            called.wrong.append(f"{called.name}, {refusal} of its calls refused: no call tells it")


def sweep_all(program, jobs):
    """What came of all cases, in turn."""
    caller, names = Caller(program, jobs), program.names()
    if not names:
        return [Called("all cases", wrong=["all cases, with ample memory: they aren't as expected, each once"])]
    found = {name: caller.measure(name) if name in [*READS, *TALKS] else caller.sweep(name) for name in names}
    missed = [it for it in [*READS, *TALKS] if it not in found]
    for name, other in REPLIES.items():
        if name in found and (other not in found or found[name].replies != found[other].allocations):
            found[name].wrong.append(f"{name}: {found[name].replies} refusals are told by a reply, and not as many as {other} has allocations")
    for name, other in ALLOCATIONS.items():
        if name in found and (other not in found or found[name].allocations != found[other].allocations):
            found[name].wrong.append(f"{name}: its calls make {found[name].allocations} allocations, and not the number of those of {other}")
    return [*found.values(), *(Called(it, wrong=[f"{it}: there is no such case"]) for it in missed)]
