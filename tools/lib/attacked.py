"""A server that is attacked: what others have of it meanwhile, and what it has to be."""
import os
import time
from dataclasses import dataclass, field
from pathlib import Path
from typing import Callable, NamedTuple

from tools.lib import attackers
from tools.lib.crews import Crew
from tools.lib.findings import Wrong
from tools.lib.levels import mean, quantile
from tools.lib.memory import mebibytes
from tools.lib.processes import available, processor_time, resident
from tools.lib.servers import Server, logins_of, secret_of
from tools.lib.tenants import ask_now_and_then, log_in_now_and_then

# A range is in the cell of its number modulo this. Four tenants are in the attacker's, and four in others; the newcomer is in another one.
CELLS = 4
BESIDE, ELSEWHERE, NEWCOMER = (8, 12, 16, 20), (9, 10, 11, 13), 14
# At most so many processes attack.
PROCESSES = 4
# What is wanted, in seconds: of all times of tenants but one in a hundred, of each, and of each login.
MOST_P99, MOST, MOST_LOGIN = 0.02, 0.1, 0.1
# The last third's memory is at most so many times the first one's, behind so many seconds, where what is asked leaves a short window.
MOST_GROWTH, SETTLED = 1.1, 6
# In seconds: between two looks at the memory, and how long an end may take. Bytes of the machine that are left to others.
EACH, PATIENCE, SPARE = 0.25, 60, 1 << 30
SHORT, LONG = ("--window", 2000, "--cut"), ("--window", 3_600_000, "--cut")


class Attack(NamedTuple):
    """An attack: the work of its processes, the flags of the server, and whether it can be made by one connection and by many."""

    work: Callable | None
    flags: tuple
    is_counted: bool = True
    keeps: bool = False

    @property
    def is_short(self):
        """Whether what is asked leaves the server's window soon, so that its memory has to be flat."""
        return self.flags == SHORT


ATTACKS = {
    "none": Attack(None, SHORT, is_counted=False),
    "audits": Attack(attackers.ask_for_audits, LONG),
    "versions": Attack(attackers.ask_for_the_oldest, LONG),
    "reads": Attack(attackers.ask_for_much, SHORT, keeps=True),
    "resets": Attack(attackers.reset_again, SHORT, is_counted=False, keeps=True),
    "writes": Attack(attackers.ask_in_vain, SHORT),
    "silent": Attack(attackers.say_nothing, SHORT, is_counted=False),
}


@dataclass
class Seen:
    """What was seen of an attack by so many connections: how long tenants in the attacker's cell waited, and those in others; how long logins took, and how many
    failed; the server's memory, look by look; how many processors it used; and how long its end took, where it ended."""

    name: str
    connections: int
    beside: list = field(default_factory=list)
    elsewhere: list = field(default_factory=list)
    logins: list = field(default_factory=list)
    failed: int = 0
    memory: list = field(default_factory=list)
    used: float = 0.0
    ended: float | None = None
    early: str = ""

    def growth(self):
        """How many times the memory of the first third behind its begin the last third has."""
        settled = self.memory[int(SETTLED / EACH) :]
        third = len(settled) // 3
        return mean(settled[-third:]) / mean(settled[:third]) if third else 1.0


def milliseconds(times):
    """The median, the time of all but one in a hundred, and the longest, for people."""
    kept = sorted(times)
    return " / ".join(f"{1000 * it:.1f}" for it in (quantile(kept, 0.5), quantile(kept, 0.99), kept[-1])) if kept else "none"


def row(seen):
    """What was seen, as a row of a table."""
    logins = f"{1000 * max(seen.logins):.0f}" if seen.logins else "none"
    grown = f"{seen.growth():.2f}" if ATTACKS[seen.name].is_short else ""
    ended = f"{seen.ended:.1f}" if seen.ended is not None else "killed"
    connections = seen.connections if ATTACKS[seen.name].is_counted else ""
    most = mebibytes(max(seen.memory, default=0))
    return f"| {seen.name} | {connections} | {milliseconds(seen.beside)} | {milliseconds(seen.elsewhere)} | {logins} | {seen.failed} | {most} | {grown} | {seen.used:.1f} | {ended} |"


HEAD = """| Attack | connections | same cell, ms | other cells, ms | slowest login, ms | failed | memory | grown | processors | end, s |
|---|---:|---:|---:|---:|---:|---:|---:|---:|---:|"""


def faults(seen):
    """What isn't as it has to be."""
    name = f"{seen.name}, {seen.connections} connections" if ATTACKS[seen.name].is_counted else seen.name
    for where, times in (("in the same cell", seen.beside), ("in other cells", seen.elsewhere)):
        kept = sorted(times)
        if not kept:
            yield f"{name}: tenants {where} have no reply"
            continue
        for what, found, most in (("but one in a hundred", quantile(kept, 0.99), MOST_P99), ("each", kept[-1], MOST)):
            if found > most:
                yield f"{name}: tenants {where} wait up to {1000 * found:.0f} ms, {what}, and {1000 * most:.0f} are wanted at most"
    if seen.failed or not seen.logins:
        yield f"{name}: {seen.failed} logins fail, of {seen.failed + len(seen.logins)}"
    elif max(seen.logins) > MOST_LOGIN:
        yield f"{name}: a login takes {1000 * max(seen.logins):.0f} ms, and {1000 * MOST_LOGIN:.0f} are wanted at most"
    if ATTACKS[seen.name].is_short and seen.growth() > MOST_GROWTH:
        yield f"{name}: the last third of the time has {seen.growth():.2f} times the memory of the first, and {MOST_GROWTH} are wanted at most"
    if seen.ended is None:
        yield f"{name}: the server doesn't end within {PATIENCE} seconds"
    if seen.early:
        yield f"{name}: {seen.early}"


def watch(seen, server, seconds):
    """Looks at the server's memory for so many seconds, or until there is too little for others."""
    begun, before = time.monotonic(), processor_time(server.process.pid)
    while (passed := time.monotonic() - begun) < seconds:
        held = resident(server.process.pid)
        if held is None:
            raise Wrong("the server ended")
        seen.memory.append(held)
        if available() < SPARE:
            seen.early = f"ended after {passed:.0f} s, since the machine had less than {mebibytes(SPARE)} left"
            break
        time.sleep(EACH)
    seen.used = (processor_time(server.process.pid) - before) / (time.monotonic() - begun)


def gather(seen, crew):
    """Ends a crew, and takes what its tenants and its newcomer tell; its attackers aren't heard."""
    told = crew.ended(len(BESIDE) + len(ELSEWHERE) + 1)
    seen.beside = [it for times in told[: len(BESIDE)] for it in times]
    seen.elsewhere = [it for times in told[len(BESIDE) : -1] for it in times]
    seen.logins, seen.failed = list(told[-1][0]), told[-1][1]


def end(seen, server):
    """Ends a server, and notes how long that takes."""
    begun = time.monotonic()
    server.ask_to_end()
    while server.process.poll() is None and time.monotonic() - begun < PATIENCE:
        time.sleep(EACH)
    seen.ended = time.monotonic() - begun if server.process.poll() is not None else None


def crew_of(attack, address, connections):
    """All processes: tenants, a newcomer, and attackers."""
    crew = Crew(len(BESIDE) + len(ELSEWHERE))
    with crew.killed_if_raised():
        for place, who in enumerate((*BESIDE, *ELSEWHERE)):
            crew.start(True, ask_now_and_then, address, who, crew.stage, place)
        crew.start(True, log_in_now_and_then, address, NEWCOMER, crew.stage)
        processes = min(PROCESSES, connections) if attack.work else 0
        for place in range(processes):
            share = connections // processes + (place < connections % processes)
            crew.start(False, attack.work, address, share, place == 0, crew.stage)
        crew.prepare()
    return crew


def attacked(program, name, connections, seconds, workers):
    """What others have of a server while it's attacked so, by so many connections."""
    attack, seen = ATTACKS[name], Seen(name, connections)
    who = (0, attackers.WHO, *BESIDE, *ELSEWHERE, NEWCOMER)
    flags = ["--cells", CELLS, "--workers", workers, *attack.flags, *["--journal", "kept"] * attack.keeps]
    with Server(program, *flags, logins=logins_of({it: secret_of(it) for it in who})) as server:
        if attack.keeps and not Path(server.folder / "kept").is_dir():
            raise Wrong("the server keeps no journal")
        with crew_of(attack, server.address, connections) as crew:
            crew.begin()
            watch(seen, server, seconds)
            gather(seen, crew)
        end(seen, server)
    return seen


def load_average():
    return os.getloadavg()[0]
