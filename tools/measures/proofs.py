"""Watches the checks of crates that run here: what each takes of processor time and of memory.

  ./check measure proofs    until it is sent SIGTERM, or whoever called it has ended: then it says what each crate's checks took, which were
                            the dearest, and which held more memory than a check may

.ci/run calls it beside all that it does.
"""
import os
import signal
import threading
import time
from collections import defaultdict
from dataclasses import dataclass
from pathlib import Path

from tools.lib.commands import Options
from tools.lib.processes import begun, most_resident, processor_time

OPTIONS = Options()
# No check may hold more bytes of memory than that.
MOST_MEMORY = 6 << 30
# How long it rests between two looks, in seconds: of a shorter check nothing may be seen.
PAUSE = 1.0
# What is proved. What a crate's must-fail edits begin with, a check of the crate, is counted with them.
KINDS = PROOF, TESTS, EDITS, WRONG = "proof", "tests", "must-fail edits", "wrong bodies"


@dataclass
class Check:
    """What is known of one check: its crate, what it proves, its seconds of processor time, and the most bytes of memory that it held."""

    crate: str
    kind: str
    seconds: float = 0.0
    memory: int = 0

    def __str__(self):
        return f"{self.crate}: {self.kind}, {self.seconds:.0f} s, {self.memory / (1 << 30):.1f} GiB"


def kind_of(words, folder):
    """What a check proves."""
    if "rt-edit" in folder:
        return EDITS
    if "wrong-bodies-" in folder:
        return WRONG
    return TESTS if "--test" in words else PROOF


class Watch(threading.Thread):
    """Looks at the checks that run, again and again."""

    def __init__(self):
        super().__init__(daemon=True)
        self.seen, self.is_over = {}, threading.Event()

    def run(self):
        while not self.is_over.wait(PAUSE):
            for process in Path("/proc").glob("[0-9]*"):
                try:
                    self.look(process)
                except OSError:
                    pass

    def look(self, process):
        words = (process / "cmdline").read_bytes().decode(errors="replace").split("\0")
        if not words[0].endswith("/rattle") or "--crate-name" not in words:
            return
        key = process.name, begun(process.name)
        if key not in self.seen:
            self.seen[key] = Check(words[words.index("--crate-name") + 1], kind_of(words, os.readlink(process / "cwd")))
        check = self.seen[key]
        check.seconds = max(check.seconds, processor_time(process.name))
        check.memory = max(check.memory, most_resident(process.name) or 0)

    def end(self):
        """The checks that were seen, the dearest first."""
        self.is_over.set()
        self.join()
        return sorted(self.seen.values(), key=lambda it: -it.seconds)


def by_crate(checks, kind):
    """What each crate's checks of a kind took, in whole seconds."""
    found = defaultdict(float)
    for it in checks:
        found[it.crate] += it.seconds * (it.kind == kind)
    return {crate: round(seconds) for crate, seconds in sorted(found.items()) if round(seconds)}


def tell(checks):
    """Says what each crate's checks took, which checks were the dearest, and which held too much. Returns how many did."""
    for kind in KINDS:
        print(f"costs of {kind}: {', '.join(f'{crate} {seconds}' for crate, seconds in by_crate(checks, kind).items())}")
    for it in checks[:10]:
        print(f"dear: {it}")
    large = [it for it in checks if it.memory > MOST_MEMORY]
    largest = max(checks, key=lambda it: it.memory, default=None)
    if largest:
        print(f"most memory: {largest}")
    for it in large:
        print(f"TOO LARGE: {it}: a check may hold {MOST_MEMORY >> 30} GiB")
    return len(large)


def run(_):
    """Watches until it is told to end, and then tells. Returns whether no check held too much."""
    watch, asked = Watch(), threading.Event()
    signal.signal(signal.SIGTERM, lambda *_: asked.set())
    watch.start()
    while not asked.is_set() and os.getppid() != 1:
        time.sleep(PAUSE)
    return not tell(watch.end())
