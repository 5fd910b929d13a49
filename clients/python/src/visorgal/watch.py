"""A page of a served drive's status, drawn anew each second."""
from __future__ import annotations

import os
import time
from dataclasses import dataclass
from typing import IO

from visorgal.status import NoStatus, Status

# From which age on a status that is written each second is told to be old, in seconds.
OLD = 3
# What a terminal is told, so that it is drawn over: go to the top, and clear what is below.
CLEAR = "\x1b[H\x1b[J"


@dataclass(frozen=True)
class Reading:
    """A status, and for how many seconds it has stood so."""

    status: Status
    age: float

    @classmethod
    def of(cls, path: str | os.PathLike[str]) -> Reading:
        """What stands in a file now; NoStatus where there is none."""
        try:
            written = os.stat(path).st_mtime
        except OSError:
            written = time.time()
        return cls(Status.read(path), max(0.0, time.time() - written))


@dataclass(frozen=True)
class Change:
    """From one status to a later one of the same start."""

    before: Status
    now: Status

    def per_second(self, before: int, now: int) -> str:
        """By how much a number grew each second, by the drive's own clock; nothing where no time went by."""
        passed = self.now.moment - self.before.moment
        return f" ({(now - before) * 1000 / passed:+,.1f}/s)" if passed > 0 else ""

    def size_per_second(self, before: int, now: int) -> str:
        """The same of a number of bytes."""
        passed = self.now.moment - self.before.moment
        return f" ({'-' if now < before else '+'}{size(abs(now - before) * 1000 // passed)}/s)" if passed > 0 else ""


def page(it: Reading, before: Status | None = None) -> list[str]:
    """The lines of a reading, with rates where there is an earlier status of this start. What wants a look stands first, behind a `!`."""
    now = it.status
    change = Change(before if before is not None and goes_on(before, now) else now, now)
    return [*warnings(it, change), *counts(change), *connections(now), *failed_logins(now), *refusals(change), *journal(change), *cells(now)]


def goes_on(before: Status, now: Status) -> bool:
    """Whether the later one may be of the same start: nothing that only grows is less."""
    return before.moment <= now.moment and before.replies <= now.replies and before.connections.accepted <= now.connections.accepted


def warnings(it: Reading, change: Change) -> list[str]:
    before, now = change.before, change.now
    all_before, all_now = sum(before.failed_logins.values()), sum(now.failed_logins.values())
    told = [
        (it.age >= OLD, f"this is {it.age:,.0f} s old: the drive ended, hangs, or can't write it"),
        (now.journal is not None and now.journal.fails, "the journal can't be written"),
        (all_now > all_before, f"failed logins: {all_now - all_before} more"),
        (refused(now, "no_memory") > refused(before, "no_memory"), "requests are refused for want of memory"),
        (now.connections.turned_away > before.connections.turned_away, "connections are turned away"),
    ]
    return [f"! {text}" for is_so, text in told if is_so]


def refused(status: Status, kind: str) -> int:
    return status.refusals.get(kind, 0)


def counts(change: Change) -> list[str]:
    before, now = change.before, change.now
    memory = "not told"
    if now.resident_bytes is not None:
        memory = size(now.resident_bytes) + change.size_per_second(before.resident_bytes or 0, now.resident_bytes)
    return [
        f"port {now.port}, moment {now.moment}",
        line("records", f"{now.records:,}{change.per_second(before.records, now.records)}, {now.values:,} values"),
        line("replies", f"{now.replies:,}{change.per_second(before.replies, now.replies)}"),
        line("memory", memory),
    ]


def connections(now: Status) -> list[str]:
    it = now.connections
    return [
        line("connections", f"{it.open:,} open: {it.greeting:,} not welcomed, {it.welcomed:,} welcomed, {it.leaving:,} leaving"),
        line("", f"{it.accepted:,} let in ever, {it.turned_away:,} turned away"),
    ]


def failed_logins(now: Status) -> list[str]:
    """The most first."""
    by = sorted(((count, who) for who, count in now.failed_logins.items() if who is not None and count), key=lambda it: (-it[0], it[1]))
    others = now.failed_logins.get(None, 0)
    names = [f"{who}: {count:,}" for count, who in by[:8]] + ([f"{len(by) - 8:,} more principals"] if by[8:] else []) + ([f"others: {others:,}"] if others else [])
    return [line("failed logins", ", ".join(names) or "none")]


def refusals(change: Change) -> list[str]:
    told = [(kind, count) for kind, count in change.now.refusals.items() if count]
    if not told:
        return [line("refused", "none")]
    words = [f"{kind} {count:,}{change.per_second(refused(change.before, kind), count)}" for kind, count in told]
    return [line("refused" if not place else "", word) for place, word in enumerate(words)]


def journal(change: Change) -> list[str]:
    before, now = change.before.journal, change.now.journal
    if now is None:
        return [line("journal", "none is kept")]
    grows = change.size_per_second(before.records, now.records) if before is not None and before.start == now.start else ""
    return [line("journal", f"start {now.start}: records {size(now.records)}{grows}, calls {size(now.calls)}, connections {size(now.connections)}")]


def cells(now: Status) -> list[str]:
    """How far the newest record of each cell is behind the clock, in seconds."""
    told = [f"{cell.records:,} records, {cell.values:,} values, the newest {(now.moment - cell.last) / 1000:,.1f} s ago" for cell in now.cells]
    return [line(f"cell {number}", text) for number, text in enumerate(told)]


def line(name: str, text: str) -> str:
    return f"{name:<14} {text}"


def size(count: int) -> str:
    """Bytes, in the greatest unit of which there is one."""
    for unit, name in ((10**9, "GB"), (10**6, "MB"), (10**3, "kB")):
        if count >= unit:
            return f"{count / unit:,.1f} {name}"
    return f"{count} bytes"


def watch(path: str | os.PathLike[str], out: IO[str], every: float = 1.0, times: int | None = None) -> None:
    """Writes the page of a status, again and again: over the last one on a terminal, else behind it. Where there is no status it says so, and goes on."""
    before: Status | None = None
    is_terminal, drawn = out.isatty(), 0
    while times is None or drawn < times:
        if drawn:
            time.sleep(every)
        try:
            reading = Reading.of(path)
            lines, before = page(reading, before), reading.status
        except NoStatus as why:
            lines = [f"! {why}"]
        # (a terminal that doesn't know its width says 0)
        width = (is_terminal and os.get_terminal_size(out.fileno()).columns) or None
        out.write(CLEAR if is_terminal else "\n" if drawn else "")
        out.writelines(f"{text[:width]}\n" for text in lines)
        out.flush()
        drawn += 1
