"""What a served drive tells of itself in its file of --status."""
from __future__ import annotations

import json
import os
from dataclasses import dataclass
from typing import Any

from visorgal.errors import VisorgalError


class NoStatus(VisorgalError):
    """There is no status: the file isn't there, or is none."""


@dataclass(frozen=True)
class Connections:
    """How many connections were let in ever, how many were closed at once since as many as may be were open, and how many are open: of these, those that aren't
    welcomed, those that are, and those that were told their end."""

    accepted: int
    turned_away: int
    open: int
    greeting: int
    welcomed: int
    leaving: int


@dataclass(frozen=True)
class Cell:
    """A cell: its records, its values, the moment of its newest record, and the horizon then."""

    records: int
    values: int
    last: int
    horizon: int


@dataclass(frozen=True)
class Journal:
    """A journal: the number of its start, how many bytes it has in its files of records, calls and connections, and whether writing fails now."""

    start: int
    records: int
    calls: int
    connections: int
    fails: bool


@dataclass(frozen=True)
class Status:
    """What a served drive told of itself. `failed_logins` has how many each principal had, and under None all others'; `refusals` how many there were of each kind;
    `resident_bytes` is None where the system doesn't tell."""

    moment: int
    port: int
    resident_bytes: int | None
    connections: Connections
    failed_logins: dict[int | None, int]
    records: int
    values: int
    cells: tuple[Cell, ...]
    replies: int
    refusals: dict[str, int]
    journal: Journal | None

    @classmethod
    def read(cls, path: str | os.PathLike[str]) -> Status:
        """The status in a file. NoStatus where it isn't there or is none; names that this package doesn't know are passed over."""
        try:
            with open(path, encoding="utf-8") as file:
                return cls.of(json.load(file))
        except (OSError, ValueError, KeyError, TypeError) as why:
            raise NoStatus(f"{os.fspath(path)}: {told(why)}") from why

    @classmethod
    def of(cls, it: dict[str, Any]) -> Status:
        """The status that a value of JSON has."""
        failed = it["failed_logins"]
        return cls(
            moment=number(it["moment"]),
            port=number(it["port"]),
            resident_bytes=None if it["resident_bytes"] is None else number(it["resident_bytes"]),
            connections=Connections(*(number(it["connections"][name]) for name in Connections.__dataclass_fields__)),
            failed_logins={number(by["who"]): number(by["count"]) for by in failed["principals"]} | {None: number(failed["others"])},
            records=number(it["records"]),
            values=number(it["values"]),
            cells=tuple(Cell(*(number(cell[name]) for name in Cell.__dataclass_fields__)) for cell in it["cells"]),
            replies=number(it["replies"]),
            refusals={name: number(count) for name, count in it["refusals"].items()},
            journal=journal_of(it["journal"]),
        )


def journal_of(it: dict[str, Any] | None) -> Journal | None:
    """The journal that a value of JSON has."""
    if it is None:
        return None
    return Journal(number(it["start"]), number(it["bytes"]), number(it["calls"]["bytes"]), number(it["connections"]["bytes"]), it["fails"] is True)


def number(it: object) -> int:
    """A number of a status; a TypeError where it is none."""
    if not isinstance(it, int) or isinstance(it, bool):
        raise TypeError(f"{it!r} is no number")
    return it


def told(why: Exception) -> str:
    """Why a file has no status."""
    if isinstance(why, OSError):
        return why.strerror or "it can't be read"
    if isinstance(why, KeyError):
        return f"it has no {why}"
    return "it is no line of JSON" if isinstance(why, ValueError) else str(why)
