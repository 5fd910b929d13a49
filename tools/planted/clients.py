"""Mistakes that are planted in the client for Python, to see that each is told."""
from unittest.mock import patch

from tools.lib import client as it
from tools.checks.clients import compare
from tools.lib.cases import Cases
from tools.lib.findings import tell_all
from tools.lib.programs import program_of


def reversed_replies(ask_all):
    return lambda drive, asked: ask_all(drive, asked)[::-1]


# Mistakes of the client, each as a change of it in memory.
PLANTED = {
    "a length of data in two bytes by version 2": lambda: patch.dict(it.LENGTH_OF_DATA, {2: 2}),
    "a read whose length comes before its offset": lambda: patch.dict(it.Read.parts, {name: it.Read.parts[name] for name in ("object", "length", "offset", "at")}, clear=True),
    "a refusal that is taken for another": lambda: patch.dict(it.COMES, {b"\x08\x02": (it.NoPartition, {})}),
    "replies in another order": lambda: patch.object(it.Connection, "ask_all", reversed_replies(it.Connection.ask_all)),
}


def self_test(given):
    """Tells which of the client's planted mistakes aren't told. Returns whether there are none."""
    program, missed = program_of("clients", given), []
    for name, plant in PLANTED.items():
        cases = Cases(False, False)
        with plant():
            compare(program, cases)
        if not cases.wrong:
            missed.append(f"{name}: not told")
    return tell_all(missed, f"clients: {len(PLANTED) - len(missed)} of {len(PLANTED)} planted mistakes are told")
