"""Programs that tell a journal wrongly, to see that each is found."""
import tempfile
from pathlib import Path

from tools.lib.findings import Wrong, tell_all
from tools.lib.keeping import Plan, serve_at_random
from tools.lib.programs import program_of

SEED, REQUESTS = 1, 30
# Programs that do as the right one does, but for these words: what is put behind what they write.
PLANTED = {
    "a script without its third line": ('"$1 $2" = "history script"', "sed 3d"),
    "a script whose requests are another principal's": ('"$1 $2" = "history script"', "sed 's/ 7 / 8 /'"),
    "a run that replies otherwise": ('"$1" = run', "sed 's/^done$/no-memory/'"),
    "a strike that leaves a line out": ('"$1" = strike', "sed '$d'"),
    "a check that finds nothing sound": ('"$1 $2" = "history check"', "sed '$d'"),
    "a check that finds no fault": ('"$1 $2" = "history check"', "cat"),
    "a check that finds no kept sum": ('"$1 $2" = "history check"', "sed '/ kept, /d'"),
    "a server that counts records that aren't there": ('"$1" = serve', "sed -u 's/^closed /closed 99999/'"),
    "a list without refused requests": ('"$1 $2" = "history list"', "sed '/denied/d'"),
    "a list that names another connection": ('"$1 $2" = "history list"', "sed 's/\"connection\":[0-9][0-9]*/\"connection\":1/'"),
    "a list that names no peer": ('"$1 $2" = "history list"', "sed 's/\"peer\":\"[^\"]*\"/\"peer\":null/'"),
}


def planted(program, mistake, path):
    """A program at this path that makes the mistake."""
    where, what = mistake
    right = Path(program).resolve()
    path.write_text(f'#!/bin/sh\nif [ {where} ]; then {right} "$@" | {what}; else exec {right} "$@"; fi\n', encoding="utf-8")
    path.chmod(0o755)
    return path


def self_test(given):
    """Tells which programs that tell a journal wrongly aren't found. Returns whether all are, and the right one isn't."""
    program, missed = program_of("journals", given), []
    serve_at_random(program, Plan(SEED, REQUESTS, False))
    for name, mistake in PLANTED.items():
        with tempfile.TemporaryDirectory() as room:
            try:
                serve_at_random(planted(program, mistake, Path(room) / "s4d"), Plan(SEED, REQUESTS, False))
                missed.append(f"{name}: not found")
            except Wrong:
                pass
    return tell_all(missed, f"journals: {len(PLANTED) - len(missed)} planted mistakes are found")
