"""`python3 -m visorgal watch STATUS`: a page of what a served drive tells of itself, drawn anew each second."""
from __future__ import annotations

import argparse
import os
import sys
from collections.abc import Sequence

from visorgal.watch import watch


def seconds(text: str) -> float:
    """A time to wait."""
    try:
        given = float(text)
    except ValueError:
        given = 0
    if not 0.1 <= given <= 3600:
        raise argparse.ArgumentTypeError("a time is 0.1 to 3600 seconds")
    return given


def main(words: Sequence[str] | None = None) -> int:
    parser = argparse.ArgumentParser(prog="python3 -m visorgal", description="What goes with a served drive of Visorgal.", allow_abbrev=False)
    commands = parser.add_subparsers(dest="command", required=True)
    it = commands.add_parser("watch", help="a page of a drive's status", description="Shows what a drive tells of itself, until it is interrupted.", allow_abbrev=False)
    it.add_argument("status", metavar="STATUS", help="the file of the drive's --status")
    it.add_argument("--every", type=seconds, default=1.0, metavar="SECONDS", help="how long it waits between two pages, 0.1 to 3600; else 1")
    it.add_argument("--once", action="store_true", help="one page, and an end")
    given = parser.parse_args(words)
    try:
        watch(given.status, sys.stdout, given.every, 1 if given.once else None)
    except KeyboardInterrupt:
        pass
    except BrokenPipeError:
        # (nobody reads on: what is left to be written goes nowhere)
        os.dup2(os.open(os.devnull, os.O_WRONLY), sys.stdout.fileno())
    return 0


if __name__ == "__main__":
    sys.exit(main())
