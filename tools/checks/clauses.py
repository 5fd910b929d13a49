"""Prints an index of all contracts, made from the sources.

  ./check clauses             of all crates but those of tests
  ./check clauses CRATE..     of these crates

A line has the function behind its crate, module and type, or a type or trait that has clauses itself; the names of its clauses; the records of its
crate's specs that these cite, with their fields, which count as clauses; and the first sentence of what `///` says. What has no clause isn't in it.
"""
import sys

from tools.lib.clauses import Clauses
from tools.lib.commands import Options
from tools.lib.crate_list import crates_of
from tools.lib.programs import TOP

OPTIONS = Options(words="CRATE")


def run(given):
    every = crates_of(TOP)
    lacking = [it for it in given.words if it not in every]
    if lacking:
        sys.exit(f"clauses: {lacking[0]} is no crate")
    clauses = Clauses(TOP)
    for name in given.words or [it for it in every if not it.endswith("_tests")]:
        for line in clauses.index(name):
            print(line)
    return True
