"""Tries the wrong bodies of crates: the check of its crate has to refuse each edit crates/NAME/wrong/*.edit.

  ./check wrong-bodies        tries the crates that aren't those of tools/wrong-bodies.tried, or below which something else is stated
  ./check wrong-bodies CRATE..
                              tries these crates
      --all                   tries all crates
      --look                  tries nothing: whether each edit can be applied, and which crates were changed since they were tried
      --self-test             tries a small crate with wrong bodies, a right one and edits that can't be tried, and compares
      --after-ci              right behind the first `rt ci` of a checkout, which passed: over the libraries that it left, and removes them at the end
      --jobs N                so many crates side by side; else as many as there are processors, with 4 GB of free memory for each

An edit is a file with a line 'file: src/NAME.rt' (or a file of specs/) and then pairs of lines 'old: TEXT' and 'new: TEXT'. Each old
TEXT stands in that file once. Edits that lie in functions of their own are tried at once, in one check, and each is judged by the line
that the check prints of its function: it has to be not proved by itself, and not only since it calls another. What a check can't tell so
is tried in the next one, and at last alone. Behind `rt ci` a check proves the edited functions alone, and takes what they call at its word.
Edits of one function are tried there in copies of it, each with the written proof under the copy's name. An edit is not refused if the crate is
still proved with it, or if only a written proof that names what went, or a limit of the prover, stands against it: these say nothing of a clause.

What was tried is kept in tools/wrong-bodies.tried, a line for each crate. docs/CONTRIBUTING.md says when to call this, and what it costs.
"""
import datetime
import sys
import threading

from tools.lib.commands import Options
from tools.lib.crates import TRIED, Repository, Tried
from tools.lib.findings import tell
from tools.lib.lanes import lanes_here
from tools.lib.programs import TOP
from tools.lib.trials import try_crates

OPTIONS = Options(flags=("all", "look", "self-test", "after-ci"), numbers={"jobs": lanes_here}, words="CRATE")


def look(repository):
    """Says which edits can't be applied, and which lines of the file of results are of no crate with wrong bodies."""
    faults = [line for name in repository.with_edits() for line in repository.edits(name)[1]]
    for name in sorted(set(repository.tried()) - set(repository.with_edits())):
        faults.append(f"{TRIED} has {name}, which has no wrong bodies: call ./check wrong-bodies, and commit what it writes")
    return faults


def tell_due(repository, names, why):
    """Says which crates' edits are to be tried, and what they took last."""
    seconds = sum(repository.seconds_of(it) for it in names)
    each = ", ".join(f"{it} {repository.seconds_of(it) or '?'}" for it in names)
    print(f"{len(names)} of {len(repository.with_edits())} crates {why}{f'; their wrong bodies took {seconds} s last: {each}' if names else ''}", flush=True)


def try_and_keep(repository, names, jobs):
    """Tries these crates, prints what comes of it, and keeps what is known of a crate once it is done. Returns whether all is refused."""
    alone = threading.Lock()
    bad = {name: repository.edits(name)[1] for name in names}

    def say(text):
        print(text, flush=True)

    def keep(it):
        first = f", after {it.seconds_first:.0f} s for its first check" if it.seconds_first else ""
        say(f"{it.crate}: {len(it.refused)} of {len(it.edits)} refused, in {it.checks} checks and {it.seconds:.0f} s{first}")
        tried = repository.tried()
        tried.pop(it.crate, None)
        if not it.missed and not bad[it.crate]:
            today = datetime.date.today().isoformat()
            sums = repository.own_sum(it.crate), repository.below_sum(it.crate), repository.stated_sum(it.crate)
            tried[it.crate] = Tried(*sums, len(it.refused), today, round(it.seconds))
        repository.keep(tried)

    def in_turn(call):
        def called(given):
            with alone:
                call(given)

        return called

    for line in (it for lines in bad.values() for it in lines):
        say(line)
    trials = try_crates(repository, names, jobs, in_turn(say), in_turn(keep))
    refused = sum(len(trials[it].refused) for it in names)
    missed = sum(len(bad[it]) + trials[it].missed for it in names)
    seconds = sum(it.seconds + it.seconds_first for it in trials.values())
    say(f"{refused} wrong bodies refused, {missed} not, in {seconds:.0f} s of processor time")
    return not missed


def chosen_crates(repository, given):
    """The crates that are to be tried."""
    every = repository.with_edits()
    lacking = [it for it in given.words if it not in every]
    if lacking:
        sys.exit(f"wrong-bodies: {lacking[0]} is no crate with wrong bodies")
    if given.words or given.all:
        return given.words or every
    return [it for it in every if repository.is_due(it)]


def run(given):
    repository = Repository(TOP, given.after_ci)
    if given.look:
        is_well = tell(look(repository), "wrong-bodies: each edit can be applied")
        tell_due(repository, [it for it in repository.with_edits() if repository.is_changed(it)], "were changed since they were tried")
        return is_well
    names = chosen_crates(repository, given)
    tell_due(repository, names, "are tried")
    is_well = try_and_keep(repository, names, given.jobs)
    if given.after_ci:
        repository.clear()
    return is_well
