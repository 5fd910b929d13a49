"""Tries the edits of crates."""
import re
import tempfile
from dataclasses import dataclass, field
from pathlib import Path

from tools.lib.checkers import OverLibraries, OverProofs
from tools.lib.copies import MARK, copy_of, found, plain_copy, with_copy
from tools.lib.crates import copied
from tools.lib.edits import Unusable
from tools.lib.functions import module_of, places_of
from tools.lib.lanes import Lanes
from tools.lib.verdicts import LIMITS, UNREAD


@dataclass
class Round:
    """Edits that are tried in one check: in which functions each lies, the texts that they make, the copies of functions that some are made in, and of each such
    function a copy as it stands."""

    taken: dict = field(default_factory=dict)
    texts: dict = field(default_factory=dict)
    copies: dict = field(default_factory=dict)
    plain: dict = field(default_factory=dict)

    def numbers(self):
        """How many copies there are."""
        return len(self.copies) + len(self.plain)


@dataclass
class Trials:
    """The tries of one crate's edits, in a copy of the crate."""

    crate: str
    folder: Path
    edits: list
    checker: object
    say: object
    seconds: float = 0.0
    checks: int = 0
    refused: set = field(default_factory=set)

    @property
    def missed(self):
        """How many edits aren't refused, as far as is known."""
        return len(self.edits) - len(self.refused)

    @property
    def seconds_first(self):
        return self.checker.seconds_first

    def begin(self):
        """Has the crate proved as it stands."""
        why = self.checker.begin(sum(not self.modules(it) and places_of(it, self.folder) is None for it in self.edits))
        if why:
            self.say(f"{self.crate}: it isn't proved as it stands: {why}")
        return why is None

    def check(self, texts, functions=()):
        report, seconds = self.checker.check(texts, functions)
        self.seconds += seconds
        self.checks += 1
        return report

    def told(self, edit, why):
        self.refused.add(edit)
        self.say(f"{edit}: refused: {why}")

    def miss(self, edit, why):
        self.say(f"{edit}: {why}")

    def chosen(self, left, most, has_copies):
        """The edits of a round, that lie in functions of their own or in copies of these; or one alone."""
        chosen, used = Round(), set()
        for edit in left:
            places = self.places[edit]
            if len(chosen.taken) == most or (chosen.taken and places is None):
                continue
            copy = None
            if places and places & used:
                copy = self.copied(edit, chosen.numbers()) if has_copies else None
                if not copy:
                    continue
            try:
                chosen.texts = self.with_copy(places, copy, chosen.texts) if copy else edit.applied(self.folder, chosen.texts)
            except Unusable:
                # (another edit of this round stands in its way)
                continue
            chosen.taken[edit] = places
            if copy:
                chosen.copies[edit] = copy
                self.add_plain(places, chosen)
            if places is None:
                break
            used |= places
        return chosen

    def copied(self, edit, number):
        """A copy of the function that an edit changes, where it changes one and that can be copied."""
        places = self.places[edit]
        place = next(iter(places))
        is_known = len(places) == 1 and self.name_of(place) in getattr(self.checker, "functions", [])
        return copy_of(edit, place, self.name_of(place), self.folder, number) if is_known else None

    def with_copy(self, places, copy, texts):
        """The texts with a copy of a function, and with its written proof."""
        place = next(iter(places))
        text = texts.get(place.file) or (self.folder / place.file).read_text(encoding="utf-8")
        return {**texts, **copy.proofs, place.file: with_copy(copy, place, self.crate, text)}

    def add_plain(self, places, chosen):
        """Adds to a round a copy of a function as it stands, where it has none."""
        place = next(iter(places))
        if place not in chosen.plain:
            copy = plain_copy(self.crate, place, self.name_of(place), self.folder, chosen.numbers())
            chosen.texts = self.with_copy(places, copy, chosen.texts)
            chosen.plain[place] = copy

    def run(self):
        """Tries all edits."""
        self.places = {it: self.known_places(it) for it in self.edits}
        left, most, has_copies = list(self.edits), len(self.edits), not self.checker.tells_all
        while left:
            chosen = self.chosen(left, most, has_copies)
            told = self.tried(chosen)
            if not told and chosen.copies:
                # (it may be that a copy can't be read)
                has_copies = False
                continue
            if not told and len(chosen.taken) == 1:
                told = chosen.taken
                self.alone(next(iter(told)), chosen.texts)
            # (where a round tells nothing, half of it is tried, and at last an edit alone)
            most = len(self.edits) if told else max(1, len(chosen.taken) // 2)
            left = [it for it in left if it not in told]

    def known_places(self, edit):
        """The functions in which an edit lies, where it lies in such alone as a check can be asked for."""
        places = places_of(edit, self.folder)
        return places if places and all(self.checker.knows(self.name_of(it)) for it in places) else None

    def tried(self, chosen):
        """Checks a round's functions, says what refuses its edits, and returns those that are told."""
        names = {self.name_of(it) for edit, each in chosen.taken.items() if edit not in chosen.copies for it in each or ()}
        names |= {it.path for it in [*chosen.copies.values(), *chosen.plain.values()]}
        if not names:
            return {}
        report = self.check(chosen.texts, names)
        self.newest = report
        known = [it for it in chosen.taken if report.is_refused and self.is_fair(it, chosen, report)]
        told = {it: why for it in known for why in [self.reason(report, self.placed(it, chosen))] if why}
        for edit, why in told.items():
            self.told(edit, why)
        return told

    @staticmethod
    def is_fair(edit, chosen, report):
        """Whether a check tells of an edit: where it's made in a copy, one of the function as it stands is proved."""
        plain = chosen.plain[next(iter(chosen.taken[edit]))] if edit in chosen.copies else None
        return not plain or report.has_proved(plain.path)

    def placed(self, edit, chosen):
        """The functions in which an edit of a round lies, as they stand in its texts."""
        copy = chosen.copies.get(edit)
        paths = [(it.file, it.path) for it in chosen.taken[edit] or ()]
        if copy:
            paths = [(file, "::".join([*path.split("::")[:-1], copy.path.split("::")[-1]])) for file, path in paths]
        here = [found(edit.crate, file, chosen.texts.get(file) or (self.folder / file).read_text(encoding="utf-8"), path) for file, path in paths]
        return {it for it in here if it} or chosen.taken[edit]

    def name_of(self, place):
        """The path by which a check names a function. A method may stand in another module than its type, by which it is named."""
        known = getattr(self.checker, "functions", [])
        same = [it for it in known if it.split("::")[-2:] == place.path.split("::")[-2:]]
        return place.path if place.path in known or len(same) != 1 else same[0]

    @staticmethod
    def reason(report, places):
        why = next((why for why in map(report.against, sorted(places, key=lambda it: it.path)) if why), None)
        # (a copy is told by the name of its function)
        return why and re.sub(rf"{MARK}\d+", "", why)

    def alone(self, edit, texts):
        """Tries an edit that its functions don't tell, or that lies in none: by the modules of its files, and at last by the whole check."""
        if self.checker.tells_all and self.places[edit]:
            self.judge(edit, self.newest)
            return
        if not self.checker.tells_all and self.modules(edit):
            report = self.check(texts, self.modules(edit))
            why = report.is_refused and not self.unread(edit, report) and report.against_any()
            if why:
                self.told(edit, f"alone: {why}")
                return
        self.judge(edit, self.check(texts))

    def modules(self, edit):
        """The modules of the files that an edit changes; none where one of them is the crate's root, or none of code."""
        found = {"::".join([self.crate, *module_of(it.file)]) for it in edit.changes if it.file.startswith("src/")}
        is_known = self.crate not in found and all(it.file.startswith("src/") for it in edit.changes)
        return sorted(found) if is_known else []

    @staticmethod
    def unread(edit, report):
        """What of the edited files can't be read, if anything."""
        files = {it.file for it in edit.changes}
        return next((text for file, _, text in report.texts if file in files and text.startswith("error: ") and UNREAD.search(text)), None)

    def judge(self, edit, report):
        """Says what the whole check of one edit alone comes to."""
        unread = self.unread(edit, report)
        if report.is_proved:
            self.miss(edit, "NOT REFUSED: the crate is still proved with this edit")
        elif any(LIMITS.search(it) for it in report.lines) and not report.is_refused:
            self.miss(edit, f"NOT TOLD, by a limit of the prover: choose a change that it refuses sooner: {report.first_complaint()}")
        elif not report.is_refused or unread:
            self.miss(edit, f"BAD EDIT: it can't be compiled or read: {unread or report.first_complaint()}")
        elif why := report.against_any():
            self.told(edit, f"alone: {why}")
        else:
            self.miss(edit, f"NOT TOLD: only a written proof that names what went stands against it: change a value and keep the names: {report.first_complaint()}")


def try_crates(repository, names, jobs, say, ended=lambda trials: None):
    """Tries the edits of these crates, side by side, each crate in a copy of its own, and calls `ended` with the trials of each that is
    done. Returns all trials."""
    left = {it for it in names if repository.is_left(it)}
    needed = dict.fromkeys(below for it in names for below in [*(() if it in left else repository.below(it)), it])
    trials = {}

    def begin(it):
        if it.crate not in left:
            it.checker.take_over(repository.folder(it.crate) / "out", {below: trials[below].checker for below in repository.below(it.crate)})
        return it.begin()

    def run(done, it):
        if done["first", it.crate]:
            it.run()
        if it.crate in names:
            ended(it)

    with tempfile.TemporaryDirectory(prefix="wrong-bodies-") as room:
        lanes = Lanes(jobs)
        for name in needed:
            edits = repository.edits(name)[0] if name in names else []
            folder = copied(repository, name, Path(room) / name)
            if name in left:
                checker = OverLibraries(folder, repository.words(name), repository.functions(name), repository.cycles(name))
            else:
                checker = OverProofs(name, folder, bool(edits), any(name in repository.below(it) for it in needed))
            it = trials[name] = Trials(name, folder, edits, checker, say)
            first = [] if name in left else [("first", below) for below in repository.below(name)]
            lanes.add(("first", name), first, (0, -repository.height(name)), lambda done, it=it: begin(it))
            lanes.add(("edits", name), [("first", name)], (1, -repository.seconds_of(name), -len(edits)), lambda done, it=it: run(done, it))
        lanes.run()
    return trials
