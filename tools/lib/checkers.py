"""How a crate's edits are checked: over what `rt check` proved of the crate, or over the libraries that `rt ci` left."""
import os
import shutil
import signal
from dataclasses import dataclass, field
from pathlib import Path

from tools.lib.crates import PARTS
from tools.lib.verdicts import run, run_check

# How many edits that need the whole check are few: each is then checked from nothing.
FEW = 3
# The proof of any function, which the check takes as a hole: what the function's contract says is believed.
HOLE = "pub {name}_spec {{ℓ}} : {{A : Type ℓ}} → A\n{name}_spec = ?\n"


def link_or_copy(one, other):
    """Gives what is proved a second name (a check replaces such a file, and writes into none), and copies anything else."""
    if str(one).endswith(".oantt"):
        os.link(one, other)
    else:
        shutil.copy2(one, other)


@dataclass
class OverProofs:
    """Checks the whole crate with edits, over what was proved of it as it stands, and of those below it, in copies of them."""

    crate: str
    folder: Path
    has_edits: bool
    is_below: bool
    seconds_first: float = 0.0
    tells_all: bool = True

    def take_over(self, kept, below):
        """Gives the copies what is made already: of the crates below by their own checks, and of this one where it was checked before. A
        library is only read, or made anew as a whole, so all of its files get second names: copies would fill a disk."""
        for name, checker in below.items():
            made = checker.as_it_stands() / "rlib"
            if made.is_dir():
                shutil.copytree(made, self.folder.parent / name / "out" / "rlib", copy_function=os.link)
        if kept.is_dir():
            shutil.copytree(kept, self.folder / "out", copy_function=link_or_copy)

    def as_it_stands(self):
        """The folder of what was made of the crate before its edits, which change `out`, were tried."""
        return self.folder / ("out-begun" if self.has_edits else "out")

    def begin(self, _whole):
        """Proves the crate as it stands, over which its edits are tried, and builds it for those above it. Returns why it isn't proved, or nothing."""
        report, self.seconds_first = run_check(self.folder, "lib" if self.is_below else "check")
        if report.is_proved and self.has_edits:
            shutil.copytree(self.folder / "out", self.as_it_stands(), copy_function=link_or_copy)
        return None if report.is_proved else report.first_complaint()

    def knows(self, _function):
        """Whether a check has a function by its path: it isn't asked for it."""
        return True

    def check(self, texts, functions):
        """Checks the crate with these texts in the place of its own: all of it, whatever functions are asked for."""
        shutil.rmtree(self.folder / "out")
        shutil.copytree(self.as_it_stands(), self.folder / "out", copy_function=link_or_copy)
        return checked(self.folder, texts, run_check)


@dataclass
class OverLibraries:
    """Checks some functions of a crate with edits, or all of it, over libraries that `rt ci` left, which has proved the crate as it stands. A function
    that isn't asked for is taken at its word: its written proof gives way to a hole, so that nothing of it is proved once more."""

    folder: Path
    words: list
    functions: list
    cycles: list
    seconds_first: float = 0.0
    tells_all: bool = False
    rounds: int = field(default=0)

    def begin(self, whole):
        """Proves the crate as it stands, where many edits need the whole check, so that each of these proves what it changes alone."""
        if whole < FEW:
            return None
        report, self.seconds_first = run(self.folder, [*self.words, "--incremental", str(self.kept)])
        return None if report.is_proved else report.first_complaint()

    @property
    def kept(self):
        """The folder of what was proved of the crate as it stands."""
        return self.folder / "kept"

    def knows(self, function):
        """Whether a check has a function by this path: one that it doesn't know ends it."""
        return not self.functions or function in self.functions or function in self.cycles

    def check(self, texts, functions):
        """Checks these functions, or the whole crate where none are told, with these texts in the place of its own."""
        self.rounds += 1
        room = self.folder / f"round-{self.rounds}"
        for part in PARTS:
            if (self.folder / part).is_dir():
                shutil.copytree(self.folder / part, room / part)
        try:
            return checked(room, texts, lambda folder: run(folder, [*self.words, *(self.some(room, functions) if functions else self.all(room))]))
        finally:
            shutil.rmtree(room)

    def some(self, room, functions):
        """Makes holes for all functions but these, and returns the words of a check of these."""
        for it in self.functions:
            if not any(it == asked or it.startswith(f"{asked}::") for asked in functions):
                dig(room, it)
        return ["--allow-holes", *(word for it in sorted(functions) for word in ("--only", it))]

    def all(self, room):
        """Takes what was proved of the crate as it stands, where it was, and returns the words of a check of all."""
        if not self.kept.is_dir():
            return []
        shutil.copytree(self.kept, room / "kept", copy_function=link_or_copy)
        return ["--incremental", str(room / "kept")]


def dig(folder, function):
    """Puts a hole in the place of a function's written proof."""
    place = folder / "proofs" / Path(*function.split("::")[1:])
    for file in ("Answers.antt", "Invariants.antt"):
        (place / file).unlink(missing_ok=True)
    place.mkdir(parents=True, exist_ok=True)
    (place / "Proof.antt").write_text(HOLE.format(name=place.name), encoding="utf-8")


def checked(folder, texts, check):
    """Checks a crate with these texts in the place of its own, or beside them, once more where the check was killed, most likely for memory. Returns the report
    and the seconds of processor time."""
    was = {file: (folder / file).read_text(encoding="utf-8") if (folder / file).is_file() else None for file in texts}
    try:
        put(folder, texts)
        report, seconds = check(folder)
        return check(folder) if report.status == -signal.SIGKILL else (report, seconds)
    finally:
        put(folder, was)


def put(folder, texts):
    """Writes these texts, and removes the files that have none."""
    for file, text in texts.items():
        if text is None:
            (folder / file).unlink(missing_ok=True)
            continue
        (folder / file).parent.mkdir(parents=True, exist_ok=True)
        (folder / file).write_text(text, encoding="utf-8")
