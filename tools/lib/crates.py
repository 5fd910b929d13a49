"""The crates of a checkout, and what was tried of them."""
import functools
import hashlib
import shutil
from dataclasses import dataclass
from pathlib import Path

from tools.lib import kit, libraries
from tools.lib.crate_list import crates_of
from tools.lib.edits import Unusable, read_edit
from tools.lib.functions import traits_of

TRIED = "tools/wrong-bodies.tried"
# The rule by which edits are judged: a new number has all crates tried again.
RULE = 2
PARTS = ("src", "specs", "proofs")


@dataclass(frozen=True)
class Tried:
    """A line of the file of results: what was tried of a crate, over which files and which statements below it."""

    own: str
    below: str
    stated: str
    refused: int
    date: str
    seconds: int

    def line(self, name):
        return f"{name} own={self.own} below={self.below} stated={self.stated} refused={self.refused} tried={self.date} seconds={self.seconds}"


class Repository:
    """The crates of a checkout, and what was tried of them."""

    def __init__(self, root, is_after_ci=False):
        self.root, self.crates, self.is_after_ci = Path(root).resolve(), crates_of(root), is_after_ci
        # (what a check refuses goes by the kit's logic; its name says more)
        self.kit = kit.version().partition(" ")[2]

    def folder(self, name):
        return self.root / "crates" / name

    @functools.cache
    def below(self, name):
        """The crates of the repository that a crate stands on."""
        found = {}
        for it in self.crates[name]:
            if it in self.crates:
                found |= dict.fromkeys([*self.below(it), it])
        return list(found)

    def files(self, name, parts):
        return sorted(it for part in parts for it in (self.folder(name) / part).rglob("*") if it.is_file())

    def sum_of(self, name, parts):
        """A sum of a crate's files in these folders, and of its line of crates.txt."""
        made = hashlib.sha256(repr((name, self.crates[name])).encode())
        for file in self.files(name, parts):
            made.update(f"{file.relative_to(self.root)}\0".encode() + file.read_bytes() + b"\0")
        return made.hexdigest()[:16]

    def own_sum(self, name):
        return self.sum_of(name, (*PARTS, "wrong"))

    def below_sum(self, name):
        """A sum of the files that the check of a crate's wrong bodies reads beside its own."""
        read = (RULE, self.kit, [self.sum_of(it, PARTS) for it in self.below(name)])
        return hashlib.sha256(repr(read).encode()).hexdigest()[:16]

    @functools.cache
    def is_left(self, name):
        """Whether an `rt ci` that passed for these files has left the libraries below a crate. Whoever says so has called it just now, where no library without
        a stamp stood before: it puts those back."""
        return self.is_after_ci and kit.are_left(self.root, name)

    @functools.cache
    def statements_of(self, name):
        """A sum of what the library of a crate states, or none where it isn't of statements alone."""
        library = kit.library_of(self.root, name)
        return libraries.stated_sum(library) if libraries.holds_statements(library, name) else None

    def stated_sum(self, name):
        """A sum of what is stated below a crate, or '-' where the libraries don't tell."""
        sums = [self.statements_of(it) for it in self.below(name)] if self.is_left(name) else [None]
        return "-" if None in sums else hashlib.sha256(repr((RULE, self.kit, sums)).encode()).hexdigest()[:16]

    def clear(self):
        """Removes the libraries that `rt ci` left, so that the next one leaves its own."""
        for name in self.crates:
            place = kit.library_of(self.root, name).parent
            if place.is_dir() and not (place / "stamp").exists():
                shutil.rmtree(place)

    def words(self, name):
        """The words of a check of a crate over what `rt ci` left."""
        return kit.words_of(self.root, name)

    def functions(self, name):
        """The functions of a crate whose library stands there, as a check names them: those that have a proof."""
        library = kit.library_of(self.root, name)
        files = {str(it.relative_to(self.folder(name))): it.read_text(encoding="utf-8") for it in self.files(name, ("src",)) if it.suffix == ".rt"}
        traits = {it for file, text in files.items() for it in traits_of(name, file, text)}
        found = libraries.functions_in(library, name) if library.is_dir() else []
        return [it for it in found if it.rpartition("::")[0] not in traits]

    def cycles(self, name):
        """The functions of a crate whose library stands there that call themselves."""
        library = kit.library_of(self.root, name)
        return libraries.cycles_in(library, name) if library.is_dir() else []

    def edits(self, name):
        """A crate's edits, and of each file that holds none why."""
        good, bad = [], []
        for path in self.files(name, ("wrong",)):
            try:
                if path.suffix != ".edit" or path.parent != self.folder(name) / "wrong":
                    raise Unusable("an edit stands right in wrong/, and its name ends in .edit")
                edit = read_edit(name, path)
                edit.applied(self.folder(name), {})
                good.append(edit)
            except Unusable as why:
                bad.append(f"{path.relative_to(self.root)}: BAD EDIT: {why}")
        return good, bad

    def with_edits(self):
        return [it for it in self.crates if (self.folder(it) / "wrong").is_dir()]

    def tried(self):
        """What was tried, by crate."""
        file, found = self.root / TRIED, {}
        for line in file.read_text(encoding="utf-8").split("\n") if file.is_file() else []:
            name, *words = line.partition("#")[0].split() or [""]
            said = dict(it.partition("=")[::2] for it in words)
            if name and said:
                found[name] = Tried(said["own"], said["below"], said["stated"], int(said["refused"]), said["tried"], int(said["seconds"]))
        return found

    def seconds_of(self, name):
        """The seconds that a crate's edits took last."""
        found = self.tried().get(name)
        return found.seconds if found else 0

    def is_changed(self, name):
        """Whether a crate was changed since its edits were tried."""
        found = self.tried().get(name)
        return not found or found.own != self.own_sum(name)

    def is_due(self, name):
        """Whether a crate's edits are to be tried: it was changed since they were, or what is stated below it."""
        if self.is_changed(name):
            return True
        found = self.tried()[name]
        return found.below != self.below_sum(name) and (found.stated == "-" or found.stated != self.stated_sum(name))

    def keep(self, found):
        head = "# What ./check wrong-bodies tried: sums of each crate, of the files below it and of what is stated there, how many edits were refused, when, and in how many seconds.\n"
        lines = [found[it].line(it) for it in self.with_edits() if it in found]
        (self.root / TRIED).write_text(head + "".join(f"{it}\n" for it in lines), encoding="utf-8")

    @functools.cache
    def height(self, name):
        """How many crates stand above one another on a crate, at most."""
        return 1 + max((self.height(it) for it, below in self.crates.items() if name in below), default=0)


def copied(repository, name, room):
    """Copies a crate and those below it, without what was made of them, and returns the copy's folder: the commands of `rt` wait for one
    another where they share a checkout."""
    names = [*repository.below(name), name]
    for it in names:
        shutil.copytree(repository.folder(it), room / "crates" / it, ignore=shutil.ignore_patterns("out"))
    (room / "crates.txt").write_text("".join(f"{it}: {' '.join(repository.crates[it])}\n" for it in names), encoding="utf-8")
    shutil.copy(repository.root / "HANDLES", room)
    # (it is the top of a repository)
    (room / ".git").mkdir()
    return room / "crates" / name
