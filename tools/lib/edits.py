"""Wrong bodies: edits of a crate's files."""
import os
from dataclasses import dataclass


class Unusable(Exception):
    """Why an edit can't be applied."""


@dataclass(frozen=True)
class Change:
    """One text that stands once in a file, and what comes in its place."""

    file: str
    old: str
    new: str


@dataclass(frozen=True)
class Edit:
    """A wrong body: changes of one crate's files."""

    crate: str
    name: str
    changes: tuple

    def __str__(self):
        return f"{self.crate}/{self.name}"

    def applied(self, folder, texts):
        """The texts of files, by their paths, with this edit made in them."""
        made = dict(texts)
        for change in self.changes:
            if change.file not in made:
                path = folder / change.file
                if not path.is_file():
                    raise Unusable(f"there is no file {change.file}")
                made[change.file] = path.read_text(encoding="utf-8")
            count = made[change.file].count(change.old)
            if count != 1:
                raise Unusable(f"an 'old:' text is in {change.file} {count} times, and not once: {change.old[:60]}")
            made[change.file] = made[change.file].replace(change.old, change.new)
        return made


def read_edit(crate, path):
    """The edit that a file holds."""
    file, old, changes = "", "", []
    for line in path.read_text(encoding="utf-8").split("\n"):
        if line.startswith("file: "):
            file = line[len("file: ") :].strip()
            if os.path.normpath(file) != file or not file.startswith(("src/", "specs/")):
                raise Unusable("a 'file:' line names no file below src/ or specs/")
        elif line.startswith("old: "):
            old = line[len("old: ") :]
        elif line.startswith("new:"):
            if not file or not old:
                raise Unusable("a 'new:' line stands before a 'file:' or an 'old:' line")
            changes.append(Change(file, old, line[len("new:") :].removeprefix(" ")))
            old = ""
        elif line.strip():
            raise Unusable(f"a line begins with none of 'file: ', 'old: ', 'new:': {line[:60]}")
    if not changes or all(it.old == it.new for it in changes):
        raise Unusable("it changes nothing")
    return Edit(crate, path.stem, tuple(changes))
