"""Copies of a function under other names, each with an edit and with the function's written proof: so that edits of one function are tried in one check."""
import re
from dataclasses import dataclass

from tools.lib.functions import functions_of

# What stands between the name of a function and the number of its copy.
MARK = "_tried_"


@dataclass(frozen=True)
class Copy:
    """A copy of a function: the function's path and its own as a check has them, its rows, and its written proof."""

    path: str
    lines: tuple
    proofs: dict


def head_of(lines, first):
    """The row in which the attributes of a function begin."""
    row = first
    while row and lines[row - 1].strip().startswith("#["):
        row -= 1
    return row


def found(crate, file, text, path):
    """The function of that path in a text, where it is the only one."""
    same = [it for it in functions_of(crate, file, text) if it.path == path]
    return same[0] if len(same) == 1 else None


def renamed(text, path, name):
    """A written proof of a function for its copy of that name."""
    *above, own = path.split("::")[1:]
    text = re.sub(rf"(?<=\.){re.escape('.'.join([*above, own]))}(?![\w-])", ".".join([*above, name]), text)
    return re.sub(rf"(?<![\w.]){re.escape(own)}_spec(?!\w)", f"{name}_spec", text)


def copy_of(edit, place, path, folder, number):
    """A copy of the function that an edit changes, with the edit in it, or None where it can't be copied: where it is one of a trait, or another place changes too.
    A check has the function by this path."""
    if place.is_of_trait or any(it.file != place.file for it in edit.changes):
        return None
    return copied(edit.crate, edit.applied(folder, {})[place.file], place, path, folder, number)


def plain_copy(crate, place, path, folder, number):
    """A copy of a function as it stands: where that isn't proved, nothing is known by other copies of it."""
    return copied(crate, (folder / place.file).read_text(encoding="utf-8"), place, path, folder, number)


def copied(crate, text, place, path, folder, number):
    """A copy of a function as it stands in a text."""
    edited = found(crate, place.file, text, place.path)
    if not edited:
        return None
    own = path.split("::")[-1]
    lines = text.split("\n")
    name = f"{own}{MARK}{number}"
    head = re.sub(rf"\bfn {own}\b", f"fn {name}", lines[edited.first])
    body = (*lines[head_of(lines, edited.first) : edited.first], head, *lines[edited.first + 1 : edited.last + 1])
    proofs = {}
    for it in sorted((folder / "proofs").joinpath(*path.split("::")[1:]).glob("*.antt")):
        to = it.parent.parent / name / it.name
        proofs[str(to.relative_to(folder))] = renamed(it.read_text(encoding="utf-8"), path, name)
    return Copy("::".join([*path.split("::")[:-1], name]), body, proofs)


def with_copy(copy, place, crate, text):
    """The text of a file with a copy right behind its function."""
    here = found(crate, place.file, text, place.path)
    lines = text.split("\n")
    return "\n".join([*lines[: here.last + 1], "", *copy.lines, *lines[here.last + 1 :]])
