"""The list of crates.txt: what each crate stands on, and the groups in which they stand there."""
from pathlib import Path


def lines_of(root):
    """Of each crate its name, what it stands on, and the comment below which it stands."""
    group = ""
    for line in (Path(root) / "crates.txt").read_text(encoding="utf-8").split("\n"):
        head, found, below = line.partition("#")[0].partition(":")
        if line.startswith("#"):
            group = line[1:].strip()
        elif found:
            yield head.split()[0], below.split(), group


def crates_of(root):
    """What each crate stands on, in the order of the list."""
    return {name: below for name, below, _ in lines_of(root)}
