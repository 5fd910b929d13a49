"""What is found to be wrong, and how it is told."""
from dataclasses import dataclass


class Wrong(Exception):
    """Why something isn't right."""


@dataclass(frozen=True, order=True)
class Finding:
    """What is wrong in a file, and where it stands."""

    file: str
    line: int
    fault: str

    def __str__(self):
        return f"{self.file}:{self.line}: {self.fault}"


def tell(faults, well):
    """Prints what is wrong, a line each, or that all is well. Returns whether it is."""
    print("\n".join(map(str, faults)) or well, flush=True)
    return not faults


def tell_all(faults, summary):
    """Prints what is wrong, a line each, and then a last line in any case. Returns whether all is well."""
    print("\n".join([*map(str, faults), summary]), flush=True)
    return not faults


def first_difference(ours, theirs):
    """The place of the first item in which two lists differ; where one is a beginning of the other, its length."""
    return next((place for place, (one, other) in enumerate(zip(ours, theirs)) if one != other), min(len(ours), len(theirs)))
