"""The worked rows of tests/rows, and those among them that the program runs without a fault."""
from dataclasses import dataclass
from pathlib import Path

# Where the rows stand, and where their texts do: those of cases of calls beside the program that makes these, those of examples as they are
# shown.
ROWS = "tests/rows"
PLACES = (ROWS, "crates/s4_row_tests/data", "examples")


@dataclass(frozen=True)
class Row:
    """A row: its kind and name, the words of the command line, what is given and what comes of it. `logins` is a text beside it."""

    kind: str
    name: str
    words: tuple
    given: bytes
    wanted: bytes
    logins: bytes | None = None

    def __str__(self):
        return f"{self.kind} {self.name}"

    def is_large(self):
        return self.given.count(b"\n") > 1000


class Shelf:
    """The texts of a checkout's rows: files, or sections of rows.cases."""

    def __init__(self, root):
        self.places, self.cases = [Path(root) / it for it in PLACES], {}
        name = None
        for line in (Path(root) / ROWS / "rows.cases").read_text(encoding="utf-8").split("\n")[:-1]:
            if line.startswith("--- "):
                name = line[4:]
                self.cases[name] = ""
            elif name:
                self.cases[name] += f"{line}\n"

    def text(self, name, kind):
        """The text of that name and kind, or none."""
        it = f"{name}.{kind}"
        if it in self.cases:
            return self.cases[it].encode()
        return next((place.joinpath(it).read_bytes() for place in self.places if place.joinpath(it).is_file()), None)

    def row(self, line):
        """The row of a line of the index; none where it isn't one script, strike or list of arrivals, or is to have a fault."""
        kind, name, *more = line
        if kind == "serials":
            return serials(name)
        if kind not in ("script", "strike", "arrivals") or self.text(name, "stderr") is not None:
            return None
        given = self.text(name, "arrivals" if kind == "arrivals" else "script") or b""
        wanted = self.text(name, "expected") or b""
        if kind == "arrivals":
            return Row(kind, name, ("hall",), given, wanted, self.text(more[0] if more else name, "logins") or b"")
        return Row(kind, name, ("run",) if kind == "script" else ("strike", *more), given, wanted)


def serials(name):
    """A script that draws all serials of a purse, then one more, and then the first of another purse."""
    given = b"window 1\n" + b"1 7 create 0\n" * 65536 + b"1 7 create 1\n"
    wanted = b"".join(b"made 7.0.%d\n" % it for it in range(1, 65536)) + b"names-spent\nmade 7.1.1\n"
    return Row("serials", name, ("run",), given, wanted)


def index_of(root):
    """The lines of the index of a checkout's rows, each as its words."""
    lines = (Path(root) / ROWS / "rows.index").read_text(encoding="utf-8").split("\n")
    return [line.split() for line in lines if line and not line.startswith("#")]


def rows_of(root):
    """The rows of a checkout that the program runs without a fault, in the order of their index."""
    shelf = Shelf(root)
    return [row for row in map(shelf.row, index_of(root)) if row]
