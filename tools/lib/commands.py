"""How checks and measures are found, listed and called."""
import argparse
import ast
import importlib
import os
import sys
from dataclasses import dataclass, field

from tools.lib.findings import Wrong
from tools.lib.programs import TOP

# The folders below tools/ in which each command is a file, and the words by which one of them is called.
FOLDERS = {"checks": (), "measures": ("measure",)}
NOT_SO = 2


@dataclass(frozen=True)
class Options:
    """What a command takes: flags; numbers, each with what it is else, or what gives that; texts; and what the words behind them are called."""

    flags: tuple = ()
    numbers: dict = field(default_factory=dict)
    texts: tuple = ()
    words: str = ""

    def parser(self, called, told):
        """The parser of a command that is called so, and that tells this of itself."""
        made = argparse.ArgumentParser(called, argparse.SUPPRESS, told, formatter_class=argparse.RawDescriptionHelpFormatter)
        for name in self.flags:
            made.add_argument(f"--{name}", action="store_true")
        for name, given in self.numbers.items():
            standard = given() if callable(given) else given
            made.add_argument(f"--{name}", type=type(standard), default=standard, metavar="N")
        for name in self.texts:
            made.add_argument(f"--{name}", metavar="PATH")
        if self.words:
            made.add_argument("words", nargs="*", metavar=self.words)
        return made


@dataclass(frozen=True)
class Command:
    """A check or a measure: the folder below tools/ in which its file stands, and its name."""

    folder: str
    name: str

    @property
    def module(self):
        return self.name.replace("-", "_")

    @property
    def called(self):
        return " ".join(("./check", *FOLDERS[self.folder], self.name))

    def told(self):
        """What it tells of itself, without being loaded."""
        file = TOP / "tools" / self.folder / f"{self.module}.py"
        return ast.get_docstring(ast.parse(file.read_text(encoding="utf-8")))

    def run(self, words):
        """Calls it by these words of the command line, and returns its status."""
        command = importlib.import_module(f"tools.{self.folder}.{self.module}")
        given = command.OPTIONS.parser(self.called, command.__doc__).parse_args(words)
        try:
            if getattr(given, "self_test", False):
                return 0 if importlib.import_module(f"tools.planted.{self.module}").self_test(given) else 1
            return 0 if command.run(given) else 1
        except KeyboardInterrupt:
            sys.exit(f"{self.name}: ended before its end")
        except Wrong as why:
            sys.exit(f"{self.name}: {why}")


def commands_of(folder):
    """The commands of a folder, by name."""
    names = sorted(it.stem.replace("_", "-") for it in (TOP / "tools" / folder).glob("*.py") if it.stem != "__init__")
    return {name: Command(folder, name) for name in names}


def listed(folder):
    """The commands of a folder, a line each."""
    found = commands_of(folder).values()
    width = max(len(it.called) for it in found) + 2
    return "\n".join(f"{it.called:{width}}{it.told().splitlines()[0]}" for it in found)


def processors():
    """How many processors there are for this command."""
    return len(os.sched_getaffinity(0))


def enter(words, told):
    """Calls the command that these words name, or lists what there is. Returns the status."""
    folder = "measures" if words[:1] == ["measure"] else "checks"
    words = words[1:] if folder == "measures" else words
    if words[:1] in (["--help"], ["-h"]):
        print(told)
        return 0
    if not words:
        print("\n".join(listed(it) for it in ([folder] if folder == "measures" else FOLDERS)))
        return 0
    command = commands_of(folder).get(words[0])
    if not command:
        print(f"check: there is no {words[0]}: ./check alone lists what there is", file=sys.stderr)
        return NOT_SO
    return command.run(words[1:])
