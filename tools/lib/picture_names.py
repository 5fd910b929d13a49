"""The crates, functions and files that pictures name."""
import re

from tools.lib.clauses import contracts_of
from tools.lib.findings import Finding

PICTURE = re.compile(r"docs/pictures/\w+\.dot")
LABEL = re.compile(r'label=(?:"((?:\\.|[^"\\])*)"|<(<.*?>)>(?=\s*[\],]))', re.S)
# Where a line of a label ends, in plain ones and in tables.
LINE_END = re.compile(r"\\[nlr]|<[^>]*>")
CRATE = re.compile(r"\bs4\w+")
# A function is told from other words by its type, or by a name of several words; a file by its ending.
NAME = re.compile(r"\b(?!s4)(?:\w+::\w+|[a-z]+(?:_[a-z0-9]+)+)\b(?!\.\w)")
FILE = re.compile(r"[\w/]+\.(?:rt|antt|md|py|txt)\b")


def is_function_of(checkout, crate, name):
    """Whether a crate has a function of this name, alone or behind its type."""
    head = f"fn {name.rpartition('::')[2]}"
    return any(head in text and name in contracts_of(text) for _, text in checkout.clauses.sources(crate))


def fault_of_name(checkout, name, named):
    """Why there is no such function in the crates that are named beside it, or in any where none is, or nothing."""
    crates = named or [it for it in checkout.crates() if not it.endswith("_tests")]
    if any(is_function_of(checkout, it, name) for it in crates):
        return None
    return f"no such function in {', '.join(named)}: {name}" if named else f"no such function: {name}"


def faults_of_line(checkout, line):
    """What a line of a label names that isn't there."""
    every, crates = checkout.crates(), CRATE.findall(line)
    yield from (f"no such crate: {it}" for it in crates if it not in every)
    named = [it for it in crates if it in every]
    yield from (fault_of_name(checkout, it, named) for it in NAME.findall(line))
    yield from (checkout.file_fault(it, named) for it in FILE.findall(line))


def faults_of_pictures(checkout):
    """What pictures name that isn't there."""
    for file in sorted(filter(PICTURE.fullmatch, checkout.files)):
        text = checkout.text(file)
        for label in LABEL.finditer(text):
            for line in LINE_END.split((label[1] or label[2] or "").replace("&nbsp;", " ")):
                found = list(faults_of_line(checkout, line))
                checkout.count += len(found)
                yield from (Finding(file, 1 + text.count("\n", 0, label.start()), fault) for fault in found if fault)
