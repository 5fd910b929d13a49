"""The pictures that pages show: SVG files, each made from the .dot beside it by graphviz, or from the .csv beside it, which was measured."""
import functools
import hashlib
import re
import subprocess
import sys
from collections import defaultdict
from itertools import pairwise
from pathlib import Path

from tools.lib.crate_list import lines_of
from tools.lib.findings import Finding

FOLDER = "docs/pictures"
CRATES = f"{FOLDER}/crates.dot"

SUM = re.compile(r"<!-- SHA-256 of (\S+): ([0-9a-f]{64}) -->\n")
# A picture in a page, with words for who can't see it.
SHOWN = re.compile(r"!\[[^\]]+\]\(pictures/(\w+\.svg)\)")
# Of the picture of the crates: names that arrows lead from and to, a group's colour and crates, and what a colour stands for.
ENDS = r"(?:\w+|\{[\w\s;,]*\})"
ARROWS = re.compile(rf"{ENDS}(?:\s*->\s*{ENDS})+")
GROUP = re.compile(r'\{ node \[fillcolor="(#\w+)"\];([\w\s;]*)\}')
KEY = re.compile(r'bgcolor="(#\w+)">([^<]+)<')


def sum_of(source):
    return hashlib.sha256(source.read_bytes()).hexdigest()


def with_sum(svg, source):
    """A picture that tells from which file it was made."""
    head, tag, rest = svg.partition("<svg")
    return f"{head}<!-- SHA-256 of {source.name}: {sum_of(source)} -->\n{tag}{rest}"


def draw(root):
    """Makes each picture anew. Returns how many there are."""
    sources = sorted((Path(root) / FOLDER).glob("*.dot"))
    for source in sources:
        try:
            made = subprocess.run(["dot", "-Tsvg", str(source)], stdout=subprocess.PIPE, text=True, encoding="utf-8", check=True).stdout
        except FileNotFoundError:
            sys.exit("pictures: dot isn't on the PATH; it is part of graphviz")
        except subprocess.CalledProcessError:
            sys.exit(f"pictures: dot can't draw {source.name}")
        source.with_suffix(".svg").write_text(with_sum(made, source), encoding="utf-8")
    return len(sources)


def read_crates(root):
    """What each crate of crates.txt stands on, and the crates below each of its comments; without those of the kit and those of tests."""
    below, groups = {}, defaultdict(set)
    for name, named, group in lines_of(root):
        if not name.endswith("_tests"):
            below[name] = named
            groups[group].add(name)
    return {name: [it for it in named if it in below] for name, named in below.items()}, groups


def own_edges(below):
    """The edges that don't follow from others."""

    @functools.cache
    def whole(name):
        return set(below[name]).union(*map(whole, below[name]))

    return {(name, it) for name, named in below.items() for it in named if not any(it in whole(other) for other in named)}


def drawn_edges(text):
    """The arrows of a picture, each with its line."""
    found = {}
    for it in ARROWS.finditer(text):
        for left, right in pairwise(re.findall(r"\w+", part) for part in it[0].split("->")):
            found |= {(one, other): 1 + text.count("\n", 0, it.start()) for one in left for other in right}
    return found


def faults_of_crates(root):
    """Where the picture of the crates differs from crates.txt."""
    text = re.sub(r"//.*", "", (Path(root) / CRATES).read_text(encoding="utf-8"))
    below, groups = read_crates(root)
    wanted, drawn = own_edges(below), drawn_edges(text)
    if text.count("->") != sum(it.count("->") for it in ARROWS.findall(text)):
        yield Finding(CRATES, 1, "an arrow stands in a form that ./check pictures doesn't read")
    yield from (Finding(CRATES, 1, f"the arrow from {it[0]} to {it[1]} isn't there") for it in wanted - drawn.keys())
    yield from (Finding(CRATES, drawn[it], f"the arrow from {it[0]} to {it[1]} is no edge of crates.txt, or follows from others") for it in drawn.keys() - wanted)
    key = dict(KEY.findall(text))
    told = {key.get(colour, colour): set(re.findall(r"\w+", names)) for colour, names in GROUP.findall(text)}
    for name in groups.keys() | told.keys():
        if groups.get(name) != told.get(name):
            yield Finding(CRATES, 1, f"the group '{name}' isn't that of crates.txt, which is: {', '.join(sorted(groups.get(name, ())))}")


def faults_of_pictures(root):
    """The pictures that weren't made from their .dot or .csv as it is now, and those that no page shows."""
    folder = Path(root) / FOLDER
    shown = {it for page in (Path(root) / "docs").glob("*.md") for it in SHOWN.findall(page.read_text(encoding="utf-8"))}
    for name in sorted({it.stem for it in folder.iterdir()}):
        measured, picture = folder / f"{name}.csv", folder / f"{name}.svg"
        source, call = (measured, "./check measure memory --draw") if measured.is_file() else (folder / f"{name}.dot", "./check pictures")
        told = SUM.findall(picture.read_text(encoding="utf-8")) if picture.is_file() else []
        if not source.is_file():
            yield Finding(f"{FOLDER}/{name}.svg", 1, f"there is no {name}.dot and no {name}.csv from which it was made")
        elif told != [(source.name, sum_of(source))]:
            yield Finding(f"{FOLDER}/{name}.svg", 1, f"it is older than {source.name}: call {call}, look at it, and commit it")
        if picture.name not in shown:
            yield Finding(f"{FOLDER}/{name}.svg", 1, "no page shows it, with words for it")


def wrong_pictures(root):
    """All that is wrong with the pictures of a checkout."""
    return sorted([*faults_of_pictures(root), *faults_of_crates(root)])
