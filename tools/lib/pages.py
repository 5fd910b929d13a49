"""What pages and code refer to: pages, sections, clauses and files, and which of these aren't there."""
import os
import re
from dataclasses import dataclass
from pathlib import Path

from tools.lib.clauses import Clauses
from tools.lib.findings import Finding

# Where clauses are named in italics.
CLAUSE_PAGES = ("README.md", "docs/PROVED.md", "docs/TRUST.md")
PLANTS = "tools/planted/references.py"
# Folders of what is made, and no part of what is kept.
MADE = {"out", "bin", ".git", "__pycache__"}
CODE = {".rt", ".antt", ".edit", ".py", ".txt", ""}
TOPS = ("crates/", "docs/", "examples/", "tools/", ".ci/")
ENDINGS = ("rt", "antt", "md", "edit", "py", "script", "expected", "logins", "arrivals", "sent", "struck", "told", "index", "tried", "stderr", "txt")

LINK = re.compile(r"\[[^\]]*\]\(([^)\s]+)\)(?:,? \"([^\"]+)\")?")
CITED = re.compile(r"\bdocs/(\w+)\.md(?:[^\".\n]{0,60}?\\?\"([A-Z][^\"\\]*)\\?\")?")
SPAN = re.compile(r"`([^`]+)`")
ITALIC = re.compile(r"(?<![\w*])\*([a-z_]+)\*(?![\w*])")
CRATE = re.compile(r"(?:`|\bcrates/)(s4\w+)")
NAME = re.compile(r"[A-Za-z_][\w:]*")
# A call of the one door, up to the name of what it calls.
CALL = re.compile(r"\./check((?: +[a-z][\w-]*){1,2})")
FILE_NAME = re.compile(rf"[\w./*-]*\w\.(?:{'|'.join(ENDINGS)})")
# What is shown of examples: a block of README that is a script or its replies, and a block behind a line with a file's name.
SHOWN = re.compile(r"^```(?:script|replies)\n(.*?)^```", re.M | re.S)
SHOWN_BY_NAME = re.compile(r"^`(examples/[\w.]+)`[^\n]*:\n\n```\w*\n(.*?)^```", re.M | re.S)
# A comment's beginning, where a sentence goes on in the next line.
WRAPPED = re.compile(r"\n[ \t]*(?://[/!]?|--|#)?[ \t]*")


@dataclass(frozen=True)
class Block:
    """A paragraph, an item of a list or a row of a table: its first line, its text, the heading and the items that it stands under, and
    whether it is fenced."""

    line: int
    text: str
    heading: str
    above: str
    is_fenced: bool

    def crates(self):
        """The crates that are named here, or above."""
        return list(dict.fromkeys(CRATE.findall(f"{self.heading} {self.above} {self.text}")))


def blocks_of(text):
    """The blocks of a page."""
    found, heading, rows, first, is_fenced, items = [], "", [], 1, False, []

    def end():
        if rows:
            indent, whole = len(rows[0]) - len(rows[0].lstrip()), "\n".join(rows)
            items[:] = [it for it in items if it[0] < indent]
            found.append(Block(first, whole, heading, "\n".join(it[1] for it in items), is_fenced))
            items.append((indent, whole))
        rows.clear()

    for number, row in enumerate(text.split("\n"), 1):
        is_fence = row.lstrip().startswith("```")
        if is_fence or not row.strip() or (not is_fenced and re.match(r"\s*(?:[-#|>]|\d+\.) ?", row)):
            end()
        if is_fence:
            is_fenced = not is_fenced
        elif not is_fenced and row.startswith("#"):
            heading = row.lstrip("# ").strip()
        if row.strip() and not is_fence:
            first = first if rows else number
            rows.append(row)
    end()
    return found


def anchor_of(heading):
    """The anchor that a viewer of pages gives a heading."""
    return re.sub(r"[^\w -]", "", heading.lower()).replace(" ", "-")


class Checkout:
    """The files of a checkout, the headings of its pages, and the clauses of its crates."""

    def __init__(self, root):
        self.root, self.files = Path(root), set()
        for folder, folders, names in os.walk(self.root):
            folders[:] = [it for it in folders if it not in MADE]
            self.files |= {os.path.relpath(os.path.join(folder, it), self.root) for it in names}
        self.folders = {str(it) for file in self.files for it in Path(file).parents}
        self.pages = {it: self.text(it) for it in sorted(self.files) if it == "README.md" or re.fullmatch(r"docs/(?:measured/)?\w+\.md", it)}
        self.headings = {it: self.headings_of(text) for it, text in self.pages.items()}
        self.clauses = Clauses(self.root)
        self.tails = {"/".join(Path(it).parts[at:]) for it in self.files | self.folders for at in range(len(Path(it).parts))}
        self.count = 0

    def crates(self):
        """The crates, by the folders in which they stand."""
        return sorted({it.split("/")[1] for it in self.files if it.startswith("crates/") and it.count("/") > 1})

    def text(self, file):
        return (self.root / file).read_text(encoding="utf-8", errors="replace")

    @staticmethod
    def headings_of(text):
        return {it.heading.replace("`", "") for it in blocks_of(text)}

    def page_fault(self, page, section=None, anchor=None):
        """Why there is no such page or section, or nothing."""
        self.count += 1
        if page not in self.files and page not in self.folders:
            return f"no such page or file: {page}"
        if section and page in self.pages and section.strip() not in self.headings[page]:
            return f'no such section: {page}, "{section.strip()}"'
        if anchor and page in self.pages and anchor not in map(anchor_of, self.headings[page]):
            return f"no such section: {page}#{anchor}"
        return None

    def command_fault(self, kind, name):
        """Why there is no such check or measure, or nothing."""
        self.count += 1
        return None if f"tools/{kind}s/{name.replace('-', '_')}.py" in self.files else f"no such {kind}: {name}"

    def file_fault(self, name, crates):
        """Why there is no such file, or nothing. Words in capitals and stars stand for any names, and a path from a crate's folder on is one
        of these crates."""
        self.count += 1
        wanted = re.sub(r"^\./", "", name).rstrip("/.")
        if crates and wanted.startswith(("src/", "specs/", "proofs/")):
            return None if any(f"crates/{it}/{wanted}" in self.files for it in crates) else f"no such file in {', '.join(crates)}: {name}"
        if wanted.partition("/")[0] in MADE or wanted in self.tails:
            return None
        pattern = re.compile(re.sub(r"(?:(?<=/)|^)[A-Z]+(?=\\\.|/|$)|\\\*", r"[^/]+", re.escape(wanted)))
        if pattern.pattern != re.escape(wanted) and any(map(pattern.fullmatch, self.tails)):
            return None
        return f"no such file: {name}"

    def clause_fault(self, clause, crates, names):
        """Why this is no clause of a function of these crates that has one of these names, or nothing."""
        self.count += 1
        if not crates:
            return f"no crate is named beside the clause {clause}"
        contracts = [self.clauses.of(it) for it in crates if (self.root / "crates" / it).is_dir()]
        if any(clause in it.get(name, ()) for it in contracts for name in names):
            return None
        if any(clause in it for contract in contracts for it in contract.values()):
            return f"{clause} is a clause of {', '.join(crates)}, but of nothing that is named beside it"
        return f"{clause} is no clause of {', '.join(crates)}"


def line_in(block, position):
    return block.line + block.text.count("\n", 0, position)


def links(checkout, page, block):
    """The links of a block that lead nowhere."""
    for it in LINK.finditer(block.text):
        path, _, anchor = it[1].partition("#")
        if "://" in path or block.is_fenced:
            continue
        target = os.path.normpath(os.path.join(os.path.dirname(page), path)) if path else page
        yield it.start(), checkout.page_fault(target, it[2], anchor)


def code_in(block):
    """The code of a block: where it begins, and its text."""
    return [(0, block.text)] if block.is_fenced else [(it.start(), it[1]) for it in SPAN.finditer(block.text)]


def calls(checkout, block):
    """The names of checks and measures in a block's code that are none's."""
    for start, text in code_in(block):
        for called in CALL.finditer(text):
            first, *more = called[1].split()
            if first != "measure":
                yield start, checkout.command_fault("check", first)
            elif more:
                yield start, checkout.command_fault("measure", more[0])


def files(checkout, block):
    """The names of files in a block's code that are none's."""
    for start, text in code_in(block):
        for word in re.findall(r"[^\s,;()<>'\"]+", text):
            is_path = word.startswith(TOPS) or (not block.is_fenced and FILE_NAME.fullmatch(word) and word[0] not in ".*/")
            if (is_path or re.match(r"\./[a-z]", word)) and not word.startswith("docs/"):
                yield start, checkout.file_fault(word, block.crates())


def clauses(checkout, block):
    """The clauses in italics that are none of what is named beside them."""
    names = {name for span in SPAN.findall(block.text) for name in NAME.findall(span)}
    for it in ITALIC.finditer(block.text):
        yield it.start(), checkout.clause_fault(it[1], block.crates(), names)


def faults_of_examples(checkout, page):
    """The blocks of a page that aren't the examples that they show."""
    text = checkout.pages[page]
    kept = {checkout.text(it) for it in checkout.files if it.startswith("examples/")}
    shown = [(it.start(), it[1] in kept, "no file of examples/") for it in SHOWN.finditer(text) if page == "README.md"]
    shown += [(it.start(), it[2] == checkout.text(it[1]), f"not {it[1]}") for it in SHOWN_BY_NAME.finditer(text) if it[1] in checkout.files]
    checkout.count += len(shown)
    yield from (Finding(page, 1 + text.count("\n", 0, at), f"this block is {what}") for at, is_right, what in shown if not is_right)


def faults_of_page(checkout, page):
    """The wrong references of a page."""
    for block in blocks_of(checkout.pages[page]):
        found = [*links(checkout, page, block), *files(checkout, block), *calls(checkout, block)]
        found += [(it.start(), checkout.page_fault(f"docs/{it[1]}.md", it[2])) for it in CITED.finditer(block.text)]
        if page in CLAUSE_PAGES and not block.is_fenced:
            found += clauses(checkout, block)
        yield from (Finding(page, line_in(block, at), fault) for at, fault in found if fault)


def faults_of_code(checkout, file):
    """The pages and sections that code cites and that aren't there."""
    text = checkout.text(file)
    if "docs/" not in text:
        return
    # (each line break of a comment becomes one blank, so that a name may be cut there)
    joined, lines, last = "", [], 0
    for it in WRAPPED.finditer(text):
        joined += text[last : it.start()] + " "
        lines.append(len(joined))
        last = it.end()
    joined += text[last:]
    for it in CITED.finditer(joined):
        fault = checkout.page_fault(f"docs/{it[1]}.md", it[2])
        if fault:
            yield Finding(file, 1 + sum(at <= it.start() for at in lines), fault)


def is_code(file):
    """Whether a file may cite pages. The planted references are wrong ones."""
    return Path(file).suffix in CODE and not file.startswith(("docs/", "examples/")) and "/data/" not in file and file != PLANTS


def wrong_references(checkout):
    """All wrong references of a checkout's pages and code."""
    yield from (it for page in checkout.pages for it in faults_of_page(checkout, page))
    yield from (it for file in checkout.files if is_code(file) for it in faults_of_code(checkout, file))
    yield from (it for page in checkout.pages for it in faults_of_examples(checkout, page))
