"""The names of the clauses in a crate's contracts, by the functions, traits and types that they belong to."""
import re
from collections import defaultdict
from dataclasses import dataclass, field

from tools.lib.functions import FUNCTION, IMPL, TRAIT, head_at, last_word, module_of, outside

CLAUSE = re.compile(r"\s*(ensures|requires)(\*?) (?:(\w+) )?\{(.*)")
INVARIANT = re.compile(r"\s*ghost (?:invariant = |(\w+): )\{(.*)")
STRUCT = re.compile(r"\s*(?:pub(?:\([^)]*\))? )?(?:struct|enum) (\w+)")
DEFINITION = re.compile(r"(?:abbrev |def )?(?:pub )?(?:abbrev |def )?(?:pub )?(record )?(\w+)\b(.*)")
FIELD = re.compile(r"\s+(?:pub )?(\w+) :")
WORD = re.compile(r"[A-Za-z_]\w*")


class Definitions:
    """The records of specs, with their fields, and which words each definition cites."""

    def __init__(self):
        self.cited, self.fields = defaultdict(set), defaultdict(dict)

    def read(self, text):
        name, is_record = "", False
        for line in text.split("\n"):
            line = line.partition("-- ")[0]
            found = DEFINITION.match(line)
            if found and line.split()[0] not in ("use", "pub") or line.startswith("pub record"):
                is_record, name = bool(found[1]), found[2]
            field = FIELD.match(line)
            if is_record and field:
                self.fields[name][field[1]] = None
            if name:
                self.cited[name].update(WORD.findall(line))

    def fields_from(self, text):
        """The fields of all records that a text reaches."""
        seen, waiting, found = set(), WORD.findall(text), set()
        while waiting:
            word = waiting.pop()
            if word not in seen:
                seen.add(word)
                found |= self.fields.get(word, {}).keys()
                waiting += self.cited.get(word, ())
        return found


def owner_at(lines, row):
    """The type or trait that begins in a row, or whose impl does, or nothing."""
    impl, trait, struct = IMPL.fullmatch(lines[row]), TRAIT.match(lines[row]), STRUCT.match(lines[row])
    if trait or struct:
        return trait[2] if trait else struct[1]
    if not impl:
        return None
    head = head_at(lines, row).strip().partition(" where ")[0]
    return last_word(head.rpartition(" for ")[2] if " for " in head else outside(head.partition("impl")[2].strip()))


@dataclass
class Contract:
    """The contract of a function, a trait or a type: the type or trait that it is or that it is of, the function where it is one, what `///` says of it,
    and its clauses: how each is named, if it is, and their lines."""

    owner: str
    function: str
    about: str
    clauses: list = field(default_factory=list)
    lines: list = field(default_factory=list)

    def names(self):
        """The names under which it is known: alone, with its type, and of its type."""
        if not self.function:
            return [self.owner]
        return [self.function] + ([f"{self.owner}::{self.function}", self.owner] if self.owner else [])

    def __str__(self):
        return "::".join(it for it in (self.owner, self.function) if it)


def about(lines, row):
    """The first sentence of the `///` above a row, or nothing."""
    said = []
    while row and re.match(r"\s*(?:///|#\[|//)", lines[row - 1]):
        row -= 1
        said.insert(0, lines[row].strip())
    text = " ".join(it.removeprefix("///").strip() for it in said if it.startswith("///"))
    return re.split(r"(?<=[.!?])\s", text, maxsplit=1)[0]


def contracts_in(text):
    """The contracts of a file, in their order; of functions also those without a clause."""
    lines, owner, of_owners, found, depth = text.split("\n"), "", {}, None, 0
    for row, line in enumerate(lines):
        if begun := owner_at(lines, row):
            owner = begun
            of_owners[owner] = of_owners.get(owner) or about(lines, row)
        function, clause, invariant = FUNCTION.match(line), CLAUSE.match(line), INVARIANT.match(line)
        if function or invariant and (not found or found.function or found.owner != owner):
            if found:
                yield found
            if invariant:
                found = Contract(owner, "", of_owners.get(owner, ""))
            else:
                found = Contract(owner if function[1] else "", function[2], about(lines, row))
        if found and (clause or invariant or depth > 0):
            found.clauses += [clause[3] if clause else invariant[1]] if clause or invariant else []
            found.lines.append(line)
            depth = (0 if clause or invariant else depth) + line.count("{") - line.count("}")
    if found:
        yield found


def contracts_of(text):
    """The contracts of a file, by the names of functions, alone and with their types, and of types: the clauses' names, and their text."""
    found = defaultdict(lambda: (set(), []))
    for it in contracts_in(text):
        for name in it.names():
            found[name][0].update(set(it.clauses) - {None})
            found[name][1].extend(it.lines)
    return found


class Clauses:
    """Of each crate, which names of clauses its functions, traits and types have."""

    def __init__(self, root):
        self.root, self.of_crate, self.of_sources = root, {}, {}

    def sources(self, name):
        """The texts of a crate's code, each with the module that it is."""
        if name not in self.of_sources:
            folder = self.root / "crates" / name
            files = sorted((folder / "src").rglob("*.rt"))
            self.of_sources[name] = [("::".join([name, *module_of(it.relative_to(folder))]), it.read_text(encoding="utf-8")) for it in files]
        return self.of_sources[name]

    def definitions(self, name):
        made = Definitions()
        for file in (self.root / "crates" / name / "specs").rglob("*.antt"):
            made.read(file.read_text(encoding="utf-8"))
        return made

    def of(self, name):
        """The clauses of a crate: each function, trait or type with the names of its clauses."""
        if name not in self.of_crate:
            definitions, found = self.definitions(name), defaultdict(set)
            for _, text in self.sources(name):
                for owner, (names, lines) in contracts_of(text).items():
                    found[owner] |= names | definitions.fields_from("\n".join(lines))
            self.of_crate[name] = found
        return self.of_crate[name]

    def index(self, name):
        """The contracts of a crate that have clauses: a line each."""
        fields = self.definitions(name).fields
        for module, contract in ((module, it) for module, text in self.sources(name) for it in contracts_in(text) if it.clauses):
            named = ", ".join(it for it in contract.clauses if it)
            cited = [it for it in dict.fromkeys(WORD.findall("\n".join(contract.lines))) if fields.get(it)]
            told = "; ".join([*([named] if named else []), *(f"{it}: {', '.join(fields[it])}" for it in cited)])
            yield f"{module}::{contract}{f' ({told})' if told else ''}{f': {contract.about}' if contract.about else ''}"
