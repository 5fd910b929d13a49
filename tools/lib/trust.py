"""Which definitions contracts reach: what a reader of a theorem has to believe, and what is inner."""
import functools
import re
from collections import defaultdict
from itertools import takewhile
from pathlib import Path

from tools.lib.clauses import contracts_of
from tools.lib.crate_list import crates_of
from tools.lib.findings import Finding
from tools.lib.kit import version

PAGE = "docs/TRUST.md"
BEGIN, END = "<!-- definitions -->", "<!-- end of definitions -->"
# What is proved above all: a name, the crate and file of a function, the function, and its clauses; none: all of them.
THEOREMS = [
    ("answers are the definitions'", "s4_drive", "drive.rt", "Drive::step", ("steps", "limits", "asked")),
    ("isolation of tenants, in the definitions", "s4_laws", "principals.rt", "strangers_change_nothing", ("replies",)),
    ("isolation in a drive, by a call that tests alone make", "s4_drive", "drive.rt", "Drive::run", ("isolation", "isolated")),
    ("isolation of the bytes that `s4d hall` sends, the headline", "s4_session", "hall.rt", "Hall::run", ("fresh", "moments", "sent")),
    ("threads that share cells, once closed: one log of calls, one history of all that there ever was, isolation of replies", "s4_pool", "closes.rt", "Front::close", ()),
    ("a server that has ended: the same", "s4_server", "server.rt", "Server::run", ()),
    ("what `s4d strike` writes of a script", "s4_run", "strike.rt", "run_strike", ("written",)),
    ("one turn of a connection of a server", "s4_sockets", "conversation.rt", "Conversation::turn", ()),
    ("one call by `s4d call`", "s4_commands", "calling.rt", "call_over", ()),
    ("a map of chains", "s4_store", "store.rt", "Store", ()),
]

# The rules that all theorems speak of: a name, and the definitions with their modules.
RULES = ("the rules: answers, histories and strikes", (("s4_types.specs.Answer", "answer"), ("s4_types.specs.Play", "play"), ("s4_types.specs.Strike", "strike")))

# Definitions that a law says in other words: whoever reads these needn't read those. The law's clauses name both.
LAWS = [
    ("s4_codec", "laws.rt", "spellings_are_in_the_table", ("said", "read"), "s4_codec.specs.Requests", "request_in", ("s4_codec.specs.Table",)),
    ("s4_codec", "laws.rt", "spellings_are_in_the_table", ("reply",), "s4_codec.specs.Replies", "reply", ("s4_codec.specs.Table",)),
    ("s4_codec", "laws.rt", "spellings_are_in_the_table", ("bodies",), "s4_codec.specs.Replies", "has_body", ("s4_codec.specs.Table", "s4_codec.specs.Versions")),
    ("s4_stream", "laws.rt", "hellos_are_their_rows", ("said", "read"), "s4_stream.specs.Hello", "hello_in", ("s4_stream.specs.Rows",)),
]

IMPORTED = re.compile(r"\s*(?:ghost )?use Rattle\.([\w.]+)\.\{(.*)\};?\s*$")
RENAMED = re.compile(r"\s*(?:ghost )?use Rattle\.([\w.]+?)(?: as (\w+))?;?\s*$")
HEAD = re.compile(r"(?:abbrev )?(?:pub )?(?:record |data |abbrev )?([^\s:()]+)")
WORD = re.compile(r"[A-Za-z_◌][\w.'◌&>]*|>>=|>>|&")
SIGNS = {">>=": "◌>>=◌", ">>": "◌>>◌", "&": "◌&◌"}
VALUE = re.compile(r"\s*ghost (?:Value|view) = \{.*")


class Names:
    """What the words of a file stand for, by its imports."""

    def __init__(self, module, text):
        self.module, self.imported, self.renamed = module, {}, {}
        for line in text.split("\n"):
            found, other = IMPORTED.match(line), RENAMED.match(line)
            if found:
                for it in found[2].split(", "):
                    name, _, new = it.strip().partition(" as ")
                    self.imported[new or name] = (found[1], name)
            elif other:
                self.renamed[other[2] or other[1].rpartition(".")[2]] = other[1]

    def places(self, word):
        """The definitions that a word may stand for."""
        word = SIGNS.get(word, word)
        head, _, rest = word.partition(".")
        yield from ((self.module, it) for it in (word, head))
        yield from (self.imported[it] for it in (word, head) if it in self.imported)
        if head in self.renamed and rest:
            yield self.renamed[head], rest.partition(".")[0]


class Specs:
    """The definitions of a checkout's specs, each with its lines, and what they cite."""

    def __init__(self, root):
        self.root, self.lines, self.names, self.files = Path(root), defaultdict(list), {}, {}
        for file in sorted(self.root.glob("crates/*/specs/**/*.antt")):
            if file.name != "Lib.antt" and not file.parts[-3].endswith("_tests"):
                self.read(file)

    def read(self, file):
        crate = file.relative_to(self.root / "crates").parts[0]
        module = f"{crate}.specs.{file.stem}"
        text = file.read_text(encoding="utf-8")
        self.names[module], self.files[module], name = Names(module, text), (crate, file.stem), ""
        for line in text.split("\n"):
            code = re.split(r"(?:^|\s)--", line)[0].rstrip()
            if not code or code.startswith("use "):
                continue
            if code.startswith("infix"):
                name = code.split()[-1]
            elif code[0] not in " (" or re.match(r" +(?:abbrev |pub record |pub data )", code):
                name = HEAD.match(code.lstrip())[1]
            self.lines[module, name].append(code)

    def cited(self, names, text):
        """The definitions that a text cites."""
        return {it for word in set(WORD.findall(text)) for it in names.places(word) if it in self.lines}

    @functools.cached_property
    def said_by_laws(self):
        """Of each definition that a law says in other words, the definitions of these."""
        found = {}
        for crate, file, law, clauses, module, name, words in LAWS:
            lines, names = clauses_of(self.root, crate, file, law, clauses)
            cited = self.cited(names, "\n".join(lines))
            if (module, name) not in cited:
                raise SystemExit(f"references: {law} doesn't speak of {name}")
            found[module, name] = {it for it in cited if it[0] in words}
        return found

    @functools.cache
    def cited_by(self, place):
        """The definitions that a definition cites, or that a law has in its place."""
        if place in self.said_by_laws:
            return self.said_by_laws[place]
        return self.cited(self.names[place[0]], "\n".join(self.lines[place]))

    def reached(self, names, text):
        """The definitions that a text reaches."""
        found, waiting = set(), list(self.cited(names, text))
        while waiting:
            place = waiting.pop()
            if place not in found:
                found.add(place)
                waiting += self.cited_by(place)
        return found - self.said_by_laws.keys()

    def lines_of(self, places):
        return sum(len(self.lines[it]) for it in places)

    def lines_in(self, module):
        return sum(len(lines) for (where, _), lines in self.lines.items() if where == module)


def clauses_in(lines, wanted):
    """Of the lines of clauses those of the clauses that are wanted, or all."""
    kept, is_wanted = [], False
    for line in lines:
        head = re.match(r"\s*(?:ensures|requires)\*? (?:(\w+) )?\{", line)
        is_wanted = (not wanted or head[1] in wanted) if head else is_wanted
        kept += [line] if is_wanted else []
    return kept


def clauses_of(root, crate, file, function, wanted):
    """The lines of clauses of a function and of what callers see of its types, and what their words stand for."""
    text = (root / "crates" / crate / "src" / file).read_text(encoding="utf-8")
    lines = clauses_in(contracts_of(text)[function][1], wanted)
    if not lines:
        raise SystemExit(f"references: {function} has no such clauses in crates/{crate}/src/{file}")
    return lines + [it for it in text.split("\n") if VALUE.match(it)], Names("", text)


def of_theorem(specs, crate, file, function, wanted):
    """The definitions that a theorem reaches."""
    lines, names = clauses_of(specs.root, crate, file, function, wanted)
    return specs.reached(names, "\n".join(lines))


def of_words(specs, words):
    """The definitions that these definitions reach, and they themselves."""
    missing = [".".join(it) for it in words if it not in specs.lines]
    if missing:
        raise SystemExit(f"references: there is no definition {missing[0]}")
    return set(words).union(*(specs.reached(specs.names[it[0]], "\n".join(specs.lines[it])) for it in words))


def of_public(specs, crate):
    """The definitions that the clauses of a crate's public functions and traits reach."""
    found = set()
    for file in sorted((specs.root / "crates" / crate / "src").rglob("*.rt")):
        text = file.read_text(encoding="utf-8")
        functions = set(re.findall(r"^ *pub (?:const |unsafe )*fn (\w+)", text, re.M)) | set(re.findall(r"^pub (?:unsafe )?trait (\w+)", text, re.M))
        lines = [line for name, (_, text_of) in contracts_of(text).items() if name in functions for line in text_of]
        values = [it for it in text.split("\n") if VALUE.match(it)]
        found |= specs.cited(Names("", text), "\n".join(lines + values))
    return set().union(found, *(specs.reached(specs.names[it[0]], "\n".join(specs.lines[it])) for it in found))


def words(specs, modules, reached):
    """The files of these modules, each with how many of its lines are reached, and how many it has."""
    told = []
    for it in modules:
        part, whole = specs.lines_of(place for place in reached if place[0] == it), specs.lines_in(it)
        told.append(f"{specs.files[it][1]} {part} of {whole}" if part < whole else f"{specs.files[it][1]} {whole}")
    return ", ".join(told)


def table(root):
    """What TRUST says of definitions, counted."""
    specs = Specs(root)
    theorems = [(name, crate, function, wanted, of_theorem(specs, crate, file, function, wanted)) for name, crate, file, function, wanted in THEOREMS]
    rules = of_words(specs, RULES[1])
    lines = ["| Theorem | Function | Clauses | Definitions | Lines | Files |", "|---|---|---|---:|---:|---:|"]
    lines.append(f"| {RULES[0]} | | | {len(rules)} | {specs.lines_of(rules)} | {len({it[0] for it in rules})} |")
    for name, crate, function, wanted, found in theorems:
        clauses = ", ".join(f"*{it}*" for it in wanted) or "all"
        lines.append(f"| {name} | `{function}` of `{crate}` | {clauses} | {len(found)} | {specs.lines_of(found)} | {len({it[0] for it in found})} |")
    believed = set().union(*(it[-1] for it in theorems))
    lines.append(f"| all of these | | | {len(believed)} | {specs.lines_of(believed)} | {len({it[0] for it in believed})} |")
    lines += ["", "| Crate | To be believed for the theorems | Cited by other public clauses | Inner |", "|---|---|---|---|"]
    crates = list(dict.fromkeys(it[0] for it in specs.files.values()))
    public = {it: of_public(specs, it) for it in crates}
    cited = set().union(*public.values())
    for crate in crates:
        modules = [it for it, (name, _) in specs.files.items() if name == crate]
        first = [it for it in modules if any(place[0] == it for place in believed)]
        second = [it for it in modules if it not in first and any(place[0] == it for place in cited)]
        third = [it for it in modules if it not in first and it not in second]
        lines.append(f"| `{crate}` | {words(specs, first, believed)} | {words(specs, second, cited)} | {words(specs, third, set(specs.lines))} |")
    return "\n".join(lines)


def ported(root):
    """The crates of the kit that crates of the repository name, each with those that aren't crates of tests."""
    below, used = crates_of(root), defaultdict(set)
    for name, named in below.items():
        for it in named:
            if it not in below and it != "core" and not it.startswith("std"):
                used[it] |= set() if name.endswith("_tests") else {name}
    return used


def faults_of_ported(root, page):
    """What the page of trust says wrongly of who uses the kit's ported crates."""
    rows = {it[1]: set(re.findall(r"`(s4\w+)`", it[2])) for it in re.finditer(r"^\| (`\w+`(?:, `\w+`)*) \|(.*)", page, re.M)}
    told = {name: crates for names, crates in rows.items() for name in re.findall(r"\w+", names) if not name.startswith("s4")}
    used = ported(root)
    for name in sorted(told.keys() | used.keys()):
        if told.get(name) != used.get(name):
            yield f"{name} of the kit is used by {', '.join(sorted(used.get(name, ()))) or 'no crate but tests'}"


def wrong_trust(root):
    """What the page of trust says wrongly of the definitions, of the kit's ported crates and, as README too, of the kit."""
    page = (Path(root) / PAGE).read_text(encoding="utf-8")
    name, _, logic = version().partition(" ")
    for it in ("README.md", PAGE):
        text = (Path(root) / it).read_text(encoding="utf-8")
        if f" {logic}`" not in text:
            yield Finding(it, 1, f"the kit is {version()}")
        elif f"`{name}" not in text:
            # Machines have kits of several names, whose logic is the same.
            print(f"{it}: the kit here is {version()}")
    yield from (Finding(PAGE, 1, it) for it in faults_of_ported(root, page))
    counted = with_table(root, page)
    if counted != page:
        same = sum(1 for _ in takewhile(lambda it: it[0] == it[1], zip(page.split("\n"), counted.split("\n"))))
        yield Finding(PAGE, 1 + same, "this table is older than the definitions: call ./check references --count, and commit what it writes")


def with_table(root, page):
    """The page with its tables counted anew."""
    return f"{page[: page.index(BEGIN)]}{BEGIN}\n{table(root)}\n{page[page.index(END) :]}"
