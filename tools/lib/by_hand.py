"""The places of the sources that make a refusal of memory by hand, compared with the list of those that are known."""
import re
from pathlib import Path

from tools.lib.findings import tell
from tools.lib.functions import functions_of

LIST = "tools/refusals.list"
# What says that there was no memory, and as an item of which the standard library makes it.
WORD = re.compile(r"\b(?:NoMemory|AllocError|AllocFailed|OutOfMemory)\b")
TEXTS = re.compile(r'//[^\n]*|b?"(?:\\.|[^"\\])*"|b?\'(?:\\.[^\']*|[^\'\\])\'', re.S)
OPENS, CLOSES = "([{", ")]}"
# What may stand outside functions and makes nothing: names that are brought in, types, heads of impls, variants and ghost code.
ITEMS = re.compile(r"^ *(?:pub(?:\([^)]*\))? )?(?:use [^;]*;|type [^;]*;|impl\b[^{]*\{|NoMemory,|ghost [^\n]*)", re.M)


def blanked(text):
    """The text with spaces in the places of its comments, strings and ghost lines."""
    def spaces(found):
        return re.sub(r"[^\n]", " ", found[0])

    return re.sub(r"^ *ghost [^\n]*", spaces, TEXTS.sub(spaces, text), flags=re.M)


def body_of(lines, function):
    """The row in which a function's body begins, in the layout of `rt fmt`: behind its head and its clauses."""
    indent = re.match(" *", lines[function.first])[0]
    for row in range(function.first, function.last + 1):
        line = lines[row]
        own = line.startswith(indent) and line[len(indent) : len(indent) + 1] not in ("", " ")
        if own and line.rstrip().endswith(("{", "}")):
            return row
    return function.last


def openers(text):
    """Of each place in the text the brackets that are open there, as places, for as far as the text is asked for."""
    open_at, found = [], []
    for at, it in enumerate(text):
        if it in CLOSES and open_at:
            open_at = open_at[:-1]
        found.append(open_at)
        if it in OPENS:
            open_at = [*open_at, at]
    return found


def is_of_struct(text, at):
    """Whether this brace opens the fields of a struct: a name with a capital stands before it, and no keyword before that."""
    found = re.search(r"(?:(\w+) +)?((?:\w+::)*)([A-Z]\w*) *$", text[max(0, at - 120) : at])
    return text[at] == "{" and bool(found) and found[1] not in ("match", "if", "while", "in", "for")


def is_pattern(text, begin, end, opened):
    """Whether what stands there is part of a pattern, by what follows it outside of the brackets around it."""
    around = list(opened)
    if any(re.search(r"\bmatches!\s*$", text[:it]) for it in around):
        return True
    at = end
    while at < len(text):
        it = text[at]
        if it in OPENS:
            depth = 1
            while depth and at + 1 < len(text):
                at += 1
                depth += (text[at] in OPENS) - (text[at] in CLOSES)
        elif it in CLOSES:
            if not around or text[around[-1]] == "{" and not is_of_struct(text, around[-1]):
                return False
            around.pop()
        elif text.startswith("=>", at) or it == "|" and text[at + 1] != "|" or re.match(r"\bif\b", text[at:]):
            return True
        elif it == "=" and text[at + 1] != "=" and text[at - 1] not in "=!<>":
            return True
        elif it == ";" or it == "," and (not around or text[around[-1]] == "{" and not is_of_struct(text, around[-1])):
            return False
        at += 1
    return False


def is_made(text, found, opened):
    """Whether the word that was found is a value that is made, and no pattern, type or comparison."""
    before = re.sub(r"(?:\w+::)*$", "", text[: found.start()])
    behind = text[found.end() :]
    if re.match(r"\s*(?:<[^;{]*)?>", behind) or re.search(r"(?:->|\bas|[^:]:|<)\s*$", before) and not re.search(r"\w\s*:\s*$", before):
        return False
    if re.search(r"(?:[=!]=)\s*(?:\w+\()*$", before):
        return False
    return not is_pattern(text, found.start(), found.end(), opened[found.start()])


def made_in(text):
    """The places of the words in the text that are values."""
    opened = openers(text) if WORD.search(text) else []
    return [it.start() for it in WORD.finditer(text) if is_made(text, it, opened)]


def is_conversion(path):
    """Whether a function turns the standard library's refusal into another type's."""
    return path.endswith(("FromAllocError::from", "FromAllocFailed::from"))


def places_in(crate, file, text):
    """How often each function of a file makes a refusal, by its path; what stands outside of functions has the file's name."""
    text = blanked(text)
    lines, found, outside = text.split("\n"), {}, text.split("\n")
    functions = functions_of(crate, file, text)
    for it in functions:
        within = [other for other in functions if it.first < other.first and other.last <= it.last]
        first = body_of(lines, it)
        body = ["" if any(other.first <= row <= other.last for other in within) else lines[row] for row in range(first, it.last + 1)]
        count = len(made_in("\n".join(body)))
        if count and not is_conversion(it.path):
            found[it.path] = found.get(it.path, 0) + count
        outside[it.first : it.last + 1] = [""] * (it.last + 1 - it.first)
    count = len(WORD.findall(ITEMS.sub("", "\n".join(outside))))
    return found | ({f"{crate}/{file}": count} if count else {})


def places(root):
    """The places of all crates but those that are nothing but tests."""
    found = {}
    for folder in sorted(it for it in (Path(root) / "crates").iterdir() if not it.name.endswith("_tests")):
        for path in sorted((folder / "src").rglob("*.rt")):
            found |= places_in(folder.name, str(path.relative_to(folder)), path.read_text(encoding="utf-8"))
    return found


def listed(root):
    """The list: of each place how often, and why."""
    found = {}
    for line in (Path(root) / LIST).read_text(encoding="utf-8").splitlines():
        head, _, why = line.partition(" because ")
        if line and not line.startswith("#"):
            place, count = head.rsplit(" ", 1)
            found[place] = (int(count), why.strip())
    return found


def faults_of(found, known):
    """What of the sources isn't in the list, and what of the list isn't in the sources."""
    faults = []
    for place, count in found.items():
        if place not in known:
            faults.append(f"{place} makes a refusal of memory by hand, and {LIST} doesn't say why")
        elif known[place][0] != count:
            faults.append(f"{place} makes {count} refusals of memory by hand, and not {known[place][0]} as {LIST} says")
    faults += [f"{LIST} has {place}, which makes no refusal of memory by hand" for place in known if place not in found]
    return faults + [f"{LIST} says of {place} no reason" for place, (_, why) in known.items() if not why]


def look(root):
    """Compares, and prints what doesn't fit. Returns whether all does."""
    found = places(root)
    faults = faults_of(found, listed(root))
    return tell([f"refusals: {it}" for it in faults], f"{LIST}: {len(found)} functions make a refusal of memory by hand, each with its reason")
