"""The functions of a crate's files, by the paths under which a check prints them."""
import re
from dataclasses import dataclass
from pathlib import Path

FUNCTION = re.compile(r"( *)(?:pub(?:\([^)]*\))? )?(?:const )?(?:unsafe )?fn (\w+)")
IMPL = re.compile(r"( *)(?:unsafe )?impl\b(.*)")
TRAIT = re.compile(r"( *)(?:pub(?:\([^)]*\))? )?(?:unsafe )?trait (\w+)")


@dataclass(frozen=True)
class Function:
    """A function of a crate: its path as the check prints it, its rows in its file, and whether it is of a trait."""

    path: str
    file: str
    first: int
    last: int
    is_of_trait: bool = False


def outside(text):
    """A text without what stands in angle brackets."""
    kept, depth = [], 0
    for before, it in zip(" " + text, text):
        depth += it == "<"
        kept.append("" if depth else it)
        depth -= it == ">" and before not in "-="
    return "".join(kept)


def arguments_of(text):
    """What stands in the angle brackets at the end of a text, and in those at its beginning, between commas."""
    found = re.search(r"<(.*)>", text)
    inside = found[1] if found else ""
    for nested in re.findall(r"<[^<>]*>", inside):
        inside = inside.replace(nested, "")
    return [it.partition(":")[0].strip() for it in outside(inside).split(",")]


def last_word(text):
    """The name at the end of a path such as `std::fmt::Display`."""
    words = re.findall(r"\w+", outside(text))
    return words[-1] if words else ""


def owner_of(head):
    """The name under which the check has the functions of an impl: of the type, of the trait, and of the types that the trait is given."""
    head = head.split(" where ")[0].strip()
    generics, rest = "", head
    if head.startswith("<"):
        end = next(at for at in range(1, len(head) + 1) if head[:at].count("<") == head[:at].replace("->", "").count(">"))
        generics, rest = head[:end], head[end:]
    trait, found, type_ = rest.partition(" for ")
    if not found:
        return last_word(rest)
    given = [last_word(it) for it in arguments_of(trait) if it not in arguments_of(generics) and not it.startswith("'")]
    name = last_word(type_)
    return name[:1].upper() + name[1:] + last_word(trait) + "".join(given)


def module_of(file):
    """The modules of a file below src/."""
    words = list(Path(file).with_suffix("").parts[1:])
    return [] if words in (["lib"], ["main"]) else words


def end_of(lines, first, indent):
    """The row of the line that ends what begins in a row, in the layout of `rt fmt`."""
    if lines[first].rstrip().endswith("}") and "{" in lines[first]:
        return first
    return next((row for row in range(first + 1, len(lines)) if lines[row] == f"{indent}}}"), first)


def head_at(lines, row):
    """The head that begins in a row, up to its brace or its clauses, as one line."""
    head = lines[row]
    while "{" not in head and row + 1 < len(lines) and not head.rstrip().endswith(";"):
        row += 1
        head = f"{head.rstrip()} {lines[row].strip()}"
    return head.partition("{")[0]


def functions_of(crate, file, text):
    """The functions of a file."""
    lines, owners, found = text.split("\n"), [], []
    for row, line in enumerate(lines):
        owners = [it for it in owners if row <= it[1]]
        impl, trait, function = IMPL.fullmatch(line), TRAIT.match(line), FUNCTION.match(line)
        if impl or trait:
            head = head_at(lines, row).strip()
            name = owner_of(head.removeprefix("unsafe ").removeprefix("impl")) if impl else trait[2]
            owners.append((name, end_of(lines, row, (impl or trait)[1]), bool(trait) or " for " in head))
        elif function:
            names = [crate, *module_of(file), *[it[0] for it in owners], function[2]]
            found.append(Function("::".join(names), file, row, end_of(lines, row, function[1]), any(it[2] for it in owners)))
    return found


def traits_of(crate, file, text):
    """The paths of the traits that a file declares."""
    return ["::".join([crate, *module_of(file), it[2]]) for it in map(TRAIT.match, text.split("\n")) if it]


def places_of(edit, folder):
    """The functions in which an edit lies, or None if a change of it lies in none: then other functions may depend on it."""
    found = set()
    for change in edit.changes:
        text = (folder / change.file).read_text(encoding="utf-8")
        row = text[: text.find(change.old)].count("\n")
        inside = [it for it in functions_of(edit.crate, change.file, text) if it.first <= row <= it.last] if change.file.startswith("src/") else []
        if not inside:
            return None
        found.add(inside[-1])
    return found
