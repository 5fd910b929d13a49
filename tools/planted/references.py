"""Wrong references that are planted in a copy of a checkout, to see that each is found where it stands."""
import re
import shutil
import tempfile
from pathlib import Path

from tools.lib.findings import tell
from tools.lib.page_bounds import MOST_BYTES, MOST_WORDS, ROWS, faults_of_sentences, faults_of_sizes, pages_at
from tools.lib.pages import MADE, Checkout, wrong_references
from tools.lib.picture_names import faults_of_pictures
from tools.lib.programs import TOP
from tools.lib.trust import PAGE, wrong_trust

# What is put at the end of a file, and how the one fault begins that is then found in the last line of it, or none where it is right.
PUT = [
    ("docs/OPERATIONS.md", "[nowhere](NOWHERE.md)", "no such page or file: docs/NOWHERE.md"),
    ("README.md", '[the model](docs/MODEL.md), "No such section"', 'no such section: docs/MODEL.md, "No such section"'),
    ("README.md", "[the model](docs/MODEL.md#no-such-section)", "no such section: docs/MODEL.md#no-such-section"),
    ("README.md", "`crates/s4_acl/src/nowhere.rt`", "no such file: crates/s4_acl/src/nowhere.rt"),
    ("docs/GLOSSARY.md", "`s4_acl`: `src/drive.rt`", "no such file in s4_acl: src/drive.rt"),
    ("docs/GLOSSARY.md", "`Nowhere.antt`", "no such file: Nowhere.antt"),
    ("docs/GLOSSARY.md", "`./nowhere`", "no such file: ./nowhere"),
    ("docs/GLOSSARY.md", "`./check nowhere --all`", "no such check: nowhere"),
    ("docs/GLOSSARY.md", "`./check measure nowhere`", "no such measure: nowhere"),
    ("docs/GLOSSARY.md", "`./check wrong-bodies s4_drive`, `./check measure memory`, `./check measure`, `./check NAME`", None),
    ("README.md", "`s4_acl`: `entry_of` (*nowhere*)", "nowhere is no clause of s4_acl"),
    ("README.md", "- `Drive::sweep` of `s4_drive` (*steps*)", "steps is a clause of s4_drive, but of nothing that is named beside it"),
    ("README.md", "`step` (*steps*)", "no crate is named beside the clause steps"),
    ("docs/pictures/threads.dot", 'planted [label="s4_nowhere: what isn\'t there"]', "no such crate: s4_nowhere"),
    ("docs/pictures/threads.dot", 'planted [label="s4_drive, s4_cells: Drive::step\\nFront::nowhere"]', "no such function: Front::nowhere"),
    ("docs/pictures/threads.dot", 'planted [label=<<b>s4_drive: Drive::nowhere</b>>]', "no such function in s4_drive: Drive::nowhere"),
    ("docs/pictures/threads.dot", 'planted [label="s4_acl: take_line"]', "no such function in s4_acl: take_line"),
    ("docs/pictures/threads.dot", 'planted [label="nowhere.rt"]', "no such file: nowhere.rt"),
    ("docs/pictures/threads.dot", 'planted [label="s4_drive: Drive::step, step_with_copy, drive.rt"]', None),
    ("crates/s4_acl/src/lib.rt", "// What it is: docs/NOWHERE.md.", "no such page or file: docs/NOWHERE.md"),
    ("crates/s4_acl/src/lib.rt", '// (docs/MODEL.md, "Nowhere").', 'no such section: docs/MODEL.md, "Nowhere"'),
    ("crates/s4_acl/src/lib.rt", '// So (docs/MODEL.md, "Nowhere\n// else").', 'no such section: docs/MODEL.md, "Nowhere else"'),
]
# What is put at the ends of files, so that what is renamed is cited; the texts of files stand in for their names in braces.
CITED = [
    ("README.md", "`s4_drive`: `Drive::step` (*steps*)"),
    ("README.md", "```script\n{examples/undone.script}```"),
    ("README.md", "`s4_session`: `Hall::run` (*isolated*)"),
]
# What is put in the place of what, and a fault that is then found, with its file.
RENAMED = [
    ("crates/s4_drive/src/drive.rt", "ensures steps {", "ensures stepped {", "README.md", "steps is no clause of s4_drive"),
    ("crates/s4_session/specs/Sent.antt", "  pub isolated :", "  pub separate :", "README.md", "isolated is no clause of s4_session"),
    ("examples/undone.script", "window 1000", "window 1001", "README.md", "this block is no file of examples/"),
    ("docs/TRUST.md", "logic ", "logic x", "docs/TRUST.md", "the kit is"),
    ("crates.txt", "s4_jobs: crossbeam_queue", "s4_jobs:", "docs/TRUST.md", "crossbeam_queue of the kit is used by no crate but tests"),
    ("crates/s4_drive/specs/Step.antt", "  pub grows :", "  pub more : ℕ\n  pub grows :", "docs/TRUST.md", "this table is older"),
    ("docs/MODEL.md", "## Isolation", "## Separation", "crates/s4_session/src/hall.rt", 'no such section: docs/MODEL.md, "Isolation"'),
]


# Whether a page of these sentences has one with too many words on its first screen: what is planted, and whether it is found.
WORDS = " ".join(["word"] * (MOST_WORDS - 1))
SCREENS = [
    (f"Just {WORDS}. So many {WORDS[:40]}.", False),
    (f"One word more {WORDS}.", True),
    (f"Short.\n\n- **Short.** One more, `in code or not`, {WORDS}.", True),
    (f"A sentence that {WORDS}\ngoes on in the next line.", True),
    (f"[Of a link](where.md#it-leads) {WORDS[:100]}.", False),
    (f"```\nOf what is shown {WORDS}.\n```", False),
    (f"# Of a heading {WORDS}\n\n| of a table | {WORDS} |", False),
    (f"{'Below.{0}'.format(chr(10)) * ROWS}\nOne word more {WORDS}.", False),
]


def put(path, text):
    """Puts a text at the end of a file."""
    path.write_text(f"{path.read_text(encoding='utf-8')}\n{text}\n", encoding="utf-8")


def found_in(room):
    """The wrong references of a copy, in pages, code and pictures."""
    checkout = Checkout(room)
    return {*wrong_references(checkout), *faults_of_pictures(checkout)}


def put_faults(room, before):
    """What isn't found of what is put at the ends of files, and what is found though nothing is wrong with it."""
    kept, wanted = {}, {}
    for file, text, fault in PUT:
        path = room / file
        old = path.read_text(encoding="utf-8")
        kept.setdefault(path, old)
        wanted |= {(file, old.count("\n") + 2): fault} if fault else {}
        put(path, text)
    found = {(it.file, it.line): it.fault for it in found_in(room) - before}
    for path, text in kept.items():
        path.write_text(text, encoding="utf-8")
    for place in sorted(wanted.keys() | found.keys()):
        if not found.get(place, "").startswith(wanted.get(place, "\0")):
            yield f"at {place[0]}:{place[1]} is said {found.get(place, 'nothing')!r} in the place of {wanted.get(place, 'nothing')!r}"


def cite(room):
    """Has pages cite what is renamed."""
    for file, text in CITED:
        put(room / file, re.sub(r"\{(\S+)\}", lambda it: (room / it[1]).read_text(encoding="utf-8"), text))


def renamed_faults(room, before):
    """What isn't found once names are changed under those who cite them."""
    for file, old, new, where, fault in RENAMED:
        path = room / file
        kept = path.read_text(encoding="utf-8")
        path.write_text(kept.replace(old, new), encoding="utf-8")
        found = wrong_trust(room) if where == PAGE else wrong_references(Checkout(room))
        is_found = any(it.file == where and it.fault.startswith(fault) for it in found if it not in before)
        path.write_text(kept, encoding="utf-8")
        if old not in kept or not is_found:
            yield f"once {file} has {new!r} for {old!r}, nothing is said in {where}"


def bounds_faults(room):
    """What isn't found of pages that are too large, or have too long a sentence, and what is found of others."""
    page, checkout = room / "docs/PLANTED.md", Checkout(room)
    sizes = {place: sum(len(checkout.pages[it].encode()) for it in pages_at(checkout, place)) for place in MOST_BYTES}
    for less in 0, 1:
        found = {it.file for it in faults_of_sizes(checkout, {place: size - less for place, size in sizes.items()})}
        said = "nothing" if less else "something"
        yield from (f"the bound of {it} is {less} bytes less than it has, and {said} is said" for it in sizes if (it in found) != less)
    for text, is_wrong in SCREENS:
        page.write_text(f"{text}\n", encoding="utf-8")
        if bool(list(faults_of_sentences(Checkout(room), ["docs/PLANTED.md"]))) != is_wrong:
            yield f"of a page's first screen {'nothing' if is_wrong else 'something'} is said: {text[:60]!r}"
    page.unlink()


def self_test(_):
    """Plants wrong references in a copy. Returns whether each is found, and nothing else."""
    with tempfile.TemporaryDirectory(prefix="references-") as folder:
        room = Path(folder) / "copy"
        shutil.copytree(TOP, room, ignore=lambda _, names: [it for it in names if it in MADE or it in ("proofs", "wrong", "must-fail")])
        cite(room)
        before = {*found_in(room), *wrong_trust(room)}
        faults = [*put_faults(room, before), *renamed_faults(room, before), *bounds_faults(room)]
    count = sum(it[2] is not None for it in PUT) + len(RENAMED) + len(MOST_BYTES) + sum(it[1] for it in SCREENS)
    return tell([f"references: {it}" for it in faults], f"references: {count} planted references are found")
