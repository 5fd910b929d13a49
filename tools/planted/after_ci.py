"""What is planted, tried over what `rt ci` left, and over libraries that it didn't leave; and what changes the sum of what is stated."""
import shutil
import subprocess
import tempfile
from pathlib import Path

from tools.lib.checkers import OverLibraries
from tools.lib.crates import Repository
from tools.lib.findings import tell
from tools.planted.small_crate import faults_in, planted, said_of

LOW = """\
//! A small crate that the other one stands on.
#![tactic(auto)]

ghost use Rattle.std.specs.Prelude.{◌≡◌};
ghost use Rattle.low.specs.Kept.{kept};

/// What was given.
pub fn same(x: u8) -> u8
    ensures { result ≡ kept x }
{
    x
}

/// The first of two.
pub fn first<T: Copy>(x: T, _y: T) -> T
    ensures { result ≡ x }
{
    x
}

/// A number with a name.
#[derive(Clone, Copy)]
pub struct Small {
    pub number: u8,
}
"""
KEPT = """\
use Rattle.std.specs.Prelude.{ℕ, ◌+◌}

abbrev pub kept : ℕ → ℕ
kept n = n
"""
# An edit that can't be read ends a check of many: it is planted where each has a check of its own.
LEFT_OUT = ("unreadable",)
# What is changed in the lower crate, as file, old and new texts, and whether something else is stated then.
CHANGES = {
    "a comment, a body or a generic body": ("src/lib.rt", (("//! A small", "//! One small"), ("{\n    x\n}", "{\n    let y = x;\n    y\n}")), False),
    "a clause": ("src/lib.rt", (("ensures { result ≡ x }", "ensures { x ≡ result }"),), True),
    "a definition": ("specs/Kept.antt", (("kept n = n", "kept n = n + 0"),), True),
    "a type": ("src/lib.rt", (("pub number: u8,", "pub number: u16,"),), True),
}


def stand_on_low(room):
    """The planted repository, with one more crate, on which the planted one stands."""
    planted(room, LEFT_OUT)
    put_low(room)
    (room / "crates.txt").write_text("low:\nplanted: low\n", encoding="utf-8")


def put_low(room):
    """A repository of the lower crate."""
    (room / ".git").mkdir()
    folder = room / "crates" / "low"
    for it in ("src", "specs"):
        (folder / it).mkdir(parents=True)
    (folder / "src" / "lib.rt").write_text(LOW, encoding="utf-8")
    (folder / "specs" / "Kept.antt").write_text(KEPT, encoding="utf-8")
    (folder / "specs" / "Lib.antt").write_text("pub mod Kept\n", encoding="utf-8")
    (room / "HANDLES").write_text("Handles allowed: none.\n", encoding="utf-8")
    (room / "crates.txt").write_text("low:\n", encoding="utf-8")


def after_ci(room):
    """The repository once `rt ci` passed, which puts back what stood there."""
    for it in room.glob("crates/*/out/rlib"):
        shutil.rmtree(it)
    ran = subprocess.run(["rt", "ci"], cwd=room, capture_output=True, text=True)
    if ran.returncode:
        raise RuntimeError(f"rt ci fails on what is planted: {ran.stdout[-2000:]}")
    return Repository(room, is_after_ci=True)


def faults_of_sums(room):
    """Which changes of the lower crate don't change what is stated as they should."""
    put_low(room)
    faults, source, stated = [], room / "crates" / "low", after_ci(room).statements_of("low")
    for name, (file, pairs, is_stated) in CHANGES.items():
        was = text = (source / file).read_text(encoding="utf-8")
        for old, new in pairs:
            text = text.replace(old, new)
        (source / file).write_text(text, encoding="utf-8")
        if (after_ci(room).statements_of("low") != stated) != is_stated:
            faults.append(f"wrong-bodies: {name} of the crate below {'does not change' if is_stated else 'changes'} the sum of what is stated")
        (source / file).write_text(was, encoding="utf-8")
    return stated, faults


def self_test_over_libraries():
    """Tries what is planted over libraries. Returns whether all comes out as it should."""
    with tempfile.TemporaryDirectory(prefix="wrong-bodies-") as both:
        room, other = Path(both) / "room", Path(both) / "other"
        room.mkdir()
        other.mkdir()
        stand_on_low(room)
        repository = after_ci(room)
        said, trials = said_of(repository)
        faults = faults_in(said, LEFT_OUT)
        if not isinstance(trials.checker, OverLibraries):
            faults.append("wrong-bodies: the libraries that rt ci left aren't taken")
        stated, wrong = faults_of_sums(other)
        if stated != repository.statements_of("low"):
            faults.append("wrong-bodies: the same crate made again, in another folder, has another sum of what is stated")
        (room / "crates" / "low" / "out" / "rlib" / "stamp").write_text("of other files", encoding="utf-8")
        if Repository(room, is_after_ci=True).is_left("planted"):
            faults.append("wrong-bodies: a library of other files is taken")
        faults += wrong
    return tell(faults, f"wrong-bodies: so they do over what rt ci left; {len(CHANGES)} changes below change what is stated, or don't, as they should")
