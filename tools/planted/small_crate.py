"""A small crate in which wrong bodies are planted, to see that each comes out as it should."""
from tools.lib.crates import Repository
from tools.lib.trials import try_crates

PLANTED = """\
//! A small crate in which wrong bodies are planted, and a right one.
#![tactic(auto)]

ghost use Rattle.std.specs.Prelude.{◌≡◌, ◌+◌, ◌/◌};

/// Half of a number.
pub fn half(x: u8) -> u8
    ensures { result ≡ x / 2 }
{
    x / 2
}

/// Half of a half.
pub fn quarter(x: u8) -> u8
    ensures { result ≡ x / 2 / 2 }
{
    half(half(x))
}

/// The sum of two halves.
pub fn halves(x: u8, y: u8) -> u8
    ensures { result ≡ x / 2 + y / 2 }
{
    half(x) + half(y)
}

/// Counts up to a number.
pub fn counted(n: u8) -> u8
    ensures { result ≡ n }
{
    let mut i = 0;
    while i < n {
        i += 1;
    }
    i
}

/// A number with a name.
#[derive(Drop)]
pub struct Number(u8);

impl Number {
    /// What was given.
    pub fn new(x: u8) -> u8
        ensures { result ≡ x }
    {
        x
    }
}

impl From<Number> for u8 {
    fn from(it: Number) -> u8
        ensures { result ≡ it.0 }
    {
        it.0
    }
}

mod inner {
    /// A third of a number.
    pub fn third(y: u8) -> u8
        ensures { result ≡ y / 3 }
    {
        y / 3
    }
}
"""

# The written proof of the function that counts.
COUNTED = """\
use Rattle.std.proofs.Common.{◌-◌, ◌≤◌}
use Rattle.planted.proofs.counted.Given as goal

abbrev pub invariant-loop-i : goal.invariant-loop-i
invariant-loop-i l = l.i ≤ l.n

abbrev pub decreases-loop-i : goal.decreases-loop-i
decreases-loop-i l = l.n - l.i
"""

# Each edit that is planted, as old and new text, and how what is said of it begins.
PLANTS = {
    "wrong_in_a_callee": ("    x / 2\n", "    x / 3\n", "refused: fn planted::half: no proof"),
    "wrong_in_another_way": ("    x / 2\n", "    x / 4\n", "refused: fn planted::half: no proof"),
    "wrong_in_a_caller": ("half(half(x))", "half(x)", "refused: fn planted::quarter: no proof"),
    "right": ("half(x) + half(y)", "half(y) + half(x)", "NOT REFUSED"),
    "right_in_another_way": ("half(x) + half(y)", "half(x) + y / 2", "NOT REFUSED"),
    "under_a_written_proof_wrong": ("let mut i = 0;", "let mut i = 1;", "refused: fn planted::counted: "),
    "under_a_written_proof_wrong_too": ("while i < n {", "while i < n / 2 {", "refused: fn planted::counted: "),
    "under_a_written_proof_right": ("i += 1;", "i = i + 1;", "NOT REFUSED"),
    "wrong_in_a_method": ("        x\n", "        x / 2\n", "refused: fn planted::Number::new: no proof"),
    # (of modules inside a file the paths aren't known)
    "wrong_where_no_name_is_known": ("        y / 3\n", "        y / 4\n", "refused: alone: src/lib.rt"),
    "wrong_in_an_impl": ("        it.0\n", "        it.0 / 2\n", "refused: fn planted::U8FromNumber::from: no proof"),
    "unreadable": ("half(half(x))", "half(half(z))", "BAD EDIT"),
    "not_there": ("x / 9", "x / 8", "BAD EDIT"),
}
# Of these the ones that lie in functions with others: behind `rt ci` they are tried in copies, and else each in a check of its own.
OF_COPIES = ("wrong_in_another_way", "right_in_another_way", "under_a_written_proof_wrong", "under_a_written_proof_wrong_too", "under_a_written_proof_right")


def planted(room, left_out=()):
    """A repository of one small crate with edits in it, but for those of these names."""
    folder = room / "crates" / "planted"
    for it in ("src", "wrong"):
        (folder / it).mkdir(parents=True)
    (folder / "src" / "lib.rt").write_text(PLANTED, encoding="utf-8")
    (folder / "proofs" / "counted").mkdir(parents=True)
    (folder / "proofs" / "counted" / "Invariants.antt").write_text(COUNTED, encoding="utf-8")
    (room / "crates.txt").write_text("planted:\n", encoding="utf-8")
    (room / "HANDLES").write_text("Handles allowed: none.\n", encoding="utf-8")
    for name, (old, new, _) in ((name, plant) for name, plant in PLANTS.items() if name not in left_out):
        text = f"file: src/lib.rt\nold: {old.rstrip()}\nnew: {new.rstrip()}\n"
        (folder / "wrong" / f"{name}.edit").write_text(text, encoding="utf-8")
    return Repository(room)


def said_of(repository):
    """What is said of the planted edits, and their trials."""
    said = list(repository.edits("planted")[1])
    trials = try_crates(repository, ["planted"], 1, said.append)
    return said, trials["planted"]


def faults_in(said, left_out=()):
    """What is said of planted edits that shouldn't be."""
    faults = []
    for name, (_, _, wanted) in ((name, plant) for name, plant in PLANTS.items() if name not in left_out):
        line = next((it for it in said if f"/{name}" in it), "nothing is said of it")
        if f": {wanted}" not in line:
            faults.append(f"wrong-bodies: of the planted edit {name} is said: {line}")
    return faults
