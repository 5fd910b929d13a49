"""Measures what each function of a crate costs to prove, and which part of its proof does.

  ./check measure functions CRATE ..
                      proves these crates from nothing, over the libraries that `rt check`, `rt lib` or `rt ci` left of those below, and prints the dearest
                      functions of each. It changes nothing in out/
      --tests         with the crate's tests
      --most N        so many functions of each crate; else 25

The checker keeps each part of a proof in a file of its own once it is done: so the seconds between two files are what the later one took. They are of time, so call this
where nothing else runs. What is begun anew after some functions, as a large crate's check is, counts with the part that comes next. By its own names the
parts are: `Lts` what is borrowed and dropped, which grows faster than the function, with each early return behind which something is dropped; `Proof` the search for
its proof, and `Answers` what was written of that; `Tie` and `Layout` what its types are made of. The row of a file of specs/ or proofs/ has that file's name.
"""
import re
import subprocess
import tempfile
from collections import Counter, defaultdict
from pathlib import Path

from tools.lib import kit
from tools.lib.commands import Options
from tools.lib.findings import Wrong
from tools.lib.programs import TOP

OPTIONS = Options(flags=("tests",), numbers={"most": 25}, words="CRATE")
# A module that was checked: of which library it is, of what, and which part of that.
MODULE = re.compile(r"Rattle-\w+?[-.](?:proofs|specs)\.(?:(.*)\.)?([\w+-]+)")


def kept_in(folder):
    """The modules that a check has kept, in the order of their times: of each, what it is of, its part, and the seconds since the one before it."""
    files = sorted((it.stat().st_mtime_ns, it.name) for it in Path(folder).rglob("*.oantt"))
    for (before, _), (after, name) in zip(files, files[1:]):
        # (a module has a second file, of what it declares)
        name = name.removesuffix(".oantt").removesuffix(".decls")
        found = MODULE.fullmatch(name)
        of, part = (found[1] or found[2], found[2]) if found else (name, "")
        yield of, part, (after - before) / 1e9


def measured(crate, tests):
    """What each function took, by its parts."""
    with tempfile.TemporaryDirectory(prefix="functions-") as room:
        words = [*kit.words_of(TOP, crate), "--incremental", room, *["--test"] * tests]
        done = subprocess.run(words, cwd=TOP / "crates" / crate, capture_output=True, text=True, check=False)
        if done.returncode:
            raise Wrong(f"{crate} isn't proved: {(done.stdout + done.stderr).strip().splitlines()[-1]}")
        taken = defaultdict(Counter)
        for of, part, seconds in kept_in(room):
            taken[of][part] += seconds
    return taken


def tell(crate, taken, most):
    """Prints what the parts of a crate's proof took in sum, and its dearest functions."""
    parts = sum(taken.values(), Counter())
    print(f"{crate}: {sum(parts.values()):.0f} s: {', '.join(f'{part} {seconds:.0f}' for part, seconds in parts.most_common(6))}")
    for of, each in sorted(taken.items(), key=lambda it: -sum(it[1].values()))[:most]:
        print(f"{sum(each.values()):7.1f} {of} ({', '.join(f'{part} {seconds:.1f}' for part, seconds in each.most_common(3))})", flush=True)


def run(given):
    known = kit.crates(TOP)
    for crate in given.words:
        if crate not in known:
            raise Wrong(f"there is no crate {crate}")
        if lacking := [it.name for it in known[crate].below() if not (kit.library_of(TOP, it.name) / "format").is_file()]:
            raise Wrong(f"{crate} stands on {lacking[0]}, of which no library is left: call rt lib there")
        tell(crate, measured(crate, given.tests), given.most)
    return True
