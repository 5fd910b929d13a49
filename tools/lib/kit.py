"""The kit's own words for a check of a crate, and the libraries that it leaves."""
import functools
import importlib
import subprocess
import sys
from pathlib import Path


@functools.cache
def module():
    """The module by which the kit's command `rt` calls its checker."""
    page = subprocess.run(["rt", "doc"], capture_output=True, text=True, check=True).stdout.strip()
    sys.path.append(str(Path(page).parent / "bin"))
    return importlib.import_module("rtlib")


@functools.cache
def version():
    """The kit's name, and its logic."""
    return subprocess.run(["rt", "version"], capture_output=True, text=True, check=True).stdout.strip()


@functools.cache
def crates(root):
    """The crates of a checkout, by name, as the kit has them."""
    return {it.name: it for it in module().crates_below(str(Path(root) / "crates"))}


def words_of(root, name):
    """The words of a check of a crate over the libraries that stand in out/ of those below it: those by which `rt ci` tries its edits."""
    return [module().RATTLE, "check", *crates(root)[name].words(["--jobs", "1"], keeps=False)]


def library_of(root, name):
    """The folder of a crate's library."""
    return Path(crates(root)[name].rlib)


def is_left(root, name):
    """Whether the library of a crate was left by `rt ci`, which gives it no stamp, or is of these very files, as its stamp says. What `rt ci` puts back of
    earlier checks may be older, and has another stamp."""
    crate = crates(root)[name]
    if not (library_of(root, name) / "format").is_file():
        return False
    return not (library_of(root, name).parent / "stamp").exists() or crate.is_built()


def are_left(root, name):
    """Whether the libraries of all crates below a crate are such."""
    return all(is_left(root, it.name) for it in crates(root)[name].below())
