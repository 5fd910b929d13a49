"""What stands in a library that the checker made: its functions, and a sum of what it states."""
import hashlib
import re

# What a change of a body or of a proof changes: a function's code, how it is linked, that it meets its contract, and sums of the whole. Its contract stands
# elsewhere, and no other crate can look into these.
OF_BODIES = ("Code", "TheLink", "Statement", "Met")


def members(path):
    """The members of an archive, as names and bytes."""
    held, at, names = path.read_bytes(), 8, b""
    if held[:8] != b"!<arch>\n":
        raise ValueError(f"{path} is no archive")
    while at < len(held):
        name, size = held[at : at + 16].rstrip(), int(held[at + 48 : at + 58])
        inside = held[at + 60 : at + 60 + size]
        at += 60 + size + size % 2
        if name == b"//":
            names = inside
        elif name != b"/":
            first = int(name[1:]) if name.startswith(b"/") else None
            name = name if first is None else names[first : names.index(b"\n", first)]
            yield name.rstrip(b"/").decode(), inside


def functions_in(library, crate):
    """The paths of a crate's functions, and of those that its traits declare, without closures, drops and cycles of calls."""
    code = re.compile(rf"(?:part/)?Rattle-{crate}-proofs\.([\w.]+)\.Code\.oantt")
    found = (code.fullmatch(name) for name, _ in members(library / "toolchain" / "checked.a"))
    return sorted(f"{crate}::{it[1].replace('.', '::')}" for it in found if it and "fn" not in it[1].split("."))


def cycles_in(library, crate):
    """The paths of a crate's functions that call themselves: a check has these by other files."""
    code = re.compile(rf"(?:part/)?Rattle-{crate}-proofs\.((?:\w+\.)*)\+(\w+)\.Code\.oantt")
    found = (code.fullmatch(name) for name, _ in members(library / "toolchain" / "checked.a"))
    return sorted(f"{crate}::{it[1].replace('.', '::')}{it[2]}" for it in found if it)


def is_stated(name, codes):
    """Whether a member of an archive is what other crates can cite, where the functions have these codes."""
    function, _, part = name.removesuffix(".oantt").rpartition(".")
    return not name.startswith("sum/") and part != "Met" and not (part in OF_BODIES and f"{function}.Code.oantt" in codes)


def stated_sum(library):
    """A sum of what a library states: of what other crates can cite of it. Bodies and proofs aren't in it. Only libraries that hold statements alone, as
    `rt ci` makes them, can be compared so: in others a module has another form."""
    made, held = hashlib.sha256(), dict(members(library / "toolchain" / "checked.a"))
    codes = {name for name in held if name.endswith(".Code.oantt")}
    for name in sorted(it for it in held if is_stated(it, codes)):
        made.update(f"{name}\0{len(held[name])}\0".encode() + held[name])
    for file in sorted(it for it in (library / "interface").rglob("*") if it.is_file()):
        made.update(f"{file.relative_to(library)}\0".encode() + file.read_bytes() + b"\0")
    return made.hexdigest()[:16]


def holds_statements(library, crate):
    """Whether a crate's library holds statements alone."""
    return f"carries {crate}" in (library / "format").read_text(encoding="utf-8").split("\n")
