"""Scripts that fill a drive, little or much, and requests of each kind to ask of it then."""
from dataclasses import dataclass

# Whose object is asked about, in which purse, and how many of each kind are asked.
WHO, OBJECT, ASKED = 7, "7.0.1", 128
# The moment of the first value of that object, and the one at which all is asked.
FIRST, NOW = 10, 1_000_000
DATA, MORE = "00112233445566778899aabbccddeeff", "fe"
# Principals from here on have an object and a name each. A purse has at most so many names, and some are left to those that are asked for.
OTHERS, NAMES = 1000, 40


@dataclass(frozen=True)
class World:
    """A drive in which what is asked about has so many past values, and is one of as many objects, records and names."""

    size: int

    def lines(self):
        """The script that fills it."""
        yield f"window {2 * NOW}"
        yield f"1 0 setbudget {WHO}.0 4294967295"
        yield f"1 {WHO} create 0"
        yield f"1 {WHO} setattr {OBJECT} {MORE}"
        yield f"1 {WHO} setacl {OBJECT} 9 1"
        for other in range(OTHERS, OTHERS + self.size):
            yield f"2 {other} create 0"
            yield f"2 {other} write {other}.0.1 0 {DATA}"
            yield f"2 {other} pcreate first {other}.0.1"
        for number in range(NAMES):
            yield f"3 {WHO} pcreate name-{number} {OBJECT}"
        for _ in range(ASKED):
            yield f"4 {WHO} create 2"
        yield f"4 {WHO} create 3"
        yield f"4 {WHO} append {WHO}.3.1 {DATA}"
        for at in range(self.size):
            yield f"{FIRST + at} {WHO} write {OBJECT} 0 {DATA}"


@dataclass(frozen=True)
class Kind:
    """A kind of request: what it is called, what may grow where it is asked, and its lines, a cycle of them; `{n}` is the number of the one that is asked, from
    1 on."""

    name: str
    grows: str
    lines: tuple

    def asked(self):
        """So many lines of it."""
        for number in range(ASKED):
            yield f"{NOW} {self.lines[number % len(self.lines)].format(n=number + 1)}"


def kind(name, grows, *lines):
    return Kind(name, grows, lines)


def kinds(size):
    """Each kind of request, in a world of that size: of the present, and of the oldest moment that there is, where it may be asked so."""
    own, first = "objects, values of it", f"at {FIRST}"
    names, oldest = "names of others", f"at {FIRST}"
    return [
        kind("create", "objects", f"{WHO} create 1"),
        kind("delete", "objects", f"{WHO} delete {WHO}.2.{{n}}"),
        kind("write", own, f"{WHO} write {OBJECT} 0 {DATA}"),
        kind("append", "objects", f"{WHO} append {WHO}.3.1 {MORE}"),
        kind("truncate", own, f"{WHO} truncate {OBJECT} 8"),
        kind("setattr", own, f"{WHO} setattr {OBJECT} {MORE}"),
        kind("setacl", own, f"{WHO} setacl {OBJECT} 9 3", f"{WHO} setacl {OBJECT} 9 1"),
        kind("read", own, f"{WHO} read {OBJECT} 0 16"),
        kind("read of the oldest value", own, f"{WHO} read {OBJECT} 0 16 {first}"),
        kind("getattr", own, f"{WHO} getattr {OBJECT}"),
        kind("getattr at the oldest moment", own, f"{WHO} getattr {OBJECT} {first}"),
        kind("acl-user", own, f"{WHO} acl-user {OBJECT} 9"),
        kind("acl-index at the oldest moment", own, f"{WHO} acl-index {OBJECT} 0 {first}"),
        kind("pcreate, pdelete", names, f"{WHO} pcreate own {OBJECT}", f"{WHO} pdelete {WHO}.0 own"),
        kind("pmount", names, f"{WHO} pmount {WHO}.0 name-7"),
        kind("pmount at the oldest moment", names, f"{WHO} pmount {WHO}.0 name-7 {oldest}"),
        kind("plist", names, f"{WHO} plist {WHO}"),
        kind("plist at the oldest moment", names, f"{WHO} plist {WHO} {oldest}"),
        kind("flush", "values that end before", f"0 flush {NOW} {NOW}"),
        kind("flusho", "objects, values of others", f"0 flusho {WHO}.3.1 0 {NOW}"),
        kind("setwindow", "all", f"0 setwindow {2 * NOW}"),
        kind("setbudget", "principals", f"0 setbudget {WHO}.1 1048576"),
        kind("audit", "records", f"{WHO} audit {WHO} 0"),
        kind("audit that skips", "records that are skipped", f"{WHO} audit {WHO} {size}"),
        kind("what is refused", own, f"9 write {OBJECT} 0 {DATA}"),
    ]
