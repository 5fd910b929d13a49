"""Campaigns of principal 9 against principal 7, which owns what is attacked. Replies, and which lines stay, are written by hand from docs/MODEL.md."""
from dataclasses import dataclass


@dataclass(frozen=True)
class Campaign:
    """A window, and lines: what is asked, what is told, and for which of the two principals the line stays once its strangers are struck out."""

    window: int
    lines: tuple


BOTH, FOR_7, FOR_9, FOR_NEITHER = (7, 9), (7,), (9,), ()
CAMPAIGNS = {}

# 9 spends the budget of a purse that was shared with it. The purse 7.1 isn't near 9.
CAMPAIGNS["filling_a_budget"] = Campaign(
    50,
    (
        ("0 0 setbudget 7.0 200", "done", BOTH),
        ("1 7 create 0", "made 7.0.1", BOTH),
        ("1 7 create 1", "made 7.1.1", FOR_7),
        ("2 7 setacl 7.0.1 9 2", "done", BOTH),
        ("3 9 write 7.0.1 0 61", "done", BOTH),
        ("4 9 write 7.0.1 0 62", "over-budget 144 65 200", BOTH),
        ("5 7 setacl 7.0.1 9 0", "over-budget 144 96 200", BOTH),
        ("5 7 write 7.1.1 0 61", "done", FOR_7),
        ("52 7 setacl 7.0.1 9 0", "done", BOTH),
        ("53 9 write 7.0.1 0 62", "denied write", BOTH),
    ),
)

# 9 looks for what 7 never shared. It names itself, which makes nothing near.
CAMPAIGNS["probing_names"] = Campaign(
    100,
    (
        ("1 9 read 7.0.1 0 1", "denied read", FOR_9),
        ("2 7 create 0", "made 7.0.1", FOR_7),
        ("2 7 pcreate home 7.0.1", "done", FOR_7),
        ("3 9 read 7.0.1 0 1", "denied read", FOR_9),
        ("3 9 delete 7.0.1", "denied delete", BOTH),
        ("3 9 setacl 7.0.1 9 31", "denied control", BOTH),
        ("3 9 pdelete 7.0 home", "denied control", BOTH),
        ("3 9 pdelete 7.0 nope", "denied control", BOTH),
        ("3 9 plist 7", "names 0 end", FOR_9),
        ("4 9 audit 7 6", "audit 1 end\nrecord 3 9 0 14 range 0", FOR_9),
    ),
)

# 9 reads what it could read then.
CAMPAIGNS["probing_moments"] = Campaign(
    20,
    (
        ("1 7 create 0", "made 7.0.1", BOTH),
        ("2 7 setacl 7.0.1 9 17", "done", BOTH),
        ("5 7 write 7.0.1 0 61", "done", BOTH),
        ("6 7 setacl 7.0.1 9 1", "done", BOTH),
        ("7 7 write 7.0.1 0 62", "done", BOTH),
        ("10 9 read 7.0.1 0 1 at 5", "data 61 by 1 since 2", FOR_9),
        ("10 9 read 7.0.1 0 1 at 6", "denied recover", FOR_9),
        ("10 9 read 7.0.1 0 1 at 1", "denied read", FOR_9),
        ("10 9 read 7.0.1 0 1 at 11", "future", FOR_9),
        ("26 9 read 7.0.1 0 1 at 5", "too-old 6", FOR_9),
        ("27 9 read 7.0.1 0 1 at 7", "denied recover", FOR_9),
    ),
)

# 9 takes 7's own object away from it.
CAMPAIGNS["deletes_and_grants"] = Campaign(
    100,
    (
        ("1 7 create 0", "made 7.0.1", BOTH),
        ("2 7 setacl 7.0.1 9 31", "done", BOTH),
        ("3 9 setacl 7.0.1 7 0", "done", BOTH),
        ("4 7 read 7.0.1 0 1", "denied read", FOR_7),
        ("4 9 delete 7.0.1", "done", BOTH),
        ("5 7 read 7.0.1 0 1", "no-object", FOR_7),
        ("5 7 read 7.0.1 0 1 at 3", "denied read", FOR_7),
        ("5 7 read 7.0.1 0 1 at 2", "data empty by 0 since 2", FOR_7),
        ("5 9 read 7.0.1 0 1 at 3", "data empty by 0 since 3", FOR_9),
        ("5 9 read 7.0.1 0 1", "denied read", FOR_9),
    ),
)

# 9 may what everyone may, until it has an entry of its own, and once that is gone.
CAMPAIGNS["entry_for_everyone"] = Campaign(
    100,
    (
        ("1 7 create 0", "made 7.0.1", BOTH),
        ("1 7 create 1", "made 7.1.1", FOR_7),
        ("2 7 setacl 7.0.1 everyone 17", "done", BOTH),
        ("3 9 read 7.0.1 0 1 at 2", "data empty by 1 since 2", FOR_9),
        ("4 7 setacl 7.0.1 9 2", "done", BOTH),
        ("5 9 read 7.0.1 0 1", "denied read", FOR_9),
        ("5 8 read 7.0.1 0 1", "data empty by 1 since 4", FOR_NEITHER),
        ("5 8 acl-user 7.0.1 everyone", "entry 1 everyone 17 by 1 since 4", FOR_NEITHER),
        ("5 8 acl-user 7.0.1 8", "no-entry", FOR_NEITHER),
        ("5 9 write 7.0.1 0 61", "done", BOTH),
        ("6 8 setacl 7.0.1 everyone 31", "denied control", BOTH),
        ("6 7 setacl 7.0.1 9 0", "done", BOTH),
        ("6 9 read 7.0.1 0 1", "data 61 by 1 since 6", FOR_9),
        ("6 9 write 7.0.1 0 62", "denied write", BOTH),
        ("7 7 setacl 7.0.1 everyone 0", "done", BOTH),
        ("7 9 read 7.0.1 0 1", "denied read", FOR_9),
        ("7 9 read 7.0.1 0 1 at 6", "data 61 by 1 since 6", FOR_9),
        ("7 9 read 7.0.1 0 1 at 4", "denied read", FOR_9),
        ("8 9 setacl 7.1.1 everyone 1", "denied control", BOTH),
    ),
)

# What makes a purse near 9, and what doesn't: the purse 7.0 is near from the first line on, by a request that comes late; 7.1 by one that is refused,
# 7.2 by one for no rights, 7.4 by one that names everyone; 7.3 isn't, where 9 itself asks, and where another is named. What is told doesn't matter.
STAYS, GOES = FOR_9, FOR_NEITHER
NEAR = (
    ("1 7 create 0", "", STAYS),
    ("1 7 create 1", "", STAYS),
    ("1 7 create 2", "", STAYS),
    ("1 7 create 3", "", GOES),
    ("1 7 create 4", "", STAYS),
    ("1 8 write 7.0.1 0 61", "", STAYS),
    ("1 8 write 7.3.1 0 61", "", GOES),
    ("2 8 setacl 7.1.9 9 31", "", STAYS),
    ("2 7 setacl 7.2.1 9 0", "", STAYS),
    ("2 9 setacl 7.3.1 9 31", "", STAYS),
    ("2 7 setacl 7.3.1 8 31", "", GOES),
    ("2 8 setacl 7.4.9 everyone 1", "", STAYS),
    ("2 9 setacl 7.3.1 everyone 1", "", STAYS),
    ("3 9 create 0", "", STAYS),
    ("3 7 append 9.0.1 61", "", STAYS),
    ("3 7 read 9.0.1 0 1", "", GOES),
    ("3 7 pcreate a 7.0.1", "", STAYS),
    ("3 7 pmount 7.0 a", "", GOES),
    ("3 7 plist 9", "", GOES),
    ("3 0 audit 9 0", "", GOES),
    ("4 0 flush 9 0", "", STAYS),
    ("4 0 setwindow 5", "", STAYS),
    ("4 8 flush 0 9", "", GOES),
    ("4 7 setwindow 0", "", GOES),
    ("5 0 setbudget 7.2 0", "", STAYS),
    ("5 0 setbudget 7.3 0", "", GOES),
    ("5 0 flusho 7.0.1 0 9", "", STAYS),
    ("5 0 flusho 7.3.1 0 9", "", GOES),
    ("6 7 pdelete 7.3 a", "", GOES),
    ("7 7 setacl 7.0.2 9 1", "", STAYS),
)


def kept(lines, who=None):
    """The lines that stay once the strangers of this principal are struck out, or all lines where nobody's are."""
    return [line for line in lines if who is None or who in line[2]]


def script(window, lines):
    """A line of their window, and these lines."""
    return "".join(f"{line}\n" for line in (f"window {window}", *(line[0] for line in lines)))


def scripts(window, lines, more):
    """The same script with one of those lines more, for each of them and for each place behind its first line."""
    whole = script(window, lines).splitlines(keepends=True)
    for line in more:
        for place in range(1, len(whole) + 1):
            yield "".join([*whole[:place], f"{line}\n", *whole[place:]])


def told(lines):
    """What is told of these lines."""
    return "".join(f"{line[1]}\n" for line in lines)
