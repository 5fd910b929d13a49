"""Replies in which mistakes are planted, to see that each is found where they are compared with those without cuts."""
from tools.checks.cuts import differs
from tools.lib.cutting import Cutting, at_the_horizon, behind_each
from tools.lib.findings import tell_all

SCRIPT = "window 5\n1 7 create 0\n9 7 append 7.0.1 61\n12 7 read 7.0.1 0 9\n"
RIGHT = "made 7.0.1\ncut 0\ndone\ncut 1\ndata 61 by 0 since 1\ncut 0\n"
WANTED = b"made 7.0.1\ndone\ndata 61 by 0 since 1\n"
PLANTED = (RIGHT.replace("cut 1", "cut 0"), RIGHT.replace("61", "62"), RIGHT.replace("cut 0\n", "", 1), RIGHT.replace("done\n", ""), RIGHT + "done\n")


def self_test(_):
    """Returns whether each planted mistake is found, and none in what is right."""
    cutting = Cutting(SCRIPT, behind_each, at_the_horizon)
    missed = [f"cuts: not found: {it!r}" for it in PLANTED if not differs("planted", cutting, it.encode(), WANTED)]
    missed += ["cuts: what is right is called wrong"] if differs("right", cutting, RIGHT.encode(), WANTED) else []
    return tell_all(missed, f"cuts: {len(PLANTED) - len(missed)} of {len(PLANTED)} planted mistakes are found")
