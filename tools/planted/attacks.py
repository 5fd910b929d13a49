"""What is planted in what was seen of attacked servers, to see that each fault is told."""
from dataclasses import replace

from tools.lib.attacked import EACH, SETTLED, Seen, faults
from tools.lib.findings import tell_all

SECONDS = 60


def good(name="reads"):
    """What is seen of a server as it has to be: a request in a thousand waits for 40 milliseconds."""
    times = [0.0002] * 999 + [0.04]
    return Seen(name, 4, times, list(times), [0.003] * 300, 0, [100 << 20] * int(SECONDS / EACH), 1.5, 0.4)


def grown(name):
    """The same, where the memory has a third more in the end."""
    count = int(SECONDS / EACH)
    return replace(good(name), memory=[(100 << 20) + max(0, place - SETTLED / EACH) * (30 << 20) / count for place in range(count)])


# What is planted, and what has to be told of it; nothing of the first ones.
SEEN = {
    "all is well": (good(), None),
    "memory that grows where the window is long": (grown("audits"), None),
    "one request in fifty waits for 30 ms in the same cell": (replace(good(), beside=[0.0002] * 49 + [0.03]), "in the same cell wait up to 30 ms, but one in a hundred"),
    "the same in other cells": (replace(good(), elsewhere=[0.0002] * 49 + [0.03]), "in other cells wait up to 30 ms, but one in a hundred"),
    "one request waits for 300 ms": (replace(good(), elsewhere=[0.0002] * 9999 + [0.3]), "in other cells wait up to 300 ms, each"),
    "no request is replied": (replace(good(), beside=[]), "in the same cell have no reply"),
    "a login takes 200 ms": (replace(good(), logins=[0.003] * 299 + [0.2]), "a login takes 200 ms"),
    "a login fails": (replace(good(), failed=1), "1 logins fail, of 301"),
    "no login is tried": (replace(good(), logins=[]), "0 logins fail, of 0"),
    "memory that grows where the window is short": (grown("reads"), "times the memory of the first"),
    "a server that doesn't end": (replace(good(), ended=None), "doesn't end within"),
    "a machine without memory": (replace(good(), early="ended after 9 s"), "ended after 9 s"),
}


def self_test(_):
    wrong = []
    for name, (seen, wanted) in SEEN.items():
        told = list(faults(seen))
        if (wanted is None and told) or (wanted and (len(told) != 1 or wanted not in told[0])):
            wrong.append(f"WRONG: {name}: told is {told or 'nothing'}, and wanted {wanted or 'nothing'}")
    return tell_all(wrong, f"attacks: {len(SEEN)} planted servers, {len(wrong)} are told wrongly")
