"""Mistakes that are planted in what is sent for streams, to see that each is found."""
from tools.checks.streams import differs
from tools.lib.findings import tell
from tools.lib.streams import in_pieces, streams_at_random


def self_test(_):
    """Returns whether each planted mistake is found, and none in what is right."""
    logins, arrivals = streams_at_random(1, 50)
    right = "1 0000000210020000000100\n2 00000002100100000001000000000100\n"
    wrong = {
        "another version": right.replace("1002", "1001"),
        "a frame less": right.replace("0000000100\n2", "\n2"),
        "a connection less": right.splitlines()[0] + "\n",
        "a connection more": right + "3 0000000210010000000100\n",
    }
    faults = [f"a right one is told to be wrong: {told}" for told in [differs("right", right, right)] if told]
    faults += [f"with this planted: {name}, nothing is told" for name, told in wrong.items() if not differs(name, told, right)]
    whole, cut = ({}, {})
    for lines, said in (arrivals, whole), (in_pieces(arrivals, 2), cut):
        for moment, number, *given in map(str.split, lines.splitlines()):
            if moment.isdigit():
                said[number] = said.get(number, "") + "".join(given)
    faults += [] if whole == cut else ["other bytes are said in other pieces"]
    return tell([f"streams: {it}" for it in faults], f"streams: {len(wrong)} planted mistakes are found, and none in a right one")
