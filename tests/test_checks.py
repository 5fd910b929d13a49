"""Starts that ended, and those that didn't, whose files were cut, emptied or written otherwise, as `s4d history check` tells of them."""
import re
import unittest

from tests.journals import CALLS, LINES, RECORDS, ChainOfSums, creation, setting
from tests.starts import NAMES, WELCOMED, Folder, Start, begun, ended, event, text_of

# How many bytes a header has, with its sum.
FRONT = 172


def cut(name, count):
    """Takes so many blocks or lines from the end of a file."""
    return lambda start: start.pieces[name].__delitem__(slice(-count, None))


def emptied(name):
    """Takes all that a file has, a header too."""
    return lambda start: start.pieces[name].clear()


def to(name, length):
    """Takes what a file has behind so many of its bytes, or as many before its end where that is less than 0."""

    def damage(start):
        start.pieces[name] = [start.data(name)[:length]]

    return damage


def more(name, data):
    """Has a file go on with these bytes."""
    return lambda start: start.pieces[name].append(data)


def taken(name, of):
    """Has a file be as in another start."""

    def damage(start):
        start.pieces[name] = of.pieces[name]

    return damage


def both(*damages):
    """Each of these, one after the other."""

    def damage(start):
        for it in damages:
            it(start)

    return damage


def one_more(start):
    """A block more of cell 0, under its sum."""
    start.batch(0, creation(8, 2, serial=2))


def half(start):
    """Takes the second half of the records, in the middle of a block."""
    to(RECORDS, start.size(RECORDS) // 2)(start)


# What is done to a file of a start that ended, and what is told of it then: how long it was, and is.
SHORTER = {
    "no last block of records": (RECORDS, cut(RECORDS, 1)),
    "no last three blocks of records": (RECORDS, cut(RECORDS, 3)),
    "a header alone": (RECORDS, to(RECORDS, FRONT)),
    "half of the records": (RECORDS, half),
    "records without their last byte": (RECORDS, to(RECORDS, -1)),
    "a byte behind the records": (RECORDS, more(RECORDS, b"\0")),
    "a block more behind the records": (RECORDS, one_more),
    "no calls": (CALLS, emptied(CALLS)),
    "no last block of calls": (CALLS, cut(CALLS, 1)),
    "half a block of calls": (CALLS, to(CALLS, 50)),
    "calls without their last byte": (CALLS, to(CALLS, -1)),
    "a byte behind the calls": (CALLS, more(CALLS, b"\0")),
    # The calls end with the records then, and the place that they tell is before the end.
    "no last blocks of both": (RECORDS, both(cut(RECORDS, 2), cut(CALLS, 1))),
}


def other_call():
    """The start with a call by another connection."""
    it = begun()
    it.pieces[CALLS], it.chains[CALLS] = [], ChainOfSums(it.first)
    it.tell((0, 0, 1), (1, 0, 1), (1, 1, 2), told=(1, 2))
    it.tell((0, 1, 3))
    return it


# What is done to a start that ended, so that its files are as long as they were, and what is told.
OTHERS = {
    "another window was set": (taken(RECORDS, begun(ticks=5)), "records: another sum than at its end"),
    "another connection called": (taken(CALLS, other_call()), "calls: another sum than at its end"),
}

# What the last line says that isn't so, and what is told.
SAID = {
    "a record less in cell 1": ({"records": {"cells": [2, 2]}}, "cell 1: 2 records at its end, and now 3"),
    "a record more in cell 0": ({"records": {"cells": [3, 3]}}, "cell 0: 3 records at its end, and now 2"),
    "no cell 1": ({"records": {"cells": [2]}}, "1 cells at its end, and now 2"),
    "no cells": ({"records": {"cells": []}}, "0 cells at its end, and now 2"),
    "two cells more": ({"records": {"cells": [2, 3, 0, 0]}}, "4 cells at its end, and now 2"),
    "a call more": ({"calls": {"count": 5}}, "calls: 5 calls at its end, and now 4"),
    "a call less": ({"calls": {"count": 3}}, "calls: 3 calls at its end, and now 4"),
    "a line more": ({"lines": 10}, "lines: 10 lines at its end, and now 9"),
    "a line less": ({"lines": 8}, "lines: 8 lines at its end, and now 9"),
    "bytes beyond all numbers": ({"records": {"bytes": 2**64 - 1}}, "records: 18446744073709551615 bytes at its end, and now {records}"),
    "another sum of records": ({"records": {"sum": "07" * 32}}, "records: another sum than at its end"),
    "another sum of calls": ({"calls": {"sum": "07" * 32}}, "calls: another sum than at its end"),
}

# What stands in the place of a part of the last line, so that it says no end.
NO_ENDS = {
    "nothing behind the event": ('"ended".*', '"ended"'),
    "no lines": (',"lines":9', ""),
    "another key": ('"lines":', '"line":'),
    "no number": ('"lines":9', '"lines":"9"'),
    "a number below 0": ('"lines":9', '"lines":-9'),
    "a number beyond all": ('"lines":9', '"lines":18446744073709551616'),
    "no cells": (r',"cells":\[2,3\]', ""),
    "cells that are one number": (r'"cells":\[2,3\]', '"cells":2'),
    "a cell that is no number": (r'"cells":\[2,3\]', '"cells":[2,null]'),
    "no bytes of calls": (r'"calls":{"bytes":\d+,', '"calls":{'),
    "no sum of calls": (r',"sum":"\w+","count"', ',"count"'),
    "a sum with a digit less": (r'\w","count"', '","count"'),
    "a sum that has another letter": (r'\w","count"', 'g","count"'),
}


class Ends(unittest.TestCase):
    maxDiff = None

    def check(self, start, fault, lines=None):
        """That this is told of a start alone, and these lines, where they are known."""
        with Folder(start) as it:
            told = it.check()
        self.assertEqual(told.fault, f"start 1: {fault}" if fault else "")
        if lines is not None:
            self.assertEqual(told.lines, lines)

    def test_a_start_that_ended_is_sound(self):
        start = ended()
        self.check(start, "", start.told())
        # Also one that nobody asked, and one without a connection, whose calls came by none.
        start = Start().end()
        self.check(start, "", start.told())
        start = Start(1)
        start.batch(0, setting(5))
        start.tell((0, 0, 0))
        self.check(start.end(), "", start.told())

    def test_files_of_another_length(self):
        for what, (name, damage) in SHORTER.items():
            with self.subTest(what):
                start = ended()
                was = start.size(name)
                damage(start)
                word = NAMES[name][0].strip() or "records"
                self.check(start, f"{word}: {was} bytes at its end, and now {start.size(name)}")

    def test_what_is_there_is_told_before(self):
        for (name, count), lines in {
            (RECORDS, 1): ["cell 0 records 2", "cell 1 records 2", "cell 1 lacks 1"],
            (RECORDS, 4): ["cell 0 records 0", "cell 0 beyond 2", "cell 1 records 0", "cell 1 beyond 2"],
            (CALLS, 1): ["cell 0 records 2", "cell 0 uncalled 1", "cell 1 records 3"],
            (CALLS, 2): ["cell 0 records 2", "cell 0 uncalled 2", "cell 1 records 3", "cell 1 uncalled 2"],
        }.items():
            start = ended()
            was = start.size(name)
            cut(name, count)(start)
            word, lines = NAMES[name][0].strip() or "records", [f"start 1 {it}" for it in lines]
            self.check(start, f"{word}: {was} bytes at its end, and now {start.size(name)}", [*start.tallies(), *lines])

    def test_records_are_cut_anywhere(self):
        whole = ended()
        data = whole.data(RECORDS)
        with Folder(whole) as it:
            for length in range(0, len(data), 7):
                it.write(1, RECORDS, data[:length])
                fault = "no journal" if length < FRONT else f"records: {len(data)} bytes at its end, and now {length}"
                self.assertEqual(it.check().fault, f"start 1: {fault}")

    def test_files_of_the_same_length(self):
        for what, (damage, fault) in OTHERS.items():
            with self.subTest(what):
                start = ended()
                sizes = [start.size(it) for it in NAMES]
                damage(start)
                self.assertEqual([start.size(it) for it in NAMES], sizes)
                self.check(start, fault)

    def test_an_end_says_what_is_not_so(self):
        for what, (others, fault) in SAID.items():
            with self.subTest(what):
                start = begun().end(**others)
                self.check(start, fault.format(records=start.size(RECORDS)))

    def test_lines_that_say_no_end(self):
        for what, (old, new) in NO_ENDS.items():
            with self.subTest(what):
                start = begun()
                text, count = re.subn(old, new, text_of(start.whole()))
                self.assertEqual(count, 1)
                place = start.size(LINES)
                start.add(text)
                self.check(start, f"lines: byte {place}: no end")

    def test_what_is_wrong_first(self):
        # Lines, records and calls by their sums; then replies, and only then what the end tells.
        changed = {}
        for name in NAMES:
            data = bytearray(ended().data(name))
            data[FRONT + 5 if name == RECORDS else 5] ^= 1
            changed[name] = [bytes(data)]
        faults = {LINES: "lines: byte 0: no line", RECORDS: f"byte {FRONT}: no block", CALLS: "calls: byte 0: no block"}
        for number, (name, fault) in enumerate(faults.items()):
            start = ended()
            for other in list(faults)[number:]:
                start.pieces[other] = changed[other]
            self.check(start, fault, ended().tallies()[:1] if name == CALLS else [])
        start = ended()
        start.pieces[RECORDS] = begun(serial=2).pieces[RECORDS]
        self.check(start, "cell 0 record 0: another reply", start.tallies())

    def test_more_behind_an_end(self):
        for what, damage in {
            "a line": lambda start: start.add(event(4, "opened")),
            "the end of another start": lambda start: start.end(),
            "half a line": more(LINES, b'{"connection":4'),
            "a line feed": more(LINES, b"\n"),
        }.items():
            with self.subTest(what):
                start = ended()
                place = start.size(LINES)
                damage(start)
                wanted = f"lines: byte {place}: more behind its end"
                # What is no line is told as such before.
                self.check(start, f"lines: byte {place}: no line" if what == "a line feed" else wanted)


class Missing(unittest.TestCase):
    """Starts that ended, of which it is said what they have, and that isn't what they need."""

    maxDiff = None

    def check(self, start, fault, lines=()):
        """That this is told of a start that ends then, and these lines behind what is told of its files where it isn't sound."""
        with Folder(start.end()) as it:
            told = it.check()
        self.assertEqual(told.fault, f"start 1: {fault}" if fault else "")
        self.assertEqual(told.lines, [*start.tallies(), *[f"start 1 {it}" for it in lines]] if fault else start.told())

    def test_records_want_their_calls(self):
        # Also those that no place tells of.
        without, no_call = "calls: cell 0: 1 records without calls", "calls: cell 0 record 1: no call"
        for told, fault in (((0, 0), without), ((1, 1), without), ((2, 1), no_call), ((), without)):
            start = Start()
            start.connect(1)
            start.batch(0, creation(5, 2), creation(6, 2, serial=2))
            start.batch(1, creation(5, 7))
            start.tell((0, 0, 1), (1, 0, 1), told=told)
            self.check(start, fault, ["cell 0 records 2", "cell 0 uncalled 1", "cell 1 records 1"] if fault == without else ["cell 0 records 2"])

    def test_calls_want_their_records(self):
        start = begun()
        start.tell((1, 3, 2), (1, 4, 2), told=(2, 3))
        self.check(start, "calls: cell 1: 2 calls beyond its records", ["cell 0 records 2", "cell 1 records 3", "cell 1 beyond 2"])
        start = begun()
        start.tell((0, 9, 2))
        self.check(start, "calls: cell 0: 1 calls beyond its records", ["cell 0 records 2", "cell 0 beyond 1", "cell 1 records 3"])

    def check_connections(self, start, fault, lacking):
        self.check(start, fault, [f"connections lack {lacking}", "cell 0 records 2", "cell 1 records 3"])

    def test_calls_want_their_connections(self):
        # The first that lacks is told.
        lacks_2 = "calls: connection 2 has no line"
        self.check_connections(begun(connections=(1, 3)), lacks_2, 1)
        self.check_connections(begun(connections=(1,)), lacks_2, 2)
        self.check_connections(begun(connections=()), "calls: connection 1 has no line", 3)
        # Only its begin tells of one.
        for what, fault in (("opened", ""), ("welcome", ""), ("closed", lacks_2), ("turned-away", lacks_2)):
            start = begun(connections=(1, 3))
            start.add(event(2, what, **WELCOMED if what == "welcome" else {}))
            self.check_connections(start, fault, 1)

    def test_events_that_are_lost(self):
        # They may have been of any connection.
        start = begun(connections=(3,))
        start.add('{"connection":null,"peer":null,"wall":7,"moment":7,"event":"lost","count":2')
        self.check(start, "")

    def test_each_cell_wants_the_records_of_all(self):
        start = Start()
        start.connect(1)
        start.batch(0, creation(5, 2), setting(6), setting(7))
        start.batch(1, creation(5, 7))
        start.tell((0, 0, 1), (0, 1, 1), (0, 2, 1), (1, 0, 1))
        self.check(start, "cell 1: 2 records of all cells lack", ["cell 0 records 3", "cell 1 records 1", "cell 1 lacks 2"])


class Broken(unittest.TestCase):
    """Starts that didn't end: nothing is wrong with what is there, and there may have been more."""

    maxDiff = None

    def check(self, start, lines=None):
        """That such a start is told of, and these lines."""
        with Folder(start) as it:
            told = it.check()
        self.assertEqual((told.fault, told.lines[-1]), ("start 1: broken off", "start 1 broken off"))
        if lines is not None:
            self.assertEqual(told.lines[:-1], [*start.tallies(), *lines])

    def fault(self, start, fault):
        with Folder(start) as it:
            self.assertEqual(it.check().fault, f"start 1: {fault}")

    def test_a_start_without_an_end(self):
        start = begun()
        self.check(start, start.cells())
        self.check(Start(), ["start 1 cell 0 records 0", "start 1 cell 1 records 0"])

    def test_a_start_whose_files_have_nothing(self):
        # It broke off before it had a header, or all was taken away.
        start = begun()
        for name in NAMES:
            emptied(name)(start)
        with Folder(start) as it:
            told = it.check()
        self.assertEqual((told.lines, told.fault), (["start 1 broken off"], "start 1: broken off"))
        # Where anything is there but its header, it is no journal.
        for name in (CALLS, LINES):
            start = begun()
            for other in {*NAMES} - {name}:
                emptied(other)(start)
            self.fault(start, "no journal")

    def test_an_end_that_is_cut_off(self):
        # It can't be told from a start that broke off.
        start = ended()
        cut(LINES, 1)(start)
        self.check(start, start.cells())
        # Its part is told.
        for length in (1, 100, 74):
            start = ended()
            whole, before = start.data(LINES), start.size(LINES) - len(start.pieces[LINES][-1])
            start.pieces[LINES] = [whole[:-length]]
            with Folder(start) as it:
                told = it.check()
            self.assertEqual(told.fault, "start 1: broken off")
            self.assertIn(f"start 1 connections torn {before} {len(whole) - length}", told.lines)

    def test_a_last_line_that_is_no_json(self):
        # It tells of nothing.
        for old, new in (('"lines":9', '"lines":09'), (r"\[2,3\]", "[2,]"), ("^", " {"), ("null", "none")):
            start = begun()
            start.add(re.sub(old, new, text_of(start.whole())))
            self.check(start, start.cells())

    def test_lines_that_are_gone(self):
        for count, lacking in ((10, 3), (7, 2), (4, 1), (1, 0)):
            start = ended()
            cut(LINES, count)(start)
            self.check(start, [*[f"start 1 connections lack {lacking}"] * (lacking > 0), *start.cells()])

    def test_lines_that_are_gone_before_the_last(self):
        # They stand under the sums of those before.
        start = ended()
        place = len(start.pieces[LINES][0])
        del start.pieces[LINES][1]
        self.fault(start, f"lines: byte {place}: no line")

    def test_records_that_are_gone(self):
        start = begun()
        cut(RECORDS, 1)(start)
        self.check(start, ["start 1 cell 0 records 2", "start 1 cell 1 records 2", "start 1 cell 1 lacks 1", "start 1 cell 1 gone 1"])
        # Those of calls that tell of them are counted too.
        start = begun()
        cut(RECORDS, 3)(start)
        found = ["cell 0 records 1", "cell 0 beyond 1", "cell 1 records 0", "cell 1 beyond 2", "cell 0 gone 1", "cell 1 gone 3"]
        self.check(start, [f"start 1 {it}" for it in found])

    def test_calls_that_are_gone(self):
        start = begun()
        cut(CALLS, 1)(start)
        self.check(start, ["start 1 cell 0 records 2", "start 1 cell 0 uncalled 1", "start 1 cell 1 records 3"])
        start = begun()
        emptied(CALLS)(start)
        self.check(start, ["start 1 cell 0 records 2", "start 1 cell 0 uncalled 2", "start 1 cell 1 records 3", "start 1 cell 1 uncalled 2"])

    def test_a_call_that_is_gone(self):
        # The block tells of as many records as if it were there.
        start = Start()
        start.connect(1)
        start.batch(0, creation(5, 2), creation(6, 2, serial=2))
        start.tell((0, 1, 1))
        self.fault(start, "calls: cell 0 record 0: no call")

    def test_calls_ahead(self):
        start = begun()
        start.tell((1, 3, 2), (0, 2, 1), told=(2, 3))
        self.check(start, ["start 1 cell 0 records 2", "start 1 cell 0 beyond 1", "start 1 cell 1 records 3", "start 1 cell 1 beyond 1"])


if __name__ == "__main__":
    unittest.main()
