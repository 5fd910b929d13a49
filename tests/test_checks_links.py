"""Folders of which a start is left out, renamed, twice there, put in another's place, or written anew, as `s4d history check` tells of them."""
import unittest

from tests.journals import CALLS, LINES, RECORDS, Chain, call, creation, journal
from tests.starts import NAMES, Folder, begun, chained, ended

SIX = chained(*[ended] * 6)
# What is told of each of these where nothing is wrong with it.
SOUND = [it.told() for it in SIX]


class Links(unittest.TestCase):
    maxDiff = None

    def check(self, folder, lines, fault="", *flags):
        """That these lines are told of the folder, of which some may stand in lists, and this fault."""
        told = folder.check(*flags)
        self.assertEqual((told.lines, told.fault), ([line for it in lines for line in ([it] if isinstance(it, str) else it)], fault))

    def test_starts_one_behind_the_other(self):
        with Folder(*SIX) as it:
            self.check(it, SOUND)
            self.check(it, SOUND, "", "--start", "all")
            self.check(it, SOUND[3:4], "", "--start", 4)

    def test_starts_that_are_left_out(self):
        # Their folders may have been moved away. Nothing in a folder tells of the newest ones.
        for there, gaps in {
            (1, 2, 3): {},
            (1, 3, 4): {3: "start 2 lacks"},
            (2, 3): {2: "start 1 lacks"},
            (1, 6): {6: "starts 2 to 5 lack"},
            (4,): {4: "starts 1 to 3 lack"},
            (1, 3, 6): {3: "start 2 lacks", 6: "starts 4 to 5 lack"},
        }.items():
            with self.subTest(there=there), Folder(*[SIX[it - 1] for it in there]) as folder:
                self.check(folder, [line for it in there for line in ([gaps[it]] if it in gaps else []) + SOUND[it - 1]])
                # Of one alone nothing is told of those before.
                self.check(folder, SOUND[there[-1] - 1], "", "--start", there[-1])

    def test_starts_that_are_renamed(self):
        with Folder(*SIX[:3]) as it:
            it.rename(2, 5)
            fault = "start 5: its header is that of start 2"
            self.check(it, [*SOUND[0], "start 2 lacks", *SOUND[2]], fault)
            self.check(it, [], fault, "--start", 5)
        with Folder(*SIX[:3]) as it:
            it.rename(1, 9)
            self.assertEqual(it.check().fault, "start 9: its header is that of start 1")

    def test_starts_that_are_there_twice(self):
        with Folder(*SIX[:3]) as it:
            it.put(SIX[1], 4)
            self.check(it, [*SOUND[0], *SOUND[1], *SOUND[2]], "start 4: start 2 again")
            # Who asks for one alone isn't told of others.
            self.check(it, [], "start 4: its header is that of start 2", "--start", 4)
            self.check(it, SOUND[2], "", "--start", 3)

    def test_starts_in_the_place_of_others(self):
        for places, fault in {
            (2, 1, 3): "start 1: its header is that of start 2",
            (1, 3, 2): "start 2: its header is that of start 3",
            (3, 2, 1): "start 1: its header is that of start 3",
            (1, 1, 3): "start 2: start 1 again",
            (1, 2, 1): "start 3: start 1 again",
            (1, 4, 3): "start 2: its header is that of start 4",
        }.items():
            with self.subTest(places=places), Folder() as it:
                for number, place in enumerate(places, 1):
                    it.put(SIX[place - 1], number)
                self.assertEqual(it.check().fault, fault)

    def test_starts_behind_others(self):
        # The second one was written anew; it is told of all before that is told.
        for second, fault in {
            ended(2, SIX[0].last(RECORDS), ticks=5): "start 3: it stands behind another start 2",
            ended(2): "start 2: it stands behind another start 1",
            ended(2, SIX[1].last(RECORDS)): "start 2: it stands behind another start 1",
            ended(2, SIX[0].first): "start 2: it stands behind another start 1",
            ended(2, SIX[0].last(CALLS)): "start 2: it stands behind another start 1",
        }.items():
            with self.subTest(fault), Folder(SIX[0], second, SIX[2]) as it:
                self.check(it, [*SOUND[0], *second.told(), *SOUND[2]], fault)
                # Of one alone it isn't told.
                self.check(it, second.told(), "", "--start", 2)
        # Behind one that isn't there any may stand.
        alone = ended(2, b"\7" * 32)
        with Folder(alone) as it:
            self.check(it, ["start 1 lacks", *alone.told()])

    def test_a_block_that_is_cut_off_in_front_of_another_start(self):
        # The start broke off, and had a block more when the next one began.
        first, second = chained(begun, ended)
        del first.pieces[RECORDS][-1]
        with Folder(first, second) as it:
            told = it.check()
            self.assertEqual((told.fault, told.lines[-1]), ("start 2: it stands behind another start 1", "start 2 sound"))
            self.assertIn("start 1 broken off", told.lines)

    def test_starts_behind_ones_that_broke_off(self):
        first, second, third = chained(begun, begun, ended)
        with Folder(first, second, third) as it:
            self.check(it, [*first.told("broken off"), *second.told("broken off"), *third.told()], "start 1: broken off")
            self.check(it, second.told("broken off"), "start 2: broken off", "--start", 2)
            self.check(it, third.told(), "", "--start", 3)
            # What is less than a block counts for nothing.
            size = first.size(RECORDS)
            it.write(1, RECORDS, first.data(RECORDS) + b"\0\0")
            told = it.check()
            self.assertEqual((told.fault, told.lines[1]), ("start 1: broken off", f"start 1 torn {size} {size + 2}"))

    def test_starts_behind_one_that_has_nothing(self):
        with Folder() as it:
            for name in NAMES:
                it.write(1, name, b"")
            second = ended(2)
            it.put(second)
            self.check(it, ["start 1 broken off", *second.told()], "start 1: broken off")
            # It had something when the next one began.
            it.put(SIX[1])
            self.check(it, ["start 1 broken off", *SOUND[1]], "start 2: it stands behind another start 1")

    def test_a_fault_ends_it_in_front_of_the_next_start(self):
        first, second = chained(ended, ended)
        data = first.data(RECORDS)
        with Folder(first, second) as it:
            it.write(1, RECORDS, data[:200] + bytes([data[200] ^ 1]) + data[201:])
            told = it.check()
            self.assertEqual((told.fault, told.lines), ("start 1: byte 172: no block", []))

    def test_starts_behind_one_of_format_1(self):
        # It has no number, and nothing in it tells of those before.
        records, first = journal(2, (0, creation(5, 2)))
        calls, lines = Chain(first).calls(0, [call(0, 0, 1)]), Chain(first).lines('{"connection":1,"peer":null,"wall":1,"moment":1,"event":"opened"')
        tallied = [f"blocks 1 sum {records[-32:].hex()}", f"calls blocks 1 sum {calls[-32:].hex()}", f"connections lines 1 sum {lines[-67:-3].decode()}"]
        old = [*tallied, "cell 0 records 1", "cell 1 records 0", "without an end"]
        for number in (1, 3):
            second = ended(number + 1, records[-32:])
            with Folder(second) as it:
                for name, data in zip(NAMES, (records, calls, lines)):
                    it.write(number, name, data)
                lines_of_1 = [f"start {number} {line}" for line in old]
                self.check(it, [*lines_of_1, *second.told()])
                self.check(it, lines_of_1, "", "--start", number)
                # It is found that the first of two was written anew, or cut.
                for other in (journal(2, (0, creation(6, 2)))[0], records[:76]):
                    it.write(number, RECORDS, other)
                    self.assertEqual(it.check("--start", number).fault, "")
                    self.assertEqual(it.check().fault, f"start {number + 1}: it stands behind another start {number}")

    def test_names_that_are_no_numbers(self):
        with Folder(*SIX[:2]) as it:
            for name in ("02", "+3", "3 ", "old"):
                (it.folder / name).mkdir()
            self.check(it, SOUND[:2])

    def test_numbers_that_are_great(self):
        last = ended(2**64 - 1)
        with Folder(SIX[0], last) as it:
            self.check(it, [*SOUND[0], f"starts 2 to {2**64 - 2} lack", *last.told()])

    def test_a_header_that_counts_from_another_start(self):
        # Each field of a header is under its sum, so one can't be changed alone.
        data = bytearray(SIX[0].data(RECORDS))
        data[51] = 2
        with Folder(SIX[0]) as it:
            it.write(1, RECORDS, data)
            self.assertEqual(it.check().fault, "start 1: no journal")


class Connections(unittest.TestCase):
    """Connections that calls name, of journals of format 1."""

    def check(self, numbers, texts, lines):
        records, first = journal(1, (0, *[creation(5, 2, serial=serial) for serial in range(1, 1 + len(numbers))]))
        calls = Chain(first).calls(0, [call(0, place, number) for place, number in enumerate(numbers)])
        with Folder() as it:
            for name, data in zip(NAMES, (records, calls, Chain(first).lines(*texts))):
                it.write(2, name, data)
            told = it.check()
        self.assertEqual((told.fault, told.lines[3:]), ("", [*lines, f"start 2 cell 0 records {len(numbers)}", "start 2 without an end"]))

    def test_connections_without_lines(self):
        opened = '{"connection":1,"peer":"127.0.0.1:50001","wall":1,"moment":1,"event":"opened"'
        welcome = '{"connection":2,"peer":"127.0.0.1:50002","wall":1,"moment":1,"event":"welcome","who":2,"client":0,"version":1'
        lost = '{"connection":null,"peer":null,"wall":7,"moment":7,"event":"lost","count":2'
        self.check([1, 2, 1, 2], [opened, welcome], [])
        self.check([1, 2, 1, 2], [welcome], ["start 2 connections lack 1"])
        self.check([1, 2, 3, 3], [opened], ["start 2 connections lack 2"])
        self.check([1, 2, 3, 3], [], ["start 2 connections lack 3"])
        self.check([1, 2, 3, 3], [lost], [])
        # A record that came by none has none that lacks.
        self.check([0, 1, 0], [opened], [])
        self.check([0, 0], [], [])
        # What has no event, or another connection's number as a part of its own, tells of none.
        self.check([1, 12], [opened.replace("opened", "closed")], ["start 2 connections lack 2"])
        self.check([1, 12], [opened], ["start 2 connections lack 1"])


if __name__ == "__main__":
    unittest.main()
