"""Journals that servers wrote, and ones that are held as a server holds its own, as `s4d history check` tells of them."""
import fcntl
import os
import shutil
import signal
import tempfile
import unittest
from contextlib import contextmanager
from pathlib import Path

from tests import frames
from tests.journals import CALLS, LINES, RECORDS, Chain, call, creation, journal, read_start, tell_of
from tests.serving import Server, until
from tests.starts import NAMES, Folder, begun, chained, ended, held, sum_in

# How many bytes a header has, with its sum.
FRONT = 172
GONE = "start 1: parts of its files are gone"


class Held(unittest.TestCase):
    """Journals of a folder whose lock is held."""

    maxDiff = None

    def check(self, starts, lines, fault="", *flags):
        with Folder(*starts) as it, held(it.folder):
            told = it.check(*flags)
        self.assertEqual((told.lines, told.fault), (lines, fault))

    def test_the_newest_start_goes_on(self):
        start = begun()
        self.check([start], start.told("goes on"))
        first, second = chained(ended, begun)
        self.check([first, second], [*first.told(), *second.told("goes on")])
        self.check([first, second], second.told("goes on"), "", "--start", 2)
        self.check([first, second], first.told(), "", "--start", 1)

    def test_an_older_one_does_not(self):
        first, second = chained(begun, begun)
        self.check([first, second], [*first.told("broken off"), *second.told("goes on")], "start 1: broken off")
        self.check([first, second], first.told("broken off"), "start 1: broken off", "--start", 1)

    def test_a_start_that_goes_on_may_be_in_the_middle_of_anything(self):
        # Records without calls, calls without records, and lines to come.
        start = begun()
        del start.pieces[CALLS][-1]
        self.check([start], [*start.tallies(), "start 1 cell 0 records 2", "start 1 cell 0 uncalled 1", "start 1 cell 1 records 3", "start 1 goes on"])
        start = begun()
        start.tell((0, 2, 1), told=(2, 3))
        self.check([start], [*start.tallies(), "start 1 cell 0 records 2", "start 1 cell 0 beyond 1", "start 1 cell 1 records 3", "start 1 goes on"])
        start = begun(connections=(1, 2))
        self.check([start], [*start.tallies(), "start 1 connections lack 1", *start.cells(), "start 1 goes on"])

    def test_one_that_has_nothing_yet(self):
        # Its server is about to write its header.
        with Folder(ended()) as it, held(it.folder):
            for name in NAMES:
                it.write(2, name, b"")
            told = it.check()
        self.assertEqual((told.lines, told.fault), ([*ended().told(), "start 2 goes on"], ""))

    def test_its_end_is_not_compared(self):
        start = begun().end(lines=7)
        self.check([start], start.told("goes on"))

    def test_what_is_wrong_is_found_all_the_same(self):
        start = begun()
        data = bytearray(start.data(CALLS))
        data[10] ^= 1
        with Folder(start) as it, held(it.folder):
            it.write(1, CALLS, data)
            self.assertEqual(it.check().fault, "start 1: calls: byte 0: no block")

    def test_what_it_stands_behind_is_compared(self):
        first, second = chained(begun, begun)
        del first.pieces[RECORDS][-1]
        with Folder(first, second) as it, held(it.folder):
            told = it.check()
        self.assertEqual((told.fault, told.lines[-1]), ("start 2: it stands behind another start 1", "start 2 goes on"))

    def test_one_of_format_1_goes_on(self):
        records, first = journal(1, (0, creation(5, 2)))
        with Folder() as it, held(it.folder):
            for name, data in zip(NAMES, (records, Chain(first).calls(0, [call(0, 0, 0)]), b"")):
                it.write(1, name, data)
            told = it.check()
        self.assertEqual((told.lines[3:], told.fault), (["start 1 cell 0 records 1", "start 1 goes on"], ""))

    def test_who_only_looks_holds_nothing(self):
        # As another check may, at the same time.
        with Folder(begun()) as it, held(it.folder, fcntl.LOCK_SH):
            self.assertEqual(it.check().fault, "start 1: broken off")

    def test_a_folder_without_a_lock_or_with_what_is_none(self):
        with Folder(begun()) as it:
            lock = it.folder / "lock"
            lock.unlink()
            self.assertEqual(it.check().fault, "start 1: broken off")
            # Nothing is made, and nobody waits.
            self.assertFalse(lock.exists())
            lock.mkdir()
            self.assertEqual(it.check().fault, "start 1: broken off")
            lock.rmdir()
            os.mkfifo(lock)
            self.assertEqual(it.check().fault, "start 1: broken off")

    def test_a_lock_of_another_folder(self):
        # A copy of a folder that is held isn't.
        with Folder(begun()) as it, held(it.folder):
            shutil.copytree(it.folder, it.folder.parent / "copy")
            self.assertEqual(tell_of(it.room.name, "check", "copy").fault, "start 1: broken off")


def blocks_of(data, front):
    """Where each block ends behind so many bytes, which are the first of these places."""
    places = [front]
    while places[-1] < len(data):
        places.append(places[-1] + 36 + int.from_bytes(data[places[-1] : places[-1] + 4]))
    return places


class Served(unittest.TestCase):
    """Journals of servers that principals 7 and 8 asked."""

    maxDiff = None

    def setUp(self):
        room = tempfile.TemporaryDirectory()
        self.addCleanup(room.cleanup)
        self.room = Path(room.name)
        self.start = self.room / "kept" / "1"

    def check(self, *flags):
        return tell_of(self.room, "check", "kept", *flags)

    @contextmanager
    def serve(self, *flags):
        """A server of the next start, which both asked over connections of their own."""
        with Server("--journal", self.room / "kept", "--sums", self.room / "sums", *flags, connections=0, tells=False) as server:
            self.assertEqual(server.tell(frames.HELLO, frames.CREATE), frames.ANSWER)
            self.assertEqual(server.tell(frames.OTHER_HELLO, frames.CREATE), frames.WELCOME + frames.OTHER_MADE)
            until(lambda: self.newest_lines().count(b'"closed"') == 2, "the connections' ends are told")
            yield server

    def newest_lines(self):
        newest = max(int(it.name) for it in (self.room / "kept").iterdir() if it.name.isdigit())
        return (self.room / "kept" / str(newest) / LINES).read_bytes()

    def ended(self):
        """Has a server serve to its end."""
        with self.serve() as server:
            server.end()

    def killed(self):
        """Has a server be killed."""
        with self.serve() as server:
            server.process.send_signal(signal.SIGKILL)
            server.process.wait()

    def test_one_that_ended(self):
        self.ended()
        told = self.check()
        written = read_start(self.start)
        counts = [f"start 1 cell {cell} records {len(written.entries(cell))}" for cell in range(2)]
        self.assertEqual((told.lines[3:], told.fault), ([*counts, "start 1 sound"], ""))
        # All sums that it kept are found.
        lines = (self.room / "sums").read_text().splitlines()
        kept = self.check("--sums", "sums")
        self.assertEqual((len([it for it in kept.lines if " kept, " in it]), kept.fault), (len(set(lines)), ""))
        self.assertIn(f"start 1 bytes {written.bytes[RECORDS]} kept, 0 blocks follow", kept.lines)

    def test_one_that_ended_and_is_cut(self):
        self.ended()
        for name, word, front in ((RECORDS, "records", FRONT), (CALLS, "calls", 0)):
            data = (self.start / name).read_bytes()
            *others, last = blocks_of(data, front)
            self.assertEqual(last, len(data))
            for length in (*others, len(data) - 1):
                (self.start / name).write_bytes(data[:length])
                self.assertEqual(self.check().fault, f"start 1: {word}: {len(data)} bytes at its end, and now {length}")
            (self.start / name).write_bytes(data)
        self.assertEqual(self.check().fault, "")

    def test_one_whose_lines_are_cut(self):
        self.ended()
        whole = (self.start / LINES).read_bytes().splitlines(keepends=True)
        for count in range(len(whole)):
            (self.start / LINES).write_bytes(b"".join(whole[:count]))
            told = self.check()
            self.assertEqual((told.fault, told.lines[-1]), ("start 1: broken off", "start 1 broken off"))
        # Both connections have calls.
        (self.start / LINES).write_bytes(b"")
        self.assertIn("start 1 connections lack 2", self.check().lines)

    def test_one_that_is_killed(self):
        self.killed()
        told = self.check()
        self.assertEqual((told.fault, told.lines[-1]), ("start 1: broken off", "start 1 broken off"))
        # The next one stands behind it.
        self.ended()
        told = self.check()
        self.assertEqual((told.fault, told.lines[-1]), ("start 1: broken off", "start 2 sound"))
        # Whoever takes its last block away has the next one stand behind another.
        data = (self.start / RECORDS).read_bytes()
        (self.start / RECORDS).write_bytes(data[: blocks_of(data, FRONT)[-2]])
        self.assertEqual(self.check().fault, "start 2: it stands behind another start 1")

    def test_one_that_goes_on(self):
        self.ended()
        with self.serve() as server:
            told = self.check()
            self.assertEqual((told.fault, told.lines[-1]), ("", "start 2 goes on"))
            self.assertIn("start 1 sound", told.lines)
            self.assertEqual(self.check("--start", 1).fault, "")
            server.end()
        told = self.check("--sums", "sums")
        self.assertEqual((told.fault, told.lines[-1]), ("", "start 2 sound"))

    def test_one_that_goes_on_is_checked_while_it_writes(self):
        # Who looks holds up nobody, and finds nothing wrong with what isn't whole yet.
        with self.serve() as server:
            with server.welcomed(frames.HELLO) as seven:
                for _ in range(20):
                    seven.sendall(frames.READ * 50)
                    told = self.check()
                    self.assertEqual((told.fault, told.lines[-1]), ("", "start 1 goes on"))
            server.end()
        self.assertEqual(self.check().fault, "")

    def test_starts_of_servers_in_other_places(self):
        for _ in range(3):
            self.ended()
        kept = self.room / "kept"
        self.assertEqual(self.check().fault, "")
        (kept / "2").rename(self.room / "away")
        self.assertIn("start 2 lacks", self.check().lines)
        self.assertEqual(self.check("--sums", "sums").fault, f"start 2: bytes {FRONT}: no such start")
        shutil.copytree(kept / "1", kept / "2")
        self.assertEqual(self.check().fault, "start 2: start 1 again")
        shutil.rmtree(kept / "2")
        (kept / "3").rename(kept / "2")
        self.assertEqual(self.check().fault, "start 2: its header is that of start 3")

    def remove(self):
        """Removes the folder, and waits until the server goes on in another one."""
        shutil.rmtree(self.room / "kept")
        until(lambda: all(any(self.start.glob(f"{name}-*")) for name in NAMES), "the journal goes on")

    def test_a_folder_that_is_removed_before_the_end(self):
        # Nobody asks any more: the last line is all that stands there.
        with self.serve("--sync", "never") as server:
            sizes = [(self.start / name).stat().st_size for name in NAMES]
            self.remove()
            server.end()
        told = self.check()
        gaps = [f"start 1 {NAMES[name][0]}gone 0 {size}" for name, size in zip(NAMES, sizes)]
        gaps.append(f"start 1 connections from {sizes[2]} lines 1 sum {sum_in((self.start / f'{LINES}-{sizes[2]}').read_bytes(), LINES).hex()}")
        self.assertEqual((told.lines, told.fault), ([*gaps, "start 1 cell 0 gone 1", "start 1 cell 1 gone 1", "start 1 in part"], GONE))

    def test_a_folder_that_is_removed_while_it_serves(self):
        with self.serve("--sync", "never") as server:
            before = (self.start / RECORDS).read_bytes()
            self.remove()
            self.assertEqual(server.tell(frames.OTHER_HELLO, frames.CREATE)[: len(frames.WELCOME)], frames.WELCOME)
            server.end()
        told = self.check()
        (pieces,) = self.start.glob(f"{RECORDS}-*")
        place = int(pieces.name.rpartition("-")[2])
        self.assertEqual(place, len(before))
        self.assertEqual((told.fault, told.lines[-1]), (GONE, "start 1 in part"))
        data = pieces.read_bytes()
        wanted = [f"start 1 gone 0 {place}", f"start 1 from {place} blocks {len(blocks_of(data, 0)) - 1} sum {sum_in(data, RECORDS).hex()}"]
        self.assertEqual(told.lines[:2], wanted)
        # One of principal 8's two records is there, and none of principal 7's.
        self.assertEqual(told.lines[-4:-1], ["start 1 cell 0 last 1", "start 1 cell 0 gone 1", "start 1 cell 1 gone 1"])


if __name__ == "__main__":
    unittest.main()
