"""A journal that goes away while its server keeps it: that is told, and it goes on in new files, so that nothing lacks but what went away."""
import contextlib
import re
import shutil
import tempfile
import unittest
from pathlib import Path

from tests import frames
from tests.journals import CALLS, LINES, RECORDS, read_start
from tests.peers import exactly
from tests.program import run
from tests.serving import Server, until
from tools.lib.servers import address

GONE = "s4d: journal: files are gone\n"
# What else a server with a journal writes to standard error at its end.
SUMS = r"(s4d: journal: start 1 .*\n){3}"
FILES = (RECORDS, CALLS, LINES)


def pieces_in(folder, name):
    """The pieces of a file that are in a folder: where each begins, and its path."""
    for path in folder.glob(f"{name}*"):
        place = path.name.removeprefix(name)
        if not place or re.fullmatch("-[0-9]+", place):
            yield int(place[1:] or 0), path


def joined(folders, name):
    """What a file has whose pieces are in these folders, those of the oldest first."""
    data = b""
    for folder in folders:
        for place, path in sorted(pieces_in(folder, name)):
            assert place <= len(data), (place, len(data), path)
            data = data[:place] + path.read_bytes()
    return data


class Gone(unittest.TestCase):
    """Principal 7 asks; then something happens to the journal; then principal 7 asks again."""

    def setUp(self):
        room = tempfile.TemporaryDirectory()
        self.addCleanup(room.cleanup)
        self.room = Path(room.name)

    @contextlib.contextmanager
    def served(self, *flags):
        """A server whose journal has a record of principal 7, and all of their connection."""
        with Server(*flags, connections=0, keeps=True) as server:
            self.ask(server)
            lines = server.folder / "journal" / "1" / LINES
            until(lambda: b'"closed"' in lines.read_bytes(), "the connection's end is told")
            yield server

    def ask(self, server):
        """A Create by a connection of its own."""
        with server.welcomed(frames.HELLO) as seven:
            seven.sendall(frames.CREATE)
            exactly(seven, 13)

    def copy(self, server, name="first"):
        """A copy of what the start has by now."""
        return shutil.copytree(server.folder / "journal" / "1", self.room / name)

    def goes_on(self, server):
        """Waits until the start's folder has files that lead to where they go on."""
        start = server.folder / "journal" / "1"
        until(lambda: all(any(pieces_in(start, name)) for name in FILES), "the journal goes on")

    def check_end(self, server, folders, records, gone=1):
        """That the journal has so many records with what was in these folders, and so much stands at the end of it."""
        server.end()
        self.assertRegex(server.errors(), f"^({re.escape(GONE)}){{{gone}}}{SUMS}$")
        whole = self.room / "whole"
        whole.mkdir()
        for name in FILES:
            (whole / name).write_bytes(joined([*folders, server.folder / "journal" / "1"], name))
        written = read_start(whole)
        # A server that cuts asks by itself too, as principal 0.
        entries = [entry for _, entries in written.batches for entry in entries]
        self.assertEqual([it[1] for it in entries].count(7), records)
        ended = written.lines[-1]
        self.assertEqual((ended["event"], ended["lines"], ended["calls"]["count"]), ("ended", len(written.lines) - 1, len(entries)))
        self.assertEqual(sum(ended["records"]["cells"]), len(entries))

    def check_gone(self, happens, *flags):
        """That it goes on where that happened to its folder of journals; only what was copied before counts."""
        with self.served(*flags) as server:
            first = self.copy(server)
            happens(server.folder / "journal")
            until(lambda: GONE in server.errors(), "it is told that files are gone")
            self.goes_on(server)
            self.ask(server)
            self.check_end(server, [first], 2)

    def test_a_folder_that_is_removed(self):
        self.check_gone(shutil.rmtree)

    def test_a_folder_that_is_removed_and_isnt_synced(self):
        self.check_gone(shutil.rmtree, "--sync", "never")

    def test_a_folder_of_a_start_that_is_removed(self):
        self.check_gone(lambda folder: shutil.rmtree(folder / "1"))

    def test_a_folder_that_is_moved(self):
        self.check_gone(lambda folder: folder.rename(self.room / "moved"))

    def test_one_file_that_is_moved(self):
        for number, name in enumerate(FILES):
            with self.subTest(name):
                self.room = self.room / str(number)
                self.room.mkdir()
                self.check_gone(lambda folder, name=name: (folder / "1" / name).rename(self.room / "moved"))

    def test_a_file_in_the_place_of_another(self):
        # It has the same bytes, and is another file.
        def happens(folder):
            shutil.copy(folder / "1" / RECORDS, self.room / "same")
            (self.room / "same").replace(folder / "1" / RECORDS)

        self.check_gone(happens)

    def test_a_file_that_is_cut_or_grows(self):
        def cut(folder):
            with open(folder / "1" / RECORDS, "r+b") as file:
                file.truncate(100)

        self.check_gone(cut)
        self.room = self.room / "again"
        self.room.mkdir()

        def grow(folder):
            with open(folder / "1" / CALLS, "ab") as file:
                file.write(b"more")

        self.check_gone(grow)

    def test_a_folder_that_comes_and_goes(self):
        with self.served("--sync", "never") as server:
            moved = []
            for number in range(5):
                self.goes_on(server)
                moved.append(self.room / f"moved {number}")
                (server.folder / "journal").rename(moved[-1])
                self.goes_on(server)
                self.ask(server)
            # That files are gone is told once a minute.
            self.check_end(server, [it / "1" for it in moved], 6)

    def test_a_folder_that_cannot_be_made_anew(self):
        with self.served("--cut", "--sync", "never") as server:
            first = self.copy(server)
            journal = server.folder / "journal"
            journal.rename(self.room / "moved")
            journal.write_bytes(b"no folder")
            until(lambda: server.status()["journal"]["fails"], "it is told that the journal can't be written")
            self.ask(server)
            journal.unlink()
            self.goes_on(server)
            until(lambda: not server.status()["journal"]["fails"], "it is told that the journal can be written again")
            self.ask(server)
            self.check_end(server, [first], 3)

    def test_the_next_start_begins_where_a_folder_was_removed(self):
        kept = self.room / "kept"
        with Server("--journal", kept, connections=0, tells=False) as server:
            shutil.rmtree(kept)
            until((kept / "lock").exists, "the folder is held again")
            # Nobody else has it meanwhile.
            ran = run(["serve", address(), "logins", "--journal", kept], folder=server.folder)
            self.assertEqual((ran.status, ran.err), (1, f"s4d: another server keeps its journal in {kept}\n".encode()))
            server.end()
        with Server("--journal", kept, connections=0, tells=False) as server:
            server.end()
        # What wasn't synced yet is written again: where that is all, the start has a header, and its sum.
        records = kept / "1" / RECORDS
        before = records.read_bytes()[140:172] if records.exists() else bytes(32)
        self.assertEqual(read_start(kept / "2").header[5:7], (2, before))

    def test_a_status_whose_folder_is_gone_is_told_once(self):
        told = self.room / "told"
        told.mkdir()
        with Server("--status", told / "it", connections=0, tells=False) as server:
            until((told / "it").exists, "the status is there")
            shutil.rmtree(told)
            fault = f"s4d: cannot write {told / 'it'}: No such file or directory\n"
            until(lambda: fault in server.errors(), "it is told that the status can't be written")
            self.wait_for(server, 2500)
            told.mkdir()
            until((told / "it").exists, "the status is there again")
            self.assertEqual(server.errors(), fault)

    def wait_for(self, server, milliseconds):
        """Waits until so much has passed at the server, in which it would have told that again."""
        last = server.moments()[-1] + milliseconds
        until(lambda: server.moments()[-1] >= last, "time passes")


if __name__ == "__main__":
    unittest.main()
