"""The worked rows: scripts, arrivals and strikes, and what is written for them (tests/rows/rows.index says what kinds of rows there are)."""
import tempfile
import unittest
from pathlib import Path

from tests import ways
from tests.mixing import SWEEPS, Mixed
from tests.worked import Row, of_rows, text, ways_of
from tools.lib.rows import serials

# The most bytes that an arrival is cut to.
LARGEST_PIECE = 30


def by_version_2(script):
    """The script whose first line says besides that its callers speak version 2; none where that says so already, or is empty, or where a line says
    its own version."""
    first, line_feed, rest = script.partition(b"\n")
    return None if not first or first.endswith(b" wire 2") or b"/" in rest else first + b" wire 2" + line_feed + rest


@of_rows("script")
class Scripts(Row):
    def check(self, name):
        script, written, fault = text(name, "script"), text(name, "expected"), text(name, "stderr")
        self.check_run(["run"], script, written, fault)
        if not fault:
            self.check_ways(script, written, ways_of(script))
        second = by_version_2(script)
        if second is not None:
            written = text(name, "second") or written
            self.check_run(["run"], second, written, fault)
            if not fault:
                self.check_ways(second, written, [ways.AT_ONCE])


@of_rows("serials")
class Serials(Row):
    def check(self, name):
        row = serials(name)
        self.check_run(["run"], row.given, row.wanted)
        self.check_ways(row.given, row.wanted, [ways.AT_ONCE])


@of_rows("between")
class Between(Row):
    """Whatever is swept, and where principal 9 asks nothing, each of the requests that stand beside the script, or all of them."""

    def check(self, name):
        script, replies = text(name, "script").decode(), text(name, "expected").decode()
        requests = [line.split(" -> ") for line in text(name, "strangers").decode().splitlines()]
        for asked in [None, *([it] for it in requests), requests]:
            for sweep in SWEEPS:
                given, written = Mixed(script, replies, sweep, asked).texts()
                with self.subTest(asked=asked, sweep=sweep):
                    self.check_run(["run"], given, written)
                    self.check_ways(given, written, [ways.AT_ONCE])


def joined(told):
    """What is sent on each connection of what a hall sends one by one, and what it tells last of what it holds."""
    sent, held = {}, b""
    for line in told.decode().splitlines():
        word, rest = line.split(" ")
        if word == "used":
            held = f"{line}\n".encode()
        elif word != "freed":
            sent[int(word)] = sent.get(int(word), "") + rest.removeprefix("empty")
    return "".join(f"{conn} {sent[conn] or 'empty'}\n" for conn in sorted(sent)).encode(), held


@of_rows("arrivals")
class Arrivals(Row):
    def check(self, name, logins=None):
        arrivals, table = text(name, "arrivals"), text(logins or name, "logins")
        written, fault, held = text(name, "expected"), text(name, "stderr"), text(name, "used")
        self.check_hall(table, arrivals, written, fault)
        if arrivals and not fault:
            self.check_halls(table, arrivals, written, held)

    def check_halls(self, logins, arrivals, written, held):
        """That a hall which is given the arrivals at once, or one by one, sends and holds the same."""
        with tempfile.NamedTemporaryFile() as file:
            Path(file.name).write_bytes(logins)
            for count in (1 << 40, 0):
                sent, used = joined(ways.sent(file.name, arrivals, count))
                self.assertEqual(sent, written)
                self.assertEqual(used, held or used)


@of_rows("pieces")
class Pieces(Row):
    """Arrivals of which each is cut into pieces of so many bytes, the last of which may have fewer."""

    def check(self, name):
        for width in range(1, LARGEST_PIECE + 1):
            lines = []
            for line in text(name, "arrivals").decode().splitlines():
                start, digits = line.rsplit(" ", 1)
                cut = [digits[at : at + 2 * width] for at in range(0, len(digits), 2 * width)]
                lines += [f"{start} {it}\n" for it in cut] if start != "window" else [f"{line}\n"]
            with self.subTest(width=width):
                self.check_hall(text(name, "logins"), "".join(lines).encode(), text(name, "expected"))


@of_rows("strike")
class Strikes(Row):
    def check(self, name, who):
        self.check_run(["strike", who], text(name, "script"), text(name, "expected"), text(name, "stderr"))


if __name__ == "__main__":
    unittest.main()
