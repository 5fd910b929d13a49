"""The examples that are shown, and the page that tells of one."""
import unittest

from tests.worked import Row, of_rows, text, ways_of
from tools.lib.programs import TOP

EXAMPLES = TOP / "examples"
# The blocks of a page that begin with a mark, and the text of an example that they are.
BLOCKS = {"```script": "script", "```replies": "expected", "```struck": "struck", "```told": "told"}


@of_rows("sent")
class Sent(Row):
    """What arrivals are sent is what stands beside them."""

    def check(self, name):
        self.check_run(["hall", EXAMPLES / f"{name}.logins"], text(name, "arrivals"), text(name, "sent"))


@of_rows("struck")
class Struck(Row):
    """What is left of a script without a principal's strangers is what stands beside it, and so is what that writes."""

    def check(self, name, who):
        struck, told = text(name, "struck"), text(name, "told")
        self.check_run(["strike", who], text(name, "script"), struck)
        self.check_run(["run"], struck, told)
        self.check_ways(struck, told, ways_of(struck))


@of_rows("page")
class Pages(Row):
    """The blocks of a page are the lines of an example's script and its replies, and those of what is left of it and its replies."""

    def check(self, page, name):
        shown, lines = {kind: "" for kind in BLOCKS.values()}, None
        for line in (TOP / "docs" / page).read_text(encoding="utf-8").splitlines(keepends=True):
            if line.startswith("```"):
                lines = BLOCKS.get(line.rstrip("\n"))
            elif lines:
                shown[lines] += line
        for kind, block in shown.items():
            self.assertEqual(block.encode(), text(name, kind), kind)


if __name__ == "__main__":
    unittest.main()
