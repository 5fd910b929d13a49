"""What the program tells where an allocation is refused: of its words, of a run, and of a call. (`./check refusals` refuses every one.)"""
import tempfile
import unittest

from tests.calling import Side, asking
from tests.frames import ANSWER
from tests.program import PROGRAM
from tools.lib.refusing import NONE, Program, Refusal
from tools.lib.servers import address

SCRIPT = b"window 100\n5 7 create 0\n"
ENDED = (1, b"", b"s4d: no memory\n")


class NoMemory(unittest.TestCase):
    """Runs whose first or last allocation is refused. With ample memory they come to their ends."""

    def setUp(self):
        room = tempfile.TemporaryDirectory()
        self.addCleanup(room.cleanup)
        self.program = Program(PROGRAM, room.name)
        self.script = self.program.file("script", SCRIPT)

    def check(self, ran, wanted):
        self.assertEqual((ran.status, ran.output, ran.errors), wanted)

    def test_words_that_have_no_memory(self):
        self.check(self.program.run(["strike", "7"], self.script, Refusal(1)), ENDED)

    def test_a_run_that_has_no_memory(self):
        ample = self.program.run(["strike", "7"], self.script)
        self.check(ample, (0, SCRIPT, b""))
        self.check(self.program.run(["strike", "7"], self.script, Refusal(ample.told["allocations"])), ENDED)

    def test_a_call_that_has_no_memory_for_its_reply(self):
        ample = self.called(NONE)
        self.check(ample, (0, b"made 7.0.1\n", b""))
        self.check(self.called(Refusal(ample.told["allocations"])), ENDED)

    def called(self, refusal):
        """A call that is answered."""
        place = address()
        side = Side(place)
        opened = self.program.open(asking(place, "create", "0"), refusal)
        side.answer([ANSWER])
        return opened.end()
