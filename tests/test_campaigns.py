"""Campaigns, whole and struck for the one and for the other principal, with a sweep at each place, in all ways: as scripts, as steps of a drive at once,
as conversations with a front of two cells, and as frames. Each line that stays is told the same."""
import tempfile
import unittest
from pathlib import Path

from tools.lib import client as it
from tests import ways
from tests.campaigns import CAMPAIGNS, NEAR, kept, script, scripts, told
from tests.program import run
from tools.lib.streams import bytes_of, object_of, request_of, user_of

SWEEPS = ("sweep 0", "sweep 1", "sweep 1000000")
# Lines that ask nothing of the drive's tenants.
LINES_THAT_GO = (*SWEEPS, "used")
# The administrator, 7, 8 and 9, all with one secret.
PRINCIPALS, SECRET = (0, 7, 8, 9), bytes(range(16))
RIGHTS = {"read": it.Rights.READ, "write": it.Rights.WRITE, "delete": it.Rights.DELETE, "control": it.Rights.CONTROL, "recover": it.Rights.RECOVER}
WITHOUT_FIELDS = {"done": it.Done, "future": it.Future, "no-object": it.NoObject, "no-entry": it.NoEntry}


def grant_of(words):
    """The grant behind `by`, an index, `since` and a moment."""
    by, index, since, moment = words
    assert (by, since) == ("by", "since")
    return it.Grant(int(index), int(moment))


def reply_of(text):
    """The reply that a text tells, of those that campaigns have."""
    first, *lines = text.split("\n")
    verb, *words = first.split(" ")
    match verb:
        case "made":
            return it.Made(object_of(words[0]))
        case "data":
            return it.Data(grant_of(words[1:]), bytes_of(words[0]))
        case "entry":
            return it.Entry(grant_of(words[3:]), int(words[0]), user_of(words[1]), it.Rights(int(words[2])))
        case "denied":
            return it.Denied(RIGHTS[words[0]])
        case "too-old":
            return it.TooOld(int(words[0]))
        case "over-budget":
            return it.OverBudget(*map(int, words))
        case "names":
            return {("0", "end"): it.Names((), False)}[tuple(words)]
        case "audit":
            return {("1", "end"): it.Audit(tuple(map(audit_of, lines)), False)}[tuple(words)]
    return WITHOUT_FIELDS[verb]()


def audit_of(line):
    """The line of an audit."""
    record, moment, who, client, code, wide, reply = line.split(" ")
    assert (record, wide) == ("record", "range")
    return it.AuditLine(int(moment), int(who), int(client), int(code), False, int(reply))


def arrivals(text):
    """A script as arrivals, each principal on a connection of its number, behind the greetings of all."""
    window, *lines = text.splitlines()
    found = [window] + [f"0 {who} {it.frame_of(it.Hello(1, who, 0, SECRET), 1).hex()}" for who in PRINCIPALS]
    for line in lines:
        if line.startswith("sweep "):
            found.append(line)
        else:
            moment, who, request = line.split(" ", 2)
            found.append(f"{moment} {who} {it.frame_of(request_of(request), 1).hex()}")
    return "".join(f"{line}\n" for line in found).encode()


def replies(sent):
    """What the frames that were sent say."""
    said = []
    while sent:
        length = int.from_bytes(sent[:4], "big")
        said.append(it.read_body(sent[4 : 4 + length], 1))
        sent = sent[4 + length :]
    return said


class Campaigns(unittest.TestCase):
    maxDiff = None

    def check_script(self, text, lines):
        """That a script is told in all ways what stands beside these lines."""
        ran = run(["run"], text.encode())
        self.assertEqual((ran.out.decode(), ran.err, ran.status), (told(lines), b"", 0), text)
        for way, written in ways.told(text.encode(), (ways.AT_ONCE, ways.UNCUT)).items():
            self.assertEqual(written.decode(), told(lines), f"{way}: {text}")
        self.check_frames(text, lines)

    def check_frames(self, text, lines):
        """That each connection is sent the replies that stand beside the lines of its principal."""
        ran = run(["hall", self.logins], arrivals(text))
        self.assertEqual((ran.err, ran.status), (b"", 0), text)
        sent = {int(conn): replies(bytes_of(frames)) for conn, frames in map(str.split, ran.out.decode().splitlines())}
        own = {who: [reply_of(line[1]) for line in lines if line[0].split(" ")[1] == str(who)] for who in PRINCIPALS}
        self.assertEqual(sent, {who: [it.Welcome(1), *own[who]] for who in PRINCIPALS}, text)

    def check_told(self, name):
        campaign = CAMPAIGNS[name]
        with tempfile.TemporaryDirectory() as folder:
            self.logins = Path(folder, "logins")
            self.logins.write_text("".join(f"{who} {SECRET.hex()}\n" for who in PRINCIPALS))
            for who in (None, 7, 9):
                lines = kept(campaign.lines, who)
                for text in scripts(campaign.window, lines, SWEEPS):
                    self.check_script(text, lines)

    def test_filling_a_budget_is_told_the_same(self):
        self.check_told("filling_a_budget")

    def test_probing_names_is_told_the_same(self):
        self.check_told("probing_names")

    def test_probing_moments_is_told_the_same(self):
        self.check_told("probing_moments")

    def test_deletes_and_grants_are_told_the_same(self):
        self.check_told("deletes_and_grants")

    def test_an_entry_for_everyone_is_told_the_same(self):
        self.check_told("entry_for_everyone")


class Strikes(unittest.TestCase):
    """Which lines stay, whatever line that goes stands where: of scripts, and of lists of steps."""

    maxDiff = None

    def check_written(self, text, who, wanted):
        ran = run(["strike", who], text.encode())
        self.assertEqual((ran.out.decode(), ran.err, ran.status), (wanted, b"", 0), f"{who}: {text}")

    def check_listed(self, text, who, wanted):
        _, _, lines = wanted.partition("\n")
        self.assertEqual(ways.struck(text.encode(), who).decode(), lines, f"{who}: {text}")

    def test_campaigns_are_written_struck(self):
        for campaign in CAMPAIGNS.values():
            for who in (7, 9):
                wanted = script(campaign.window, kept(campaign.lines, who))
                for text in scripts(campaign.window, campaign.lines, LINES_THAT_GO):
                    self.check_written(text, who, wanted)

    def test_lists_are_struck(self):
        for campaign in CAMPAIGNS.values():
            for who in (7, 9):
                wanted = script(campaign.window, kept(campaign.lines, who))
                for text in scripts(campaign.window, campaign.lines, SWEEPS):
                    self.check_listed(text, who, wanted)

    def test_what_is_near_is_told_by_all_steps(self):
        wanted = script(0, kept(NEAR, 9))
        for text in scripts(0, NEAR, SWEEPS):
            self.check_listed(text, 9, wanted)
            self.check_written(text, 9, wanted)

    def test_other_principals(self):
        # Of the administrator the same is struck as of anyone, of one who isn't there all but what is asked of all purses, and of no steps none.
        text = "window 0\n1 7 create 0\n2 0 setbudget 7.0 1\n3 7 setacl 7.0.1 8 1\n4 0 setwindow 9\n5 0 read 7.0.1 0 1\n"
        self.check_listed(text, 0, "window 0\n2 0 setbudget 7.0 1\n4 0 setwindow 9\n5 0 read 7.0.1 0 1\n")
        self.check_listed(text, 4294967294, "window 0\n4 0 setwindow 9\n")
        self.check_written(text, 4294967294, "window 0\n4 0 setwindow 9\n")
        self.check_listed("window 0\n", 7, "window 0\n")


if __name__ == "__main__":
    unittest.main()
