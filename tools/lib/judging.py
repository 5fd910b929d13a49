"""What a run may write in which allocations were refused."""
import re
import struct
import threading

from tools.lib.findings import Wrong, first_difference

NO_MEMORY = b"no-memory\n"
ENDED = b"s4d: no memory\n"
# What is said of a cut above the horizon. A row's own cuts are none, but where the requests are refused that they stand on.
ABOVE = re.compile(rb"s4d: line ([0-9]+): cut above horizon\n")
# The frame that tells that a request met want of memory.
REFUSED = bytes.fromhex("000000020810")


def judged(call):
    """Why what is judged so isn't right, or none. What can't be read as it's judged isn't right either."""
    try:
        call()
    except Wrong as why:
        return str(why)
    except (ValueError, IndexError, KeyError, struct.error) as error:
        return f"what it writes can't be read: {error!r}"
    return None


def replies_in(output):
    """The replies in what a script's run wrote: lists of names and of records have a line for each."""
    lines, replies, at = output.splitlines(keepends=True), [], 0
    while at < len(lines):
        words = lines[at].split()
        more = int(words[1]) if words and words[0] in (b"names", b"audit") else 0
        replies.append(b"".join(lines[at : at + 1 + more]))
        at += 1 + more
    return replies


def ended_well(ran, fault=b""):
    """Whether the run came to its end, or to this fault; else it has to say that there was no memory."""
    if ran.status < 0:
        raise Wrong(f"it is ended by signal {-ran.status}")
    if not ran.told:
        raise Wrong("it ended so that its allocations aren't told")
    if (ran.status, ran.errors) == (1, ENDED):
        return False
    if (ran.status, ran.errors) != ((1, fault) if fault else (0, b"")):
        raise Wrong(f"status {ran.status}, and on standard error {ran.errors.decode(errors='replace')!r}")
    return True


def compare(ran, wanted, fault=b""):
    """What was written is all of what is wanted, or where the memory didn't suffice whole lines of its beginning."""
    if ended_well(ran, fault):
        if ran.output != wanted:
            raise Wrong(f"it writes {shown(ran.output, wanted)}")
    elif not wanted.startswith(ran.output) or ran.output[-1:] not in (b"", b"\n"):
        raise Wrong(f"its beginning is {shown(ran.output, wanted)}")


def shown(output, wanted):
    """The first line that isn't as wanted, and the one that is."""
    ours, theirs = output.split(b"\n"), wanted.split(b"\n")
    at = first_difference(ours, theirs)
    line, other = (it[at].decode(errors="replace")[:80] if at < len(it) else "nothing" for it in (ours, theirs))
    return f"{line!r} in line {at + 1} and not {other!r}"


class Judge:
    """Judges the runs of one row. What is wanted where some requests were refused is what the program writes without them, with ample
    memory, and the refusals in their places."""

    def __init__(self, program, row, logins=None):
        self.program, self.row, self.logins = program, row, logins
        self.turn, self.known = threading.Lock(), {}

    def words(self):
        return (*self.row.words, self.logins) if self.logins else self.row.words

    def wanted(self, refused):
        """What is wanted where these requests were refused, and the fault that has to end the run, or none."""
        if not refused:
            return self.row.wanted, b""
        with self.turn:
            if refused not in self.known:
                self.known[refused] = self.without(refused)
            return self.known[refused]

    def plain(self, text):
        """What the program writes for this text with ample memory, and of which line it says that it cuts above the horizon, or none."""
        given = self.program.place() / "without"
        given.write_bytes(text)
        ran = self.program.run(self.words(), str(given))
        above = ABOVE.fullmatch(ran.errors)
        if (ran.status, ran.errors) != (0, b"") and not (ran.status == 1 and above):
            raise Wrong("without what was refused the program doesn't run to its end")
        return ran.output, int(above[1]) if above else None

    def judge(self, ran):
        """Raises why the run isn't right, where it isn't."""
        ended_well(ran, ran.errors if ABOVE.fullmatch(ran.errors) else b"")
        refused = self.refused(ran.output)
        if len(refused) > ran.met():
            raise Wrong(f"{len(refused)} requests are refused, and only {ran.met()} allocations were")
        compare(ran, *self.wanted(refused))

    def refused(self, output):
        """Which requests are refused, in this output."""
        raise NotImplementedError

    def without(self, refused):
        """What is wanted without these requests, and the fault that has to end the run, or none."""
        raise NotImplementedError


class StrikeJudge(Judge):
    """A strike runs nothing: no request is refused."""

    def refused(self, output):
        return ()


class ScriptJudge(Judge):
    """Requests of a script are told apart by their lines: each is told a reply, but for sweeps."""

    def refused(self, output):
        return tuple(it for it, reply in enumerate(replies_in(output)) if reply == NO_MEMORY)

    def without(self, refused):
        lines = self.row.given.splitlines(keepends=True)
        asking = [it for it, line in enumerate(lines) if it and not line.startswith(b"sweep ")]
        if refused[-1] >= len(asking):
            raise Wrong("there are more replies than requests")
        left_out = {asking[it] for it in refused}
        kept = [it for it in range(len(lines)) if it not in left_out]
        output, above = self.plain(b"".join(lines[it] for it in kept))
        replies = replies_in(output)
        for it in refused:
            replies.insert(it, NO_MEMORY)
        return b"".join(replies), b"" if above is None else b"s4d: line %d: cut above horizon\n" % (kept[above - 1] + 1)


def frames_in(stream):
    """The frames of a stream, as pairs of where each begins and ends; a last one that isn't whole, or has no frame's length, is left out."""
    at, found = 0, []
    while at + 4 <= len(stream):
        end = at + 4 + int.from_bytes(stream[at : at + 4], "big")
        if end > len(stream) or not at + 5 <= end <= at + 4 + 8192:
            break
        found.append((at, end))
        at = end
    return found


def sent_in(output):
    """What each connection was sent, by its number, in what a hall wrote."""
    pairs = (line.split(b" ") for line in output.splitlines())
    return {int(conn): b"" if sent == b"empty" else bytes.fromhex(sent.decode()) for conn, sent in pairs}


class HallJudge(Judge):
    """A hall's requests are told apart by their connection and by how many frames came on it before."""

    def refused(self, output):
        return tuple((conn, it) for conn, stream in sent_in(output).items() for it, (begin, end) in enumerate(frames_in(stream)) if stream[begin:end] == REFUSED)

    def arrivals(self):
        """The arrivals by connection: each the number of its line and its bytes."""
        found = {}
        for number, line in enumerate(self.row.given.splitlines()):
            words = line.split(b" ")
            if len(words) == 3:
                piece = b"" if words[2] == b"empty" else bytes.fromhex(words[2].decode())
                found.setdefault(int(words[1]), []).append((number, piece))
        return found

    def left_of(self, pieces, numbers):
        """The lines' bytes without the frames of these numbers."""
        stream = b"".join(piece for _, piece in pieces)
        frames = frames_in(stream)
        gone = [frames[it] for it in numbers if it < len(frames)]
        if len(gone) < len(numbers):
            raise Wrong("there are more replies than frames")
        left, at = {}, 0
        for number, piece in pieces:
            left[number] = bytes(byte for it, byte in enumerate(piece, at) if not any(begin <= it < end for begin, end in gone))
            at += len(piece)
        return left

    def without(self, refused):
        left = {}
        for conn, pieces in self.arrivals().items():
            left |= self.left_of(pieces, [it for its, it in refused if its == conn])
        lines = self.row.given.splitlines()
        for number, piece in left.items():
            lines[number] = b" ".join([*lines[number].split(b" ")[:2], piece.hex().encode() or b"empty"])
        sent = sent_in(self.plain(b"".join(line + b"\n" for line in lines))[0])
        for conn, it in refused:
            stream = sent.get(conn, b"")
            at = [0, *(end for _, end in frames_in(stream))][it]
            sent[conn] = stream[:at] + REFUSED + stream[at:]
        return b"".join(b"%d %s\n" % (conn, stream.hex().encode() or b"empty") for conn, stream in sent.items()), b""


JUDGES = {"script": ScriptJudge, "serials": ScriptJudge, "strike": StrikeJudge, "arrivals": HallJudge}
