"""How a program's memory grows with what it keeps: in all it asks for a small multiple of that, and no vector is asked to grow for more than
twice what it holds."""
from dataclasses import dataclass

from tools.lib.sweeps import Swept

# So many requests of each kind are asked.
COUNTS = (1_000, 4_000)
# What is asked for in all is at most so many times the most that is held at once.
TIMES = 4
# A growth asks for at most twice of what the vector had, and of one item more: at most so many bytes.
ITEM = 256

HEAD = b"window 1000000000\n1 0 setbudget 7.0 4294967295\n1 7 create 0\n"


@dataclass(frozen=True)
class Kind:
    """A kind of request: the line of each number, and how the last reply begins. `gives_back` says that more memory is taken for it than is
    kept, and given back."""

    name: str
    reply: bytes
    lines: object
    gives_back: bool = False

    def __str__(self):
        return self.name

    def script(self, count):
        return HEAD + b"".join(self.lines(it) + b"\n" for it in range(count))


def repeated(text):
    """The same request again and again."""
    return lambda it: b"%d %s" % (it + 2, text)


def in_turn(*texts):
    """The requests in turn, each of which may name the number of the round."""
    return lambda it: b"%d %s" % (it + 2, texts[it % len(texts)].replace(b"#", b"%d" % (it // len(texts) + 2)))


def names_of_many(it):
    """60 names for each of many objects, whose creators make them first."""
    who, name = 10 + it // 61, it % 61
    return b"1 %d pcreate a%d %d.0.1" % (who, name, who) if name else b"1 %d create 0" % who


KINDS = [
    Kind("create", b"made", repeated(b"7 create 0")),
    Kind("create of many", b"made", lambda it: b"%d %d create 0" % (it + 2, it + 10)),
    Kind("create and delete", b"done", in_turn(b"7 create 0", b"7 delete 7.0.#")),
    Kind("read", b"data", repeated(b"7 read 7.0.1 0 10")),
    Kind("read that is denied", b"denied", repeated(b"9 read 7.0.1 0 10")),
    Kind("write", b"done", repeated(b"7 write 7.0.1 0 616263")),
    Kind("append", b"done", repeated(b"7 append 7.0.1 61")),
    Kind("truncate", b"done", in_turn(b"7 truncate 7.0.1 1", b"7 truncate 7.0.1 4")),
    Kind("getattr", b"attr", repeated(b"7 getattr 7.0.1")),
    Kind("setattr", b"done", repeated(b"7 setattr 7.0.1 616263")),
    Kind("acl-user", b"entry", repeated(b"7 acl-user 7.0.1 7")),
    Kind("setacl", b"done", in_turn(b"7 setacl 7.0.1 9 1", b"7 setacl 7.0.1 9 0")),
    Kind("pcreate", b"done", names_of_many),
    Kind("pcreate and pdelete", b"done", in_turn(b"7 pcreate a 7.0.1", b"7 pdelete 7.0 a")),
    # (room for a whole page)
    Kind("plist", b"names 0 end", repeated(b"7 plist 9"), gives_back=True),
    Kind("pmount", b"no-partition", repeated(b"7 pmount 7.0 a")),
    Kind("flush", b"done", repeated(b"0 flush 0 1")),
    Kind("flusho", b"done", repeated(b"0 flusho 7.0.1 0 1")),
    Kind("setwindow", b"done", repeated(b"0 setwindow 1000000000")),
    Kind("setbudget", b"done", lambda it: b"%d 0 setbudget %d.0 4294967295" % (it + 2, it + 10)),
    Kind("audit", b"record", repeated(b"7 audit 9 0")),
]


def faults_of_growth(name, ran, gives_back=False):
    """What isn't as it should be of the memory that a run asked for."""
    asked, most, beyond = (ran.told.get(it, 0) for it in ("asked", "most_held", "most_beyond_twice"))
    faults = []
    if asked > TIMES * most and not gives_back:
        faults.append(f"{name}: {asked} bytes are asked for in all, and at most {most} held")
    if beyond > 2 * ITEM:
        faults.append(f"{name}: what has {ran.told['most_beyond_twice_of']} bytes asks for twice as many and {beyond} more")
    return faults


def faults_of(kind, count, ran):
    """What isn't as it should be in a run of so many requests."""
    name, most = f"growth, {count} of {kind}", ran.told.get("most_held", 0)
    if (ran.status, ran.errors) != (0, b"") or not most:
        return [f"{name}: status {ran.status}, {ran.errors.decode(errors='replace')!r}, and {most} bytes held"]
    last = ran.output.splitlines()[-1]
    faults = [] if last.startswith(kind.reply) else [f"{name}: the last reply is {last!r}"]
    return faults + faults_of_growth(name, ran, kind.gives_back)


def grown(program, kind):
    """Runs the scripts of a kind."""
    swept, told = Swept(f"growth, {kind}"), []
    for count in COUNTS:
        ran = program.run(("run",), program.file("given", kind.script(count)), measures=True)
        swept.wrong += faults_of(kind, count, ran)
        told.append(f"{ran.told.get('asked', 0)} bytes asked for in all and at most {ran.told.get('most_held', 0)} held by {count}")
    swept.told = ", ".join(told)
    return swept
