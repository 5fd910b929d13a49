"""Runs of a program in which allocations are refused, from outside."""
import contextlib
import os
import shutil
import subprocess
import threading
from dataclasses import dataclass, field
from pathlib import Path

HERE = Path(__file__).resolve().parent
# What a run takes at most.
SECONDS = 20
OPENED = os.O_WRONLY | os.O_CREAT | os.O_TRUNC


@dataclass(frozen=True)
class Refusal:
    """Which allocations are refused: so many from the first one on, of all threads or of one alone."""

    first: int
    count: int = 1
    thread: int | None = None

    def __str__(self):
        numbers = f"allocation {self.first}" if self.count == 1 else f"allocations {self.first} to {self.first + self.count - 1}"
        return numbers if self.thread is None else f"{numbers} of thread {self.thread}"

    def words(self):
        words = {"REFUSE_FROM": str(self.first), "REFUSE_COUNT": str(self.count)}
        return words if self.thread is None else words | {"REFUSE_THREAD": str(self.thread)}


NONE = Refusal(0, 0)


@dataclass(frozen=True)
class Ran:
    """How a run ended, what it wrote, and what the library counted."""

    status: int
    output: bytes
    errors: bytes
    told: dict = field(default_factory=dict)

    def met(self):
        return self.told.get("refusals", 0)

    def by_thread(self):
        """How many allocations each thread asked for."""
        return {int(name[7:]): count for name, count in self.told.items() if name.startswith("thread_")}

    def met_none(self):
        """Whether the library told that nothing was refused. It tells nothing of a run that a signal ended."""
        return self.told.get("refusals") == 0


def compiled(source, to, *flags):
    """Compiles a C file to this path."""
    subprocess.run([os.environ.get("CC", "cc"), "-O2", *flags, "-o", to, source], check=True)
    return to


def told_in(path):
    """What the library wrote at a run's end; nothing where it wrote nothing."""
    try:
        text = path.read_text(encoding="ascii")
    except OSError:
        return {}
    return {name: int(value) for name, value in (line.split() for line in text.splitlines())}


class Program:
    """A built program, which is run with the library and without it. The files of its runs lie in a folder of its own."""

    def __init__(self, path, room):
        self.path, self.room, self.own = Path(path).resolve(), Path(room), threading.local()
        self.library = compiled(HERE / "refuse.c", self.room / "refuse.so", "-shared", "-fPIC")
        self.seconds, self.runs, self.alone = SECONDS, 0, threading.Lock()

    def place(self):
        """The folder of this thread's runs."""
        if not hasattr(self.own, "place"):
            with self.alone:
                self.own.place = self.room / f"runs-{len(list(self.room.glob('runs-*')))}"
                self.own.place.mkdir()
        return self.own.place

    def file(self, name, text):
        """A file that runs are given, with this text."""
        path = self.room / name
        path.write_bytes(text)
        return str(path)

    def environment(self, tells, words):
        kept = {it: os.environ[it] for it in ("PATH", "HOME", "LANG") if it in os.environ}
        return kept | {"LD_PRELOAD": str(self.library), "REFUSE_TELL": str(tells), "REFUSE_SECONDS": str(self.seconds)} | words

    def start(self, words, given, environment, place):
        """Starts the program with this file as its input, and returns its number."""
        actions = [
            (os.POSIX_SPAWN_OPEN, 0, given, os.O_RDONLY, 0),
            (os.POSIX_SPAWN_OPEN, 1, str(place / "output"), OPENED, 0o600),
            (os.POSIX_SPAWN_OPEN, 2, str(place / "errors"), OPENED, 0o600),
        ]
        return os.posix_spawn(self.path, [str(self.path), *words], environment, file_actions=actions)

    def run(self, words, given, refusal=NONE, measures=False):
        """Runs the program on the file `given`. With no refusal and no measure it has ample memory, and its allocations are counted."""
        place = self.place()
        tells = place / "tells"
        tells.unlink(missing_ok=True)
        more = refusal.words() | ({"REFUSE_MEASURE": "1"} if measures else {})
        _, ended = os.waitpid(self.start(words, given, self.environment(tells, more), place), 0)
        with self.alone:
            self.runs += 1
        return Ran(os.waitstatus_to_exitcode(ended), (place / "output").read_bytes(), (place / "errors").read_bytes(), told_in(tells))


    def open(self, words, refusal):
        """Starts the program, with nothing as its input, and gives what it writes as it comes."""
        return Opened(self, words, refusal)


class Opened:
    """A program that runs, and whose output is read meanwhile."""

    def __init__(self, program, words, refusal):
        self.program, self.place = program, program.place()
        self.tells = self.place / "tells"
        self.tells.unlink(missing_ok=True)
        with open(self.place / "errors", "wb") as errors:
            self.process = subprocess.Popen(
                [program.path, *words], stdin=subprocess.DEVNULL, stdout=subprocess.PIPE, stderr=errors, env=program.environment(self.tells, refusal.words())
            )
        self.output = b""

    def line(self):
        """The next line; nothing at the output's end."""
        line = self.process.stdout.readline()
        self.output += line
        return line

    def end(self, by_force=False):
        """How it ended, once it has, or is made to."""
        if by_force:
            with contextlib.suppress(subprocess.TimeoutExpired):
                self.process.wait(timeout=1)
            self.process.terminate()
        with self.process.stdout:
            self.output += self.process.stdout.read()
        status = self.process.wait()
        with self.program.alone:
            self.program.runs += 1
        return Ran(status, self.output, (self.place / "errors").read_bytes(), told_in(self.tells))


def has_compiler():
    return shutil.which(os.environ.get("CC", "cc")) is not None
