"""Processes that prepare, begin together, and tell what their work came to."""
import contextlib
import gc
import multiprocessing
import os
import signal
import time

from tools.lib import client as it
from tools.lib.findings import Wrong
from tools.lib.processes import end_with_parent

FORK = multiprocessing.get_context("fork")
# In seconds: how long anything may take that isn't measured, and how long a process rests before it looks again.
PATIENCE, REST = 60, 0.001
PREFERRED = -20


class Stage:
    """What the processes of a crew share: since when they work (by the clock that all have), whether that is over, and the replies of each."""

    def __init__(self, processes):
        self.begin, self.is_over, self.replies = FORK.RawValue("d", 0), FORK.RawValue("b", 0), FORK.RawArray("Q", processes)


def act(here, is_preferred, stage, work, *given):
    """What a process does: it prepares, says so, waits for the begin, and tells what its work comes to, or why it can't go on."""
    signal.signal(signal.SIGINT, signal.SIG_IGN)
    signal.signal(signal.SIGTERM, signal.SIG_DFL)
    end_with_parent()
    gc.disable()
    try:
        if is_preferred and os.geteuid() == 0:
            os.setpriority(os.PRIO_PROCESS, 0, PREFERRED)
        steps = work(*given)
        here.send((next(steps), None))
        while not stage.begin.value:
            time.sleep(REST)
        here.send((next(steps), None))
    except (Wrong, OSError, it.Refused, it.Fault, it.Unreadable) as why:
        here.send((None, str(why) if isinstance(why, Wrong) else repr(why)))


class Crew:
    """At most so many processes. They are killed where their `with` ends."""

    def __init__(self, processes):
        self.stage, self.helpers = Stage(processes), []

    def start(self, is_preferred, work, *given):
        """Starts a process with this work: what it gives first is what it prepared, and then what it came to."""
        there, here = FORK.Pipe(duplex=False)
        helper = FORK.Process(target=act, args=(here, is_preferred, self.stage, work, *given), daemon=True)
        helper.start()
        here.close()
        self.helpers.append((helper, there))

    def __enter__(self):
        return self

    def __exit__(self, *_):
        self.kill()

    def kill(self):
        for helper, there in self.helpers:
            helper.kill()
            helper.join()
            there.close()

    @contextlib.contextmanager
    def killed_if_raised(self):
        """What has to be done before its `with` begins."""
        try:
            yield
        except BaseException:
            self.kill()
            raise

    def told(self, there):
        """What a process tells next."""
        try:
            if not there.poll(2 * PATIENCE):
                raise Wrong("a process of the load hangs")
            value, why = there.recv()
        except EOFError as error:
            raise Wrong("a process of the load ended") from error
        if why:
            raise Wrong(why)
        return value

    def prepare(self):
        """Waits until all have prepared, and gives what each made of that."""
        return [self.told(there) for _, there in self.helpers]

    def begin(self):
        """Begins it, and tells when."""
        self.stage.begin.value = time.monotonic()
        return self.stage.begin.value

    def look(self):
        """Raises why a process doesn't go on, where one doesn't."""
        for _, there in self.helpers:
            if there.poll():
                self.told(there)

    def replies(self):
        """How many replies were had since it began."""
        return sum(self.stage.replies)

    def ended(self, count=None):
        """Ends it, and gives what the work of each came to, or of the first so many."""
        self.stage.is_over.value = 1
        return [self.told(there) for _, there in self.helpers[:count]]

    def process_ids(self):
        return [helper.pid for helper, _ in self.helpers]
