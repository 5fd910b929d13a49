"""Servers under a load, with and without --cut, whose memory is measured."""
import os
import time
from dataclasses import dataclass, field
from typing import NamedTuple

from tools.lib.findings import Wrong
from tools.lib.loads import Load, Shape
from tools.lib.processes import available, end_with_parent, machine_time, processor_time, resident
from tools.lib.servers import Server, logins_of, secret_of

# Cells, and the one that is asked nothing. A moment of a server is a millisecond.
CELLS, IDLE, WINDOW = 4, 3, 10_000
BUDGET = 4294967295
# As many bytes of records as there may be: this measures what they take, and not who is stopped.
ANY = 18446744073709551615
# In seconds: between two samples, and how long an end may take.
EACH, PATIENCE = 0.25, 120
# Bytes of the machine that are left to others.
SPARE = 1 << 30


class Sample(NamedTuple):
    """At a second of a load: the bytes that the server has resident, the replies that came by then, and its records and values, as told last."""

    second: float
    resident: int
    replies: int
    records: int | None
    values: int | None


class Used(NamedTuple):
    """How many processors the server used on average, the load, and all others of the machine."""

    server: float
    load: float
    others: float


@dataclass
class Run:
    """A server under a load: whether it cuts, at which share of the full load, what was seen, why it was ended early and what was wrong. Of each
    time that was taken there is also the second at which the request was sent."""

    cuts: bool
    share: float
    samples: list = field(default_factory=list)
    whens: list = field(default_factory=list)
    times: list = field(default_factory=list)
    used: Used | None = None
    early: str = ""
    notes: list = field(default_factory=list)
    wrong: list = field(default_factory=list)

    @property
    def name(self):
        return f"{'with' if self.cuts else 'without'} --cut, {share_name(self.share)}"

    @property
    def rate(self):
        """Requests replied in a second, each of which leaves a record."""
        if len(self.samples) < 2:
            return 0
        first, last = self.samples[0], self.samples[-1]
        return (last.replies - first.replies) / (last.second - first.second)

    def behind(self, second):
        return [one for one in self.samples if one.second >= second]


class Plan(NamedTuple):
    """What is measured: which program, with how many workers, under a load of which shape, for how many seconds; at most so many resident bytes;
    with which window; after how many seconds a line is printed of how it goes, 0 for never; and which budget each purse has."""

    program: str
    workers: int
    shape: Shape
    seconds: float
    most_bytes: int
    window: int = WINDOW
    tell_each: float = 10
    budget: int = BUDGET


def share_name(share):
    return {1: "full load", 0.5: "half of it", 0.1: "a tenth of it"}.get(share, f"{share:g} of it")


def mebibytes(count):
    return f"{count / (1 << 30):.2f} GiB" if count >= 1 << 30 else f"{count / (1 << 20):.1f} MiB"


# A server.


class Loaded(Server):
    """A served drive in which each principal of the load has the plan's budget."""

    def __init__(self, plan, cuts):
        principals = plan.shape.principals
        self.prepared = len(principals)
        flags = ["--window", plan.window, "--cells", CELLS, "--workers", plan.workers, "--records", ANY, *["--cut"] * cuts]
        logins = logins_of({who: secret_of(who) for who in (0, *principals)})
        setup = "".join(f"0 setbudget {who}.0 {plan.budget}\n" for who in principals)
        # (it gets no signal of a terminal: this process ends it)
        super().__init__(plan.program, *flags, logins=logins, setup=setup, start_new_session=True, preexec_fn=end_with_parent)

    def status(self):
        """What it told last of itself, or nothing where it hasn't yet."""
        return super().status() or {}

    def resident(self):
        """The bytes that it has resident."""
        held = resident(self.process.pid)
        if held is None:
            raise Wrong("the server ended under the load")
        return held

    def next_status(self):
        """What it tells of itself from now on."""
        before, end = self.status().get("moment", 0), time.monotonic() + PATIENCE
        while (status := self.status()).get("moment", 0) < before + 1000:
            if time.monotonic() > end or self.process.poll() is not None:
                raise Wrong("the server tells its status no more")
            time.sleep(EACH)
        return status

    def end_in_time(self):
        """Ends it by its file. Gives what it wrote, or none where it took too long or too much memory, and how many seconds it took."""
        self.ask_to_end()
        begin = time.monotonic()
        while self.process.poll() is None:
            if time.monotonic() > begin + PATIENCE or available() < SPARE:
                return None, time.monotonic() - begin
            time.sleep(EACH)
        output, errors = self.process.communicate()[0], self.errors()
        if self.process.returncode or errors:
            raise Wrong(f"the server ends with status {self.process.returncode}: {errors.strip() or 'nothing on standard error'}")
        return output.splitlines(), time.monotonic() - begin


# A run.


class Watch:
    """Takes the samples of a run, prints now and then how it goes, and tells why it has to end early, where it has."""

    def __init__(self, plan, run, server, load, seconds):
        self.plan, self.run, self.server, self.load, self.seconds = plan, run, server, load, seconds

    def sample(self, begin):
        status, second = self.server.status(), time.monotonic() - begin
        seen = round(second, 2), self.server.resident(), self.load.replies()
        self.run.samples.append(Sample(*seen, status.get("records"), status.get("values")))
        return self.run.samples[-1]

    def tell(self, last, since):
        rate = (last.replies - since.replies) / (last.second - since.second)
        held = f"{last.records or 0:12,} records  {last.values or 0:12,} values"
        print(f"  {last.second:6.0f} s  {rate:9,.0f} requests a second  {mebibytes(last.resident):>10} resident  {held}", flush=True)

    def go(self):
        """Goes through the run, sample by sample."""
        begin = self.load.begin()
        told, count = self.sample(begin), 0
        while (last := self.run.samples[-1]).second < self.seconds:
            if last.resident > self.plan.most_bytes:
                self.run.early = f"ended at {last.second:.0f} s: {mebibytes(last.resident)} resident, above what --most-bytes gives"
                return
            if available() < SPARE:
                self.run.early = f"ended at {last.second:.0f} s: the machine has less than {mebibytes(SPARE)} left"
                return
            if self.plan.tell_each and last.second - told.second >= self.plan.tell_each:
                self.tell(last, told)
                told = last
            count += 1
            time.sleep(max(0, begin + count * EACH - time.monotonic()))
            self.load.look()
            self.sample(begin)


def own_requests(status, cuts):
    """How many requests a server made itself, by its status: one that cuts asks in cells that nobody asks, for what isn't yet."""
    return (status.get("refusals") or {}).get("future", 0) if cuts else 0


def faults_of_status(status, replies, cuts):
    """What is wrong with what a server tells of itself once so many replies came, none of them a refusal."""
    own = own_requests(status, cuts)
    refused = {kind: count for kind, count in (status.get("refusals") or {}).items() if count and not (own and kind == "future")}
    if refused:
        yield f"the status tells refusals: {refused}"
    if status.get("replies") != replies + own:
        yield f"the status tells {status.get('replies')} replies, and {replies} came, beside {own} that the server asked for itself"


def faults_of_end(lines, requests, own, cuts):
    """What is wrong with what a server writes at its end, once so many requests were carried out, and so many of its own by its last status: it
    has to count that many records, and at its very end a few of its own more; none in the idle cell where it doesn't cut."""
    counted = next((list(map(int, line.split()[1:])) for line in lines if line.startswith("counted ")), None)
    if not counted or len(counted) != CELLS or not lines[-1].startswith("closed "):
        yield f"at its end it writes {lines!r}"
        return
    if not requests + own <= sum(counted) <= requests + own + CELLS * cuts:
        yield f"it counts {counted} records, and {requests} requests were carried out, beside {own} of its own"
    if counted[IDLE] > own + cuts:
        yield f"it counts {counted[IDLE]} records in cell {IDLE}, where nothing was asked, beside {own} requests of its own"
    if not cuts and lines[-1] != f"closed {sum(counted)}":
        yield f"it counts {sum(counted)} records, and at its end writes {lines[-1]!r}"


def end_server(run, server, replies):
    """Ends a server that made so many replies to its load, and notes what is wrong with what it told of itself."""
    status = server.next_status()
    own = own_requests(status, run.cuts)
    run.wrong += [f"{run.name}: {why}" for why in faults_of_status(status, replies, run.cuts)]
    lines, took = server.end_in_time()
    if lines is None:
        run.notes.append(f"{run.name}: it hadn't ended after {took:.0f} s, or took too much memory for that: it was killed")
        return
    run.wrong += [f"{run.name}: {why}" for why in faults_of_end(lines, replies + server.prepared, own, run.cuts)]
    run.notes.append(f"{run.name}: it ended within {took:.1f} s: {', '.join(lines)}; {own} requests of its own")


def go_through(plan, run, server, load, seconds):
    """Goes through a run, from the begin of its load to the end, and tells how many requests were carried out."""
    processes, before = [server.process.pid, *load.process_ids()], time.monotonic()
    all_before, own_before = machine_time(), list(map(processor_time, processes))
    Watch(plan, run, server, load, seconds).go()
    own, lasted = [after - its for after, its in zip(map(processor_time, processes), own_before)], time.monotonic() - before
    run.used = Used(own[0] / lasted, sum(own[1:]) / lasted, max(0, machine_time() - all_before - sum(own)) / lasted)
    run.whens, run.times = load.end()
    return load.prepared + load.replies()


def run_server(plan, cuts, share, rate, seconds):
    """A server under a load, from its start to its end."""
    run = Run(cuts, share)
    if plan.tell_each:
        print(f"{run.name}: load average {os.getloadavg()[0]:.1f}", flush=True)
    try:
        with Loaded(plan, cuts) as server, Load(server.address, plan.shape, rate) as load:
            end_server(run, server, go_through(plan, run, server, load, seconds))
    except (Wrong, ConnectionError) as why:
        run.wrong.append(f"{run.name}: {why}")
    return run
