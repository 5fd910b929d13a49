"""Mistakes that are planted in what is measured of servers under load, to see that each is told."""
import random
from dataclasses import replace

from tools.lib import client as it
from tools.lib.falling import judge_fall
from tools.lib.findings import Wrong, tell_all
from tools.lib.levels import judge
from tools.lib.loads import SMALL, VERSION, Batch, shape_of
from tools.lib.memory import BUDGET, CELLS, IDLE, WINDOW, Plan, Run, Sample, faults_of_end, faults_of_status, run_server
from tools.lib.processes import exit_when_told
from tools.lib.programs import program_of

# What is planted lasts so many seconds, with so many records a second of so many bytes each, on top of so many bytes.
SECONDS, RATE, EACH, BASE = 60, 100_000, 800, 8 << 20
MADE, GRANT = it.ObjectId(1, 0, 1), it.Grant(0, 6)


def planted_run(cuts, share, level, milliseconds=1.0):
    """A run whose memory at each second is that of so many seconds of records, and of whose times one in fifty is so many milliseconds."""
    chance, run = random.Random(1), Run(cuts, share)
    for second in (count / 4 for count in range(4 * SECONDS)):
        noise = chance.randrange(-1 << 20, 1 << 20)
        run.samples.append(Sample(second, int(BASE + EACH * RATE * share * level(second)) + noise, int(RATE * share * second), None, None))
        run.whens += [second] * 50
        run.times += [0.0002] * 49 + [milliseconds / 1000]
    return run


def planted_runs(level, milliseconds=1.0, at_a_tenth=1.0):
    """Runs as they have to be, but for the memory with --cut at the full load, and for its slow times there and at a tenth."""
    full = [planted_run(False, 1, lambda second: second), planted_run(True, 1, level, milliseconds)]
    return full + [planted_run(False, 0.1, lambda second: second), planted_run(True, 0.1, flat, at_a_tenth)]


def flat(second, most=11):
    return min(second, most)


def cut_short(runs, second):
    """The same, where the run with --cut at the full load was ended at a second."""
    runs[1] = replace(runs[1], samples=[one for one in runs[1].samples if one.second < second], early=f"ended at {second} s")
    return runs


def standing_still(runs, seconds):
    """The same, where the server with --cut at the full load stood still for so long once in ten seconds."""
    for second in range(15, SECONDS, 10):
        runs[1].whens.append(second)
        runs[1].times.append(seconds)
    return runs


# What is planted in runs, and what has to be told of it; nothing of the first ones.
RUNS = {
    "memory that is flat": (lambda: planted_runs(flat), None),
    "memory that goes up and down within the bound": (lambda: planted_runs(lambda second: min(second, 11 + second % 2)), None),
    "a p99 that is 1.9 times as great": (lambda: planted_runs(flat, 1.9), None),
    "memory that isn't cut": (lambda: planted_runs(lambda second: second), "not flat"),
    "memory that rises by a fifth behind two windows": (lambda: planted_runs(lambda second: flat(second) + max(0, second - 20) / 18), "flat"),
    "memory that is flat above the bound": (lambda: planted_runs(lambda second: flat(second, 31)), "at most"),
    "memory that is once above the bound": (lambda: planted_runs(lambda second: 40 if second == 30 else flat(second)), "at most"),
    "a run that was ended within two windows": (lambda: cut_short(planted_runs(flat), 15), "was ended before"),
    "a run that was ended behind two windows": (lambda: cut_short(planted_runs(flat), 40), "ended at 40 s"),
    "a p99 that is 2.1 times as great": (lambda: planted_runs(flat, 2.1), "full load: p99"),
    "a p99 that is 3 times as great at a tenth of the load": (lambda: planted_runs(flat, 1, 3), "a tenth of it: p99"),
    "a server that stands still now and then": (lambda: standing_still(planted_runs(flat), 0.3), "full load: p99 of requests each millisecond"),
    "a run of which nothing was seen": (lambda: [Run(False, 1), Run(True, 1)], "too little"),
}


def planted_fall(left):
    """Runs of a load that fell to a tenth of it, and the records of how many seconds of that are left at each second."""
    full, lesser = Run(True, 1), Run(True, 0.1)
    for second in range(23):
        full.samples.append(Sample(second, BASE, RATE * second, RATE * min(second, 10), None))
        lesser.samples.append(Sample(second, BASE, RATE // 10 * second, int(RATE / 10 * left(second)), None))
    return full, lesser


# What is planted in runs of a load that falls, and what has to be told of it.
FALLS = {
    "records that go within a window": (lambda: planted_fall(lambda second: max(110 - 10 * second, 11)), None),
    "records that stay for two windows": (lambda: planted_fall(lambda second: max(110 - 5 * second, 11)), "stay"),
    "records that stay": (lambda: planted_fall(lambda second: 110), "stay"),
    "a fall of which nothing was seen": (lambda: (Run(True, 1), Run(True, 0.1)), "too little"),
}

# What a server tells behind a load, where 500 replies came: whether it cuts, and what has to be told.
STATUSES = {
    "a status as it has to be": ({"replies": 500, "refusals": {"denied": 0}}, False, None),
    "a status of a server that cuts": ({"replies": 507, "refusals": {"future": 7}}, True, None),
    "a status with a refusal": ({"replies": 500, "refusals": {"over_budget": 1}}, False, "refusals"),
    "a status with a refusal of a server that cuts": ({"replies": 507, "refusals": {"future": 7, "no_memory": 1}}, True, "refusals"),
    "a status with requests of its own of a server that doesn't cut": ({"replies": 507, "refusals": {"future": 7}}, False, "refusals"),
    "a status with a reply less": ({"replies": 499, "refusals": {}}, False, "replies"),
    "a status with a reply more of a server that cuts": ({"replies": 508, "refusals": {"future": 7}}, True, "replies"),
}
# What it writes at its end, where 520 requests were carried out, and so many of its own: whether it cuts, and what has to be told.
ENDS = {
    "an end as it has to be": (["counted 200 200 120 0", "closed 520"], 0, False, None),
    "an end with records that the server asked for itself": (["counted 200 200 120 9", "closed 77"], 9, True, None),
    "an end with one more of these": (["counted 200 200 120 10", "closed 77"], 9, True, None),
    "an end that counts a record less": (["counted 200 200 119 0", "closed 519"], 0, False, "it counts"),
    "an end that counts a record more": (["counted 200 200 121 0", "closed 521"], 0, False, "it counts"),
    "an end that counts a record less, of a server that cuts": (["counted 200 200 119 9", "closed 77"], 9, True, "it counts"),
    "an end with a record in the idle cell": (["counted 200 200 119 1", "closed 520"], 0, False, "where nothing was asked"),
    "an end with records in the idle cell, of a server that cuts": (["counted 200 200 109 20", "closed 77"], 9, True, "where nothing was asked"),
    "an end that has lost records": (["counted 200 200 120 0", "closed 519"], 0, False, "and at its end writes"),
    "an end without a count": (["closed 520"], 0, False, "at its end it writes"),
}


def planted_batch():
    """A write and a read, and the replies that are wanted, as frames."""
    data = b"x" * SMALL
    asked = [(it.Write(MADE, 0, data), it.Done()), (it.Read(MADE, 0, SMALL), it.Data(GRANT, data))]
    return Batch(asked), [it.frame_of(reply, VERSION) for _, reply in asked]


def replies():
    """What comes in pieces for a write and a read, and what has to be told of it."""
    done, data = planted_batch()[1]
    refused = {one: it.frame_of(one, VERSION) for one in (it.OverBudget(64, 164, 200), it.NoMemory())}
    return {
        "replies as they have to be, in pieces": ([done[:3], done[3:] + data[:9], data[9:]], None),
        "a write that is refused": ([refused[it.OverBudget(64, 164, 200)]], "OverBudget"),
        "a read that is refused, in pieces": ([done, data[:3], refused[it.NoMemory()][3:]], "NoMemory"),
        "other bytes that are read": ([done + data[:-1] + b"y"], "in the place of"),
        "replies in another order": ([data + done], "in the place of"),
        "a reply too much": ([done + data + done], "more is replied"),
        "a connection that is closed": ([done, b""], "closed a connection"),
    }


def told_of(pieces):
    """What is told of replies that come in such pieces."""
    batch, before = planted_batch()[0], 0
    try:
        for came in pieces:
            before = batch.taken(before, came)
    except Wrong as why:
        return [str(why)]
    return []


def told_of_server(program, budget, most_bytes=1 << 30):
    """What is told of a server that was asked for two seconds, whose purses have such a budget."""
    plan = Plan(program, 2, shape_of(2, 2, 64, CELLS, IDLE), 2, most_bytes, WINDOW, 0, budget)
    return run_server(plan, False, 1, 20_000, plan.seconds).wrong


def cases(program):
    """All that is planted: its name, what is told, and what has to be told, or none where nothing may be."""
    for name, (plant, wanted) in RUNS.items():
        yield name, judge(plant(), WINDOW)[1], wanted
    for name, (plant, wanted) in FALLS.items():
        yield name, judge_fall(*plant(), WINDOW)[1], wanted
    for name, (status, cuts, wanted) in STATUSES.items():
        yield name, list(faults_of_status(status, 500, cuts)), wanted
    for name, (lines, own, cuts, wanted) in ENDS.items():
        yield name, list(faults_of_end(lines, 520, own, cuts)), wanted
    for name, (pieces, wanted) in replies().items():
        yield name, told_of(pieces), wanted
    yield "a server whose purses have the greatest budget", told_of_server(program, BUDGET), None
    yield "a server whose purses have a budget that is soon spent", told_of_server(program, 100_000), "OverBudget"
    yield "a program that is none", told_of_server("/bin/false", BUDGET), "doesn't listen"


def self_test(given):
    """Tells which planted mistakes aren't told, and which right things are. Returns whether there are none."""
    exit_when_told()
    missed, planted = [], 0
    for name, told, wanted in cases(program_of("memory", given)):
        planted += wanted is not None
        if not (any(wanted in why for why in told) if wanted else not told):
            why = f"{name}: {wanted!r} isn't told" if wanted else f"{name}: it is told as wrong"
            missed.append("\n  ".join([why, *told]))
    return tell_all(missed, f"memory: {planted} planted mistakes, {len(missed)} not told" if missed else f"memory: {planted} planted mistakes are told")
