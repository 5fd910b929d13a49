"""What the memory of servers under load is, and what it has to be."""
import csv
from typing import NamedTuple

from tools.lib.crews import REST
from tools.lib.memory import Run, Sample, Used, mebibytes, share_name
from tools.lib.plots import Line, Plot

# What is wanted: at most so many times the bytes of the records of two windows, a last third of at most so many times the first one behind two
# windows, and a p99 with --cut of at most so many times that without.
MOST_BYTES, MOST_GROWTH, MOST_P99 = 1.5, 1.1, 2
# In seconds: the begin of a run to which no line is fitted, and from when on times count, behind the window.
WARM, SETTLED = 2, 1
# Of how many times at least a p99 is taken, and from how many seconds on a request is told of that had to wait.
LEAST_TIMES, LONG = 1000, 0.01
COLUMNS = ("cut", "share", "second", "resident_bytes", "replies", "records", "values")
COLOURS = {"without": "#c2410c", "with": "#1d4ed8", "bound": "#555555"}


def slope(points):
    """How much the line that is nearest to these points by least squares rises with each of one."""
    count = len(points)
    if count < 2:
        return 0
    x_mean, y_mean = sum(x for x, _ in points) / count, sum(y for _, y in points) / count
    spread = sum((x - x_mean) ** 2 for x, _ in points)
    return sum((x - x_mean) * (y - y_mean) for x, y in points) / spread if spread else 0


def mean(values):
    return sum(values) / len(values) if values else 0


def bytes_each(run):
    """The bytes of a record: how much more is resident with each."""
    return slope([(one.replies, one.resident) for one in run.behind(WARM)])


def times_of(run, window):
    """The times that count, from the smallest, and since which second: behind the window, where a server that cuts does so. Where these are few
    of one that doesn't, which is the same at all times, they are those behind the begin."""
    for since in (window / 1000 + SETTLED, *([] if run.cuts else [WARM])):
        times = sorted(took for when, took in zip(run.whens, run.times) if when >= since)
        if len(times) >= LEAST_TIMES:
            return times, since
    return [], 0


def quantile(times, share):
    return times[min(len(times) - 1, int(share * len(times)))]


class Level(NamedTuple):
    """The memory of a server that cuts, behind two windows: the greatest, the mean, by how much of that it rises in a minute, and the means of
    the first and of the last third."""

    greatest: int
    mean: float
    drift: float
    first: float
    last: float


def level_of(run, window):
    """The memory behind two windows, or none where the run has too little behind them."""
    behind = run.behind(2 * window / 1000)
    if len(behind) < 6:
        return None
    begin, end = behind[0].second, behind[-1].second
    third = (end - begin) / 3
    first = mean([one.resident for one in behind if one.second <= begin + third])
    last = mean([one.resident for one in behind if one.second >= end - third])
    middle = mean([one.resident for one in behind])
    return Level(max(one.resident for one in behind), middle, slope([(one.second, one.resident) for one in behind]) * 60 / middle, first, last)


def bound_of(each, run, window):
    """The records of two windows, and the bytes that are wanted at most."""
    records = run.rate * 2 * window / 1000
    return records, MOST_BYTES * each * records


def judge_memory(each, run, window):
    """Lines of what the memory of a server that cuts is, and what is wrong with it."""
    (records, bound), level = bound_of(each, run, window), level_of(run, window)
    rows = [
        ("bytes a record without --cut", f"{each:,.0f}"),
        ("records of two windows", f"{records:,.0f}"),
        ("bytes of these", mebibytes(each * records)),
        (f"bound, {MOST_BYTES} times that", mebibytes(bound)),
    ]
    if not level:
        takes = f"a window of this load takes {mebibytes(each * records / 2)}"
        return rows, [f"{run.name}: it was ended before its memory behind two windows was seen: {run.early or 'too few seconds'}; {takes}"]
    growth = level.last / level.first
    rows += [
        ("behind two windows, with --cut: greatest", mebibytes(level.greatest)),
        ("mean", mebibytes(level.mean)),
        ("drift", f"{level.drift:+.1%} a minute"),
        ("last third to first third", f"{growth:.2f}"),
        ("flat", "yes" if growth <= MOST_GROWTH else "no"),
        ("within the bound", "yes" if level.greatest <= bound else "no"),
    ]
    wrong = []
    if growth > MOST_GROWTH:
        wrong.append(f"{run.name}: not flat: its last third has {growth:.2f} times the memory of the first, at most {MOST_GROWTH} wanted")
    if level.greatest > bound:
        wrong.append(f"{run.name}: {mebibytes(level.greatest)} resident, at most {mebibytes(bound)} wanted")
    if run.early:
        wrong.append(f"{run.name}: {run.early}")
    return rows, wrong


def in_milliseconds(times):
    return "".join(f"{1000 * took:9.2f}" for took in (quantile(times, 0.5), quantile(times, 0.99), quantile(times, 0.999), times[-1]))


def scheduled(times):
    """The times that would have been taken of requests made each millisecond, also while one isn't answered, from the smallest."""
    return sorted(took - late * REST for took in times for late in range(max(1, int(took / REST))))


def waited(run, times, since):
    """The share of the time that went in long waits: who asks one thing after the other asks less while a server stands still."""
    return sum(took for took in times if took >= LONG) / (run.whens[-1] - since)


def judge_times(runs, window):
    """Lines of how long a request takes with and without --cut, and what is wrong with that."""
    head = f"      p50      p99    p99.9 greatest     times  since, s  in waits above {1000 * LONG:.0f} ms  p99 of requests each millisecond"
    rows, wrong = [("milliseconds of a request at depth 1", head)], []
    for share in sorted({run.share for run in runs}, reverse=True):
        p99, p99_scheduled = {}, {}
        for run in (one for one in runs if one.share == share):
            times, since = times_of(run, window)
            if not times:
                rows.append((run.name, "too few were taken"))
                continue
            p99[run.cuts], p99_scheduled[run.cuts] = quantile(times, 0.99), quantile(scheduled(times), 0.99)
            part = f"{waited(run, times, since):11.1%} of the time{1000 * p99_scheduled[run.cuts]:16.2f}"
            rows.append((run.name, f"{in_milliseconds(times)}{len(times):10,}{since:10.0f}{part}"))
        if len(p99) == 2 and p99[False]:
            ratio = p99[True] / p99[False]
            by_schedule = p99_scheduled[True] / p99_scheduled[False]
            rows.append((f"p99 with --cut to without, {share_name(share)}", f"{ratio:.2f}; of requests each millisecond {by_schedule:.2f}"))
            for which, found in (("p99", ratio), ("p99 of requests each millisecond", by_schedule)):
                if found > MOST_P99:
                    wrong.append(f"{share_name(share)}: {which} is {found:.2f} times as great with --cut, at most {MOST_P99} wanted")
    return rows, wrong


def judge_loads(runs):
    """Lines of what the servers were asked."""
    rows = [("requests and records a second", "lasted, s   a second      records   processors: server, load, others")]
    for run in runs:
        last, used = run.samples[-1] if run.samples else Sample(0, 0, 0, None, None), run.used or Used(0, 0, 0)
        rows.append((run.name, f"{last.second:9.0f}{run.rate:11,.0f}{last.replies:13,}{used.server:21.1f}{used.load:6.1f}{used.others:8.1f}"))
    return rows


def judge(runs, window):
    """All lines of what was measured, and all that is wrong."""
    memory, wrong = [], [why for run in runs for why in run.wrong]
    without = next((run for run in runs if not run.cuts and len(run.behind(WARM)) > 2), None)
    with_cut = max((run for run in runs if run.cuts), key=lambda run: run.share, default=None)
    if without and with_cut and len(with_cut.samples) > 2:
        memory, more = judge_memory(bytes_each(without), with_cut, window)
        wrong += more
    elif not wrong:
        wrong.append("too little was measured")
    times, more = judge_times(runs, window)
    return judge_loads(runs) + memory + times, wrong + more


def table(rows):
    """Aligned lines."""
    width = max(len(name) for name, _ in rows) + 2
    return "\n".join(f"{name:{width}}{value}" for name, value in rows)


def write_samples(runs, path):
    with open(path, "w", encoding="ascii", newline="") as file:
        writer = csv.writer(file, lineterminator="\n")
        writer.writerow(COLUMNS)
        for run in runs:
            writer.writerows([int(run.cuts), f"{run.share:g}", *["" if value is None else value for value in one]] for one in run.samples)


def read_samples(path):
    """The runs of such a file, without times."""
    runs = {}
    with open(path, encoding="ascii", newline="") as file:
        for row in csv.DictReader(file):
            run = runs.setdefault((row["cut"], row["share"]), Run(row["cut"] == "1", float(row["share"])))
            values = [int(row[name]) if row[name] else None for name in COLUMNS[3:]]
            run.samples.append(Sample(float(row["second"]), *values))
    return list(runs.values())


def plot_of(runs, window):
    """The plot of the runs at the greatest share that a server with --cut had."""
    with_cut = max((run for run in runs if run.cuts), key=lambda run: run.share)
    without = next((run for run in runs if not run.cuts), None)
    lines = []
    if without and without.share == with_cut.share:
        ended = without.samples[-1].second < with_cut.samples[-1].second - 1
        points = [(one.second, one.resident) for one in without.samples]
        lines.append(Line("without --cut", COLOURS["without"], points, end="ended here" if ended else ""))
    lines.append(Line("with --cut", COLOURS["with"], [(one.second, one.resident) for one in with_cut.samples]))
    if without:
        bound = bound_of(bytes_each(without), with_cut, window)[1]
        points = [(0, bound), (with_cut.samples[-1].second, bound)]
        lines.append(Line(f"bound: {MOST_BYTES} times the records of two windows", COLOURS["bound"], points, True))
    title = f"A server with a window of {window / 1000:g} s, {with_cut.rate:,.0f} requests a second"
    return Plot(title, lines, 2 * window / 1000, "two windows")
