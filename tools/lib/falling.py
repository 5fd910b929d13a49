"""A server whose load falls far: whether the records of the greater load go as they do under it."""
from tools.lib.levels import judge_loads
from tools.lib.findings import Wrong
from tools.lib.loads import Load
from tools.lib.memory import Loaded, Run, end_server, go_through

# For how many windows the full load lasts, and the lesser one.
FULL, LESSER = 2.2, 2
# This many windows behind the fall only records of the lesser load are wanted: at most so many times as many as come in a window.
GONE, MOST = 1.5, 1.5


def run_falling(plan, rate, share):
    """A server that cuts, from its start to its end: first under a full load, and then at this share of what it took."""
    full, lesser, window = Run(True, 1), Run(True, share), plan.window / 1000
    try:
        with Loaded(plan, True) as server:
            with Load(server.address, plan.shape, rate) as load:
                replies = go_through(plan, full, server, load, FULL * window)
            with Load(server.address, plan.shape, full.rate * share) as load:
                replies += go_through(plan, lesser, server, load, LESSER * window)
            end_server(lesser, server, replies)
    except (Wrong, ConnectionError) as why:
        lesser.wrong.append(f"{lesser.name}: {why}")
    return [full, lesser]


def judge_fall(full, lesser, window):
    """Lines of what became of the records of the greater load, and what is wrong with that."""
    wrong, since, wanted = full.wrong + lesser.wrong, GONE * window / 1000, lesser.rate * window / 1000
    before = [one.records for one in full.samples if one.records is not None]
    behind = [one.records for one in lesser.behind(since) if one.records is not None]
    if not before or not behind:
        return judge_loads([full, lesser]), wrong or ["too little was measured"]
    rows = judge_loads([full, lesser]) + [
        ("records when the load fell", f"{before[-1]:,}"),
        (f"the most from {since:g} s behind that on", f"{max(behind):,}"),
        ("records of a window of the lesser load", f"{wanted:,.0f}"),
    ]
    if max(behind) > MOST * wanted:
        wrong.append(f"{lesser.name}: {max(behind):,} records stay {since:g} s behind the fall, at most {MOST * wanted:,.0f} wanted")
    return rows, wrong
