"""Serves while principals ask at random, by both versions of the wire, and compares what a journal tells with what they were replied.

  ./check journals      20 servers that end, and 20 that are killed
      --servers N       so many of each
      --requests N      of so many requests of each of four principals; else 60
      --seed N          from this seed on; else 1
      --program PATH    the program; else bin/s4d or crates/s4d/out/s4d, the one that was built last
      --disks           in their place servers whose journal stands on a disk that is full, takes nothing, or is gone, and two on one folder;
                        wants to mount a tmpfs, as root may
      --self-test       programs that tell a journal wrongly, each of which has to be found

A run is right where the journal is sound, or where the server was killed, says that it broke off, and the script that it tells, and that script
struck for each principal, give that principal the replies that they had: all of them, or where the server was killed, all but those of the last
round. A server that ends tells the sum of its journal, and as many records as that has. The sums that it kept are found in the journal, and so are
changed bytes and cuts of that. Half of the servers cut their records, which the journal has all the same: of one of these at least some have to go.
"""
from tools.lib.commands import Options
from tools.lib.disks import try_disks
from tools.lib.findings import Wrong
from tools.lib.keeping import Plan, serve_at_random
from tools.lib.programs import program_of

OPTIONS = Options(flags=("disks", "self-test"), numbers={"servers": 20, "requests": 60, "seed": 1}, texts=("program",))


def run(given):
    program = program_of("journals", given)
    if given.disks:
        return not try_disks(program)
    wrong, records, went = 0, 0, []
    for seed in range(given.seed, given.seed + given.servers):
        for kill in (False, True):
            try:
                compared, gone = serve_at_random(program, Plan(seed, given.requests, kill))
                records += compared
                went += [] if gone is None else [gone]
            except Wrong as why:
                wrong += 1
                print(f"seed {seed}, {'killed' if kill else 'ended'}: {why}", flush=True)
    if went and not sum(went):
        wrong += 1
        print(f"{len(went)} servers were to cut their records, and none went")
    print(f"journals: {2 * given.servers} servers, {records} replies compared, {sum(went)} records of {len(went)} servers went, {wrong} wrong")
    return not wrong
