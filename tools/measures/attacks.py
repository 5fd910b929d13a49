"""Measures what tenants and newcomers have of a server while one tenant, or a stranger, attacks it.

  ./check measure attacks
                      a server each, for 60 seconds: without an attack; with pages of an audit of a million records asked for again and again; with the
                      oldest of 16,000 values; with reads of 65536 bytes while a journal is kept; with resets in the middle of these; with writes of
                      65536 bytes that are refused; and with a thousand connections a second that say nothing. Where it matters, by 1, 4 and 64
                      connections of the attacker
  ./check measure attacks NAME ..
                      these attacks: none, audits, versions, reads, resets, writes, silent
      --seconds N     each for so many seconds
      --workers N     of each server; else 4
      --connections N by so many connections of the attacker alone
      --program PATH  the program; else bin/s4d or crates/s4d/out/s4d, the one that was built last
      --self-test     plants servers on which others wait too long, and the like, each of which has to be told

Eight tenants ask for 16 bytes each 5 milliseconds, four of them in the attacker's cell, and a newcomer logs in five times a second. Each time counts from when it was
due. It prints for tenants the median, the time of all but one in a hundred, and the longest. It fails where a tenant waits for longer than 100 milliseconds, or more
than one in a hundred of their requests for longer than 20; where a login takes longer than 100 or fails; where the memory grows by more than a tenth, of a server
whose window is short; and where the server doesn't end.
"""
import os

from tools.lib.attacked import ATTACKS, HEAD, attacked, faults, load_average, row
from tools.lib.commands import Options
from tools.lib.findings import Wrong, tell_all
from tools.lib.processes import exit_when_told
from tools.lib.programs import program_of

CONNECTIONS = (1, 4, 64)
OPTIONS = Options(flags=("self-test",), numbers={"seconds": 60.0, "workers": 4, "connections": 0}, texts=("program",), words="NAME")


def run(given):
    exit_when_told()
    program = program_of("attacks", given)
    lacking = [it for it in given.words if it not in ATTACKS]
    if lacking:
        raise Wrong(f"there is no attack {lacking[0]}: there are {', '.join(ATTACKS)}")
    print(f"attacks: {program}, {given.workers} workers, {given.seconds:g} s each, on {os.cpu_count()} processors, load average {load_average():.1f}\n\n{HEAD}", flush=True)
    wrong, count = [], 0
    for name in given.words or ATTACKS:
        many = (given.connections,) if given.connections else CONNECTIONS
        for connections in many if ATTACKS[name].is_counted else (1,):
            try:
                seen = attacked(program, name, connections, given.seconds, given.workers)
            except (Wrong, OSError) as why:
                wrong.append(f"{name}, {connections} connections: {why}")
                continue
            count += 1
            print(row(seen), flush=True)
            wrong += faults(seen)
    print()
    return tell_all([f"WRONG: {why}" for why in wrong], f"attacks: {count} servers, {len(wrong)} things are wrong")
