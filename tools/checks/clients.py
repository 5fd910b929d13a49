"""Has the client for Python ask a server in both versions of the wire, and compares what comes with the pages.

  ./check clients       each frame that docs/PROTOCOL.md shows; each of the twenty requests, by version 1 and by version 2; both versions on
                        one object; and what can't be served
      --program PATH    the program; else bin/s4d or crates/s4d/out/s4d, the one that was built last
      --look            no program: the frames of the page alone, and a line only for each case that is wrong
      --self-test       a client with planted mistakes, each of which has to be told

It prints a line for each case. A case is right where the client spells the frame that the page shows, or reads it as what its row says,
and where a reply is the one that docs/MODEL.md gives the request; none comes from the program.
"""
from tools.lib.cases import Cases, outcome
from tools.lib.commands import Options
from tools.lib.conversations import compare_faults, converse, converse_ahead, converse_on_one
from tools.lib.page_frames import PAGE, compare_page
from tools.lib.programs import TOP, program_of
from tools.lib.servers import Server

OPTIONS = Options(flags=("look", "self-test"), texts=("program",))


def compare(program, cases):
    """Tries all cases; without a program those of the page alone."""
    page = (TOP / PAGE).read_text(encoding="utf-8")
    compare_page(cases, page)
    if not program:
        return
    with Server(program) as server:
        parts = [(part, cases, server, version) for part in (converse, converse_ahead) for version in (1, 2)]
        parts += [(converse_on_one, cases, server), (compare_faults, cases, server, page)]
        for part, *given in parts:
            ended = outcome(lambda part=part, given=given: part(*given))
            if ended is not None:
                cases.add(f"{part.__name__}, to its end", ended, None)


def run(given):
    """Tries the cases, and tells how many were wrong."""
    cases = Cases(not given.look, True)
    compare(None if given.look else program_of("clients", given), cases)
    print(f"clients: {cases.count} cases, {cases.wrong} wrong")
    return not cases.wrong
