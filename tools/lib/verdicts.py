"""What a check of a crate prints, and what that says of a function."""
import os
import re
import subprocess
import tempfile

OF_FUNCTION = re.compile(r"fn (\S+?)(?:;|:) (proved|no holes|depends on a hole|no proof|not proved|could not tell)(.*)")
CALLS = re.compile(r"[:;] it (?:calls|waits)")
# A goal that is left open.
OPEN = re.compile(r"^(?:it is not proved that|`search` found no proof)")
OF_TEXT = re.compile(r"(?:note: )?(?:\./)?((?:src|specs|proofs)/[^\s:]+):(\d+):\d+: (.*)")
# A written proof that names what an edit took away, and what cites that proof.
NAMES = re.compile(r"has no field|is not in scope|has no `|was not admitted")
UNREAD = re.compile(r"is not in scope|has no field|is no name|operand is missing|expected the end|cannot continue")
LIMITS = re.compile(r"antt ran out of (?:stack|the (?:steps|memory))|(?:outgrew the memory limit|stopped at the step limit) \(")


class Report:
    """What a check printed, and how it ended."""

    def __init__(self, status, text):
        self.status, self.lines = status, text.rstrip("\n").split("\n")
        self.is_proved = status == 0
        # (of some functions alone a check gives no verdict on the crate: its last line counts them)
        self.is_refused = status == 1 and any(it.startswith(("logic=not-proved", "only=")) for it in self.lines)
        self.texts = [(it[1], int(it[2]), it[3]) for it in map(OF_TEXT.match, self.lines) if it]
        self.functions = {it[1]: (it[2], it[3]) for it in map(OF_FUNCTION.match, self.lines) if it}

    def against(self, function):
        """What refuses a function by itself, if anything does."""
        whole = self.path_of(function)
        for path, (verdict, rest) in self.functions.items():
            is_inside = path == whole or path.startswith(inner(whole))
            if not is_inside or verdict not in ("no proof", "not proved"):
                continue
            if CALLS.match(rest):
                # (what it calls is a hole, or is edited too: a goal that is open all the same is its own)
                said = [it for it in self.open_goals(function) if OPEN.search(it)]
                if not said:
                    continue
            else:
                said = [text for file, _, text in self.texts if file.startswith(proofs_of(path)) and text.startswith("error")]
                if said and all(NAMES.search(it) for it in said):
                    said = self.open_goals(function)
                    if not said:
                        return None
            return f"fn {path}: {verdict}{(': ' + said[0] if said else rest)[:110]}"
        return None

    def has_proved(self, path):
        """Whether a function is proved, given what it calls."""
        same = [verdict for name, (verdict, _) in self.functions.items() if name.split("::")[-2:] == path.split("::")[-2:]]
        return len(same) == 1 and same[0] in ("proved", "no holes", "depends on a hole")

    def open_goals(self, function):
        """What is said to be not proved at the rows of a function."""
        return [text for file, row, text in self.texts if file == function.file and function.first < row <= function.last + 1]

    def path_of(self, function):
        """The path that the check has for a function. A method may stand in another module than its type, by which it is named."""
        same = [it for it in self.functions if it.split("::")[-2:] == function.path.split("::")[-2:]]
        return same[0] if is_method(function.path) and len(same) == 1 else function.path

    def against_any(self):
        """What refuses the crate, where more is said than that a written proof names what went."""
        told = [(file, text) for file, _, text in self.texts if text.startswith("error") or file.startswith("src/")]
        first = next((it for it in told if not (it[0].startswith("proofs/") and NAMES.search(it[1]))), None)
        return f"{first[0]}: {first[1][:110]}" if first else None

    def first_complaint(self):
        return next((it for it in self.lines if "error" in it), self.lines[-1])[:160]


def is_method(path):
    """Whether a function is one of a type."""
    return path.split("::")[-2][:1].isupper()


def inner(path):
    """How the names of the closures of a function begin."""
    names = path.split("::")
    at = len(names) - 1 - is_method(path)
    return "::".join([*names[:at], "fn", *names[at:], ""])


def proofs_of(path):
    """The folder of the written proof of a function."""
    return f"proofs/{'/'.join(path.split('::')[1:])}/"


def run_check(folder, verb="check"):
    """Checks the crate in a folder. Returns the report, and the seconds of processor time that it took."""
    return run(folder, ["rt", verb, "--jobs", "1"])


def run(folder, words):
    """Runs a check in a folder. Returns the report, and the seconds of processor time that it took."""
    with tempfile.TemporaryFile("w+", errors="replace") as out:
        running = subprocess.Popen(words, cwd=folder, stdin=subprocess.DEVNULL, stdout=out, stderr=subprocess.STDOUT)
        _, status, used = os.wait4(running.pid, 0)
        running.returncode = os.waitstatus_to_exitcode(status)
        out.seek(0)
        return Report(running.returncode, out.read()), used.ru_utime + used.ru_stime
