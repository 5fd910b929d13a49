"""Cases that are tried one by one, each with what is wanted of it."""
from tools.lib import client as it


class Cases:
    """How many were tried, and how many of them were wrong. Right and wrong ones are printed or not."""

    def __init__(self, prints_right, prints_wrong):
        self.prints, self.count, self.wrong = {True: prints_right, False: prints_wrong}, 0, 0

    def add(self, name, found, wanted):
        """A case: right where both are the same."""
        is_right = found == wanted
        self.count, self.wrong = self.count + 1, self.wrong + (not is_right)
        if self.prints[is_right]:
            print(f"{name}: as expected" if is_right else f"{name}: WRONG: {short(found)} in the place of {short(wanted)}", flush=True)

    def ask(self, name, drive, asked, wanted):
        """A case: what a request is replied. It tells the reply."""
        found = outcome(lambda: drive.ask(asked))
        self.add(f"{name}: {short(asked, 80)}", found, wanted)
        return found


def short(value, most=200):
    text = repr(value)
    return text if len(text) <= most else f"{text[: most * 2 // 3]} .. {text[-most // 4 :]}"


def outcome(called):
    """What a call comes to: what it returns, or what it raises."""
    try:
        return called()
    except (it.Refused, it.Fault, it.Unreadable, OSError, ValueError, AttributeError) as why:
        return why
