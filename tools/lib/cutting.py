"""Scripts with lines of cuts, and what a program without cuts would write for them."""
import random
from dataclasses import dataclass


@dataclass
class Horizon:
    """How far back a drive promises to remember, by its window and the floor that a new window leaves."""

    window: int
    floor: int = 0

    def at(self, moment):
        return max(self.floor, moment - self.window)

    def widen(self, moment, window):
        self.floor, self.window = self.at(moment), window


class Cutting:
    """A script with cuts put between its lines. `places(count)` are the lines behind which one comes, and `moment` chooses one up to the horizon."""

    def __init__(self, script, places, moment):
        self.lines, self.told = [], []
        self.moments, self.gone = [], 0
        first, *others = script.removesuffix("\n").split("\n")
        self.horizon = Horizon(int(first.split()[1]))
        self.lines.append(first)
        wanted = places(len(others))
        for number, line in enumerate(others):
            self.lines.append(line)
            self.follow(line.split(" "))
            if number in wanted:
                self.cut(moment(self.horizon.at(self.moments[-1] if self.moments else 0)))

    def follow(self, words):
        """What a line changes of the horizon, and that a request leaves a record."""
        if not words[0].isdigit():
            return
        self.moments.append(int(words[0]))
        if words[1].partition("/")[0] == "0" and words[2] == "setwindow":
            self.horizon.widen(self.moments[-1], int(words[3]))

    def cut(self, moment):
        """A line of a cut, and what it is answered: how many records went."""
        going = sum(1 for it in self.moments[self.gone:] if it < moment) if self.moments[self.gone:] else 0
        self.gone += going
        self.lines.append(f"cut {moment}")
        self.told.append(f"cut {going}")

    def script(self):
        return ("\n".join(self.lines) + "\n").encode()


def parted(replies):
    """The replies without those to cuts, and those to cuts."""
    lines = replies.decode().split("\n")
    return "\n".join(it for it in lines if not it.startswith("cut ")), [it for it in lines if it.startswith("cut ")]


def behind_each(count):
    return range(count)


def sparse(most):
    """Behind so many of the lines, evenly spread."""
    return lambda count: set(range(0, count, max(1, count // most)))


def by_chance(seed, share):
    """Behind a share of the lines, at moments up to the horizon, now and then below an earlier cut."""
    some = random.Random(seed)

    def moment(horizon):
        return horizon if some.random() < 0.4 else some.randint(max(0, horizon - 30), horizon)

    return (lambda count: {it for it in range(count) if some.random() < share}), moment


def at_the_horizon(horizon):
    return horizon
