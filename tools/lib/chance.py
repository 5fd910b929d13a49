"""Scripts made at random, the same for the same seed: a few principals who do all kinds of things to each other's objects."""
import random

WINDOWS = (0, 3, 10, 40, 200)
NAMES = ("a", "b", "docs", "x-1")
RIGHTS = (0, 1, 1, 3, 8, 9, 15, 17, 19, 25, 31, 31)


class Chance:
    """A script in the making. It remembers which objects may have been made, so that most lines meet one."""

    def __init__(self, seed):
        self.it = random.Random(seed)
        self.moment, self.who = self.it.randrange(5), 0
        self.principals = [0, *self.it.sample(range(1, 40), self.it.randrange(2, 5))]
        self.drawn = {}
        self.lines = [f"window {self.it.choice(WINDOWS)}"]

    def purse(self):
        return f"{self.it.choice(self.principals)}.{self.it.choice((0, 0, 0, 1, 15))}"

    def object(self):
        purse = self.it.choice(list(self.drawn)) if self.drawn and self.it.random() < 0.95 else self.purse()
        return f"{purse}.{self.it.randint(1, max(1, self.drawn.get(purse, 1) + self.it.choice((0, 0, 0, 0, 1))))}"

    def at(self):
        return f" at {max(0, self.moment - self.it.choice((0, 1, 2, 3, 5, 9, 30, -1)))}" if self.it.random() < 0.45 else ""

    def user(self):
        return "everyone" if self.it.random() < 0.2 else str(self.it.choice(self.principals))

    def bytes(self):
        length = self.it.choice((0, 1, 1, 2, 5, 16, 70))
        return self.it.randbytes(length).hex() or "empty"

    def span(self):
        first = max(0, self.moment - self.it.randrange(12))
        return f"{first} {first + self.it.choice((-1, 0, 2, 6, 30))}" if first else f"{first} {self.moment}"

    def create(self):
        number = self.it.choice((0, 0, 0, 1, 15))
        purse = f"{self.who}.{number}"
        self.drawn[purse] = self.drawn.get(purse, 0) + 1
        return f"create {number}"

    def page(self):
        after = f" after {self.it.choice((0, 1, 15))} {self.it.choice(NAMES)}" if self.it.random() < 0.3 else ""
        return f"plist {self.it.choice(self.principals)}{after}{self.at()}"

    def kinds(self):
        some, o = self.it, self.object()
        return {
            "create": (6 if len(self.drawn) < 6 else 2, self.create),
            "delete": (2, lambda: f"delete {o}"),
            "read": (12, lambda: f"read {o} {some.choice((0, 0, 1, 9))} {some.choice((0, 1, 20, 4096))}{self.at()}"),
            "write": (14, lambda: f"write {o} {some.choice((0, 0, 0, 1, 4, 30))} {self.bytes()}"),
            "append": (4, lambda: f"append {o} {self.bytes()}"),
            "truncate": (3, lambda: f"truncate {o} {some.choice((0, 1, 3, 50))}"),
            "getattr": (4, lambda: f"getattr {o}{self.at()}"),
            "setattr": (4, lambda: f"setattr {o} {self.bytes()}"),
            "acl-user": (4, lambda: f"acl-user {o} {self.user()}{self.at()}"),
            "acl-index": (3, lambda: f"acl-index {o} {some.randrange(4)}{self.at()}"),
            "setacl": (9, lambda: f"setacl {o} {self.user()} {some.choice(RIGHTS)}"),
            "pcreate": (5, lambda: f"pcreate {some.choice(NAMES)} {o}"),
            "pdelete": (4, lambda: f"pdelete {o.rpartition('.')[0]} {some.choice(NAMES)}"),
            "plist": (3, self.page),
            "pmount": (4, lambda: f"pmount {o.rpartition('.')[0]} {some.choice(NAMES)}{self.at()}"),
            "flush": (1, lambda: f"flush {self.span()}"),
            "flusho": (2, lambda: f"flusho {o} {self.span()}"),
            "setwindow": (1, lambda: f"setwindow {some.choice(WINDOWS)}"),
            "setbudget": (2, lambda: f"setbudget {o.rpartition('.')[0]} {some.choice((0, 200, 700, 5000, 4294967295))}"),
            "audit": (5, lambda: f"audit {some.choice(self.principals)} {some.choice((0, 0, 1, 10, 40))}"),
        }

    def add(self):
        """One more line."""
        self.moment += self.it.choice((0, 0, 0, 1, 1, 2, 7))
        self.who = self.it.choice(self.principals)
        kinds = self.kinds()
        kind = self.it.choices(list(kinds), [weight for weight, _ in kinds.values()])[0]
        if kind in ("flush", "setwindow", "setbudget", "flusho") and self.it.random() < 0.7:
            self.who = 0
        self.lines.append(f"{self.moment} {self.who} {kinds[kind][1]()}")


def at_random(seed, count):
    """A script of so many lines."""
    chance = Chance(seed)
    while len(chance.lines) < count:
        chance.add()
    return "\n".join(chance.lines) + "\n"
