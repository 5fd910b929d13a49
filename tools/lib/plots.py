"""Plots of lines over time, as SVG."""
import math
from itertools import pairwise
from typing import NamedTuple
from xml.sax.saxutils import escape

WIDTH, HEIGHT, LEFT, RIGHT, TOP, BOTTOM = 760, 420, 74, 20, 84, 52
FONT = "DejaVu Sans, Verdana, Helvetica, Arial, sans-serif"
INK, FAINT, SHADE = "#222222", "#dddddd", "#f2f2f2"
# How high a line of words is.
LEADING = 17
# How many points a line has at most, and about how many numbers an axis.
POINTS, NUMBERS = 300, 7


class Line(NamedTuple):
    """A line of a plot: its points, from the left to the right, how it is drawn, and what is said of its end."""

    name: str
    colour: str
    points: list
    is_dashed: bool = False
    end: str = ""


class Axis(NamedTuple):
    """An axis: its name, which has its unit, how much of what is given is one of it, and the greatest number on it."""

    name: str
    unit: float
    most: float

    def step(self):
        """A whole number, so that there are about so many numbers on the axis: 1, 2 or 5, or such a number of tens."""
        rough = max(1, self.most / self.unit / NUMBERS)
        ten = 10 ** math.floor(math.log10(rough))
        return next(factor * ten for factor in (1, 2, 5, 10) if factor * ten >= rough)

    def numbers(self):
        return range(0, math.floor(self.most / self.unit + 1e-9) + 1, self.step())


def seconds(most):
    """The axis of so much time."""
    name, unit = ("minutes", 60) if most > 600 else ("seconds", 1)
    return Axis(name, unit, math.ceil(most / unit - 0.02) * unit)


def bytes_up_to(most):
    """The axis of so many bytes, with some room above them."""
    name, unit = ("GiB", 1 << 30) if most > 3 << 30 else ("MiB", 1 << 20)
    axis = Axis(name, unit, most * 1.05)
    return axis._replace(most=math.ceil(axis.most / unit / axis.step()) * axis.step() * unit)


def thinned(points):
    """At most so many points: the first and the last one, and of each part of a line the highest."""
    size = -(-len(points) // POINTS)
    highest = [max(points[at : at + size], key=lambda it: it[1]) for at in range(0, len(points), size)]
    return points if size == 1 else [points[0], *highest, points[-1]]


class Plot:
    """Lines over time, whose first part, up to a mark, may be shaded."""

    def __init__(self, title, lines, mark=None, mark_name=""):
        self.title, self.lines, self.mark, self.mark_name = title, lines, mark, mark_name
        points = [point for line in lines for point in line.points]
        self.across, self.up = seconds(max(x for x, _ in points)), bytes_up_to(max(y for _, y in points))

    def x(self, value):
        return LEFT + (WIDTH - LEFT - RIGHT) * value / self.across.most

    def y(self, value):
        return HEIGHT - BOTTOM - (HEIGHT - TOP - BOTTOM) * value / self.up.most

    def text(self, x, y, words, anchor="start", more=""):
        return f'<text x="{x:.1f}" y="{y:.1f}" text-anchor="{anchor}"{more}>{escape(words)}</text>'

    def shade(self):
        """What is before the mark."""
        if not self.mark or self.mark >= self.across.most:
            return
        end = self.x(self.mark)
        yield f'<rect x="{LEFT}" y="{TOP}" width="{end - LEFT:.1f}" height="{HEIGHT - TOP - BOTTOM}" fill="{SHADE}"/>'
        yield f'<path d="M{end:.1f} {TOP}V{HEIGHT - BOTTOM}" stroke="#999999" stroke-dasharray="2 3" fill="none"/>'
        wide = 9 * len(self.mark_name)
        has_room = end - LEFT > wide
        y = self.free_height(end - wide if has_room else end, end if has_room else end + wide)
        yield self.text(end - 6 if has_room else end + 6, y, self.mark_name, "end" if has_room else "start", ' fill="#666666"')

    def free_height(self, left, right):
        """Where words between these stand, from the bottom up, so that no line crosses them; at the bottom, if they can't."""
        heights = range(HEIGHT - BOTTOM - 8, TOP + 17, -LEADING)
        return next((y for y in heights if not any(self.crosses(line, left, right, y) for line in self.lines)), heights[0])

    def crosses(self, line, left, right, y):
        """Whether a line goes through words that stand there, or is as near to them as to be in their way."""
        points = [(self.x(x), self.y(high)) for x, high in thinned(line.points)]
        parts = [(one, other) for one, other in pairwise(points) if one[0] <= right and other[0] >= left]
        return any(min(one[1], other[1]) < y + 8 and max(one[1], other[1]) > y - LEADING for one, other in parts)

    def axes(self):
        for number in self.up.numbers():
            y = self.y(number * self.up.unit)
            yield f'<path d="M{LEFT} {y:.1f}H{WIDTH - RIGHT}" stroke="{FAINT if number else INK}" fill="none"/>'
            yield self.text(LEFT - 8, y + 4.5, f"{number}", "end")
        for number in self.across.numbers():
            x = self.x(number * self.across.unit)
            yield f'<path d="M{x:.1f} {HEIGHT - BOTTOM}v5" stroke="{INK}" fill="none"/>'
            yield self.text(x, HEIGHT - BOTTOM + 20, f"{number}", "middle")
        yield self.text((LEFT + WIDTH - RIGHT) / 2, HEIGHT - 10, self.across.name, "middle")
        turned = f' transform="translate(20 {(TOP + HEIGHT - BOTTOM) / 2}) rotate(-90)"'
        yield self.text(0, 0, f"resident memory, {self.up.name}", "middle", turned)

    def drawn(self, line):
        points = " ".join(f"{self.x(min(x, self.across.most)):.1f},{self.y(y):.1f}" for x, y in thinned(line.points))
        yield f'<polyline points="{points}" fill="none" stroke="{line.colour}" stroke-width="2" stroke-linejoin="round"{self.dashes(line)}/>'
        if line.end:
            x, y = self.x(line.points[-1][0]), self.y(line.points[-1][1])
            yield f'<circle cx="{x:.1f}" cy="{y:.1f}" r="3.5" fill="{line.colour}"/>'
            yield self.text(x + 8, y + 4.5, line.end, more=f' fill="{line.colour}" stroke="#ffffff" stroke-width="4" paint-order="stroke"')

    def dashes(self, line):
        return ' stroke-dasharray="7 5"' if line.is_dashed else ""

    def legend(self):
        """What each line is, in a row above the plot, as wide as its words."""
        x = LEFT
        for line in self.lines:
            yield f'<path d="M{x} 58h26" stroke="{line.colour}" stroke-width="2"{self.dashes(line)}/>'
            yield self.text(x + 32, 62.5, line.name)
            x += 32 + 8 * len(line.name) + 18

    def svg(self):
        """The whole file."""
        size = f'viewBox="0 0 {WIDTH} {HEIGHT}" width="{WIDTH}" height="{HEIGHT}"'
        head = f'<svg xmlns="http://www.w3.org/2000/svg" {size} font-family="{FONT}" font-size="13" fill="{INK}">'
        title = [f"<title>{escape(self.title)}</title>", f'<rect width="{WIDTH}" height="{HEIGHT}" fill="#ffffff"/>']
        title.append(self.text(LEFT, 30, self.title, more=' font-size="15" font-weight="bold"'))
        drawn = [part for line in self.lines for part in self.drawn(line)]
        return "\n".join([head, *title, *self.shade(), *self.axes(), *drawn, *self.legend(), "</svg>"]) + "\n"
