#!/usr/bin/env python3
# SPDX-License-Identifier: MIT OR Apache-2.0
"""Draws what a bench measured against the number of events, as plain SVG, on logarithmic axes.

Standard input has a line for each point, three fields with a tab between them: what was measured, the number of
events, and the value in the unit. The points of one name are joined by a line. Benches call `draw`.
"""
import argparse
import math
import sys
from xml.sax.saxutils import escape

WIDTH, HEIGHT = 720, 420
LEFT, RIGHT, TOP, BOTTOM = 72, 190, 48, 56
# Told apart by colour, by dashes and by marks.
STYLES = [("#0b5cad", "", "circle"), ("#c2410c", "7 4", "square"), ("#15803d", "2 4", "diamond"),
          ("#6d28d9", "9 3 2 3", "circle")]
FONT = "font-family='sans-serif' font-size='13'"


class Axis:
    """A logarithmic axis over some values, from one end of a length in pixels to the other."""

    def __init__(self, values, start, end):
        self.low, self.high = math.log10(min(values)) - 0.08, math.log10(max(values)) + 0.08
        self.start, self.end = start, end

    def place(self, value):
        share = (math.log10(value) - self.low) / (self.high - self.low)
        return self.start + share * (self.end - self.start)

    def ticks(self):
        """1, 2 and 5 times each power of ten that the axis has."""
        powers = range(math.floor(self.low), math.ceil(self.high) + 1)
        found = [step * 10.0 ** power for power in powers for step in (1, 2, 5)]
        return [it for it in found if self.low <= math.log10(it) <= self.high]


def short(value):
    """A number as an axis has it."""
    if value >= 1_000_000:
        return "%g million" % (value / 1_000_000)
    return f"{value:,.0f}" if value >= 1 else "%g" % value


def text(x, y, words, more=""):
    return f"<text x='{x:.1f}' y='{y:.1f}' {FONT} {more}>{escape(words)}</text>"


def mark(kind, x, y, colour):
    if kind == "circle":
        return f"<circle cx='{x:.1f}' cy='{y:.1f}' r='4' fill='{colour}'/>"
    turn = f" transform='rotate(45 {x:.1f} {y:.1f})'" if kind == "diamond" else ""
    return f"<rect x='{x - 3.5:.1f}' y='{y - 3.5:.1f}' width='7' height='7' fill='{colour}'{turn}/>"


def grid(across, up):
    """The lines of both axes, with their numbers."""
    for value in across.ticks():
        x = across.place(value)
        yield f"<line x1='{x:.1f}' y1='{TOP}' x2='{x:.1f}' y2='{HEIGHT - BOTTOM}' stroke='#ddd'/>"
        yield text(x, HEIGHT - BOTTOM + 18, short(value), "text-anchor='middle'")
    for value in up.ticks():
        y = up.place(value)
        yield f"<line x1='{LEFT}' y1='{y:.1f}' x2='{WIDTH - RIGHT}' y2='{y:.1f}' stroke='#ddd'/>"
        yield text(LEFT - 8, y + 4, short(value), "text-anchor='end'")


def line(points, across, up, style):
    colour, dashes, kind = style
    places = [(across.place(events), up.place(value)) for events, value in sorted(points)]
    path = " ".join(f"{x:.1f},{y:.1f}" for x, y in places)
    yield f"<polyline points='{path}' fill='none' stroke='{colour}' stroke-width='2' stroke-dasharray='{dashes}'/>"
    yield from (mark(kind, x, y, colour) for x, y in places)


def labels(lines, up):
    """The name of each line beside its end, no two on one another."""
    ends = sorted((up.place(max(points)[1]), name, style) for (name, points), style in zip(lines.items(), STYLES))
    last = -math.inf
    for y, name, (colour, _, kind) in ends:
        y = max(y, last + 18)
        last = y
        yield mark(kind, WIDTH - RIGHT + 14, y, colour)
        yield text(WIDTH - RIGHT + 26, y + 4, name)


def plot(title, unit, lines):
    """The plot of some lines, each a name with its points (events, value), as SVG."""
    points = [it for found in lines.values() for it in found]
    across = Axis([events for events, _ in points], LEFT, WIDTH - RIGHT)
    up = Axis([value for _, value in points], HEIGHT - BOTTOM, TOP)
    size = f"width='{WIDTH}' height='{HEIGHT}'"
    parts = [f"<svg xmlns='http://www.w3.org/2000/svg' {size} viewBox='0 0 {WIDTH} {HEIGHT}'>",
             f"<rect {size} fill='white'/>",
             text(LEFT, 24, title, "font-weight='bold'"), text(LEFT, 40, unit), *grid(across, up),
             text((LEFT + WIDTH - RIGHT) / 2, HEIGHT - 14, "events", "text-anchor='middle'")]
    for found, style in zip(lines.values(), STYLES):
        parts += line(found, across, up, style)
    return "\n".join([*parts, *labels(lines, up), "</svg>"]) + "\n"


def draw(path, title, unit, lines):
    with open(path, "w", encoding="utf-8") as out:
        out.write(plot(title, unit, lines))


def main():
    parser = argparse.ArgumentParser(prog="bench/plots.py", description=__doc__,
                                     formatter_class=argparse.RawDescriptionHelpFormatter)
    parser.add_argument("title", metavar="TITLE")
    parser.add_argument("unit", metavar="UNIT", help="of the values")
    chosen = parser.parse_args()
    lines = {}
    for row in filter(str.strip, sys.stdin):
        name, events, value = row.rstrip("\n").split("\t")
        lines.setdefault(name, []).append((int(events), float(value)))
    if not lines:
        sys.exit("bench/plots.py: there are no points")
    sys.stdout.write(plot(chosen.title, chosen.unit, lines))


if __name__ == "__main__":
    main()
