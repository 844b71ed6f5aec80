#!/usr/bin/env python3
"""Draws the two plots of README.md of the figures in figures.csv: speeds.svg and growth.svg. `draw_figures.py check` writes
nothing and says where a plot isn't that of the figures.

A figure is one number or two (`1.1 to 1.4`). In `speeds` it is the ratio, or ours over the peer's where no ratio stands; in
`growth` it is ours. Rows without a plot stand in the table of README.md alone (write_table.py). The plots have a ground of
their own, and follow the reader's choice of dark or light.
"""
import csv
import math
import os
import sys
from xml.sax.saxutils import escape

HERE = os.path.dirname(os.path.abspath(__file__))
STYLE = """
svg { font: 13px "DejaVu Sans", Verdana, sans-serif }
.ground { fill: #ffffff } .text { fill: #1c1c1a } .soft { fill: #5a5a56 } .grid { stroke: #d4d4d0 } .one { stroke: #1c1c1a }
.mark { fill: #0b4f8f } .line { stroke: #0b4f8f; fill: none } .better { fill: #eef4fa }
.head { font-weight: bold }
@media (prefers-color-scheme: dark) {
  .ground { fill: #16181c } .text { fill: #ececea } .soft { fill: #b4b4b0 } .grid { stroke: #3c3f45 } .one { stroke: #ececea }
  .mark { fill: #7cb8f0 } .line { stroke: #7cb8f0 } .better { fill: #1c2530 }
}
"""


def read():
    with open(os.path.join(HERE, "figures.csv"), encoding="utf-8", newline="") as file:
        return list(csv.DictReader(file))


def span(row):
    """The least and the most of a figure, over its peer's."""
    ends = [float(each) for each in (row["ratio"] or row["ours"]).split(" to ")]
    over = 1 if row["ratio"] or not row["peer"] else float(row["peer"])
    return ends[0] / over, ends[-1] / over


def told(row):
    """The figure as it was measured, or over its peer's."""
    if row["ratio"] or not row["peer"]:
        return row["ratio"] or row["ours"]
    over = span(row)[0]
    return f"{over:,.0f}" if over >= 10 else f"{over:.2f}"


class Plot:
    def __init__(self, width, height, title, below):
        self.width, self.height, self.parts = width, height, []
        self.add(f'<rect class="ground" width="{width}" height="{height}" rx="6"/>')
        self.text(16, 26, title, "text head")
        self.text(16, 46, below, "soft")
        self.title = title

    def add(self, part):
        self.parts.append(part)

    def text(self, x, y, words, kind="text", anchor="start"):
        self.add(f'<text class="{kind}" x="{x:.1f}" y="{y:.1f}" text-anchor="{anchor}">{escape(words)}</text>')

    def line(self, x1, y1, x2, y2, kind, wide=1):
        self.add(f'<line class="{kind}" x1="{x1:.1f}" y1="{y1:.1f}" x2="{x2:.1f}" y2="{y2:.1f}" stroke-width="{wide}"/>')

    def dot(self, x, y, radius=4.5):
        self.add(f'<circle class="mark" cx="{x:.1f}" cy="{y:.1f}" r="{radius}"/>')

    def svg(self):
        head = (f'<svg xmlns="http://www.w3.org/2000/svg" viewBox="0 0 {self.width} {self.height}" width="{self.width}" '
                f'height="{self.height}" role="img" aria-label="{escape(self.title)}">')
        return "\n".join([head, f"<style>{STYLE}</style>", *self.parts, "</svg>", ""])


def between(value, least, most, low, high):
    """Where a value stands on an axis of logarithms."""
    return low + (high - low) * math.log(value / least) / math.log(most / least)


# ---- the product's time over its peer's

LEAST, MOST = 0.025, 12


def speeds(rows):
    groups = list(dict.fromkeys(row["group"] for row in rows))
    top, step, left, right, width = 86, 21, 320, 700, 780
    bottom = top + step * (len(rows) + len(groups)) + 6
    plot = Plot(width, bottom + 46, "Time over that of a public tool or of a plain program in C",
                "at 1 both take as long; left of it the product is faster, right of it slower; scale of logarithms")
    place = lambda value: between(value, LEAST, MOST, left, right)
    plot.add(f'<rect class="better" x="{left}" y="{top - 12}" width="{place(1) - left:.1f}" height="{bottom - top + 12}"/>')
    for tick in (0.03, 0.1, 0.3, 1, 3, 10):
        plot.line(place(tick), top - 12, place(tick), bottom, "one" if tick == 1 else "grid")
        plot.text(place(tick), bottom + 18, f"{tick:g}", "soft", "middle")
        plot.text(place(tick), top - 18, f"{tick:g}", "soft", "middle")
    plot.text((left + right) / 2, bottom + 36, "times as long", "soft", "middle")
    y = top + 4
    for group in groups:
        plot.text(16, y + 4, group, "text head")
        y += step
        for row in (row for row in rows if row["group"] == group):
            draw_speed(plot, row, y, place, right)
            plot.text(left - 12, y + 4, row["name"], "text", "end")
            y += step
    return plot.svg()


def draw_speed(plot, row, y, place, right):
    low, high = span(row)
    if low > MOST:  # past the edge, and said so
        plot.add(f'<path class="mark" d="M{right - 12},{y - 5} L{right - 2},{y} L{right - 12},{y + 5} Z"/>')
        plot.text(right + 6, y + 4, told(row))
        return
    if low < high:
        plot.line(place(low), y, place(high), y, "line", 5)
    plot.dot(place(low), y)
    plot.dot(place(high), y)
    plot.text(place(high) + 10, y + 4, told(row))


# ---- what one more document costs, as a matter grows


def growth(rows):
    left, right, top, bottom, width = 60, 470, 76, 360, 780
    plot = Plot(width, 420, "Microseconds for each document or call, as a matter grows",
                "a level line: twice the documents take twice the time in all; scales of logarithms")
    across = lambda value: between(value, 100, 10000, left, right)
    up = lambda value: between(value, 0.3, 50, bottom, top)
    for tick in (0.3, 1, 3, 10, 30):
        plot.line(left, up(tick), right, up(tick), "grid")
        plot.text(left - 8, up(tick) + 4, f"{tick:g}", "soft", "end")
    for tick in (100, 1000, 2000, 5000, 10000):
        plot.line(across(tick), top, across(tick), bottom, "grid")
        plot.text(across(tick), bottom + 20, f"{tick:,}", "soft", "middle")
    plot.text((left + right) / 2, bottom + 42, "documents of the matter", "soft", "middle")
    for name in dict.fromkeys(row["group"] for row in rows):
        series = [row for row in rows if row["group"] == name]
        points = [(across(float(row["at"])), up(sum(span(row)) / 2)) for row in series]
        plot.add('<polyline class="line" stroke-width="2" points="{}"/>'.format(" ".join(f"{x:.1f},{y:.1f}" for x, y in points)))
        for x, y in points:
            plot.dot(x, y, 4)
        first, last = told(series[0]), told(series[-1])
        plot.text(right + 14, points[-1][1] + 4, f"{series[0]['name']}: {first if first == last else f'{first} to {last}'}")
    return plot.svg()


# ---- the files


def files():
    rows = read()
    return {f"{name}.svg": draw([row for row in rows if row["plot"] == name]) for name, draw in (("speeds", speeds), ("growth", growth))}


def faults():
    """Which plots aren't those of the figures."""
    for name, text in files().items():
        path = os.path.join(HERE, name)
        if not os.path.exists(path) or open(path, encoding="utf-8").read() != text:
            yield f"{name} isn't that of the figures: bench/draw_figures.py draws it"


def main():
    if sys.argv[1:] == ["check"]:
        found = list(faults())
        print(*found, sep="\n", end="\n" if found else "")
        sys.exit(len(found) > 0)
    if len(sys.argv) > 1:
        sys.exit("usage: draw_figures.py [check]")
    for name, text in files().items():
        with open(os.path.join(HERE, name), "w", encoding="utf-8") as file:
            file.write(text)


main()
