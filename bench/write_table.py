#!/usr/bin/env python3
"""Writes the table of README.md of the figures in figures.csv, between its two marks: what was measured, ours, the peer's, the
ratio, what is wanted, the date, the machine, script by script; what follows a comma behind a script's name is what its rows have in
common. `write_table.py check` writes nothing and says whether the table is that of the figures.

A ratio that doesn't stand in figures.csv is ours over the peer's.
"""
import csv
import os
import sys
from itertools import groupby

HERE = os.path.dirname(os.path.abspath(__file__))
README = os.path.join(HERE, "README.md")
FIRST, LAST = "<!-- the table: write_table.py writes it -->", "<!-- the end of the table -->"
HEAD = ["What", "Ours", "Peer", "Ratio", "Wanted", "Date", "Machine"]


def number(text):
    """A figure as it is read: thousands by commas, `1400 to 1600` both."""
    parts = text.split(" to ")
    return " to ".join(f"{int(part):,}" if part.isdigit() else part for part in parts)


def measured(text, unit):
    return " ".join(part for part in (number(text), unit) if part) if text else ""


def peer(row):
    return ", ".join(part for part in (measured(row["peer"], row["unit"]), row["beside"]) if part)


def ratio(row):
    if row["ratio"] or not row["peer"]:
        return row["ratio"]
    over = float(row["ours"]) / float(row["peer"])
    return f"{over:,.0f}" if over >= 10 else f"{over:.2f}"


def line(cells):
    return "| " + " | ".join(cells) + " |"


def table():
    with open(os.path.join(HERE, "figures.csv"), encoding="utf-8", newline="") as file:
        rows = list(csv.DictReader(file))
    yield line(HEAD)
    yield "|" + "---|" * len(HEAD)
    for script, figures in groupby(rows, key=lambda row: row["script"]):
        name, *when = script.split(", ", 1)
        yield line([", ".join([f"**`{name}`**", *when]), *[""] * (len(HEAD) - 1)])
        for row in figures:
            yield line([row["what"], measured(row["ours"], row["unit"]), peer(row), ratio(row), row["wanted"], row["date"], row["machine"]])


def written(readme):
    """README with the table of the figures between its marks."""
    before, rest = readme.split(FIRST)
    after = rest.split(LAST)[1]
    return before + "\n".join([FIRST, "", *table(), "", LAST]) + after


def main():
    with open(README, encoding="utf-8") as file:
        readme = file.read()
    if sys.argv[1:] == ["check"]:
        if written(readme) != readme:
            sys.exit("README.md: its table isn't that of the figures: bench/write_table.py writes it")
    elif len(sys.argv) > 1:
        sys.exit("usage: write_table.py [check]")
    else:
        with open(README, "w", encoding="utf-8") as file:
            file.write(written(readme))


main()
