#!/usr/bin/env python3
"""Writes page/glyphs.js, the glyphs in which the page draws what goes out, from the program's own table, crates/bp_codes/src/glyph_table.rt,
and the alphabet of its definition, crates/bp_codes/specs/Glyphs.antt.

    glyphs.py          writes it
    glyphs.py check    compares, and ends with 1 where it isn't what would be written
"""
import os
import re
import sys

HERE = os.path.dirname(os.path.abspath(__file__))
CODES = os.path.join(HERE, "..", "..", "crates", "bp_codes")
OUT = os.path.join(HERE, "..", "page", "glyphs.js")
HEAD = """// The glyphs of labels, designations, bases and sheets: seven rows of five bits for each character, the bit of value 16 at the left, 1
// for black. Written by tests/glyphs.py from the program's own table; not to be changed by hand.
export const GLYPHS = {
"""


def text_of(*path):
    with open(os.path.join(CODES, *path), encoding="utf-8") as file:
        return file.read()


def glyphs():
    """Each character with its rows. The table stands as it is printed: eight glyphs a block, a row of each in a line."""
    alphabet = re.search(r'^alphabet = codes "(.*)"$', text_of("specs", "Glyphs.antt"), re.M).group(1)
    rows = []
    for block in text_of("src", "glyph_table.rt").split("eight:")[1:]:
        lines = [re.findall("0b([01]{5})", line) for line in block.split("}")[0].splitlines() if "0b" in line]
        if len(lines) != 7 or any(len(line) != 8 for line in lines):
            raise ValueError(f"no block of eight glyphs: {lines}")
        rows += zip(*lines)
    if len(rows) != len(alphabet):
        raise ValueError(f"{len(rows)} glyphs of {len(alphabet)} characters")
    return dict(zip(alphabet, rows))


def module():
    lines = (f"  '{character}': [{', '.join('0b' + row for row in rows)}],\n" for character, rows in glyphs().items())
    return HEAD + "".join(lines) + "}\n"


def main():
    if sys.argv[1:] == ["check"]:
        with open(OUT, encoding="utf-8") as file:
            sys.exit(file.read() != module())
    if sys.argv[1:]:
        sys.exit("usage: glyphs.py [check]")
    with open(OUT, "w", encoding="utf-8") as file:
        file.write(module())


if __name__ == "__main__":
    main()
