#!/usr/bin/env python3
"""Writes small pages, as plain page files, into a folder: two of each width from 1 to 70, from 2,559 to 2,625 and of some
more, one of regular rows and one of random rows. Prints a line for each: its name, and its last column and last row.

The rows are such that a coder of T.6 meets each of its cases: edges that stand still, that move by up to four pixels from
row to row, that appear and vanish; runs of each length about a multiple of 64 and of 2,560; rows all white and all black.
Words: the folder.
"""
import os
import random
import sys

sys.dont_write_bytecode = True
from plain_page import plain_page  # noqa: E402

WIDTHS = [*range(1, 71), *range(2559, 2626), *range(5118, 5123), *range(5183, 5186), 7680, 7743, 7744, 20000]
LENGTHS = [0, 1, 2, 3, 4, 62, 63, 64, 65, 127, 128, 129, 1727, 1728, 1791, 1792, 1793, 2495, 2496, 2559, 2560, 2561,
           2623, 2624, 5119, 5120, 5183, 5184]


def row_of(width, edges):
    """The row whose colour changes at each of these columns, as a number of width bits, the first pixel highest."""
    row = 0
    for edge in edges:
        if 0 <= edge < width:
            row ^= (1 << (width - edge)) - 1
    return row


def regular_rows(width):
    white, black = 0, (1 << width) - 1
    yield from (white, black, white, white, black, black)
    # stripes that lean by 0 to 4 pixels a row, to either side
    for period in (1, 2, 3, 5, 8, 33, 64):
        for lean in range(-4, 5):
            for turn in range(2):
                start = lean * turn % period - period
                yield row_of(width, range(start, width, period)) if period <= width else row_of(width, [period % width])
        yield white
    # one run of each length, at the left edge, in the middle and at the right edge
    for length in LENGTHS:
        if length <= width:
            yield from (row_of(width, [0, length]), row_of(width, [(width - length) // 2, (width + length) // 2]),
                        row_of(width, [width - length]), white)
    # an edge that moves by each distance up to five, alone and with another close behind
    for distance in range(-5, 6):
        at = width // 2
        yield from (row_of(width, [at]), row_of(width, [at + distance]), row_of(width, [at + distance, at + distance + 2]))
    # every other row with what the one before lacks
    for at in range(0, min(width, 16)):
        yield from (row_of(width, [at, at + 1]), black ^ row_of(width, [at, at + 1]))


def random_rows(width, chance):
    def edges(longest):
        at, found = chance.randrange(longest), []
        while at < width:
            found.append(at)
            at += chance.randint(1, longest)
        return found

    for longest in (2, 4, 9, 40, 200, 1000, 3000):
        for _ in range(3):
            row = edges(longest)
            yield row_of(width, row)
            # each edge of the row before moved a little, some left out, some new
            for _ in range(3):
                row = sorted({edge + chance.randint(-4, 4) for edge in row if chance.random() < 0.9})
                yield row_of(width, row + [chance.randrange(width)] if chance.random() < 0.3 else row)
    for _ in range(8):
        yield chance.getrandbits(width)


def main():
    if len(sys.argv) != 2:
        sys.exit("usage: small_pages.py FOLDER")
    for width in WIDTHS:
        for kind, rows in (("regular", regular_rows(width)), ("random", random_rows(width, random.Random(width)))):
            rows = list(rows)
            row_bytes = (width + 7) // 8
            strip = b"".join((row << (row_bytes * 8 - width)).to_bytes(row_bytes, "big") for row in rows)
            name = "%s-%d.tif" % (kind, width)
            with open(os.path.join(sys.argv[1], name), "wb") as file:
                file.write(plain_page(width, len(rows), 300, strip))
            print(name, width - 1, len(rows) - 1)


main()
