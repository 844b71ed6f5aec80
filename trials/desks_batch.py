#!/usr/bin/env python3
"""Makes a batch of many small documents for desks.py: families of one to three documents, one to three pages each of a few sizes,
one to five words on each page, one field. Words: the folder, and how many documents."""
import os
import random
import sys

sys.dont_write_bytecode = True
sys.path.insert(0, os.path.dirname(os.path.abspath(__file__)))
from plain_page import plain_page  # noqa: E402

SIZES = [(64, 40), (65, 33), (100, 12), (7, 5), (33, 64)]
RESOLUTION = 200
# what some pages say beside their own word
SAID = (("Ask", '"Counsel,"', "now", "555-0188"), (), ("counsel",), (), ("Ärzte", "ask", "(COUNSEL)"), (), ("555-0199",))


def strip_of(width, height):
    """The packed rows of the page of these sides: a quarter of its pixels is black."""
    chance = random.Random(width)
    size = (width + 7) // 8
    rows = (chance.getrandbits(width) & chance.getrandbits(width) for _ in range(height))
    return b"".join((row << (8 * size - width)).to_bytes(size, "big") for row in rows)


def documents(count):
    """Of each document the number of its parent, and the places of its pages in SIZES: families of one to three documents, and
    one to three pages a document."""
    chance = random.Random(1)
    page, parent, left = 0, 0, 0
    for number in range(1, count + 1):
        if not left:
            parent, left = number, chance.choice((1, 1, 2, 3))
        left -= 1
        pages = chance.choice((1, 1, 2, 3))
        yield parent, [at % len(SIZES) for at in range(page, page + pages)]
        page += pages


def words_of(page):
    """The words on a page, pages of the batch counted from 1: of each line, left, top, width, height, text."""
    yield 1, page % 3, 1, 3, 2, f"w{page}"
    for at, text in enumerate(SAID[page % len(SAID)]):
        yield 2, at, 3, 2, 2, text


def value_of(number):
    """The value of a document in the one field."""
    return f"Author {number % 17}"


def main(folder, count):
    os.makedirs(f"{folder}/I", exist_ok=True)
    for at, (width, height) in enumerate(SIZES):
        with open(f"{folder}/I/{at}.tif", "wb") as out:
            out.write(plain_page(width, height, RESOLUTION, strip_of(width, height)))
    dat, opt, words = ["þBEGDOCþ\x14þBEGATTACHþ\x14þAUTHORþ"], [], []
    page, names = 0, []
    for number, (parent, places) in enumerate(documents(count), 1):
        names.append(f"P{page + 1:06}")
        dat.append(f"þ{names[-1]}þ\x14þ{names[parent - 1]}þ\x14þ{value_of(number)}þ")
        for at, place in enumerate(places):
            page += 1
            opt.append(f"P{page:06},V,I\\{place}.tif,{'' if at else 'Y'},,,")
            for *numbers, text in words_of(page):
                quoted = text.replace('"', '""')
                words.append(f"P{page:06}," + ",".join(map(str, numbers)) + f',"{quoted}"')
    for name, lines in (("load.dat", dat), ("load.opt", opt), ("words.csv", words)):
        with open(f"{folder}/{name}", "w", encoding="utf-8", newline="") as out:
            out.write("".join(line + "\n" for line in lines))


if __name__ == "__main__":
    main(sys.argv[1], int(sys.argv[2]))
