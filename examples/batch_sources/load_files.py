#!/usr/bin/env python3
"""Writes load.dat, load.opt and words.csv of a batch whose images stand in its folder already.

Words: the table of the documents, the folder that holds each document's pages (01-01.pbm) and word boxes (01.html, from
pdftotext -bbox), and the batch's folder. make_batch.sh calls it.
"""
import csv
import html
import math
import pathlib
import re
import sys

INCH, POINTS = 300, 72  # pixels and points to the inch
QUOTE, SEPARATOR, NEWLINE = "\u00fe", "\u0014", "\u00ae"
WORD = re.compile(r'<word xMin="(\S+)" yMin="(\S+)" xMax="(\S+)" yMax="(\S+)">(.*)</word>')


class Page:
    """The rows of a raw PBM (P4), each as one number, its first pixel in the highest bit."""

    def __init__(self, path):
        data = path.read_bytes()
        head = re.match(rb"P4\s(?:#.*\n)*(\d+)\s+(\d+)\s", data)
        self.width, self.height = int(head[1]), int(head[2])
        size = (self.width + 7) // 8
        self.spare = size * 8 - self.width
        starts = range(head.end(), head.end() + size * self.height, size)
        self.rows = [int.from_bytes(data[start : start + size], "big") >> self.spare for start in starts]

    def ink(self, left, top, right, bottom):
        """The smallest box with all black pixels of this one."""
        mask = ((1 << right - left) - 1) << self.width - right
        inked = [row for row in range(top, bottom) if self.rows[row] & mask]
        if not inked:
            sys.exit(f"load_files.py: no ink at {left}, {top}")
        bits = 0
        for row in inked:
            bits |= self.rows[row] & mask
        first, last = self.width - bits.bit_length(), self.width - (bits & -bits).bit_length()
        return first, inked[0], last + 1, inked[-1] + 1


def lines_of(words):
    """The words by lines: those whose middle is within half of the first one's height, from left to right."""
    lines = []
    for word in sorted(words, key=lambda word: word[1] + word[3]):
        first = lines[-1][0] if lines else None
        if first and word[1] + word[3] - first[1] - first[3] < first[3] - first[1]:
            lines[-1].append(word)
        else:
            lines.append([word])
    return [sorted(line) for line in lines]


def words_of(text, page):
    """Line, left, top, width, height and text of each word of a page, its box drawn tight around its ink."""
    found = []
    for number, line in enumerate(lines_of(text), 1):
        for left, top, right, bottom, word in line:
            box = [max(0, math.floor(left)), max(0, math.floor(top))]
            box += [min(page.width, math.ceil(right)), min(page.height, math.ceil(bottom))]
            left, top, right, bottom = page.ink(*box)
            found.append((number, left, top, right - left, bottom - top, word))
    return found


def pages_of(document, folder):
    """The words of each page of a document."""
    boxes = (folder / f"{document}.html").read_text(encoding="utf-8").split("<page ")[1:]
    pages = sorted(folder.glob(f"{document}-*.pbm"))
    for text, page in zip(boxes, pages):
        words = [[float(number) * INCH / POINTS for number in word[:4]] + [html.unescape(word[4])]
                 for word in WORD.findall(text)]
        yield words_of(words, Page(page))


def dat_line(values):
    return SEPARATOR.join(QUOTE + value.replace("\n", NEWLINE) + QUOTE for value in values) + "\r\n"


def main():
    table, folder, batch = map(pathlib.Path, sys.argv[1:])
    with table.open(encoding="utf-8", newline="") as file:
        documents = list(csv.DictReader(file))
    names = iter(sorted(path.stem for path in (batch / "IMAGES" / "001").iterdir()))
    for document in documents:
        document["words"] = list(pages_of(document["file"], folder))
        if len(document["words"]) != int(document["pages"]):
            sys.exit(f"load_files.py: {document['file']}.roff has {len(document['words'])} pages")
        document["images"] = [next(names) for _ in document["words"]]
    write_dat(batch / "load.dat", documents)
    write_opt(batch / "load.opt", batch.name, documents)
    write_words(batch / "words.csv", documents)


def write_dat(path, documents):
    fields = ["CUSTODIAN", "AUTHOR", "RECIPIENTS", "DOCDATE", "DOCTYPE", "TITLE"]
    lines = [dat_line(["BEGDOC", "ENDDOC", "BEGATTACH", "ENDATTACH", "PGCOUNT"] + fields)]
    for document in documents:
        family = [image for other in documents if other["family"] == document["family"] for image in other["images"]]
        ids = [document["images"][0], document["images"][-1], family[0], family[-1], document["pages"]]
        lines.append(dat_line(ids + [document[field] for field in fields]))
    path.write_bytes(("\ufeff" + "".join(lines)).encode())


def write_opt(path, volume, documents):
    """A folder break begins each family, and a box break the first one."""
    lines = []
    for document in documents:
        folder = "Y" if document["file"] == document["family"] else ""
        for image in document["images"]:
            first = image == document["images"][0]
            box = "Y" if not lines else ""
            breaks = f"Y,{folder},{box},{document['pages']}" if first else ",,,"
            lines.append(f"{image},{volume},IMAGES\\001\\{image}.TIF,{breaks}\r\n")
    path.write_bytes("".join(lines).encode())


def write_words(path, documents):
    with path.open("w", encoding="utf-8", newline="") as file:
        writer = csv.writer(file)
        for document in documents:
            for image, words in zip(document["images"], document["words"]):
                writer.writerows((image, *word) for word in words)


main()
