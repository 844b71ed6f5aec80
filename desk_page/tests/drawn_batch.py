"""A batch of many documents, drawn by chance: pages of 850 by 1,100 pixels with words of the example batch, fields, families. Few page files
serve all pages, as what stands on them doesn't matter here; each page has words of its own in their places."""
import csv
import os
import random
import subprocess
import sys

from office import BATCH, TOP

sys.path.insert(0, os.path.join(TOP, "trials"))
from plain_page import plain_page  # noqa: E402

NAME = "MANY"
FORMS = 12  # page files
WIDTH, HEIGHT, RESOLUTION = 850, 1100, 100
LINES, IN_A_LINE = 14, 4  # words of a page
RARE = 500  # documents, in one of which a rare word stands on the first page
FIELDS = ("TITLE", "DOCDATE", "AUTHOR")
OFTEN = "the"
SIGNS = ".,;:!?()\"'/-"
AUTHORS = ("Ng", "Ortiz", "Berg", "Marsh", "Dunleavy")


class Form:
    """A page file: where its words stand, as black blocks."""

    def __init__(self, draw):
        self.places = []  # line, left, top, width, height
        for line in range(LINES):
            left = 60 + draw.randrange(60)
            for _ in range(IN_A_LINE):
                width = draw.randint(20, 120)
                self.places.append((line + 1, left, 60 + 70 * line, width, 14))
                left += width + draw.randint(10, 60)

    def file(self):
        size = (WIDTH + 7) // 8
        rows = [0] * HEIGHT
        for _, left, top, width, height in self.places:
            for row in range(top, top + height):
                rows[row] |= ((1 << width) - 1) << (8 * size - left - width)
        return plain_page(WIDTH, HEIGHT, RESOLUTION, b"".join(row.to_bytes(size, "big") for row in rows))


def vocabulary():
    with open(os.path.join(BATCH, "words.csv"), encoding="utf-8-sig", newline="") as file:
        return sorted({row[-1] for row in csv.reader(file)})


class Counts:
    """How many hits some words have, and in how many documents, and how many parts a search goes through."""

    def __init__(self):
        self.found = {}
        self.parts = 0

    def look(self, number, texts):
        """A page, or the words of a value."""
        cores = [text.strip(SIGNS).casefold() for text in texts]
        self.add("needle hay", number, sum(pair == ("needle", "hay") for pair in zip(cores, cores[1:])))
        self.add("*eedle", number, sum(core.endswith("eedle") for core in cores))
        self.add(OFTEN, number, cores.count(OFTEN))

    def add(self, words, number, count):
        if count:
            by_number = self.found.setdefault(words, {})
            by_number[number] = by_number.get(number, 0) + count

    @property
    def hits(self):
        return {words: (sum(by_number.values()), len(by_number)) for words, by_number in self.found.items()}


def make(folder, documents, seed=7):
    """Writes the batch MANY of so many documents below the folder; gives what a search finds in it."""
    draw, counts = random.Random(seed), Counts()
    folder = os.path.join(folder, NAME)
    os.mkdir(folder)
    forms = write_forms(folder, draw)
    words, first = vocabulary(), 1
    dat, opt = [["BEGDOC", *FIELDS, "BEGATTACH"]], []
    with open(os.path.join(folder, "words.csv"), "w", encoding="utf-8", newline="") as file:
        write = csv.writer(file, lineterminator="\n").writerow
        for number in range(1, documents + 1):
            first = first if number > 1 and draw.random() < 0.25 else number
            dat.append([f"D{number}", " ".join(draw.choices(words, k=4)), f"2019-{draw.randint(1, 12):02}-{draw.randint(1, 28):02}",
                        draw.choice(AUTHORS), f"D{first}"])
            for value in dat[-1][1:4]:
                counts.look(number, value.split(" "))
            pages = draw.choice((1, 1, 1, 1, 2))
            counts.parts += 1 + pages
            for page in range(1, pages + 1):
                image, form = f"D{number}" + f".{page}" * (page > 1), draw.randrange(FORMS)
                opt.append(f"{image},{NAME},F{form}.TIF,{'Y' if page == 1 else ''},,,\n")
                texts = draw.choices(words, k=LINES * IN_A_LINE)
                if page == 1 and number % RARE == 0:
                    texts[9:11] = ["Needle,", "hay"]
                counts.look(number, texts)
                for place, text in zip(forms[form].places, texts):
                    write((image, *place, text))
    with open(os.path.join(folder, "load.opt"), "w", encoding="utf-8") as file:
        file.writelines(opt)
    with open(os.path.join(folder, "load.dat"), "w", encoding="utf-8") as file:
        file.writelines("\x14".join(f"þ{value}þ" for value in row) + "\n" for row in dat)
    return counts


def write_forms(folder, draw):
    """The page files, by Group 4, which comes in fastest."""
    forms = [Form(draw) for _ in range(FORMS)]
    for number, form in enumerate(forms):
        plain, path = os.path.join(folder, "plain.tif"), os.path.join(folder, f"F{number}.TIF")
        with open(plain, "wb") as file:
            file.write(form.file())
        subprocess.run(["tiffcp", "-c", "g4", plain, path], check=True)
    os.remove(plain)
    return forms
