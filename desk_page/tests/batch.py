"""The example batch as its own files tell it: fields and words of each document, and what is found in them, by a few lines that know
nothing of the page or of a desk."""
import csv
import os

from office import BATCH

APART = ("BEGDOC", "ENDDOC", "BEGATTACH", "ENDATTACH")


def read_fields():
    """The names of the fields, and for each document its values."""
    with open(os.path.join(BATCH, "load.dat"), encoding="utf-8-sig") as file:
        rows = [[value.strip("þ").replace("®", "\n") for value in line.rstrip("\r\n").split("\x14")] for line in file if line.strip()]
    kept = [k for k, name in enumerate(rows[0]) if name not in APART]
    return [rows[0][k] for k in kept], [[row[k] for k in kept] for row in rows[1:]]


def read_words():
    """For each document its pages, a list of words: line, left, top, width, height, text."""
    pages = {}
    with open(os.path.join(BATCH, "words.csv"), encoding="utf-8-sig", newline="") as file:
        for image, *numbers, text in csv.reader(file):
            pages.setdefault(image, []).append((*map(int, numbers), text))
    found = []
    with open(os.path.join(BATCH, "load.opt"), encoding="utf-8-sig") as file:
        for line in filter(str.strip, file):
            image, _, _, is_break, *_ = line.split(",")
            if is_break == "Y":
                found.append([])
            found[-1].append(pages.get(image, []))
    return found


FIELDS, VALUES = read_fields()
WORDS = read_words()


COLUMN = {name: [values[k] for values in VALUES] for k, name in enumerate(FIELDS)}


def order_of(field, backward=False):
    """The documents by a field, those without a value last, capitals as small letters."""
    key = lambda number: COLUMN[field][number - 1].replace("\n", "; ").casefold()
    found = sorted((number for number in range(1, len(VALUES) + 1) if key(number)), key=key, reverse=backward)
    return found + [number for number in range(1, len(VALUES) + 1) if not key(number)]


def core(text):
    """A word without what stands around it."""
    at = [k for k, sign in enumerate(text) if sign.isalnum()]
    return text[at[0] : at[-1] + 1] if at else ""


def same(term, text):
    return term.casefold() in (text.casefold(), core(text).casefold())


def hits(*terms):
    """Where words in turn are these, none of which has a # or a *: document, page, field, place."""
    found = []

    def look(texts, *where):
        for at in range(len(texts) - len(terms) + 1):
            if all(same(term, texts[at + k]) for k, term in enumerate(terms)):
                found.append((*where, at + 1))

    for doc, (values, pages) in enumerate(zip(VALUES, WORDS), 1):
        for field, value in enumerate(values, 1):
            look([text for text in value.split(" ") if text], doc, 0, field)
        for page, words in enumerate(pages, 1):
            look([word[-1] for word in words], doc, page, 0)
    return found


def line_of(hit, count):
    """The words of a hit, and all of their lines."""
    doc, page, _, place = hit
    words = WORDS[doc - 1][page - 1]
    lines = {word[0] for word in words[place - 1 : place - 1 + count]}
    first = last = place - 1
    while first > 0 and words[first - 1][0] in lines:
        first -= 1
    while last < len(words) and words[last][0] in lines:
        last += 1
    text = lambda part: " ".join(word[-1] for word in part)
    return text(words[place - 1 : place - 1 + count]), text(words[first:last])
