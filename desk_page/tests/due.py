"""What a search of the example batch is due to find, and what boxes over its hits have to be: by the batch's files and the model of
the search (trials/find_model.py), nothing of the page."""
import csv
import os
import sys

from office import BATCH, TOP

sys.path.insert(0, os.path.join(TOP, "trials"))
import find_model  # noqa: E402

NO_FIELDS = {"BEGDOC", "ENDDOC", "BEGATTACH", "ENDATTACH"}
MOST_WIDER = 10  # pixels that a box may stand out over its words


def read_batch():
    """The documents as (values, pages), a page a list of words as (line, (left, top, width, height), text); the names of the fields."""
    with open(os.path.join(BATCH, "load.dat"), encoding="utf-8-sig") as file:
        rows = [[value.strip("þ").replace("®", "\n") for value in line.rstrip("\r\n").split("\x14")] for line in file if line.strip()]
    fields = [name for name in rows[0] if name not in NO_FIELDS]
    words = {}
    with open(os.path.join(BATCH, "words.csv"), encoding="utf-8-sig", newline="") as file:
        for image, line, left, top, width, height, text in csv.reader(file):
            words.setdefault(image, []).append((int(line), (int(left), int(top), int(width), int(height)), text))
    docs, records = [], iter(rows[1:])
    with open(os.path.join(BATCH, "load.opt"), encoding="utf-8-sig") as file:
        for image, _, _, is_break, *_ in (line.rstrip("\r\n").split(",") for line in file if line.strip()):
            if is_break == "Y":
                record = next(records)
                docs.append(([record[rows[0].index(name)] for name in fields], []))
            docs[-1][1].append(words.get(image, []))
    return docs, fields


DOCS, FIELDS = read_batch()
TEXTS = [(values, [[text for _, _, text in page] for page in pages]) for values, pages in DOCS]


def hits(phrase):
    """(document, page, field, place, count) of each hit of a phrase."""
    return find_model.all_hits(TEXTS, phrase.split(), 1, 0)


def words_of(hit):
    doc, page, _, place, count = hit
    return DOCS[doc - 1][1][page - 1][place - 1 : place - 1 + count]


def touches(one, other):
    return (one[0] < other[0] + other[2] and other[0] < one[0] + one[2]
            and one[1] < other[1] + other[3] and other[1] < one[1] + one[3])


def is_covered(hit, boxes):
    """Whether each word of a hit touches one of the boxes of its page: then it goes."""
    return all(any(touches(box, word) for box in boxes) for _, word, _ in words_of(hit))


def rows_of(hit):
    """The rectangles around the words of a hit, one for each line."""
    found = []
    for line, word, _ in words_of(hit):
        if found and found[-1][0] == line:
            found[-1][1].append(word)
        else:
            found.append((line, [word]))
    return [around(words) for _, words in found]


def around(words):
    left, top = min(word[0] for word in words), min(word[1] for word in words)
    right, bottom = max(word[0] + word[2] for word in words), max(word[1] + word[3] for word in words)
    return left, top, right - left, bottom - top


def rectangles(phrases, doc=None, page=None):
    """The rectangles that are to be covered for some phrases, as (document, page, rectangle), each once and in order."""
    found = {(hit[0], hit[1], row) for phrase in phrases for hit in hits(phrase) if hit[1] > 0 for row in rows_of(hit)}
    return sorted(it for it in found if doc in (None, it[0]) and page in (None, it[1]))


def fits(box, row, doc, page):
    """Whether a box has a rectangle within it, and stands out by some pixels at most, over no other word, on the page."""
    left, top = row[0] - box[0], row[1] - box[1]
    right, bottom = box[0] + box[2] - row[0] - row[2], box[1] + box[3] - row[1] - row[3]
    wider = (left, top, right, bottom)
    others = [word for _, word, _ in DOCS[doc - 1][1][page - 1] if not touches(word, row)]
    return (all(0 <= by <= MOST_WIDER for by in wider) and any(wider) and not any(touches(box, word) for word in others)
            and box[0] >= 0 and box[1] >= 0)
