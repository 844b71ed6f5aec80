#!/usr/bin/env python3
"""A plain model of `demo SEED PAGES` (docs/FORMATS.md, bp_demo): its own numbers, coder and digests.

    demo_model.py SEED PAGES            the line that `demo` prints
    demo_model.py SEED PAGES manifest   the manifest of its volume
    demo_model.py SEED PAGES FOLDER     its volume, written below a folder
    demo_model.py ten                   ten seeds, each with a number of pages and the line that is due
    demo_model.py days                  the lines of crates/bp_test_days/data/demo.txt
"""
import hashlib
import os
import pathlib
import sys

sys.dont_write_bytecode = True
sys.path.insert(0, os.path.join(os.path.dirname(os.path.abspath(__file__)), "..", "trials"))
import fuzz_pages  # noqa: E402

WIDTH, HEIGHT, WORDS = 850, 1100, 40
DESIGNATION, VOLUME, PREFIX = "CONFIDENTIAL", "DEMO", "DM-"
# seeds and numbers of pages: one page, families, documents that aren't selected, all treatments
TEN = [(0, 1), (1, 2), (3, 3), (349, 2), (375, 5), (1102, 5), (3459, 5), (42, 12), (999999999, 20), (2024, 30)]
COLUMNS = ["BEGDOC", "ENDDOC", "BEGATTACH", "ENDATTACH", "PAGECOUNT", "DESIGNATION", "WITHHELD", "TEXTPATH"]
LOG_COLUMNS = ["BEGLABEL", "ENDLABEL", "TREATMENT", "BASIS", "DATE", "AUTHOR", "RECIPIENTS", "DESCRIPTION"]


class Draws:
    """A linear congruential generator modulo 2^64."""

    def __init__(self, seed):
        self.x = seed

    def draw(self, below):
        self.x = (6364136223846793005 * self.x + 1442695040888963407) % 2**64
        return (self.x >> 33) % below


class Document:
    def __init__(self, number, parent):
        self.number, self.parent, self.pages = number, parent, []


def drawn_words(draws):
    """The words of a page: each a rectangle and a text, one a line."""
    words = []
    for i in range(WORDS):
        left = 50 + draws.draw(600)
        width = 1 + draws.draw(150)
        words.append(((left, 50 + 25 * i, width, 12), "w%d" % draws.draw(1000)))
    return words


def matter(seed, pages):
    """The documents, each with its pages, its treatment and whether it is responsive."""
    draws, documents = Draws(seed), []
    for page in range(pages):
        if page == 0:
            documents.append(Document(1, 1))
        elif draws.draw(3) == 0:
            number = len(documents) + 1
            joins = draws.draw(4) == 0
            documents.append(Document(number, documents[-1].parent if joins else number))
        documents[-1].pages.append(drawn_words(draws))
    for document in documents:
        d = draws.draw(10)
        document.treatment = "withhold" if d == 0 else "redact" if d <= 2 else "produce"
        document.responsive = draws.draw(8) != 0
    return documents


def page_of(words):
    lines = [[] for _ in range(HEIGHT)]
    for (left, top, width, height), _ in words:
        for row in range(top, top + height):
            lines[row] = [left, left + width]
    return fuzz_pages.Page(WIDTH, HEIGHT, lines, (100, 1), (100, 1))


def label(number):
    return "%s%08d" % (PREFIX, number)


def touches(a, b):
    return all(a[k] < b[k] + b[k + 2] and b[k] < a[k] + a[k + 2] for k in (0, 1))


def selected(documents):
    """The documents of the families that have a responsive member, each with its first label and how many it has."""
    families = {document.parent for document in documents if document.responsive}
    items, number = [], 1
    for document in documents:
        if document.parent in families:
            count = 1 if document.treatment == "withhold" else len(document.pages)
            items.append((document, number, count))
            number += count
    return items


def images_and_text(document, first):
    """The files of the images of an item, and its text."""
    if document.treatment == "withhold":
        sheet = fuzz_pages.slip("AC", label(first), DESIGNATION)
        return [fuzz_pages.tiff_of(sheet, "g4")], "DOCUMENT WITHHELD - AC\r\n\f"
    images, text = [], ""
    for k, words in enumerate(document.pages):
        boxes = [words[0][0]] if document.treatment == "redact" and k == 0 else []
        page = fuzz_pages.burned(page_of(words), boxes)
        images.append(fuzz_pages.tiff_of(fuzz_pages.banded(page, label(first + k), DESIGNATION), "g4"))
        kept = [word for rect, word in words if not any(touches(rect, box) for box in boxes)]
        text += "".join(word + "\r\n" for word in kept) + "\f"
    return images, text


def dat_line(values):
    return "\x14".join("\xfe%s\xfe" % value for value in values) + "\r\n"


def volume(seed, pages):
    """The files in order, each a path and its bytes; none where nothing is responsive."""
    items = selected(matter(seed, pages))
    if not items:
        return []
    spans = {}
    for document, first, count in items:
        spans.setdefault(document.parent, [first, 0])[1] = first + count - 1
    files, place = [], 0
    dat, opt, log = dat_line(COLUMNS), "", ",".join(LOG_COLUMNS) + "\n"
    for document, first, count in items:
        images, text = images_and_text(document, first)
        text_path = [VOLUME, "TEXT", "%04d" % (place // 1000 + 1), label(first) + ".TXT"]
        for k, image in enumerate(images):
            path = [VOLUME, "IMAGES", "%04d" % ((place + k) // 1000 + 1), label(first + k) + ".TIF"]
            files.append(("/".join(path), image))
            start = "Y,,,%d" % count if k == 0 else ",,,"
            opt += "%s,%s,%s,%s\r\n" % (label(first + k), VOLUME, "\\".join(path), start)
        files.append(("/".join(text_path), text.encode()))
        is_withheld = document.treatment == "withhold"
        ends = [label(first), label(first + count - 1)]
        family = [label(number) for number in spans[document.parent]]
        ground = "AC" if is_withheld else ""
        dat += dat_line([*ends, *family, str(count), DESIGNATION, ground, "\\".join(text_path)])
        if is_withheld:
            log += ",".join([*ends, "Withheld", "AC", "2024-01-01", "A", "B", "demo"]) + "\n"
        place += count
    for ending, text in [(".DAT", dat), (".OPT", opt), ("-LOG.CSV", log)]:
        files.append((f"{VOLUME}/DATA/{VOLUME}{ending}", text.encode()))
    manifest = "".join("%s  %s\n" % (hashlib.sha256(data).hexdigest(), path) for path, data in files)
    files.append((f"{VOLUME}/MANIFEST.TXT", manifest.encode()))
    return files


def line_of(files):
    if not files:
        return "refused 27 NothingResponsive 0 0 0"
    images = sum(path.endswith(".TIF") for path, _ in files)
    digest = hashlib.sha256(files[-1][1]).hexdigest()
    return f"production DEMO labels {label(1)} to {label(images)} files {len(files)} manifest {digest}"


# ---- lines of bp_test_days


def escaped(text):
    out = ""
    for character in text:
        if character == " ":
            out += "_"
        else:
            out += "%%%02x" % ord(character) if character in "_%" or character < " " else character
    return out


def count_of(documents):
    """How many rows are kept: staff, batch, prefix and production; of each document two, and its mark; of each page two."""
    marks = sum(document.treatment != "produce" for document in documents)
    return 2 + 3 + 2 * len(documents) + marks + 2 * sum(len(document.pages) for document in documents)


def looked_up(document):
    state = "first 1" if document.treatment == "produce" else "confirmed 1 2"
    return "lookup %d = %d %s %d" % (document.number, len(document.pages), state, document.treatment == "redact")


def item_of(document, first, count):
    told = "item DEMO %d = %d %d " % (document.number, document.number, document.parent)
    told += "%d-%d %s" % (first, first + count - 1, "AC" if document.treatment == "withhold" else document.treatment)
    told += ' "%s"' % DESIGNATION
    if document.treatment == "redact":
        told += " | box 1 1 %d %d %d %d PI" % document.pages[0][0][0]
    if document.treatment == "withhold":
        told += ' | entry "2024-01-01" "A" "B" "demo"'
    return told


def carried_out(words, status, line):
    return "tivrenan %s = %d %s" % (words, status, escaped(line + "\n"))


EMPTY = ["rows", "begin 1", "drop 1 1 0", "commit = done", "count = 0"]
FAULTY = ["", " 7", " 7 5 1", " 07 5", " 7 0", " 7 05", " 7 2001", " 7 -5", " 1234567890 5", " x 5", " 7 x"]


def refused_lines():
    lines = ["# `demo` over a keeper without rows. What is due was made by bench/demo_model.py, which writes this file.", *EMPTY]
    lines.append("# Words that are no command line; then the keeper fails as it is asked for rows, and as they are kept.")
    lines += [carried_out("demo" + words, 1, "words refused") for words in FAULTY]
    for call in ("0", "1"):
        lines += ["faults " + call, carried_out("demo 3459 5", 5, "keeper fault"), "left = 0", "faults", "count = 0"]
    lines.append("# No document that is drawn is responsive.")
    return lines + [carried_out("demo 7 2", 2, line_of(volume(7, 2))), "left = 0", "count = 0"]


def made_lines(seed, pages):
    """A demo, and what stands then; a second one is refused; its volume once more, and its log."""
    documents, files = matter(seed, pages), volume(seed, pages)
    items = selected(documents)
    words, line = "demo %d %d" % (seed, pages), line_of(files)
    lines = [carried_out(words, 0, line), "left = %d" % len(files)]
    lines += ["path %d = %s" % (k + 1, path) for k, (path, _) in enumerate(files)]
    for path, data in files:
        if not path.endswith(".TIF") and "\xfe" not in data.decode():
            lines.append("text %s = %s" % (path, escaped(data.decode())))
    lines += ["load = loaded", "kept = yes", "mark", "count = %d" % count_of(documents)]
    lines += ["lead = " + hashlib.sha256(b"lead").hexdigest(), "documents = %d" % len(documents)]
    lines += [looked_up(document) for document in documents]
    span = "%d 1-%d" % (len(items), items[-1][1] + items[-1][2] - 1)
    lines.append("production DEMO = DEMO DEMO %s 8 1 %d %s" % (PREFIX, len(documents), span))
    lines += [item_of(*item) for item in items]
    lines += ["found DEMO = yes", "shelve"]
    lines += [carried_out("press DEMO", 0, line), "alike = yes"]
    for again in (words, "demo %d %d" % (seed + 1, pages)):
        lines += [carried_out(again, 2, "refused 42 MatterThere 0 0 0"), "left = 0", "same = yes"]
    log = next(data for path, data in files if path.endswith("-LOG.CSV")).decode()
    return lines + ["tivrenan log DEMO = 0 " + escaped(log), "left = 0"]


def again_lines(seed, pages):
    """The same once more, over another keeper without rows, where the folder fails at first, and then the out."""
    words, line = "demo %d %d" % (seed, pages), line_of(volume(seed, pages))
    lines = ["# The folder fails: the matter and its production are kept, and a first part of the volume is there.", *EMPTY]
    lines += ["folder_fails 13", carried_out(words, 4, "folder fault"), "part = 5 4", "load = loaded", "same = yes"]
    lines += [carried_out("press DEMO", 0, line), "alike = yes"]
    lines += ["# The out fails at the line: half of it stands, and all of the volume.", *EMPTY, "out_fails 0"]
    half = (line + "\n")[: len(line + "\n") // 2]
    lines += ["tivrenan %s = 7 %s" % (words, escaped(half)), "alike = yes", "load = loaded", "same = yes"]
    return lines


def day_lines():
    lines = refused_lines()
    lines.append("# Four documents on five pages: one withheld, one redacted, one produced whole, one of a family without a responsive one.")
    lines += made_lines(3459, 5) + again_lines(3459, 5)
    lines += ["# A demo of another seed: five documents, of which the first and the last aren't selected.", *EMPTY]
    return lines + made_lines(375, 5)


def main():
    if sys.argv[1] == "ten":
        for seed, pages in TEN:
            print(seed, pages, line_of(volume(seed, pages)), flush=True)
        return
    if sys.argv[1] == "days":
        print("\n".join(day_lines()))
        return
    files = volume(int(sys.argv[1]), int(sys.argv[2]))
    if len(sys.argv) == 3:
        print(line_of(files))
    elif sys.argv[3] == "manifest":
        sys.stdout.buffer.write(files[-1][1] if files else b"")
    else:
        for path, data in files:
            to = pathlib.Path(sys.argv[3], path)
            to.parent.mkdir(parents=True, exist_ok=True)
            to.write_bytes(data)


if __name__ == "__main__":
    main()
