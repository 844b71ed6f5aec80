#!/usr/bin/env python3
"""Opens a volume by public readers, and looks in it for what the example batch withholds.

Words: the folder that has the volume VOL001; the batch is examples/CVI_001. Ends with status 1 and
one line at the first thing that isn't as it should be. What is expected stands here and in the batch, and nowhere in the
product: which documents are withheld, which boxes and fields are covered, and the load files and the log line by line.
A second word names a file with the boxes that were put in place of those of examples/office.sh: a JSON list of lists, each
document, page, left, top, width, height, and AC or PI.

Needs sha256sum, and tiffinfo and tifftopnm (Debian's libtiff-tools and netpbm), which read the images.
"""
import csv
import io
import json
import os
import subprocess
import sys

VOLUME = "VOL001"
PAGES = [3, 2, 5, 1, 4, 2, 3, 1, 2, 4, 1, 3]
FAMILIES = [(1, 3), (4, 6), (9, 12)]
WITHHELD = {3: "AC"}
# document, page: the boxes on it, as left, top, width, height, and the code of their ground, which stands in each in white:
# it begins three pixels below the top and beside the left edge, and each bit of a letter is three by three pixels
BOXES = {
    (5, 1): [(1420, 460, 680, 60, "PI"), (325, 950, 1900, 180, "PI")],
    (10, 2): [(430, 662, 1690, 670, "AC")],
}
LETTERS = {
    "A": "01110 10001 10001 11111 10001 10001 10001",
    "C": "01110 10001 10000 10000 10000 10001 01110",
    "I": "01110 00100 00100 00100 00100 00100 01110",
    "P": "11110 10001 10001 11110 10000 10000 10000",
}
LETTERED = (39, 27)  # a box that is narrower or lower has no letters
BAND = 32
COLUMNS = "BEGDOC ENDDOC BEGATTACH ENDATTACH PAGECOUNT DESIGNATION WITHHELD TEXTPATH AUTHOR".split()
AUTHORS = {1: "Ng", 2: "Ng", 3: "", 4: "Ortiz", 5: "WITHHELD - PI", 6: "Ortiz", 9: "Berg", 10: "Berg", 11: "", 12: "Lee\nChan"}
LOG = (
    "BEGLABEL,ENDLABEL,TREATMENT,BASIS,DATE,AUTHOR,RECIPIENTS,DESCRIPTION\n"
    'ABC00000006,ABC00000006,Withheld,AC,2019-03-04,Ng,"Ortiz, Berg",Letter asking counsel for advice on the lease\n'
    "ABC00000016,ABC00000019,Redacted,AC,2019-05-02,Berg,Ng,Note quoting counsel\n"
)
HERE = os.path.dirname(os.path.abspath(__file__))
BATCH = os.path.join(HERE, "..", "examples", "CVI_001")


def fail(why):
    sys.exit(f"check_volume.py: {why}")


def expect(is_so, why):
    if not is_so:
        fail(why)


def label(number):
    return f"ABC{number:08}"


class Item:
    """A document that is produced, and the labels that it must have."""

    def __init__(self, document, first, family):
        self.document, self.first, self.family = document, first, family
        self.ground = WITHHELD.get(document)
        self.pages = PAGES[document - 1]
        self.labels = 1 if self.ground else self.pages
        self.last = first + self.labels - 1
        self.before = sum(PAGES[: document - 1])


def items():
    found, number = [], 1
    for low, high in FAMILIES:
        family = []
        for document in range(low, high + 1):
            item = Item(document, number, family)
            family.append(item)
            number = item.last + 1
        found += family
    return found


def path(kind, number, ending):
    return f"{VOLUME}/{kind}/0001/{label(number)}.{ending}"


def read(folder, name):
    with open(os.path.join(folder, name), "rb") as file:
        return file.read()


def paths_due(produced):
    due = []
    for item in produced:
        due += [path("IMAGES", number, "TIF") for number in range(item.first, item.last + 1)]
        due.append(path("TEXT", item.first, "TXT"))
    data = f"{VOLUME}/DATA/{VOLUME}"
    return due + [f"{data}.DAT", f"{data}.OPT", f"{data}-LOG.CSV"]


def check_files(folder, produced):
    due = paths_due(produced)
    there = sorted(
        os.path.relpath(os.path.join(at, name), folder)
        for at, _, names in os.walk(os.path.join(folder, VOLUME))
        for name in names
    )
    manifest = f"{VOLUME}/MANIFEST.TXT"
    expect(there == sorted([*due, manifest]), f"these files stand there: {there}")
    lines = read(folder, manifest).decode().splitlines()
    expect([line[66:] for line in lines] == due, "the manifest names other files, or in another order")
    told = subprocess.run(["sha256sum", "-c", "--strict", "--quiet", manifest], cwd=folder, capture_output=True)
    expect(told.returncode == 0 and not told.stdout, "sha256sum finds other digests than the manifest's")


def dat_rows(text):
    """The lines of a Concordance DAT: values between thorns, byte 14 hex between them, (R) for a newline."""
    expect(text.endswith("\r\n"), "the DAT doesn't end with CR LF")
    rows = list(csv.reader(io.StringIO(text, newline=""), delimiter="\u0014", quotechar="\u00fe", strict=True))
    return [[value.replace("\u00ae", "\n") for value in row] for row in rows]


def dat_due(produced):
    rows = [COLUMNS]
    for item in produced:
        first, last = item.family[0].first, item.family[-1].last
        rows.append([
            label(item.first), label(item.last), label(first), label(last), str(item.labels),
            "CONFIDENTIAL" if item.ground else "", item.ground or "",
            path("TEXT", item.first, "TXT").replace("/", "\\"), AUTHORS[item.document],
        ])
    return rows


def opt_due(produced):
    return [
        [label(number), VOLUME, path("IMAGES", number, "TIF").replace("/", "\\"),
         *(["Y", "", "", str(item.labels)] if number == item.first else ["", "", "", ""])]
        for item in produced
        for number in range(item.first, item.last + 1)
    ]


def check_load_files(folder, produced):
    data = f"{VOLUME}/DATA/{VOLUME}"
    expect(dat_rows(read(folder, f"{data}.DAT").decode()) == dat_due(produced), "the DAT says something else")
    opt = list(csv.reader(io.StringIO(read(folder, f"{data}.OPT").decode(), newline="")))
    expect(opt == opt_due(produced), "the OPT says something else")
    expect(read(folder, f"{data}-LOG.CSV").decode() == LOG, "the log says something else")


def words_of_batch():
    """By image id: the words with their boxes."""
    words = {}
    with open(os.path.join(BATCH, "words.csv"), encoding="utf-8", newline="") as file:
        for image, line, left, top, width, height, text in csv.reader(file):
            words.setdefault(image, []).append((int(line), (int(left), int(top), int(width), int(height)), text))
    return words


def touches(one, other):
    return (one[0] < other[0] + other[2] and other[0] < one[0] + one[2]
            and one[1] < other[1] + other[3] and other[1] < one[1] + one[3])


def page_text(words):
    text = ""
    for at, (line, _, word) in enumerate(words):
        same = at + 1 < len(words) and words[at + 1][0] == line
        text += word + (" " if same else "\r\n")
    return text + "\f"


def image_id(item, page):
    return f"CVI{4182 + item.before + page - 1:07}"


def check_texts(folder, produced, words):
    """Each text is of the words that no box touches. The words that stand in withheld places alone: not in what is shown
    of a page, nor in what the office says itself, as a designation or a line of the log."""
    shown, hidden = set(), set()
    for item in produced:
        text = "" if not item.ground else f"DOCUMENT WITHHELD - {item.ground}\r\n\f"
        for page in range(1, item.pages + 1):
            boxes = BOXES.get((item.document, page), [])
            kept = [word for word in words[image_id(item, page)] if not any(touches(word[1], box) for box in boxes)]
            gone = [word for word in words[image_id(item, page)] if word not in kept or item.ground]
            hidden |= {word for _, _, word in gone}
            if not item.ground:
                text += page_text(kept)
                shown |= {word for _, _, word in kept}
        name = path("TEXT", item.first, "TXT")
        expect(read(folder, name).decode() == text, f"{name} has another text")
    told = shown | set(LOG.split()) | {value for row in dat_due(produced) for value in row}
    return {word for word in hidden if len(word) > 3 and not any(word in other for other in told)}


def check_no_trace(folder, secrets):
    for at, _, names in os.walk(os.path.join(folder, VOLUME)):
        for name in names:
            data = read(at, name)
            for secret in secrets:
                expect(secret.encode() not in data, f"{name} has the withheld word {secret}")


def rows_of(file):
    """The rows of pixels of a page file, as a public reader finds them: a byte a pixel, 1 is black."""
    info = subprocess.run(["tiffinfo", file], capture_output=True, text=True)
    expect(info.returncode == 0 and not info.stderr, f"tiffinfo complains of {file}: {info.stderr}")
    read_by = subprocess.run(["tifftopnm", "-quiet", file], capture_output=True)
    expect(read_by.returncode == 0 and not read_by.stderr, f"tifftopnm complains of {file}")
    head, sides, rest = read_by.stdout.split(b"\n", 2)
    expect(head == b"P4", f"{file} isn't bilevel")
    width, height = (int(side) for side in sides.split())
    stride = (width + 7) // 8
    return width, [int.from_bytes(rest[at * stride : (at + 1) * stride], "big") for at in range(height)], stride * 8


def these(bits, left, width):
    """The pixels of these columns of a row."""
    return ((1 << width) - 1) << (bits - left - width)


def with_box(row, bits, box, down):
    """A row of a box, so many rows below its top, covered: black but for what it has of the letters."""
    left, _, across, high, code = box
    row |= these(bits, left, across)
    is_lettered = across >= LETTERED[0] and high >= LETTERED[1]
    for k, letter in enumerate(code if is_lettered else ""):
        for bit in range(5):
            if 3 <= down < 24 and LETTERS[letter].split()[(down - 3) // 3][bit] == "1":
                row &= ~these(bits, left + 3 + 18 * k + 3 * bit, 3)
    return row


def check_page(folder, item, page, name):
    width, rows, bits = rows_of(os.path.join(folder, name))
    was_width, scan, was_bits = rows_of(os.path.join(BATCH, "IMAGES", "001", f"{image_id(item, page)}.TIF"))
    expect((width, bits, len(rows)) == (was_width, was_bits, len(scan) + BAND), f"{name} has other sides")
    for at, row in enumerate(scan):
        for box in BOXES.get((item.document, page), []):
            if box[1] <= at < box[1] + box[3]:
                row = with_box(row, bits, box, at - box[1])
        expect(rows[at] == row, f"row {at} of {name} isn't the scan's with its boxes black, and lettered")


def check_images(folder, produced):
    for item in produced:
        for at, number in enumerate(range(item.first, item.last + 1)):
            name = path("IMAGES", number, "TIF")
            if item.ground:
                width, rows, _ = rows_of(os.path.join(folder, name))
                expect((width, len(rows)) == (1700, 2200 + BAND), f"{name} is no slip sheet")
            else:
                check_page(folder, item, at + 1, name)


def take_boxes(path):
    """Other boxes than those of the day."""
    BOXES.clear()
    with open(path, encoding="utf-8") as file:
        for document, page, *box in json.load(file):
            BOXES.setdefault((document, page), []).append(tuple(box))


def main():
    expect(len(sys.argv) in (2, 3), "one word or two: the folder that has the volume, and a file of boxes")
    folder, produced = sys.argv[1], items()
    if len(sys.argv) == 3:
        take_boxes(sys.argv[2])
    check_files(folder, produced)
    check_load_files(folder, produced)
    secrets = check_texts(folder, produced, words_of_batch())
    check_no_trace(folder, secrets)
    check_images(folder, produced)
    labels = sum(item.labels for item in produced)
    print(f"{labels} images and {len(produced)} texts are as they should be; "
          f"none of {len(secrets)} words that stand in withheld places alone is in any file")


main()
