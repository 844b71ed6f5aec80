#!/usr/bin/env python3
"""Looks by public readers at a volume and at its replacement after a notice (FRCP 26(b)(5)(B)).

Words: the folder that has the volumes VOL001 and VOL001B, and the notice. The batch is examples/CVI_001. Ends with
status 1 and one line at the first thing that isn't as it should be: the same paths under the other name; images and texts
of documents that the notice doesn't name equal byte for byte; a sheet under each label of the others, pixel by pixel the
one that the volume has for a document that was withheld, but for its label; DAT, OPT and log; and no word of a named
document that stands in it alone in any byte of any file.

Needs sha256sum, and tifftopnm (Debian's netpbm), which reads the images.
"""
import csv
import io
import os
import subprocess
import sys

OLD, NEW = "VOL001", "VOL001B"
# the documents of the volume in their order, and how many pages each document of the batch has
PRODUCED = [1, 2, 3, 4, 5, 6, 9, 10, 11, 12]
PAGES = [3, 2, 5, 1, 4, 2, 3, 1, 2, 4, 1, 3]
FIRST_IMAGE = 4182
# the label of a sheet that the volume has, and the rows of its sheet above the label
SHEET, ROWS = "ABC00000006", 2200
HERE = os.path.dirname(os.path.abspath(__file__))
WORDS = os.path.join(HERE, "..", "examples", "CVI_001", "words.csv")


def fail(why):
    sys.exit(f"claw_volumes.py: {why}")


def expect(is_so, why):
    if not is_so:
        fail(why)


def read(*steps):
    with open(os.path.join(*steps), "rb") as file:
        return file.read()


def names(folder, volume):
    found = [
        os.path.relpath(os.path.join(at, name), os.path.join(folder, volume))
        for at, _, files in os.walk(os.path.join(folder, volume))
        for name in files
    ]
    return sorted(name.replace(volume, "VOLUME") for name in found)


def dat_rows(folder, volume):
    text = read(folder, volume, "DATA", f"{volume}.DAT").decode()
    rows = list(csv.reader(io.StringIO(text, newline=""), delimiter="\u0014", quotechar="\u00fe", strict=True))
    return rows[0], rows[1:]


def opt_rows(folder, volume):
    return list(csv.reader(io.StringIO(read(folder, volume, "DATA", f"{volume}.OPT").decode(), newline="")))


def log_rows(folder, volume):
    return list(csv.reader(io.StringIO(read(folder, volume, "DATA", f"{volume}-LOG.CSV").decode(), newline="")))


def pixels(folder, volume, label):
    """The sides of an image, and its rows above the label, as a public reader finds them."""
    file = os.path.join(folder, volume, "IMAGES", "0001", f"{label}.TIF")
    told = subprocess.run(["tifftopnm", "-quiet", file], capture_output=True)
    expect(told.returncode == 0 and not told.stderr, f"tifftopnm complains of {file}")
    head, sides, rest = told.stdout.split(b"\n", 2)
    expect(head == b"P4", f"{file} isn't bilevel")
    width, height = (int(side) for side in sides.split())
    return (width, height), rest[: (width + 7) // 8 * ROWS]


def renamed(value):
    return NEW + value[len(OLD):] if value.startswith(OLD) else value


def check_manifest(folder):
    told = subprocess.run(["sha256sum", "-c", "--strict", "--quiet", f"{NEW}/MANIFEST.TXT"], cwd=folder, capture_output=True)
    expect(told.returncode == 0 and not told.stdout, "sha256sum finds other digests than the manifest's")


def check_load_files(folder, claims):
    columns, was = dat_rows(folder, OLD)
    columns_now, now = dat_rows(folder, NEW)
    expect(columns == columns_now and len(was) == len(now) == len(PRODUCED), "the DAT has other columns or records")
    at = {name: place for place, name in enumerate(columns)}
    for document, before, after in zip(PRODUCED, was, now):
        due = [renamed(value) for value in before]
        if document in claims:
            due[at["WITHHELD"]] = claims[document][1]
            due[at["TEXTPATH"] + 1:] = [""] * (len(columns) - at["TEXTPATH"] - 1)
        expect(after == due, f"the DAT says something else of document {document}")
    opt = [[renamed(value) for value in line] for line in opt_rows(folder, OLD)]
    expect(opt == opt_rows(folder, NEW), "the OPT isn't that of the volume under the other name")
    head, *entries = log_rows(folder, OLD)
    for document, (_, basis, *entry) in claims.items():
        row = was[PRODUCED.index(document)]
        entries = [line for line in entries if line[0] != row[at["BEGDOC"]]]
        entries.append([row[at["BEGDOC"]], row[at["ENDDOC"]], "Withheld", basis, *entry])
    expect(log_rows(folder, NEW) == [head, *sorted(entries)], "the log says something else")
    return at, was


def labels_of(opt, first, count):
    start = [line[0] for line in opt].index(first)
    return [line[0] for line in opt[start : start + count]]


def check_items(folder, claims, at, rows):
    same, sheets = 0, 0
    opt = opt_rows(folder, OLD)
    for document, row in zip(PRODUCED, rows):
        first = row[at["BEGDOC"]]
        labels = labels_of(opt, first, int(row[at["PAGECOUNT"]]))
        text = ("TEXT", "0001", f"{first}.TXT")
        if document not in claims:
            for name in [text, *(("IMAGES", "0001", f"{label}.TIF") for label in labels)]:
                expect(read(folder, OLD, *name) == read(folder, NEW, *name), f"{'/'.join(name)} has other bytes")
                same += 1
            continue
        basis = claims[document][1]
        expect(read(folder, NEW, *text).decode() == f"DOCUMENT WITHHELD - {basis}\r\n\f", f"{first}.TXT has another text")
        for label in labels:
            expect(pixels(folder, NEW, label) == pixels(folder, OLD, SHEET), f"{label}.TIF isn't the sheet of a withheld document")
            sheets += 1
    return same, sheets


def words_by_document():
    images, words = {}, {}
    number = FIRST_IMAGE
    for document, pages in enumerate(PAGES, 1):
        for _ in range(pages):
            images[f"CVI{number:07}"] = document
            number += 1
    with open(WORDS, encoding="utf-8", newline="") as file:
        for image, *_, text in csv.reader(file):
            words.setdefault(images[image], set()).add(text)
    return words


def check_no_trace(folder, claims):
    """The words that stand in named documents alone, and not in what the volume shows or says besides."""
    words = words_by_document()
    shown = " ".join(
        read(folder, OLD, "TEXT", "0001", f"{row[0]}.TXT").decode()
        for document, row in zip(PRODUCED, dat_rows(folder, OLD)[1])
        if document not in claims
    )
    said = shown + read(folder, NEW, "DATA", f"{NEW}-LOG.CSV").decode() + read(folder, NEW, "DATA", f"{NEW}.DAT").decode()
    secrets = {word for document in claims for word in words[document] if len(word) > 3 and word not in said}
    expect(len(secrets) > 50, "the named documents have too few words of their own")
    for folder_at, _, files in os.walk(os.path.join(folder, NEW)):
        for name in files:
            data = read(folder_at, name)
            for secret in secrets:
                expect(secret.encode() not in data, f"{name} has the word {secret}")
    return len(secrets)


def main():
    expect(len(sys.argv) == 3, "two words: the folder that has the volumes, and the notice")
    folder, notice = sys.argv[1:]
    with open(notice, encoding="utf-8", newline="") as file:
        claims = {int(record[0]): record for record in csv.reader(file) if record}
    expect(names(folder, OLD) == names(folder, NEW), "the replacement has other paths than the volume")
    check_manifest(folder)
    at, rows = check_load_files(folder, claims)
    same, sheets = check_items(folder, claims, at, rows)
    secrets = check_no_trace(folder, claims)
    print(f"{same} images and texts of other documents are equal byte for byte; {sheets} sheets stand in their places; "
          f"none of {secrets} words that stand in named documents alone is in any file")


main()
