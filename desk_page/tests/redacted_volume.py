#!/usr/bin/env python3
"""From a search to a volume: the day of examples/office.sh, in which a reviewer redacts by term at the page, by keys, a second person
confirms there, and the program writes the volume. No phrase that was looked for stands in any of its texts or load files, and
trials/check_volume.py opens it, with the boxes that stand.

    redacted_volume.py SCRATCH SHOTS PROGRAM     pictures of the screens go into the folder SHOTS
"""
import csv
import io
import json
import os
import re
import subprocess
from contextlib import closing

from due import find_model, hits, rectangles, touches
from frame import given, window
from office import ELLIS, LEAD, MARLOW, TOP, Office
from person import check, finish

PHRASES = ["helen ng", "lawyer*", "hold back", "###-####", "doctor"]
REDACTED = {1, 4, 5, 9, 10}
UNRESPONSIVE = {7, 8}
BOXES = [(5, 1, 1, 1420, 460, 680, 60, "PI"), (5, 2, 1, 325, 950, 1900, 180, "PI"), (10, 1, 2, 430, 662, 1690, 670, "AC")]
ENTRIES = {3: ("2019-03-04", "Ng", "Ortiz, Berg", "Letter asking counsel for advice on the lease"),
           10: ("2019-05-02", "Berg", "Ng", "Note quoting counsel")}


def decide(office):
    """The decisions of the day, but that each document with a hit is called Redact, or is withheld."""
    post = lambda path, members: office.ask(ELLIS, "POST", path, members)
    for number in range(1, 13):
        treatment = "Withhold-AC" if number == 3 else "Redact" if number in REDACTED else "Produce"
        post(f"/docs/{number}/call", dict(responsive=number not in UNRESPONSIVE, treatment=treatment, designation="CONFIDENTIAL" if number == 3 else ""))
    for number, num, page, left, top, width, height, basis in BOXES:
        post(f"/docs/{number}/box", dict(num=num, page=page, left=left, top=top, width=width, height=height, basis=basis))
    post("/docs/5/hold", dict(field="AUTHOR", basis="PI"))
    for number, (date, author, recipients, description) in ENTRIES.items():
        post(f"/docs/{number}/entry", dict(date=date, author=author, recipients=recipients, description=description))


def redact(person, shots):
    """By the keyboard alone."""
    person.open(1)
    person.key("q")
    person.type("; ".join(PHRASES))
    person.key("Tab")
    person.key("a")  # all documents
    person.tab_to("#redact p button")
    person.does(lambda: person.key("Enter"), "proposed in")
    person.tab_to("#redact [name=basis]")
    person.key("p")  # PI
    check("the basis is chosen by a key", person.js("document.querySelector('#redact [name=basis]').value") == "PI")
    person.shot(os.path.join(shots, "volume-proposed.png"))
    tab_to_put(person)
    person.says("what would be put", lambda: person.key("Enter"), "Not called Redact, so that no box goes into them: 3. Press Put again.")
    person.says("boxes are put", lambda: person.key("Enter"), "Undo drops them.")
    person.key("Escape")


def tab_to_put(person):
    for _ in range(120):
        if person.js("document.activeElement.textContent.startsWith('Put ')"):
            return
        person.key("Tab")
    raise RuntimeError("Tab never comes to Put")


def confirm(person, numbers):
    for number in numbers:
        person.open(number)
        person.ask_confirm()
        person.says(f"document {number} confirmed", lambda: person.key("Enter"), f"Document {number} is confirmed.")


def boxes_that_stand(office):
    found = []
    for number in range(1, 13):
        for box in office.ask(LEAD, "GET", f"/docs/{number}")["boxes"]:
            found.append([number, box["page"], *(box[name] for name in ("left", "top", "width", "height", "basis"))])
    return found


def texts_of(folder):
    """Each row of words of the volume: those of each page of its texts, and of each value of its load files."""
    for at, _, names in os.walk(os.path.join(folder, "out", "VOL001")):
        for name in names:
            with open(os.path.join(at, name), "rb") as file:
                data = file.read()
            if name.endswith(".TXT") and name != "MANIFEST.TXT":
                yield from ((name, page.split()) for page in data.decode().split("\f"))
            elif name.endswith(".DAT"):
                yield from ((name, value.split()) for value in re.split("[\x14\xae\r\n\xfe]+", data.decode()))
            elif name.endswith((".OPT", ".CSV")):
                yield from ((name, value.split()) for row in csv.reader(io.StringIO(data.decode())) for value in row)


def check_texts(folder):
    rows = list(texts_of(folder))
    texts = {name for name, _ in rows if name.endswith(".TXT")}
    check("the volume has a text of each of ten documents", len(texts) == 10, texts)
    stands = lambda phrase: [name for name, row in rows if find_model.row_hits(phrase.split(), row, 0, 0, 0)]
    check("what isn't redacted is found in them, by the same search", len(stands("tamsin wharf")) > 5 and stands("ng") != [])
    for phrase in PHRASES:
        before = len([hit for hit in hits(phrase) if hit[0] in REDACTED and hit[1]])
        check(f"“{phrase}”, {before} times in what was redacted, stands in no text of the volume", before > 0 and stands(phrase) == [], stands(phrase))


def write_volume(office):
    with open(os.path.join(office.folder, "boxes.json"), "w", encoding="utf-8") as file:
        json.dump(boxes_that_stand(office), file)
    office.close_desk()
    line = office.run("produce", "R-1", "VOL001", "ABC", "8", "1", "12", "AUTHOR")
    check("the volume is written", line.startswith("production R-1 labels ABC00000001 to ABC00000023 files 37 "), line)
    check("`press` writes the same", office.run("press", "R-1") == line)
    data = "VOL001/DATA/VOL001"
    told = subprocess.run([office.program, "check", f"{data}.DAT", f"{data}.OPT", "VOL001/MANIFEST.TXT"],
                          cwd=os.path.join(office.folder, "out"), capture_output=True, text=True, check=False)
    check("`check` takes it", told.returncode == 0 and told.stdout.startswith("checked documents 10 images 23 files 36"), told.stdout)
    words = [os.path.join(TOP, "trials", "check_volume.py"), "out", "boxes.json"]
    told = subprocess.run(words, cwd=office.folder, capture_output=True, text=True, check=False)
    check("and is as trials/check_volume.py expects it of these boxes", told.returncode == 0, told.stdout + told.stderr)
    told = subprocess.run(words[:2], cwd=office.folder, capture_output=True, text=True, check=False)
    check("and not as of others", told.returncode == 1, told.stdout + told.stderr)


def main():
    scratch, shots, program = given()
    with closing(Office(scratch, program)) as office:
        decide(office)
        with window(office, ELLIS) as ellis, window(office, MARLOW) as marlow:
            redact(ellis, shots)
            confirm(marlow, (1, 3, 4, 5, 9, 10))
        check("as many boxes as the model has rows to cover, and those of the day", len(boxes_that_stand(office)) == due_boxes(), boxes_that_stand(office))
        write_volume(office)
        check_texts(office.folder)
    finish("from a search to a volume")


def due_boxes():
    """Rows of hits in the documents that are called Redact, but those whose words the boxes of the day touch."""
    rows = [(number, page, row) for number, page, row in rectangles(PHRASES) if number in REDACTED]
    free = [1 for number, page, row in rows
            if not any((of, at) == (number, page) and touches(row, box) for of, _, at, *box, _ in BOXES)]
    return len(free) + len(BOXES)


main()
