#!/usr/bin/env python3
"""Screens in a headless Chromium: the files of phrases beside the page, a range that is checked, what is listed of it and what isn't, a
row that is opened, the list saved, a stop. What is due comes from the batch's files and the model of the search. Over the program,
where it is given, else over the stand-in.

    screens.py SCRATCH SHOTS [PROGRAM]     pictures of the screens go into the folder SHOTS
"""
import os
import re
from contextlib import closing

from due import DOCS, FIELDS, hits, rows_of, touches
from frame import as_before, fits, given, in_colours, slow, small_window, window
from office import ELLIS, LEAD, TOP, Office
from person import check, finish, nameless

CALLS = {1: "Redact", 2: "Produce", 3: "Withhold-AC", 4: "Produce", 5: "Redact", 7: "Produce", 8: "Produce", 10: "Redact"}
LONG = 400  # seconds that a range may take over the stand-in, whose search is a plain model's
PRODUCED = {7: "S-1", 8: "S-1"}
# document, page: boxes; on document 1 and 5 over the word of one hit, of document 10 over half of a hit of two words
BOXED = [("doctor", 1), ("doctor", 5), ("###-####", 5), ("wharf", 5)]
HELD = [(5, "AUTHOR"), (5, "TITLE")]
OFFICE_FILE = "\ufeff; the office's own\r\nwharf\r\n\r\n-- people\r\n  Dunleavy \r\nhelen ng\r\ncoffee\r\n"


def phrases_of(text):
    lines = [line.strip() for line in text.lstrip("\ufeff").splitlines()]
    return [line for line in lines if line and not line.startswith(("--", ";"))]


def screens_due():
    screens = {}
    for name in ("counsel", "health", "figures"):
        with open(os.path.join(TOP, "desk_page", "page", "screens", name + ".txt"), encoding="utf-8") as file:
            screens[name] = phrases_of(file.read())
    return dict(screens, office=phrases_of(OFFICE_FILE))


def write(office, name, text):
    with open(os.path.join(office.folder, "page", "screens", name), "w", encoding="utf-8", newline="") as file:
        file.write(text)


def decide(office):
    """Decisions, boxes and held fields; the boxes as (document, page, rectangle)."""
    post = lambda key, path, members: office.ask(key, "POST", path, members)
    for number, treatment in CALLS.items():
        post(ELLIS, f"/docs/{number}/call", dict(responsive=number != 2, treatment=treatment, designation=""))
    boxes = []
    for phrase, number in BOXED:
        boxes += [(number, hit[1], rows_of(hit)[0]) for hit in hits(phrase) if hit[0] == number and hit[1]]
    half = next(hit for hit in hits("helen ng") if hit[0] == 10)
    boxes.append((10, half[1], DOCS[9][1][half[1] - 1][half[3] - 1][1]))
    for num, (number, page, (left, top, width, height)) in enumerate(boxes, 1):
        post(ELLIS, f"/docs/{number}/box", dict(num=num, page=page, left=left, top=top, width=width, height=height, basis="PI"))
    for number, field in HELD:
        post(ELLIS, f"/docs/{number}/hold", dict(field=field, basis="PI"))
    request = dict(id="S-1", volume="S1", prefix="S", width=4, fields=[])
    post(LEAD, "/productions", {**request, "from": 7, "to": 8})
    return boxes


def is_open(hit, boxes):
    """Whether a hit of a redacted document stands beside its boxes, or in a field that isn't held back."""
    number, page, field, place, count = hit
    if page == 0:
        return (number, FIELDS[field - 1]) not in HELD
    own = [box for of, at, box in boxes if (of, at) == (number, page)]
    words = DOCS[number - 1][1][page - 1][place - 1 : place - 1 + count]
    return not all(any(touches(box, word) for box in own) for _, word, _ in words)


def rows_due(boxes, first=1, last=12, names=("counsel", "health", "figures", "office")):
    """Screen, phrase, document, page, field, how it is called, and how often; how many hits there are; which documents are hit."""
    found, count, hit_docs = {}, 0, set()
    for screen in names:
        for phrase in screens_due()[screen]:
            for hit in hits(phrase):
                number = hit[0]
                if not first <= number <= last:
                    continue
                count += 1
                hit_docs.add(number)
                called = CALLS.get(number, "not called")
                if called.startswith("Withhold") or (called == "Redact" and not is_open(hit, boxes)):
                    continue
                key = (number, hit[1], FIELDS[hit[2] - 1] if hit[2] else "", phrase, screen, called)
                found[key] = found.get(key, 0) + 1
    return sorted((*key, times) for key, times in found.items()), count, hit_docs


ROW = re.compile(r"Open document (\d+)(?:, page (\d+))? (?:in its (\w+), )?“(.+)”(?:, (\d+) times)? \((\w+)\): (Produce|Redact|not called)(.*)")


def rows_shown(person):
    rows = []
    for text in person.js("Array.from(document.querySelectorAll('#screened li'), (it) => it.textContent)"):
        number, page, field, phrase, times, screen, called, rest = ROW.fullmatch(text).groups()
        rows.append((int(number), int(page or 0), field or "", phrase, screen, called, int(times or 1), rest))
    return rows


def press_button(person, text):
    person.js(f"[...document.querySelectorAll('#screens button')].find((it) => it.textContent.startsWith({text!r})).focus()")
    person.key("Enter")


def open_screens(person):
    person.js("[...document.querySelectorAll('#doors button')].find((it) => it.textContent === 'Screens').focus()")
    person.key("Enter")
    person.until("document.getElementById('screens').open")


def try_checking(person, boxes, shots):
    open_screens(person)
    person.until("document.querySelectorAll('#screens [name=screen]').length === 4")
    offered = person.js("Array.from(document.querySelectorAll('#screens fieldset label'), (it) => it.textContent.trim())")
    due = [f"{name} ({len(phrases)} phrases)" for name, phrases in screens_due().items()]
    check("the files that list.txt names are offered, with how many phrases each has", offered == due, offered)
    rows, count, docs = rows_due(boxes)
    listed = {row[0] for row in rows}
    withheld = [number for number in docs if CALLS.get(number, "").startswith("Withhold")]
    covered = [number for number in docs if CALLS.get(number) == "Redact" and number not in listed]
    words = (f"Documents 1 to 12: {count} hits. {len(listed)} documents are listed. "
             f"Hit and not listed: {len(withheld)} withheld, {len(covered)} with a box on each hit.")
    person.says("a range is checked", lambda: press_button(person, "Check the range"), words, "screens_told", LONG)
    shown = rows_shown(person)
    check("listed is what goes out as it stands, each page with its phrase", sorted(row[:7] for row in shown) == rows, (shown, rows))
    check("in the order of documents and pages", [row[:2] for row in shown] == sorted(row[:2] for row in shown))
    due = {"Produce": "", "Redact": ", without a box on it", "not called": ""}
    rest = lambda row: ((", not held back" if not row[1] and row[5] == "Redact" else due[row[5]])
                        + (", not responsive" if row[0] == 2 else "") + (f", stands in {PRODUCED[row[0]]}" if row[0] in PRODUCED else ""))
    check("with what stands of it", all(row[7] == rest(row) for row in shown), [row for row in shown if row[7] != rest(row)])
    check("half of a hit that is covered isn't enough", any(row[0] == 10 and row[3] == "helen ng" for row in shown))
    check("a hit whose words are all covered isn't listed", not any(row[0] == 5 and row[3] == "doctor" for row in shown))
    check("nor one in a field that is held back", not any(row[0] == 5 and row[2] == "AUTHOR" for row in shown))
    check("but one in a field that goes out", any(row[2] == "TITLE" for row in shown))
    person.shot(os.path.join(shots, "screens.png"))
    return shown


SAVED = """(() => {
  const whole = URL.createObjectURL
  URL.createObjectURL = (blob) => { blob.text().then((text) => { window.saved = text }); return whole.call(URL, blob) }
})()"""


def try_list(person, shown):
    """The list is saved, a row opened by keys; and the list still stands afterwards."""
    person.js(SAVED)
    press_button(person, "Save the list")
    person.until("window.saved !== undefined")
    lines = person.js("window.saved").split("\n")
    check("the list is saved as a text", lines[0] == "Documents 1 to 12, screens counsel, health, figures, office" and lines[-1] == "" and
          lines[1].split("\t") == "document page field called responsive production phrase hits screen".split(), lines[:3])
    cells = [line.split("\t") for line in lines[2:-1]]
    saved = [(int(row[0]), int(row[1] or 0), row[2], row[6], row[8], row[3], int(row[7])) for row in cells]
    check("with each row", saved == [row[:7] for row in shown], saved)
    check("and which production a document stands in", all(row[5] == PRODUCED.get(int(row[0]), "") for row in cells))
    person.tab_to("#screened button")
    person.key("Enter")
    person.title(shown[0][0])
    check("a row is opened at its page", not person.js("document.getElementById('screens').open") and
          person.text("place").startswith(f"page {shown[0][1] or 1} of"), person.text("place"))
    person.key("q")
    check("its phrase stands ready to be redacted", person.js("document.activeElement.value") == shown[0][3])
    person.key("Escape")
    person.js("[...document.querySelectorAll('#redact button')].find((it) => it.textContent === 'Close').click()")
    open_screens(person)
    check("the list still stands", [row[:7] for row in rows_shown(person)] == [row[:7] for row in shown])


def set_range(person, first, last):
    for name, value in (("from", first), ("to", last)):
        person.js(f"document.querySelector('#screens [name={name}]').value = {str(value)!r}")


def try_range(person, boxes):
    set_range(person, 4, 6)
    for name in ("counsel", "health", "figures"):
        person.js(f"document.querySelector('#screens [value={name}]').click()")
    rows, count, _ = rows_due(boxes, 4, 6, ["office"])
    person.says("a part of the range, by one screen", lambda: press_button(person, "Check the range"), f"Documents 4 to 6: {count} hits.", "screens_told", LONG)
    check("lists that part alone", sorted(row[:7] for row in rows_shown(person)) == rows, rows_shown(person))
    for first, last in ((0, 3), (5, 4), (1, 13), ("x", 2)):
        set_range(person, first, last)
        person.says(f"{first} to {last} is no range", lambda: press_button(person, "Check the range"), "are numbers of documents, 1 to 12", "screens_told")
    set_range(person, 1, 12)
    person.js("document.querySelector('#screens [value=office]').click()")
    person.says("without a screen nothing is looked for", lambda: press_button(person, "Check the range"), "Choose a screen first", "screens_told")
    for name in ("counsel", "health", "figures", "office"):
        person.js(f"document.querySelector('#screens [value={name}]').click()")
    slow(person, 300)
    person.does(lambda: press_button(person, "Check the range"), "phrases. Escape or Stop stops.", "screens_told")
    person.says("Escape stops it", lambda: person.key("Escape"), "Stopped: nothing is listed.", "screens_told")
    check("and leaves the dialog", person.js("document.getElementById('screens').open") and rows_shown(person) == [])
    as_before(person)
    person.key("Escape")
    person.until("!document.getElementById('screens').open")


def try_files(person, office):
    """A list that names what can't be, and a file that isn't there."""
    write(office, "list.txt", "../index.html\n")
    person.says("a name that is none of a screen is told", lambda: open_screens(person), "screens/list.txt names ../index.html", "screens_told")
    person.key("Escape")
    write(office, "list.txt", "none.txt\n")
    person.says("a file that isn't there, too", lambda: open_screens(person), "The file screens/none.txt can’t be had (404).", "screens_told")
    person.key("Escape")
    write(office, "list.txt", "counsel.txt\nlong.txt\n")
    write(office, "long.txt", "; a phrase\none\na b c d e f g h i\n")
    person.says("and a line that no desk would take", lambda: open_screens(person), "screens/long.txt, line 3 has more than 8 words", "screens_told")
    person.key("Escape")
    write(office, "list.txt", "counsel.txt\nhealth.txt\nfigures.txt\noffice.txt\n")


def try_small(office, shots):
    with small_window(office, ELLIS) as person:
        open_screens(person)
        person.until("document.querySelectorAll('#screens [name=screen]').length === 4")
        person.does(lambda: press_button(person, "Check the range"), "documents are listed", "screens_told", LONG)
        check("at 800 by 600 the dialog fits", fits(person, "screens"))
        person.shot(os.path.join(shots, "800x600-screens.png"))
        for name in in_colours(person, "dark", "forced"):
            person.shot(os.path.join(shots, f"screens-{name}.png"))


def main():
    scratch, shots, program = given()
    with closing(Office(scratch, program)) as office:
        boxes = decide(office)
        write(office, "office.txt", OFFICE_FILE)
        with open(os.path.join(office.folder, "page", "screens", "list.txt"), "a", encoding="utf-8") as file:
            file.write("; the office's own\noffice.txt\n")
        with window(office, ELLIS) as ellis:
            shown = try_checking(ellis, boxes, shots)
            check("every control of the dialog has a name", nameless(ellis) == [], nameless(ellis))
            try_list(ellis, shown)
            try_range(ellis, boxes)
            try_files(ellis, office)
        try_small(office, shots)
    finish("screens")


main()
