"""By keys alone: words are found, gone through and listed; boxes are proposed for terms, taken, put and dropped again; screens are
looked for in a range."""
import json
import os
from contextlib import closing

import batch
from by_keys import Hands
from due import hits, rectangles
from frame import as_before, slow, window
from keyboard_list import call, listed, sign_in, told
from office import ELLIS, HERE, Office
from person import check, read_saved

WORDS, TERM, IN_FIELD = "building 4", "helen ng", "keep back"
FOUND = batch.hits(*WORDS.split())
DOCUMENTS = sorted({hit[0] for hit in FOUND})
SCREENS = ("counsel", "health", "figures")
LONG = 400  # seconds that a range may take over the stand-in


# ---- find


def find(person, words):
    person.fill("Words to find", words)
    person.key("Enter")
    person.until("document.getElementById('find_told').textContent.match(/^[0-9,]+ hits? in [0-9,]+ documents?[.]$/) !== null")


def try_find(person, office):
    person.open(1)
    person.key("/")
    person.has_focus("/ goes to the words", "Words to find")
    find(person, WORDS)
    due = f"{len(FOUND)} hits in {len(DOCUMENTS)} documents."
    check("words are found", person.text("find_told") == due, (person.text("find_told"), due))
    person.has_focus("and the hits have the focus", "Hits")
    person.rest()
    person.state("find", looks=True)
    person.around("the panel of a search")
    person.reach("Hits")
    person.does(lambda: person.key("ArrowDown"), f"Hit 1 of {len(FOUND)}: ")
    person.does(lambda: person.key("ArrowDown"), f"Hit 2 of {len(FOUND)}: ")
    person.does(lambda: person.key("ArrowUp"), f"Hit 1 of {len(FOUND)}: ")
    check("arrows go through them", person.is_at("Hits"), person.focused())
    person.key("Escape")
    for key, at in ((".", 2), (".", 3), (".", 4), (",", 3)):
        person.does(lambda: person.key(key), f"Hit {at} of {len(FOUND)}: ")
    place = (person.text("title"), person.text("place").split(" of ")[0])
    due = (f"Document {FOUND[2][0]}", f"page {FOUND[2][1]}")
    check(". goes to the next one, also on another page, and , back", place == due, place)
    person.state("find-hit")
    try_found_list(person)
    try_link(person, office)
    person.end_part("find")


def try_found_list(person):
    person.key("/")
    person.push(f"List {len(DOCUMENTS)} documents")
    check("the documents that were found are listed", listed(person) == DOCUMENTS, listed(person))
    person.see("the list of what was found")
    person.has_focus("and their list has the focus", "Documents")
    person.state("found-list")
    person.key("f")
    person.tick("found only", False)
    check("and all are again", listed(person) == list(range(1, 13)), listed(person))
    person.push("Find /")
    person.push("Find")
    person.until("document.getElementById('stop_find').disabled")
    person.push("Clear")
    check("a search is cleared", person.text("find_told") == "", person.text("find_told"))
    person.has_focus("and other words may be typed", "Words to find")
    person.push("Documents")
    person.see("the list again")
    person.has_focus("the list has the focus in the place of the panel", "Documents")


def try_link(person, office):
    words = "lease of"
    found = batch.hits(*words.split())
    person.go("about:blank")
    person.go(office.url + "#4/1?find=" + words.replace(" ", "+"))
    sign_in(person, ELLIS)
    due = f"{len(found)} hits in {len({hit[0] for hit in found})} documents."
    person.until(f"document.getElementById('find_told').textContent === {json.dumps(due)}")
    link = (person.text("title"), person.js("location.hash"))
    check("a link to a search is followed", link == ("Document 4", "#4/1?find=lease+of"), link)
    person.push("Clear")
    person.key("Escape")


def try_stop(scratch, shots):
    """A search of 1,200 documents, by the stand-in."""
    os.mkdir(folder := os.path.join(scratch, "large"))
    with closing(Office(folder, copies=100)) as office, window(office, kind=Hands, shots=shots) as person:
        person.go(office.url)
        sign_in(person, ELLIS)
        person.rest()
        slow(person, 1500)
        person.key("/")
        person.fill("Words to find", "roof")
        person.key("Enter")
        person.until("!document.getElementById('stop_find').disabled && document.querySelectorAll('#hits_tall .row').length > 3")
        person.state("find-under-way")
        person.says("a search is stopped by its button", lambda: person.push("Stop"), "Stopped: ")
        as_before(person)
        person.end_part("a search that is stopped")
        return person.met, person.used


# ---- redact by term


def boxes_of(office, number):
    return [(box["page"], box["basis"]) for box in told(office, number)["boxes"]]


def try_terms(person, office):
    for number in (1, 9, 10):
        call(office, ELLIS, number, "Redact")
    due = rectangles([TERM])
    person.open(1)
    person.key("q")
    person.has_focus("Q opens the panel", "Phrases, with ; between them")
    person.fill("Phrases, with ; between them", f"{TERM}; {IN_FIELD}")
    person.pick("in", "all documents")
    person.does(lambda: person.push("Propose"), " proposed in ")
    person.pick("Basis of all", "PI")
    person.state("redact-proposed", looks=True)
    person.around("the panel of terms")
    try_field_hits(person)
    person.fill("Phrases, with ; between them", TERM)
    docs = sorted({doc for doc, _, _ in due})
    proposed = f"{len(due)} boxes proposed in {len(docs)} documents"
    person.says("boxes are proposed in all documents", lambda: person.push("Propose"), proposed)
    taken = lambda: int(person.js("[...document.querySelectorAll('#redact button')].map((it) => it.textContent)"
                                  ".find((text) => text.startsWith('Put')).split(' ')[1]"))
    try_taking(person, len(due), taken)
    person.says("what would be put is asked first", lambda: person.push("Put .."), "Press Put again.")
    person.state("redact-asked")
    before = {number: boxes_of(office, number) for number in docs}
    open_docs = [number for number in docs if told(office, number)["treatment"] == "Redact"]
    count = len([it for it in due if it[0] in open_docs])
    person.says("and put at the second press", lambda: person.push("Put .."), f"{count} boxes put, {len(due) - count} refused.")
    put = {number: sorted(boxes_of(office, number)) for number in open_docs}
    wanted = {number: sorted(before[number] + [(page, "PI") for doc, page, _ in due if doc == number]) for number in open_docs}
    check("at the desk too", put == wanted, (put, wanted))
    person.state("redact-put")
    try_refused(person, docs, open_docs)
    person.does(lambda: person.push("Undo: drop what was put last"), "Press Undo again.")
    person.says("and dropped again", lambda: person.push("Undo: drop what was put last"), f"{count} boxes of {count} dropped.")
    check("at the desk too", {number: boxes_of(office, number) for number in docs} == before, before)
    try_stop_and_close(person)
    person.end_part("redact by term")


def try_field_hits(person):
    """Of a hit in a field the document is opened, to hold it back there."""
    person.until("document.getElementById('redact_values').textContent.includes('TITLE')")
    person.push("Open document 3")
    person.title(3)
    check("a hit in a field: its document is opened", True)


def try_taking(person, count, taken):
    person.open(1)
    for key in (".", ".", ","):
        person.does(lambda: person.key(key), f"of {count}: “")
        check(f"{key} goes to a proposed box, whose choice has the focus", person.focused()[0] == "checkbox", person.focused())
    person.key(" ")
    check("Space leaves it", taken() == count - 1, taken())
    person.key(" ")
    check("and takes it", taken() == count, taken())
    for name in ("Next proposed box", "Proposed box before"):
        person.does(lambda: person.push(name), f"of {count}: “")
    for name, rest in (("all ..", 0), ("document ..", None), ("page ..", None), ("“..", None)):
        person.reach(name)
        person.key(" ")
        check(f"{name} leaves some at once", taken() < count and rest in (None, taken()), taken())
        person.key(" ")
        check("and takes them", taken() == count, taken())
    person.does(lambda: person.push("Show “.."), "Space takes or leaves it.")
    person.does(lambda: person.push("Open page .."), "Space takes or leaves it.")
    check("another page is opened", person.text("place") != "page 1 of 3", person.text("place"))
    person.does(lambda: person.push("Open document .."), "Space takes or leaves it.")
    check("and another document at its first proposed box", person.text("title") != "Document 1", person.text("title"))


def try_refused(person, docs, open_docs):
    """Documents that aren't called Redact are listed, and opened."""
    number = next(doc for doc in docs if doc not in open_docs)
    person.push(f"Open document {number}, page ..")
    person.title(number)
    check("what was refused is opened", True)


def try_stop_and_close(person):
    person.open(1)
    person.key("q")
    person.fill("Phrases, with ; between them", f"{TERM}; {IN_FIELD}; {WORDS}")
    person.pick("in", "this document")
    slow(person, 3000)
    person.push("Propose")
    person.says("a search for boxes is stopped", lambda: person.push("Stop"), "Stopped: nothing is proposed.")
    as_before(person)
    person.does(lambda: person.push("Close Redact by term"), "No box is proposed any more.")
    person.has_focus("closed, the page has the focus again", "The page")
    person.push("Redact by term")
    person.has_focus("a button opens it, too", "Phrases, with ; between them")
    person.does(lambda: person.push("Close Redact by term"), "No box is proposed any more.")
    person.has_focus("and has the focus again", "Redact by term")


# ---- screens


def try_screens(person, office):
    person.push("Screens")
    person.until("document.querySelectorAll('#screens [name=screen]').length === 3")
    person.state("dialog-screens", looks=True)
    person.around("the dialog of screens")
    person.fill("From document", "1")
    person.fill("To document", "6")
    for name in ("health", "figures"):
        person.tick(f"{name} ..", False)
    person.says("a range is checked", lambda: person.push("Check the range"), "Documents 1 to 6: ", "screens_told", LONG)
    goes_out = [number for number in range(1, 7) if not told(office, number)["treatment"].startswith("Withhold")]
    found = sorted({hit[0] for phrase in phrases_of("counsel") for hit in hits(phrase)} & set(goes_out))
    rows = person.js("Array.from(document.querySelectorAll('#screened li'), (it) => Number(it.textContent.split(/[ ,]/)[2]))")
    check("what it hits is listed", sorted(set(rows)) == found and rows == sorted(rows), (rows, found))
    person.state("dialog-screens-listed", looks=True)
    person.save_into(into := os.path.join(office.folder, "saved"))
    person.push("Save the list")
    saved = read_saved(os.path.join(into, "screens-1-6.txt")).decode()
    check("and saved", saved.split("\n")[0] == "Documents 1 to 6, screens counsel", saved[:80])
    person.push("Open document ..")
    person.title(rows[0])
    person.has_focus("a row is opened, and the page has the focus", "The page")
    person.push("Screens")
    person.until("document.getElementById('screens').open && document.querySelectorAll('#screens [name=screen]').length === 3")
    for name in SCREENS:
        person.tick(f"{name} ..")
    slow(person, 3000)
    person.push("Check the range")
    person.says("a check is stopped", lambda: person.push("Stop"), "Stopped: nothing is listed.", "screens_told")
    as_before(person)
    person.push("Close")
    person.until("!document.getElementById('screens').open")
    person.has_focus("the focus comes back to the button", "Screens")
    person.end_part("screens")


def phrases_of(name):
    with open(os.path.join(HERE, "..", "page", "screens", f"{name}.txt"), encoding="utf-8") as file:
        lines = [line.strip() for line in file]
    return [line for line in lines if line and not line.startswith(("--", ";"))]
