#!/usr/bin/env python3
"""Redact by term in a headless Chromium: what is proposed for a search, taken and left, what is said before boxes are put, the run with
its refusals and its stop, Undo; and boxes of words that are chosen by the mouse or by keys. What is due comes from the batch's files
and the model of the search. Over the program, where it is given, else over the stand-in.

    redact.py SCRATCH SHOTS [PROGRAM]     pictures of the screens go into the folder SHOTS
"""
import json
import os
import urllib.request
from contextlib import closing

from due import DOCS, fits, hits, is_covered, rectangles, rows_of, touches
from frame import as_before, cut_off, given, in_colours, slow, small_window, window
from office import ELLIS, LEAD, MARLOW, Office
from person import SHIFT, check, finish, nameless

PHRASES = ["helen ng", "lawyer*", "hold back", "###-####"]
REDACT = dict(responsive=True, treatment="Redact", designation="")
CLERK = "the key of Osei"


def told(office, number):
    """What the desk tells of a document."""
    return office.ask(LEAD, "GET", f"/docs/{number}")


def boxes_of(doc, page=None):
    return [(box["left"], box["top"], box["width"], box["height"]) for box in doc["boxes"] if page in (None, box["page"])]


def call(office, number, treatment):
    office.ask(ELLIS, "POST", f"/docs/{number}/call", dict(REDACT, treatment=treatment))


def proposed(person):
    """The boxes that are drawn as proposed: left, top, width, height, whether one is taken."""
    rows = person.js("Array.from(document.querySelectorAll('#over .proposed'), (it) => [...['x', 'y', 'width', 'height']"
                     ".map((name) => Number(it.getAttribute(name))), it.classList.contains('taken')])")
    return sorted((tuple(row[:4]), row[4]) for row in rows)


def boxes_text(count):
    return f"{count} box{'' if count == 1 else 'es'}"


def press_button(person, text):
    """Enter on a button of the panel, which Tab reaches."""
    person.js(f"[...document.querySelectorAll('#redact button')].find((it) => it.textContent.startsWith({text!r})).focus()")
    person.key("Enter")


def look_for(person, phrases, scope, words="proposed in"):
    person.key("q")
    person.until("document.activeElement.name === 'phrases'")
    person.key("Delete")
    person.type("; ".join(phrases))
    person.js(f"document.querySelector('#redact [name=scope]').value = {scope!r}")
    person.does(lambda: person.key("Enter"), words)
    person.key("Escape")


def choose_basis(person, basis):
    person.choose("#redact [name=basis]", basis)


# ---- what is proposed


def try_proposing(person, office, shots):
    for number, treatment in ((1, "Redact"), (2, "Produce"), (3, "Withhold-AC"), (5, "Redact"), (9, "Redact"), (10, "Redact")):
        call(office, number, treatment)
    # one of the hits is covered before
    hit = hits("lawyer*")[-1]
    left, top, width, height = rows_of(hit)[0]
    office.ask(ELLIS, "POST", f"/docs/{hit[0]}/box", dict(num=1, page=hit[1], left=left + 2, top=top + 2, width=4, height=4, basis="AC"))
    person.open(1)
    person.says("a search of nothing is told", lambda: (person.key("q"), person.key("Enter")), "Type what to look for first")
    person.says("a phrase that no desk takes, too", lambda: (person.type("a b c d e f g h i"), person.key("Enter")), "more than 8 words")
    person.key("Escape")
    due = [it for it in rectangles(PHRASES) if it != (hit[0], hit[1], rows_of(hit)[0])]
    docs = {doc for doc, _, _ in due}
    person.does(lambda: look_for(person, PHRASES, "all"), f"{boxes_text(len(due))} proposed in {len(docs)} documents; 1 hit is covered already")
    check("as many as the model finds, but what a box covers already", True)
    for doc, page in sorted({(doc, page) for doc, page, _ in due}):
        person.go_to(doc, page)
        rows = [row for of, at, row in due if (of, at) == (doc, page)]
        shown = proposed(person)
        fit = len(shown) == len(rows) and all(sum(fits(box, row, doc, page) for box, _ in shown) == 1 for row in rows)
        check(f"document {doc}, page {page}: a box around each, some pixels wider and over no other word",
              fit and all(taken for _, taken in shown), (shown, rows))
    lines = [hit for hit in hits("hold back") if len(rows_of(hit)) == 2]
    check("words on two lines have two", len(lines) == 1 and sum(row in rows_of(lines[0]) for _, _, row in due) == 2, lines)
    person.shot(os.path.join(shots, "proposed.png"))
    return due


def try_one_document(person, office):
    """This document alone; and hits in values, which no box covers."""
    person.open(3)
    due = rectangles(["keep back"], doc=3)
    person.says("in one document alone", lambda: look_for(person, ["keep back"], "one"),
                f"{boxes_text(len(due))} proposed in 1 document. 1 hit stands in a field: hold it back there.")
    person.until("document.getElementById('redact_values').textContent.includes('TITLE')")
    check("the field is named", "Open document 3 “keep back” in field 7, TITLE" in person.text("redact_values"), person.text("redact_values"))
    press_button(person, "Close")
    check("Close takes them away", person.js("document.getElementById('redact').hidden") and proposed(person) == [])


def try_from_search(person):
    """What was searched for stands ready, and `.` goes through proposed boxes as long as they are there."""
    person.key("/")
    person.until("document.activeElement.name === 'words'")
    person.type("lawyer*")
    person.does(lambda: person.key("Enter"), "3 hits in 3 documents.")
    person.key("q")
    person.until("document.activeElement.name === 'phrases'")
    check("the phrase that was searched for stands ready", person.js("document.activeElement.value") == "lawyer*")
    person.key("Escape")
    press_button(person, "Close")
    person.says("and `.` is the search's again", lambda: person.key("."), "Hit 1 of 3")
    person.click("#clear_find")
    person.click("#close_finder")


def try_basis(person):
    """The panel begins with the basis of single boxes; what was chosen in it stays until that one is changed."""
    def shown():
        person.key("q")
        person.until("document.activeElement.name === 'phrases'")
        person.key("Escape")
        return person.js("document.querySelector('#redact [name=basis]').value")

    person.open(1)
    person.key("3")
    check("the basis of single boxes is chosen at first", shown() == "PI")
    choose_basis(person, "TS")
    press_button(person, "Close")
    check("another that was chosen there stays", shown() == "TS")
    press_button(person, "Close")
    person.key("2")
    check("until single boxes have another", shown() == "WP")
    look_for(person, ["helen ng"], "one")
    person.key("1")
    check("which changes none that are proposed", shown() == "WP")
    press_button(person, "Close")


# ---- taken or left


def label(person, text):
    """The first choice whose text begins so: whether it is checked, or only in part."""
    return person.js("(() => { const it = [...document.querySelectorAll('#redact label')].find((it) => it.textContent.trim()"
                     f".startsWith({text!r})).firstElementChild; return it.indeterminate ? 'part' : it.checked }})()")


def toggle(person, text):
    person.js("[...document.querySelectorAll('#redact label')].find((it) => it.textContent.trim()"
              f".startsWith({text!r})).firstElementChild.focus()")
    person.key(" ")


def count_taken(person):
    text = person.js("[...document.querySelectorAll('#redact button')].find((it) => it.textContent.startsWith('Put')).textContent")
    return int(text.split()[1].replace(",", ""))


def try_taking(person, due):
    person.open(1)
    look_for(person, PHRASES, "all")
    count = len(due)
    check("all are taken at first", count_taken(person) == count and label(person, "all ") is True)
    person.says("`.` goes to the first", lambda: person.key("."), f"Proposed box 1 of {count}: “Helen Ng”. Space takes or leaves it.")
    person.key(" ")
    check("Space leaves it", count_taken(person) == count - 1 and [taken for _, taken in proposed(person)].count(False) == 1, proposed(person))
    check("which the page and the document show in part", (label(person, "page 1"), label(person, "document 1"), label(person, "all ")) == ("part",) * 3)
    person.key(" ")
    check("and takes it again", count_taken(person) == count)
    person.key("ArrowRight")  # of the focus on a choice
    person.says("`,` goes to the last, on another document", lambda: person.key(","), f"Proposed box {count} of {count}")
    check("which is opened", person.text("title") == f"Document {due[-1][0]}", person.text("title"))
    person.open(1)
    on_page = len([it for it in due if it[:2] == (1, 1)])
    toggle(person, "page 1")
    check("a page is left at once", count_taken(person) == count - on_page and not any(taken for _, taken in proposed(person)))
    toggle(person, "all ")
    check("all are taken at once", count_taken(person) == count)
    toggle(person, "all ")
    check("and left", count_taken(person) == 0 and person.js("[...document.querySelectorAll('#redact button')]"
                                                             ".find((it) => it.textContent.startsWith('Put')).disabled"))
    toggle(person, "document 10")
    check("a document too", count_taken(person) == len([it for it in due if it[0] == 10]), count_taken(person))
    toggle(person, "all ")
    person.turn(2, 3)
    box = proposed(person)[0][0]
    person.js("document.getElementById('sheet').scrollTo(0, 0)")
    person.size("page")
    person.press_at(person.at(box[0] + box[2] / 2, box[1] + box[3] / 2))
    check("a click on one leaves it", count_taken(person) == count - 1 and (box, False) in proposed(person), proposed(person))
    person.press_at(person.at(box[0] + box[2] / 2, box[1] + box[3] / 2))
    check("and takes it", count_taken(person) == count)
    person.key("Escape")
    person.key("0")


# ---- put


def try_putting(person, office, due, shots):
    """Documents 2 and 3 are called otherwise and 4 isn't called; 9 is confirmed; 10 is changed by another before its boxes are put."""
    office.ask(ELLIS, "POST", "/docs/9/hold", dict(field="AUTHOR", basis="PI"))
    office.ask(MARLOW, "POST", "/docs/9/confirm", {})
    person.open(1)
    look_for(person, PHRASES, "all")
    choose_basis(person, "PI")
    redacted = [it for it in due if it[0] in (1, 5, 9, 10)]
    others = sorted({doc for doc, _, _ in due} - {1, 5, 9, 10})
    before = [told(office, number) for number in range(1, 13)]
    ask = (f"Put {boxes_text(len(redacted))} for PI in 4 documents? Not called Redact, so that no box goes into them: "
           f"{', '.join(map(str, others))}. A confirmation would be undone: 9. Press Put again.")
    person.says("what would be put, and where nothing can be", lambda: press_button(person, "Put"), ask)
    person.shot(os.path.join(shots, "redact-asked.png"))
    check("nothing was put yet", [told(office, number) for number in range(1, 13)] == before)
    choose_basis(person, "TS")
    person.says("another basis is asked for anew", lambda: press_button(person, "Put"), ask.replace("PI", "TS"))
    choose_basis(person, "PI")
    person.does(lambda: press_button(person, "Put"), ask)
    office.ask(MARLOW, "POST", "/docs/10/box", dict(num=2, page=4, left=100, top=100, width=50, height=50, basis="WP"))
    made = [it for it in redacted if it[0] != 10]
    person.says("what was put and refused", lambda: press_button(person, "Put"),
                f"{boxes_text(len(made))} put, {len(due) - len(made)} refused. Undo drops them.")
    refused = person.text("redact_refused")
    check("a document that was changed meanwhile is left, and why is told",
          "Document 10 was changed since you looked, last by" in refused and boxes_of(told(office, 10), 2) == [], refused)
    pages = sorted({(doc, page) for doc, page, _ in due if doc in others})
    check("each page of what isn't called Redact is listed", all(f"Open document {doc}, page {page}" in refused for doc, page in pages)
          and refused.count("isn’t called Redact.") == len(pages), refused)
    for number in (1, 5, 9):
        doc = told(office, number)
        rows = [it for it in due if it[0] == number]
        fit = len(doc["boxes"]) == len(rows) and all(
            any(fits((box["left"], box["top"], box["width"], box["height"]), row, number, page) and box["page"] == page
                for box in doc["boxes"]) for _, page, row in rows)
        check(f"document {number} has its boxes, for PI, by the numbers that were free", fit and {box["basis"] for box in doc["boxes"]} == {"PI"}
              and [box["num"] for box in doc["boxes"]] == list(range(1, len(rows) + 1)), doc["boxes"])
        covered = all(is_covered(hit, boxes_of(doc, hit[1])) for phrase in PHRASES for hit in hits(phrase) if hit[0] == number and hit[1])
        check("which cover each word of each hit", covered)
    check("the confirmation is undone", told(office, 9)["confirmer"] == 0)
    check("and the others are as they were", [told(office, number) for number in others] == [before[number - 1] for number in others])
    person.shot(os.path.join(shots, "redact-put.png"))
    person.js("document.querySelector('#redact_refused button').click()")
    person.title(pages[0][0])
    check("a refused one is opened at its page", person.text("place").startswith(f"page {pages[0][1]} of"), person.text("place"))
    return made


def try_undo(person, office, made):
    """One box was dropped meanwhile, one moved, and document 9 confirmed."""
    boxes = told(office, 1)["boxes"]
    office.ask(ELLIS, "POST", "/docs/1/unbox", dict(num=1))
    office.ask(ELLIS, "POST", "/docs/1/box", dict(boxes[1], left=0, top=0))
    office.ask(ELLIS, "POST", "/docs/1/box", dict(boxes[2], num=50, left=0, top=200))
    office.ask(MARLOW, "POST", "/docs/9/confirm", {})
    before = told(office, 9)
    person.says("Undo asks first", lambda: press_button(person, "Undo"), f"Drop the {boxes_text(len(made))} that were put in 3 documents? Press Undo again.")
    kept = 2 + len([it for it in made if it[0] == 9])
    person.says("and tells what it couldn't drop", lambda: press_button(person, "Undo"),
                f"{boxes_text(len(made) - kept)} of {len(made)} dropped, {kept} not.")
    refused = person.text("redact_refused")
    check("and why", "Box 1 doesn’t stand any more." in refused and "Box 2 isn’t as it was put." in refused and "It was confirmed since" in refused, refused)
    check("what was put otherwise stands", [box["num"] for box in told(office, 1)["boxes"]] == [2, 50], told(office, 1)["boxes"])
    check("the others are gone", told(office, 5)["boxes"] == [] and told(office, 9) == before)
    for num in (2, 50):
        office.ask(ELLIS, "POST", "/docs/1/unbox", dict(num=num))


def try_stops(person, office):
    """Escape stops the search, the looks before, and the run, which tells what it put and drops that again."""
    person.open(1)
    slow(person, 400)
    person.key("q")
    person.does(lambda: person.key("Enter"), "Escape stops.")
    person.key("Escape")  # out of the field
    person.says("a search is stopped", lambda: person.key("Escape"), "Stopped: nothing is proposed.")
    as_before(person)
    look_for(person, ["helen ng"], "one")
    count = count_taken(person)
    press_button(person, "Put")
    person.until("heard.said.at(-1).includes('Press Put again')")
    slow(person, 400)
    person.does(lambda: press_button(person, "Put"), "Put 1 of")
    person.says("a run is stopped", lambda: person.key("Escape"), "Stopped. ")
    as_before(person)
    person.rest()
    stand = len(told(office, 1)["boxes"])
    check("and tells how many it put", f"{boxes_text(stand)} put, 0 refused, {count - stand} not tried." in person.text("said") and 0 < stand < count,
          (person.text("said"), stand, count))
    check("the rest is proposed still", count_taken(person) == count - stand)
    press_button(person, "Undo")
    person.says("Undo drops them", lambda: press_button(person, "Undo"), f"{boxes_text(stand)} of {stand} dropped.")
    check("the document is as before", told(office, 1)["boxes"] == [])
    press_button(person, "Close")


CUT_OFF = """(() => {
  let boxes = 0
  window.whole ??= window.fetch
  window.fetch = (path, request) => path.endsWith('/box') && (boxes += 1) > 1 ? Promise.reject(new TypeError('cut off')) : whole(path, request)
})()"""


def try_cut_off(person, office):
    """A box that no desk answers may stand: the run ends there, and Undo looks for it too."""
    person.open(1)
    look_for(person, ["helen ng"], "one")
    count = count_taken(person)
    person.does(lambda: press_button(person, "Put"), "Press Put again.")
    person.js(CUT_OFF)
    person.says("a run ends where no desk answers", lambda: press_button(person, "Put"), f"1 box put, 1 refused, {count - 2} not tried.")
    check("and says why", "The connection failed." in person.text("redact_refused"), person.text("redact_refused"))
    check("the open document was looked at then, so that what stands of it is known", "It isn’t known" not in person.text("said"), person.text("said"))
    as_before(person)
    person.does(lambda: person.key("l"), "as it stands now")
    person.does(lambda: press_button(person, "Undo"), "Drop the 2 boxes")
    person.says("Undo drops the one that stands", lambda: press_button(person, "Undo"), "1 box of 2 dropped, 1 not.")
    check("and says that the other doesn't", "Box 2 doesn’t stand any more." in person.text("redact_refused") and told(office, 1)["boxes"] == [],
          person.text("redact_refused"))
    press_button(person, "Close")


def at_desk(office, path, members):
    """A call without nginx, which lets 50 a second through."""
    request = urllib.request.Request(f"http://127.0.0.1:{office.ports[0]}{path}", json.dumps(members).encode(), {"Desk-Key": ELLIS}, method="POST")
    urllib.request.urlopen(request, timeout=60).close()


def try_limit(person, office):
    """A document takes boxes 1 to 1,000."""
    number, phrase = 12, "roof"
    due = rectangles([phrase], doc=number)
    call(office, number, "Redact")
    for num in range(1, 1000):
        at_desk(office, f"/docs/{number}/box", dict(num=num, page=3, left=0, top=0, width=1, height=1, basis="PI"))
    person.open(number)
    look_for(person, [phrase], "one", f"{boxes_text(len(due))} proposed")
    person.says("more than 1,000 boxes are told before", lambda: press_button(person, "Put"),
                "More than 1,000 boxes, the last of which can’t be put: 12.")
    person.says("and the last are refused", lambda: press_button(person, "Put"), f"1 box put, {len(due) - 1} refused.")
    check("by the page, in words", "The document has its 1,000 boxes." in person.text("redact_refused"), person.text("redact_refused"))
    press_button(person, "Undo")
    person.does(lambda: press_button(person, "Undo"), "1 box of 1 dropped.")
    press_button(person, "Close")


def try_clerk(office):
    """Who may put none is refused once."""
    office.take_in("Osei", "Clerk", CLERK)
    with window(office, CLERK) as person:
        person.open(1)
        look_for(person, ["helen ng"], "one")
        count = count_taken(person)
        person.does(lambda: press_button(person, "Put"), "Press Put again.")
        person.says("a clerk is refused once, and the rest isn't tried", lambda: press_button(person, "Put"),
                    f"0 boxes put, 1 refused, {count - 1} not tried.")
        check("in words", "Your role may not do this." in person.text("redact_refused"), person.text("redact_refused"))


# ---- words that are chosen


def word(doc, page, text, nth=0):
    """The place of a word of a page, from 0."""
    return [k for k, it in enumerate(DOCS[doc - 1][1][page - 1]) if it[2] == text][nth]


def middle(doc, page, at):
    left, top, width, height = DOCS[doc - 1][1][page - 1][at][1]
    return left + width / 2, top + height / 2


def chosen(person):
    return person.js("Array.from(document.querySelectorAll('#over .chosen'), (it) => ['x', 'y', 'width', 'height']"
                     ".map((name) => Number(it.getAttribute(name))))")


def is_chosen(person, doc, page, first, last):
    return chosen(person) == [list(it[1]) for it in DOCS[doc - 1][1][page - 1][first : last + 1]]


def stand_around(office, doc, page, first, last, boxes):
    """Whether boxes stand around some words, one a line, and touch no other word."""
    rows = rows_of((doc, page, 0, first + 1, last - first + 1))
    return len(boxes) == len(rows) and all(any(fits(box, row, doc, page) for box in boxes) for row in rows)


def try_words(person, office, shots):
    call(office, 7, "Redact")
    person.open(7)
    person.turn(2, 3)
    person.size("page")
    # four words before the end of a line, and as many after it
    words = DOCS[6][1][1]
    split = next(k for k in range(60, len(words)) if words[k][0] != words[k - 1][0] and words[k][0] == words[k + 3][0] and words[k - 1][0] == words[k - 4][0])
    first, last = split - 4, split + 3
    person.key("t")
    person.until("document.querySelectorAll('#over .word').length > 20")
    place = lambda at: person.at(*middle(7, 2, at))
    person.says("a drag over words chooses them", lambda: person.drag(place(first), place(last)), f"{last - first + 1} words are chosen")
    check("from the first to the last, over the end of a line", is_chosen(person, 7, 2, first, last), chosen(person))
    person.shot(os.path.join(shots, "words-chosen.png"))
    person.says("Enter makes boxes of them, one a line", lambda: person.key("Enter"), "Boxes 1, 2 stand.")
    check("around them, and over no other word", stand_around(office, 7, 2, first, last, boxes_of(told(office, 7), 2)), told(office, 7)["boxes"])
    check("for the basis that is set", {box["basis"] for box in told(office, 7)["boxes"]} == {person.js("document.getElementById('basis').value")})
    check("nothing is chosen then", chosen(person) == [])
    for num in (1, 2):
        office.ask(ELLIS, "POST", "/docs/7/unbox", dict(num=num))
    person.does(lambda: person.key("l"), "as it stands now")
    person.says("a click chooses one", lambda: person.press_at(place(first)), "1 word is chosen")
    person.mouse_with_shift(place(last))
    check("and one with Shift all up to it", is_chosen(person, 7, 2, first, last), chosen(person))
    person.key("Escape")
    check("Escape leaves them", chosen(person) == [])
    try_words_by_keys(person, office)
    person.says("beside the words a box is drawn as ever", lambda: person.drag(person.at(40, 40), person.at(140, 90)), "Box 1 stands.")
    person.does(lambda: person.key("e"), "is chosen")
    person.does(lambda: person.key("Delete"), "is dropped")
    person.key("t")
    person.key("0")


def try_words_by_keys(person, office):
    words = DOCS[6][1][1]
    person.says("`;` chooses a word in sight", lambda: person.key(";"), "1 word is chosen")
    at = next(k for k in range(len(words)) if list(words[k][1]) == chosen(person)[0])
    person.key("ArrowRight")
    check("the arrows go to the next word", is_chosen(person, 7, 2, at + 1, at + 1), chosen(person))
    person.key("ArrowLeft")
    person.key("ArrowDown")
    below = next(k for k in range(len(words)) if list(words[k][1]) == chosen(person)[0])
    line = next(words[k][0] for k in range(at, len(words)) if words[k][0] != words[at][0])
    check("and to the next line", words[below][0] == line, (words[at], words[below]))
    person.key("ArrowUp")
    at = next(k for k in range(len(words)) if list(words[k][1]) == chosen(person)[0])
    for _ in range(2):
        person.key("ArrowRight", SHIFT)
    check("Shift and the arrows choose more", is_chosen(person, 7, 2, at, at + 2), chosen(person))
    person.key("4")
    rows = rows_of((7, 2, 0, at + 1, 3))
    person.says("Enter makes boxes", lambda: person.key("Enter"), "Box 1 stands." if len(rows) == 1 else "Boxes 1, 2 stand.")
    check("around the words, for the basis of the key", stand_around(office, 7, 2, at, at + 2, boxes_of(told(office, 7), 2))
          and {box["basis"] for box in told(office, 7)["boxes"]} == {"TS"}, told(office, 7)["boxes"])
    for num in range(1, len(rows) + 1):
        office.ask(ELLIS, "POST", "/docs/7/unbox", dict(num=num))
    person.does(lambda: person.key("l"), "as it stands now")


# ---- edges, colours, sizes


EDGES = """(async () => {
  const { boxesAround, isCovered } = await import('./term_boxes.js')
  const word = (line, left, top, width, height) => ({ line, left, top, width, height, text: 'x' })
  const sides = { width: 100, height: 80 }
  const plain = ({ left, top, width, height }) => [left, top, width, height]
  const around = (chosen, others, page = sides) => boxesAround(chosen, [...chosen, ...others], page).map(plain)
  const corner = word(1, 0, 0, 10, 10), end = word(2, 95, 72, 5, 8), one = word(3, 30, 30, 10, 10), near = word(3, 42, 30, 10, 10)
  return {
    corner: around([corner], []), end: around([end], []), near: around([one], [near]), line: around([one, near], []),
    lines: around([one, word(4, 30, 45, 10, 10)], []).length,
    covered: [isCovered([one], [{ left: 39, top: 39, width: 5, height: 5 }]), isCovered([one], [{ left: 40, top: 30, width: 5, height: 5 }]),
      isCovered([one, near], [{ left: 30, top: 30, width: 5, height: 5 }])],
  }
})()"""


def try_edges(person):
    """Boxes at the edges of a page and beside other words, drawn here."""
    told_of = person.js(EDGES)
    inside = lambda box: box[0] >= 0 and box[1] >= 0 and box[0] + box[2] <= 100 and box[1] + box[3] <= 80
    has = lambda box, word: box[0] <= word[0] and box[1] <= word[1] and box[0] + box[2] >= word[0] + word[2] and box[1] + box[3] >= word[1] + word[3]
    for name, at in (("corner", (0, 0, 10, 10)), ("end", (95, 72, 5, 8))):
        box = told_of[name][0]
        check(f"at the {name} of a page a box stays on it", inside(box) and has(box, at) and tuple(box) != at, box)
    near = told_of["near"][0]
    check("beside another word it doesn't touch that", has(near, (30, 30, 10, 10)) and not touches(near, (42, 30, 10, 10)) and near[0] < 30, near)
    check("words of a line have one box", len(told_of["line"]) == 1 and has(told_of["line"][0], (30, 30, 22, 10)), told_of["line"])
    check("words of two lines two", told_of["lines"] == 2)
    check("a hit is covered where each word is touched", told_of["covered"] == [True, False, False], told_of["covered"])


def try_colours(person, shots):
    person.open(1)
    look_for(person, PHRASES, "all")
    person.key(".")
    person.key(" ")
    for name in in_colours(person):
        person.shot(os.path.join(shots, f"redact-{name}.png"))
    check("every control has a name", nameless(person) == [], nameless(person))
    press_button(person, "Close")


def try_small(office, shots):
    with small_window(office, ELLIS) as person:
        person.open(1)
        look_for(person, PHRASES, "all")
        check("at 800 by 600 nothing is cut off", (cut := cut_off(person, "#redact ul")) == [], cut)
        person.shot(os.path.join(shots, "800x600-redact.png"))


def main():
    scratch, shots, program = given()
    with closing(Office(scratch, program)) as office, window(office, ELLIS) as ellis:
        try_edges(ellis)
        due = try_proposing(ellis, office, shots)
        try_one_document(ellis, office)
        try_from_search(ellis)
        try_basis(ellis)
        try_taking(ellis, due)
        made = try_putting(ellis, office, due, shots)
        try_undo(ellis, office, made)
        try_stops(ellis, office)
        try_cut_off(ellis, office)
        try_words(ellis, office, shots)
        try_limit(ellis, office)
        try_colours(ellis, shots)
        try_clerk(office)
        try_small(office, shots)
    finish("redact by term")


main()
