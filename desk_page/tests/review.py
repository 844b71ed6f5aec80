#!/usr/bin/env python3
"""A whole review by the page in a headless Chromium, behind nginx: the decisions of examples/office.sh made with keys and
mouse, the second review, refusals, what a person does by mistake, and the production. Over the program, where it is given,
`press` then writes the volume, and trials/check_volume.py looks at it; else over the stand-in.

    review.py SCRATCH SHOTS [PROGRAM]     pictures of the screens go into the folder SHOTS
"""
import json
import os
import subprocess
import time
from contextlib import closing

import batch
from frame import as_before, cut_off, given, window
from office import ELLIS, LEAD, MARLOW, TOP, Office
from person import CTRL, READ, canvas_is, check, finish

# ---- what is tried


def try_keys(person, office):
    person.go(office.url)
    check("the field for the key has the focus", person.js("document.activeElement.id") == "key")
    for key, words in (("nobody", "KeyUnknown"), ("clé", "plain keyboard")):
        person.click("#key")
        person.type(key)
        person.says(f"the key {key} is refused in words", lambda: person.key("Enter"), words, "denied")
        person.until("!document.querySelector('#enter button').disabled")


def try_looking(person, office, shots):
    person.shot(os.path.join(shots, "enter.png"))
    person.come(ELLIS)  # on the page that refused two keys
    person.until("document.querySelectorAll('#tall .state').length === 12 && "
                 "[...document.querySelectorAll('#tall .state')].every((it) => it.textContent === 'not called')")
    check("12 documents, with what stands of each", person.text("count") == "12 documents")
    person.until("document.querySelectorAll('#family button').length === 3")
    check("the family of document 1", person.text("family") == "Family: ○ 1○ 2○ 3", person.text("family"))
    for key, number in (("ArrowDown", 2), ("ArrowUp", 1)):
        person.js("document.getElementById('documents').focus()")
        person.key(key)
        person.until(f"document.getElementById('title').textContent === 'Document {number}'")
    check("arrows go through the list", True)
    person.key("Escape")
    canvas_is("page 1 at page width", person, 1, 1)
    person.size("1")
    canvas_is("page 1 at full size", person, 1, 1)
    person.size("page")
    canvas_is("page 1 whole", person, 1, 1)
    person.turn(2, 3)
    person.size("0.33")
    canvas_is("page 2 at a third", person, 1, 2)
    person.key("0")
    end = time.time() + 60
    while person.text("place") != "page 3 of 3" and time.time() < end:
        person.key(" ")
        time.sleep(0.1)
    check("Space reads on to page 3", person.text("place") == "page 3 of 3", person.text("place"))
    person.key("t")
    person.until("document.querySelectorAll('#over .word').length > 20")
    person.key("t")
    person.until("document.querySelectorAll('#over .word').length === 0")
    check("words shown and hidden", True)


def try_mistakes(person, shots):
    person.open(5)
    person.says("a treatment before the answer to responsive", lambda: person.key("p"), "Say first")
    person.says("a document isn't left with a choice unsent", lambda: person.key("j"), "Not sent: the call")
    person.js("document.querySelectorAll('#call [type=radio]').forEach((it) => { it.checked = false })")
    person.says("a box before the call", lambda: person.draw(300, 600, 600, 100), "Call it Redact first")
    check("and it isn't drawn", person.js("document.querySelectorAll('.box').length") == 0)
    person.shot(os.path.join(shots, "refused.png"))
    person.says("a confirmation before the call",
                lambda: (person.key("c"), person.until("document.getElementById('ask').open"), person.key("Enter")), "RoleRefused")


def try_deciding(person):
    for number, keys in ((1, "yp"), (2, "yp"), (4, "yp"), (6, "yp"), (7, "np"), (8, "np"), (9, "yp"), (11, "yp"), (12, "yp")):
        person.decide(number, keys)
    person.decide(3, "ya", "confidential")
    check("a designation in capitals", person.text("state").startswith("◐ Withhold AC, responsive"), person.text("state"))
    enter_log(person, "2019-03-04", "Ng", "Ortiz, Berg", "Letter asking counsel for advice on the lease")
    check("what is lacking", person.text("lacks") == "Needs a second person’s confirmation.", person.text("lacks"))


def enter_log(person, date, author, recipients, description):
    person.key("g")
    for field, text in (("date", date), ("author", author), ("recipients", recipients), ("description", description)):
        person.click(f"#entry [name={field}]")
        person.type(text)
    person.does(lambda: person.key("Enter", CTRL), "The log entry stands.")
    person.key("Escape")


def try_boxes(person, shots):
    person.decide(5, "yr")
    # at full size a point of the screen is a pixel of the page
    person.size("1")
    person.js("document.getElementById('sheet').scrollTo(1350, 380)")
    person.js("document.getElementById('basis').value = 'PI'")
    person.does(lambda: person.drag(person.at(1420, 460), person.at(2099, 519)), "Box 1 stands.")
    check("a box drawn by the mouse, pixel by pixel", person.boxes() == ["Box 1, PI: page 1, 680 × 60 at 1420, 460"], person.boxes())
    person.key("0")
    person.does(lambda: person.draw(400, 900, 1500, 200), "Box 2 stands.")
    person.does(lambda: person.key("e"), "Box 1 is chosen")
    person.does(lambda: person.key("e"), "Box 2 is chosen")
    person.adjust((325, 950, 1900, 180))
    check("a box moved and sized by keys", person.draft() == [325, 950, 1900, 180], person.draft())
    person.does(lambda: person.key("Enter"), "Box 2 stands.")
    check("it stands there", person.boxes()[1] == "Box 2, PI: page 1, 1900 × 180 at 325, 950", person.boxes())
    person.size("page")
    person.says("a third box, on the whole page", lambda: person.draw(200, 2900, 300, 80), "Box 3 stands.")
    person.says("moved by the mouse", lambda: person.drag(person.at(350, 2940), person.at(650, 2840)), "Box 3 stands.")
    left, top = person.told_box(3)
    check("by as much as the mouse", abs(left - 500) < 8 and abs(top - 2800) < 8, (left, top))
    person.says("chosen by the mouse", lambda: person.press_at(person.at(650, 2840)), "Box 3 is chosen")
    person.says("sized at a corner", lambda: person.drag(person.at(left + 300, top + 80), person.at(left + 500, top + 200)), "Box 3 stands.")
    person.does(lambda: person.press_at(person.at(650, 2840)), "Box 3 is chosen")
    person.says("another basis by a key", lambda: person.key("4"), "Box 3 stands.")
    check("in the list too", person.boxes()[2].startswith("Box 3, TS"), person.boxes())
    person.key("b")
    check("a new box by a key", person.draft() is not None)
    person.key("Escape")
    check("left by Escape", person.draft() is None)
    person.does(lambda: person.press_at(person.at(650, 2840)), "Box 3 is chosen")
    person.says("dropped by a key", lambda: person.key("Delete"), "Box 3 is dropped")
    person.key("0")
    person.key("t")
    person.until("document.querySelectorAll('#over .word').length > 20")
    check("the words that the boxes take", [row.split(", ")[-1] for row in person.boxes()] == words_taken(), person.boxes())
    person.js("document.getElementById('sheet').scrollTo(0, 0)")
    person.shot(os.path.join(shots, "boxes.png"))
    person.key("t")
    person.says("a treatment that boxes forbid", lambda: person.key("p"), "Drop the boxes and free the fields first")
    check("the treatment that stands is chosen again", person.js("document.querySelector('#call').elements.treatment.value") == "Redact")


def words_taken():
    """By the batch: how many words of page 1 of document 5 each box touches."""
    words = [word[1:5] for word in batch.WORDS[4][0]]
    touch = lambda a, b: all(a[k] < b[k] + b[k + 2] and b[k] < a[k] + a[k + 2] for k in (0, 1))
    count = lambda box: sum(touch(box, word) for word in words)
    return [f"takes {count(box)} words" for box in ((1420, 460, 680, 60), (325, 950, 1900, 180))]


def try_fields(person, shots):
    """Fields as the batch has them; a held one is told by its name, with the value that it holds back."""
    values = dict(zip(batch.FIELDS, batch.VALUES[4]))
    person.until("document.querySelectorAll('#all_fields tbody tr').length > 0")
    shown = person.js("Array.from(document.querySelectorAll('#all_fields tbody tr'), (it) => Array.from(it.cells, (cell) => cell.textContent))")
    check("each field and value of the document", shown == [list(pair) for pair in values.items()], shown)
    choices = person.js("Array.from(document.getElementById('hold').elements.field.options, (it) => it.value)")
    check("what may be held back are the matter's fields", choices == ["", *values], choices)
    person.says("a field has to be chosen", lambda: person.hold("", "PI"), "Choose a field first")
    person.says("a field held back", lambda: person.hold("AUTHOR", "AC"), "AUTHOR is held back. Held now: AUTHOR (AC).")
    person.until("document.querySelectorAll('#held button').length === 1")
    check("by its name and value in the list", person.text("held") == f"AUTHOR AC, attorney-client: {values['AUTHOR']}Free", person.text("held"))
    person.says("and freed", lambda: person.click("#held button"), "AUTHOR is freed. Held still: no field.")
    person.does(lambda: person.hold("AUTHOR", "PI"), "AUTHOR is held back")
    person.says("once more it changes nothing", lambda: person.hold("AUTHOR", "PI"), "Nothing changed: AUTHOR was held back for PI before")
    person.click("#all_fields summary")
    person.shot(os.path.join(shots, "fields.png"))
    person.click("#all_fields summary")
    person.key("Escape")


def try_note(person, shots):
    person.decide(10, "yr")
    person.turn(2, 4)
    person.js("document.getElementById('basis').value = 'AC'")
    person.does(lambda: person.draw(430, 662, 1690, 670), "Box 1 stands.")
    person.does(lambda: person.key("e"), "Box 1 is chosen")
    person.adjust((430, 662, 1690, 670))
    person.shot(os.path.join(shots, "chosen.png"))
    person.does(lambda: person.key("Enter"), "Box 1 stands.")
    check("what is lacking of the note", person.text("lacks") == "Needs a log entry, a second person’s confirmation.", person.text("lacks"))
    enter_log(person, "2019-05-02", "Berg", "Ng", "Note quoting counsel")
    person.key("u")
    person.until("document.getElementById('title').textContent === 'Document 3'")
    check("the next document that isn't settled", True)


def try_unsent(person):
    person.key("g")
    person.click("#entry [name=author]")
    person.type(" and others")
    person.key("Escape")
    person.says("a log entry isn't left unsent", lambda: person.key("j"), "Not sent: the log entry")
    person.key("j")
    person.until("document.getElementById('title').textContent === 'Document 4'")
    check("but at the second press", True)


def try_second(person, office, shots):
    person.enter(office.url, MARLOW)
    person.open(3)
    # meanwhile Ellis changes it, and back
    call = dict(responsive=True, treatment="Withhold-AC", designation="CONFIDENTIAL")
    person.ask_confirm()
    office.ask(ELLIS, "POST", "/docs/3/call", dict(call, treatment="Withhold-WP"))
    person.says("what changed since it was seen isn't confirmed", lambda: person.key("Enter"), "changed since you looked")
    check("and is shown as it stands", "Withhold WP" in person.text("state") and "not confirmed" in person.text("state"), person.text("state"))
    office.ask(ELLIS, "POST", "/docs/3/call", call)
    person.does(lambda: person.key("l"), "as it stands now")
    time.sleep(READ)
    for number, pages in ((3, 5), (5, 4), (10, 4)):
        person.open(number)
        for page in range(2, pages + 1):
            person.turn(page, pages)
        person.ask_confirm()
        if number == 10:
            person.shot(os.path.join(shots, "confirm.png"))
            check("every page was looked at", "looked" not in person.text("asked"), person.text("asked"))
        person.says(f"document {number} confirmed", lambda: person.key("Enter"), f"Document {number} is confirmed.")
    check("by the second person", "last edited by Ellis, confirmed by Marlow" in person.text("state"), person.text("state"))
    person.says("a call on what is confirmed waits for a second press", lambda: person.key("r"), "would undo it")
    for page in (3, 2):
        person.turn(page, 4, "ArrowLeft")
    person.js("document.getElementById('sheet').scrollTo(0, 0)")
    person.does(lambda: person.press_at(person.at(1200, 1000)), "Box 1 is chosen")
    x, y = person.at(1200, 1000)
    person.says("a click that trembles moves no box", lambda: person.drag((x, y), (x + 2, y + 1)), "Box 1 is chosen")
    person.says("a box that is moved waits too", lambda: person.drag((x, y), (x + 40, y)), "would undo it")
    check("and stands where it stood", "confirmed by Marlow" in person.text("state") and person.told_box(1) == (430, 662), person.boxes())
    person.open(11)
    person.key("s")
    person.until("document.getElementById('ask').open")
    person.says("document 11 sent back", lambda: person.key("Enter"), "is sent back")
    check("it is uncalled", person.text("state") == "○ Not called yet.", person.text("state"))
    person.does(lambda: person.press("yr"), "The call stands.")
    person.ask_confirm()
    person.says("nobody confirms what they edited last", lambda: person.key("Enter"), "Another person has to confirm it")
    person.does(lambda: person.key("p"), "The call stands.")
    person.open(10)
    person.turn(2, 4)
    person.does(lambda: person.key("l"), "as it stands now")
    person.shot(os.path.join(shots, "review.png"))


# What the page does by itself after a while waits until `let_go`; and who reads the list moves it.
HELD = """(() => {
  const held = []
  window.setTimeout = (work) => held.push(work)
  window.let_go = () => held.splice(0).forEach((work) => work())
  window.scroll_list = () => document.getElementById('documents').dispatchEvent(new Event('scroll'))
})()"""


CUT_OFF_CALLS = """window.whole = window.fetch
window.fetch = (path, request) => request.method === 'POST' ? Promise.reject(new TypeError('cut off')) : whole(path, request)"""
# the looks that come after a call
CUT_OFF_LOOKS = """(() => {
  let isMade = false
  window.whole = window.fetch
  window.fetch = (path, request) => {
    isMade ||= request.method === 'POST'
    return isMade && request.method === 'GET' ? Promise.reject(new TypeError('cut off')) : whole(path, request)
  }
})()"""


def open_again(office):
    office.open_desk()
    if not office.program:
        office.take_in_all()  # a stand-in forgets


UNSURE = "It isn’t known whether a call of yours on document 1 was made: look again (L)."


def try_without_desk(person, office):
    person.go(office.url)
    person.js("sessionStorage.clear()")
    person.go(office.url)
    person.js(HELD)
    person.come(MARLOW)
    person.rest()  # all states were told, and no name yet
    stale = lambda: person.js("document.getElementById('stale').checkVisibility() && document.getElementById('stale').textContent")
    office.close_desk()
    person.says("a look that nobody pressed for tells why it failed, where nothing else stands", lambda: person.js("let_go()"),
                "No desk is open")
    check("and the list tells that it isn't told anew", "No desk is open" in str(stale()), stale())
    person.says("without a desk", lambda: person.key("l"), "No desk is open")
    person.says("a call without a desk isn't sent", lambda: person.press("y"), "No desk is open")
    check("as the look before it failed: nothing is unsure", "It isn’t known" not in person.text("said"), person.text("said"))
    open_again(office)
    person.does(lambda: person.key("l"), "as it stands now")
    person.js(CUT_OFF_CALLS)
    person.says("a call that is cut off may have been made", lambda: person.press("y" if office.program else "yp"), "look again")
    as_before(person)
    office.close_desk()
    try_unsure(person)
    open_again(office)
    if not office.program:  # there the document was uncalled, and what was chosen stands unsent
        person.js("document.querySelectorAll('#call [type=radio]').forEach((it) => { it.checked = false })")
    person.open(2)
    person.says("a desk again", lambda: person.key("l"), "Document 2 as it stands now.")
    check("another document's look leaves the words too", person.text("said").endswith(UNSURE), person.text("said"))
    person.says("its own look takes them away", lambda: person.open(1), "Document 1 as it stands now.")
    check("and nothing is unsure any more", UNSURE not in person.text("said"), person.text("said"))
    person.js("let_go()")
    person.rest()
    name = person.js("document.querySelector('#document_1 .name').textContent")
    check("what had no answer is asked for again", stale() is False and name == " Roof of Building 4: papers for the file", (stale(), name))
    try_no_look(person)


def try_unsure(person):
    """That a call may have been made stands beside whatever comes after it."""
    said, before = len(person.heard()), len(person.requests)
    for _ in range(3):
        person.js("scroll_list()")
        person.js("let_go()")
        person.rest()
    asked = [request["url"] for request in person.requests[before:]]
    check("looks that nobody pressed for fail behind it",
          len(asked) >= 3 and all(url.endswith(("/states/1", "/values")) for url in asked), asked)
    check("and leave its words", len(person.heard()) == said and person.text("said").endswith(UNSURE), person.heard()[said - 1 :])
    person.does(lambda: person.key("l"), "No desk is open")
    check("a look that was pressed for, and fails, has them too", person.text("said").endswith(UNSURE), person.text("said"))
    person.does(lambda: person.press("b"), "A new box")
    check("and so has what needs no desk", person.text("said").endswith(UNSURE), person.text("said"))
    person.key("Escape")


def try_no_look(person):
    """A call is made, and then no look comes."""
    person.js(CUT_OFF_LOOKS)
    person.says("a call that was made is told so, though no look follows", lambda: person.press("yp"), "It was done, but document 1")
    person.rest()
    check("it isn't told as unsure", "It isn’t known" not in person.text("said"), person.text("said"))
    as_before(person)
    person.says("and stands, by the next look", lambda: person.key("l"), "as it stands now")
    check("as it was made", "Produce, responsive" in person.text("state"), person.text("state"))


def try_secrets(person, key, office):
    places = person.js(
        "(async () => JSON.stringify([document.documentElement.outerHTML, [...document.querySelectorAll('input')].map((it) => it.value),"
        " { ...localStorage }, { ...sessionStorage }, document.cookie, location.href, history.state,"
        " await indexedDB.databases(), await caches.keys()]))()")
    check("the key stands in no place of the page", key not in places and key.replace(" ", "%20") not in places)
    own = [request for request in person.requests if request["url"].startswith(("https:", "http:"))]
    check("every request went to the page's own origin", all(request["url"].startswith(office.url) for request in own))
    check("and none has the key in its address or body", not any(key.split()[-1] in request["url"] + request.get("postData", "") for request in own))


def ask_production(person, button, words):
    """Presses Plan or Freeze, and waits for what the dialog tells."""
    try:
        person.does(lambda: person.click(button), words, "frozen")
        return True
    except RuntimeError:
        return False


def open_productions(person):
    person.click("#show_productions")
    person.until("document.getElementById('productions').open && document.querySelectorAll('#chosen_fields input').length > 0")


def try_productions(person, office, shots):
    """The lead has the decisions planned and frozen; what is in the way is told."""
    plan = lambda words: ask_production(person, "#freeze [name=plan]", words)
    person.enter(office.url, LEAD)
    open_productions(person)
    for name, text in (("id", "R-1"), ("volume", "vol001"), ("prefix", "abc")):
        person.click(f"#freeze [name={name}]")
        person.type(text)
    person.click("#freeze [value=AUTHOR]")
    office.ask(MARLOW, "POST", "/docs/11/back", {})
    check("a document that isn't settled is named", plan("Document 11 isn’t settled"), person.text("frozen"))
    person.shot(os.path.join(shots, "unsettled.png"))
    person.click("#unsettled button")
    person.until("!document.getElementById('productions').open && document.getElementById('title').textContent === 'Document 11'")
    check("and opened", person.text("state") == "○ Not called yet.", person.text("state"))
    office.ask(ELLIS, "POST", "/docs/11/call", dict(responsive=True, treatment="Produce", designation=""))
    open_productions(person)
    change = lambda name, value: person.js(f"(() => {{ document.querySelector('#freeze').elements.{name}.value = {value!r} }})()")
    change("from", "-1")
    check("what is no number is told", plan("are whole numbers"), person.text("frozen"))
    change("from", "1")
    change("width", "300")
    check("a number that is too wide is refused in words", plan("4 to 10 digits"), person.text("frozen"))
    change("width", "8")
    check("a plan stands", plan("R-1 would be 10 documents, ABC00000001 to ABC00000023. Nothing is frozen."), person.text("frozen"))
    freeze = lambda words: ask_production(person, "#freeze_it", words)
    check("a freeze waits for a second press", freeze("Freeze documents 1 to 12 as R-1? It can’t be taken back"), person.text("frozen"))
    person.click("#freeze [name=volume]")
    person.type("X")
    check("other words want another plan", not person.js("document.getElementById('planned').checkVisibility()"))
    person.key("Backspace")
    plan("Nothing is frozen.")
    freeze("Press Freeze again")
    time.sleep(READ)
    due = "R-1 stands as it was planned: 10 documents, ABC00000001 to ABC00000023. "
    check("the production stands", freeze(due), person.text("frozen"))
    rows = person.js("Array.from(document.querySelectorAll('#items tbody tr'), (it) => Array.from(it.cells, (cell) => cell.textContent).join(' '))")
    check("with each document's labels", len(rows) == 10 and rows[2] == "3 Withhold AC ABC00000006" and
          rows[3] == "4 Produce ABC00000007", rows)
    person.shot(os.path.join(shots, "production.png"), "#productions")
    due = due.replace(" as it was planned", "")
    check("asked once more it is the same", plan(due), person.text("frozen"))
    person.says("it is listed, and looked at", lambda: person.click("#kept button"), due, "frozen")
    person.key("Escape")


# what the routes may answer
RULES = """KeyUnknown NoDocument NoPage RoleRefused BoxOutside BoxShape WrongTreatment BoxesRemain BadBasis NotCalled SamePerson
NothingRedacted EntryMissing NoField TextRefused MatterFull StaffThere HeadRefused BodyRefused BodyLimit KeyMissing NoRoute
JournalFull KeeperFault OutOfMemory RangeEmpty SplitFamily Unsettled NothingResponsive RequestDiffers BadPrefix PrefixDiffers
BatesFull BadVolume VolumeTaken FieldChoice NoProduction TermRefused""".split()


def try_words(person):
    plain = person.js("(async () => { const { inWords } = await import('./refusals.js'); return "
                      f"{json.dumps(RULES)}.filter((name) => inWords({{ name, a: 1 }}).includes('The desk refused this')) }})()")
    check(f"each of {len(RULES)} refusals has words of its own", plain == [], plain)


def try_people(person, office, shots):
    """The lead takes a person in, who comes with the key that was shown."""
    person.enter(office.url, LEAD)
    person.click("#show_people")
    person.until("document.getElementById('people').open")
    person.click("#person [name=name]")
    person.type("Osei")
    person.key("Enter")
    person.until("document.getElementById('new_key').textContent !== ''")
    told, key = person.text("handed"), person.text("new_key")
    check("a person taken in", told.startswith("Osei is staff 4. ") and len(key) == 29, told + key)
    person.until("document.querySelectorAll('#staff tbody tr').length === 4")
    staff = person.js("Array.from(document.querySelectorAll('#staff tbody tr'), (it) => Array.from(it.cells, (cell) => cell.textContent))")
    check("who is there, with their roles", staff == [["1", "lead", "Lead"], ["2", "Ellis", "Reviewer"], ["3", "Marlow", "Second"], ["4", "Osei", "Reviewer"]], staff)
    person.shot(os.path.join(shots, "people.png"))
    person.key("Escape")
    person.until("!document.getElementById('people').open")
    person.until("document.getElementById('new_key').textContent === ''")  # a closed dialog tells so a moment later
    check("the key is gone with the dialog", person.text("new_key") == "")
    person.enter(office.url, key)
    check("and opens the desk", person.text("count") == "12 documents")
    person.click("#leave")
    person.until("document.getElementById('enter')?.checkVisibility() === true")
    check("Leave forgets it", person.js("document.querySelectorAll('#tall .row').length") == 0)


def try_keys_list(person, shots):
    person.key("?")
    person.until("document.getElementById('keys').open")
    person.shot(os.path.join(shots, "keys.png"))
    person.key("Escape")


def try_large_letters(office, shots):
    """The browser's zoom at 125 % and 150 %: a window of fewer points, whose letters are larger; a large one and small ones."""
    for size, zoom, shot in (((1200, 800), 1.25, "large-letters"), ((1093, 614), 1.25, "small-window"), ((853, 480), 1.5, "smallest-window")):
        with window(office, ELLIS, size=size, points=zoom) as person:
            person.open(10)
            person.turn(2, 4)
            canvas_is(f"page 2 of document 10 at {zoom:.0%}, {size[0]} by {size[1]}", person, 10, 2)
            check("nothing is cut off", (cut := cut_off(person)) == [], cut)
            person.shot(os.path.join(shots, shot + ".png"))


def press(office):
    office.close_desk()
    line = office.run("press", "R-1")
    check("the volume is written", line.startswith("production R-1 labels ABC00000001 to ABC00000023 files 37 "), line)
    told = subprocess.run([os.path.join(TOP, "trials", "check_volume.py"), "out"], cwd=office.folder, capture_output=True,
                          text=True, check=False)
    check("and is as trials/check_volume.py expects it", told.returncode == 0, told.stdout + told.stderr)
    again = office.run("produce", "R-1", "VOL001", "ABC", "8", "1", "12", "AUTHOR")
    check("`produce` with the same words gives the same", again == line, again)


def main():
    scratch, shots, program = given()
    with closing(Office(scratch, program, desks=2)) as office, window(office) as ellis:
        try_keys(ellis, office)
        try_looking(ellis, office, shots)
        try_mistakes(ellis, shots)
        try_deciding(ellis)
        try_boxes(ellis, shots)
        try_fields(ellis, shots)
        try_note(ellis, shots)
        try_unsent(ellis)
        try_keys_list(ellis, shots)
        try_words(ellis)
        try_secrets(ellis, ELLIS, office)
        with window(office) as marlow:
            try_second(marlow, office, shots)
            try_large_letters(office, shots)
            try_people(marlow, office, shots)
            try_productions(marlow, office, shots)
            try_without_desk(marlow, office)
            try_secrets(marlow, MARLOW, office)
        if program:
            press(office)
    finish("a review by the page")


main()
