#!/usr/bin/env python3
"""Several people at the page, and much at once: two windows at one document, held fields by name and value, people by name, calls
for many documents and the last one taken back, the next one that isn't settled, filters, links, the place that is kept, zoom and turns,
the system's colours, the names of all controls. Over the program, where it is given, else over the stand-in.

    together.py SCRATCH SHOTS [PROGRAM]     pictures of the screens go into the folder SHOTS
"""
import os
import time
from contextlib import closing

from frame import cut_off, fits, given, in_colours, small_window, window
from office import ELLIS, LEAD, MARLOW, Office
from person import READ, canvas_is, check, finish, nameless, scan

OSEI = "the key of Osei"
PRODUCE = dict(responsive=True, treatment="Produce", designation="")


def told(office, number):
    """What the desk tells of a document."""
    return office.ask(LEAD, "GET", f"/docs/{number}")


# ---- two windows


# presses P as soon as it is said that nothing was sent: the test itself may be slower than a hand on a machine that has much to do
AT_ONCE = """(() => {
  const said = document.getElementById('said')
  new MutationObserver((_, own) => {
    if (!said.textContent.includes('Nothing was sent')) return
    own.disconnect()
    document.body.dispatchEvent(new KeyboardEvent('keydown', { key: 'p', bubbles: true }))
  }).observe(said, { childList: true })
})()"""


def try_two_windows(ellis, marlow, office, shots):
    ellis.open(3)
    marlow.open(3)
    ellis.does(lambda: ellis.press("ya"), "The call stands.")
    check("the other window shows what stood before", "Not called" in marlow.text("state"), marlow.text("state"))
    before = told(office, 3)
    marlow.press("n")
    marlow.js(AT_ONCE)
    marlow.says("a call over another's is asked for again, and who it was is said", lambda: marlow.press("p"),
                "Nothing was sent: Document 3 was changed since you looked, last by Ellis (call)")
    check("the desk has the first call", told(office, 3) == before, told(office, 3))
    check("the window shows it", "Withhold AC, responsive; last edited by Ellis" in marlow.text("state"), marlow.text("state"))
    form = marlow.js("(() => { const { responsive, treatment } = document.getElementById('call').elements;"
                     " return [responsive.value, treatment.value] })()")
    check("and so does its form", form == ["yes", "Withhold-AC"], form)
    marlow.shot(os.path.join(shots, "changed.png"))
    marlow.until("heard.said.filter((text) => text.includes('Nothing was sent: Document 3')).length === 2")
    check("what is pressed at once isn't taken for an answer", told(office, 3) == before, told(office, 3))
    time.sleep(READ)
    marlow.says("pressed again it is done", lambda: marlow.key("p"), "The call stands.")
    check("by the one who pressed", (told(office, 3)["treatment"], told(office, 3)["editor"]) == ("Produce", 3), told(office, 3))
    # each other edit too: Ellis' window still shows the call of Ellis
    for what, work in (
        ("a log entry", lambda: (ellis.js("document.querySelector('#entry').elements.date.value = '2020'"), ellis.click("#entry button"))),
        ("a field", lambda: (ellis.js("document.querySelector('#hold').elements.field.value = 'AUTHOR'"), ellis.click("#hold > button"))),
    ):
        time.sleep(READ)
        office.ask(MARLOW, "POST", "/docs/3/call", dict(PRODUCE, designation=what.upper()))
        before = told(office, 3)
        ellis.says(f"{what} isn't put on a document that was changed", work, "last by Marlow")
        check("nothing was", told(office, 3) == before, told(office, 3))
    ellis.js("for (const id of ['entry', 'hold']) document.getElementById(id).reset()")
    try_fast_keys(marlow, office)
    try_box_of_two(ellis, marlow, office)


def try_fast_keys(marlow, office):
    """What is pressed while a call is under way: the next call falls with it, and the next document waits for it."""
    marlow.decide(8, "yp")
    office.ask(ELLIS, "POST", "/docs/8/call", dict(PRODUCE, designation="ELLIS"))
    before = told(office, 8)
    said = len(marlow.heard())
    marlow.press("yr")
    marlow.until(f"heard.said.length >= {said + 2}")
    check("of two calls pressed at once over another's none is sent", told(office, 8) == before and
          all("last by Ellis" in text for text in marlow.heard()[said:]), (told(office, 8), marlow.heard()[said:]))
    time.sleep(READ)
    marlow.does(lambda: marlow.press("r"), "The call stands.")
    marlow.press("pj")
    marlow.title(9)
    check("a call and the next document pressed at once: both come", told(office, 8)["treatment"] == "Produce", told(office, 8))


def try_box_of_two(ellis, marlow, office):
    """A box that was drawn on what isn't so any more stands as a draft, until it is put again."""
    ellis.decide(5, "yr")
    marlow.open(5)
    ellis.does(lambda: ellis.draw(400, 900, 500, 200), "Box 1 stands.")
    ellis.open(6)
    marlow.says("a box on what was changed isn't put", lambda: marlow.draw(400, 1500, 500, 200), "Enter puts the box.")
    check("the other's box is shown", len(marlow.boxes()) == 1, marlow.boxes())
    time.sleep(READ)
    marlow.says("Enter puts it, under the next number", lambda: marlow.key("Enter"), "Box 2 stands.")
    check("both stand", [box["num"] for box in told(office, 5)["boxes"]] == [1, 2], told(office, 5)["boxes"])
    ellis.open(5)
    marlow.does(lambda: marlow.key("e"), "is chosen")
    marlow.does(lambda: marlow.key("Delete"), "is dropped")
    ellis.does(lambda: ellis.key("e"), "is chosen")
    ellis.says("a box isn't dropped from what was changed", lambda: ellis.key("Delete"), "was changed since you looked")


# ---- held fields


def try_held(ellis, marlow, office, shots):
    """What is held is told by name and with its value, in a window that held nothing of it; and what hold and free did as the desk tells it."""
    office.ask(ELLIS, "POST", "/docs/10/call", dict(PRODUCE, treatment="Redact"))
    for name, basis in (("AUTHOR", "PI"), ("TITLE", "AC")):
        office.ask(ELLIS, "POST", "/docs/10/hold", dict(field=name, basis=basis))
    office.ask(ELLIS, "POST", "/docs/10/entry", dict(date="2019", author="Ng", recipients="Berg", description="Note"))
    values = {row["name"]: row["value"] for row in office.ask(LEAD, "GET", "/docs/10/values")}
    marlow.enter(office.url, MARLOW)
    marlow.open(10)
    marlow.until("document.querySelectorAll('#held button').length === 2")
    check("held fields are told by name and value", marlow.text("held") == f"AUTHOR PI, personal information: {values['AUTHOR']}Free"
          f"TITLE AC, attorney-client: {values['TITLE']}Free", marlow.text("held"))
    marlow.ask_confirm()
    for name, basis in (("AUTHOR", "PI"), ("TITLE", "AC")):
        check("the dialog to confirm lists each with its value", f"Held back: {name} ({basis}): {values[name]}" in marlow.text("asked"), marlow.text("asked"))
    check("and people by name", "last edited by Ellis, not confirmed" in marlow.text("asked"), marlow.text("asked"))
    marlow.shot(os.path.join(shots, "confirm-held.png"))
    marlow.key("Escape")
    marlow.says("one is freed", lambda: marlow.click("[aria-label='Free TITLE']"), "TITLE is freed. Held still: AUTHOR (PI).")
    office.ask(ELLIS, "POST", "/docs/10/hold", dict(field="DOCDATE", basis="WP"))
    marlow.says("nothing is freed of what was changed meanwhile", lambda: marlow.click("[aria-label='Free AUTHOR']"), "was changed since you looked")
    marlow.until("document.querySelectorAll('#held button').length === 2")
    check("and it is shown as it is", marlow.text("held").startswith("AUTHOR PI") and "DOCDATE WP" in marlow.text("held"), marlow.text("held"))
    time.sleep(READ)
    marlow.says("the other is freed", lambda: marlow.click("[aria-label='Free AUTHOR']"), "AUTHOR is freed. Held still: DOCDATE (WP).")
    held = [row["name"] for row in office.ask(LEAD, "GET", "/docs/10/values") if row["held"]]
    check("by the desk too", held == ["DOCDATE"], held)
    office.ask(MARLOW, "POST", "/docs/10/free", dict(field="DOCDATE"))


def try_new_people(ellis, office):
    """A number that isn't known yet has the names asked for anew."""
    office.take_in("Osei", "Lead", OSEI)
    office.ask(OSEI, "POST", "/docs/11/call", dict(PRODUCE, designation="OSEI"))
    ellis.open(11)
    check("somebody who came in since is told by name", "last edited by Osei" in ellis.text("state"), ellis.text("state"))
    office.take_in("Osei", "Reviewer", OSEI + " again")
    office.ask(OSEI + " again", "POST", "/docs/11/call", PRODUCE)
    ellis.does(lambda: ellis.key("l"), "as it stands now")
    check("two of one name with their numbers", "last edited by Osei (staff 5)" in ellis.text("state"), ellis.text("state"))


# ---- many at once


def choose(person, **values):
    for name, value in values.items():
        person.js(f"document.getElementById('calls').elements.{name}.value = {value!r}")


def press_many(person, words):
    person.does(lambda: person.click("#calls p button"), words, "many_told")


def try_many(marlow, office, shots):
    marlow.open(1)
    marlow.key("x")
    marlow.until("document.getElementById('of_family').textContent.includes('3 documents')")
    marlow.says("what is called is asked first", lambda: marlow.key("Enter"), "Say first whether they are responsive", "many_told")
    choose(marlow, responsive="yes", treatment="Produce")
    press_many(marlow, "Call 3 documents: 1, 2, 3? Called before: 3.")
    marlow.shot(os.path.join(shots, "many.png"))
    office.ask(ELLIS, "POST", "/docs/2/call", dict(PRODUCE, treatment="Withhold-WP"))
    press_many(marlow, "2 documents called, 1 refused")
    check("what was changed meanwhile is listed", "Document 2 was changed since you looked, last by Ellis" in marlow.text("many_refused"),
          marlow.text("many_refused"))
    marlow.shot(os.path.join(shots, "many-refused.png"))
    check("the others are called", [told(office, k)["treatment"] for k in (1, 2, 3)] == ["Produce", "Withhold-WP", "Produce"])
    marlow.click("#many_refused button")
    marlow.title(2)
    marlow.says("many calls are taken back at the second press", lambda: marlow.key("z"), "Take back the calls of 2 documents")
    marlow.says("by one key", lambda: marlow.key("z"), "2 of 2 calls are taken back")
    check("as they were", told(office, 1)["editor"] == 0 and told(office, 3)["designation"] == "A FIELD", (told(office, 1), told(office, 3)))
    for number in (7, 9):
        marlow.open(number)
        marlow.does(lambda: marlow.key("m"), "is marked")
    # by keys alone
    marlow.key("x")
    marlow.until("document.getElementById('many').open")
    check("those marked are offered", marlow.text("of_marked") == "those marked (2)", marlow.text("of_marked"))
    marlow.tab_to("[name=responsive]")
    for key in (" ", "ArrowDown"):
        marlow.key(key)  # yes, and then no
    marlow.tab_to("[name=treatment]")
    marlow.key(" ")
    marlow.tab_to("[name=designation]")
    marlow.does(lambda: marlow.key("Enter"), "Call 2 documents: 7, 9?", "many_told")
    marlow.does(lambda: marlow.key("Enter"), "2 documents called, 0 refused", "many_told")
    marlow.key("Escape")
    marlow.until("!document.getElementById('many').open")
    check("and are called", [told(office, k)["responsive"] for k in (7, 9)] == [False, False] and told(office, 9)["editor"] == 3)


def try_last(ellis, marlow, office):
    ellis.decide(12, "yp")
    ellis.says("a first call is taken back by a second person alone", lambda: ellis.key("z"), "only a second person or the lead")
    ellis.does(lambda: ellis.press("a"), "The call stands.")
    ellis.says("a call is taken back", lambda: ellis.key("z"), "The call of document 12 is taken back")
    check("as it was before", told(office, 12)["treatment"] == "Produce", told(office, 12))
    ellis.says("and there is none more", lambda: ellis.key("z"), "made no call that could be taken back")
    ellis.does(lambda: ellis.press("a"), "The call stands.")
    office.ask(MARLOW, "POST", "/docs/12/call", PRODUCE)
    ellis.says("nor where another called it since", lambda: ellis.key("z"), "last by Marlow")


# ---- the list, links, places


def listed(person):
    return person.js("Array.from(document.querySelectorAll('#tall .row'), (it) => Number(it.dataset.number))")


def try_list(marlow, office, shots):
    marlow.rest()
    marlow.key("f")
    check("F goes to the filter", marlow.js("document.activeElement.id") == "filter")
    marlow.key("ArrowDown")
    check("whose arrows choose", marlow.js("document.getElementById('filter').value") == "uncalled", marlow.text("count"))
    marlow.key("Escape")
    marlow.choose("#filter", "unresponsive")
    check("the list shows what a filter takes", listed(marlow) == [7, 9] and marlow.text("count") == "2 of 12 documents", (listed(marlow), marlow.text("count")))
    marlow.shot(os.path.join(shots, "filter.png"))
    marlow.open(1)
    for key, number in (("j", 7), ("j", 9), ("k", 7)):
        marlow.key(key)
        marlow.title(number)
    check("J and K go through it", True)
    marlow.does(lambda: marlow.press("y"), "The call stands.")
    marlow.until("document.querySelectorAll('#tall .row').length === 1")
    check("what a call takes out leaves it", listed(marlow) == [9], listed(marlow))
    marlow.until("location.hash === '#7/1'")
    check("the address is a link", True)
    marlow.go("about:blank")
    marlow.go(office.url)
    marlow.come(MARLOW)
    check("place and filter are kept for the tab", (marlow.text("title"), listed(marlow)) == ("Document 7", [9]) or
          (marlow.text("title"), marlow.js("document.getElementById('filter').value")) == ("Document 7", "unresponsive"), (marlow.text("title"), listed(marlow)))
    marlow.choose("#filter", "all")
    marlow.go("about:blank")
    marlow.go(office.url + "#10/3")
    marlow.come(MARLOW)
    check("a link is followed", (marlow.text("title"), marlow.text("place")) == ("Document 10", "page 3 of 4"), marlow.text("place"))
    marlow.js("location.hash = '#3/2'")
    marlow.title(3)
    check("in an open page too", marlow.text("place") == "page 2 of 5", marlow.text("place"))
    marlow.says("one that leads nowhere is told", lambda: marlow.js("location.hash = '#99'"), "no document of this matter")
    check("and the address is as it was", marlow.js("location.hash") == "#3/2", marlow.js("location.hash"))
    marlow.click("#leave")
    marlow.until("document.readyState === 'complete' && document.getElementById('enter')?.checkVisibility() === true")
    check("Leave forgets the link", marlow.js("location.hash") == "")
    marlow.come(ELLIS)
    check("another person of the tab has a place of their own", marlow.text("title") == "Document 1", marlow.text("title"))


def try_unsettled(person, office):
    for number in range(1, 13):
        office.ask(MARLOW, "POST", f"/docs/{number}/back", {})
        office.ask(MARLOW, "POST", f"/docs/{number}/call", dict(PRODUCE, treatment="Redact" if told(office, number)["boxes"] else "Produce"))
        for box in told(office, number)["boxes"]:
            office.ask(MARLOW, "POST", f"/docs/{number}/unbox", dict(num=box["num"]))
        office.ask(MARLOW, "POST", f"/docs/{number}/call", PRODUCE)
    person.enter(office.url, ELLIS)
    office.ask(MARLOW, "POST", "/docs/6/call", dict(PRODUCE, treatment="Withhold-WP"))
    person.key("u")
    person.title(6)
    check("U opens one that isn't settled, though the list didn't tell it yet", "Withhold WP" in person.text("state"), person.text("state"))
    office.ask(MARLOW, "POST", "/docs/6/call", PRODUCE)
    person.says("and tells where all are settled", lambda: person.key("u"), "Every other document is settled.")


# ---- the view


MIDDLE = """(() => { const sheet = document.getElementById('sheet').getBoundingClientRect()
  const on = document.getElementById('paper').getBoundingClientRect()
  return [(sheet.top + document.getElementById('sheet').clientHeight / 2 - on.top) / on.height] })()"""


def try_view(person, shots):
    person.open(10)
    person.js("document.getElementById('sheet').scrollTo(0, 500)")
    before = person.js(MIDDLE)[0]
    for key in ("+", "+", "-", "+"):
        person.key(key)
        person.until("document.getElementById('ink').dataset.state === 'whole'")
    after = person.js(MIDDLE)[0]
    check("zooming keeps the middle of the view", abs(after - before) < 0.02, (before, after))
    person.key("0")
    person.until("document.getElementById('ink').dataset.state === 'whole'")
    width, height, _ = scan(10, 1)
    for turns in (1, 2, 3):
        person.key("v")
        person.until("document.getElementById('ink').dataset.state === 'whole'")
        wide, high = person.js("(() => { const on = document.getElementById('over').getBoundingClientRect(); return [on.width, on.height] })()")
        check(f"turned by {90 * turns} degrees", abs(wide / high - (height / width if turns % 2 else width / height)) < 0.01, (wide, high))
        canvas_is("and its pixels are the scan's", person, 10, 1)
        if turns == 1:
            try_turned_box(person, shots)
    person.says("and upright again", lambda: person.key("v"), "upright again")


def try_turned_box(person, shots):
    """A box drawn on a page that lies on its side stands where it was drawn: the upper left of the view is the lower left."""
    person.does(lambda: person.key("r"), "The call stands.")
    person.size("page")
    left, top, wide, high = person.js("(() => { const on = document.getElementById('paper').getBoundingClientRect();"
                                      " return [on.left, on.top, on.width, on.height] })()")
    person.does(lambda: person.drag((left + wide * 0.1, top + high * 0.2), (left + wide * 0.3, top + high * 0.6)), "Box 1 stands.")
    x, y = person.told_box(1)
    check("a box on the turned page", abs(x - 0.2 * 2550) < 8 and abs(y - 0.7 * 3300) < 8, (x, y))
    drawn = person.js("(() => { const on = document.querySelector('.box').getBoundingClientRect(); return [on.left, on.top] })()")
    check("is drawn where the mouse was", abs(drawn[0] - left - wide * 0.1) < 4 and abs(drawn[1] - top - high * 0.2) < 4, (drawn, left, top))
    person.shot(os.path.join(shots, "turned.png"))
    person.does(lambda: person.key("e"), "is chosen")
    x, y = person.draft()[:2]
    person.key("ArrowRight")
    check("the arrows go as the screen does", person.draft()[:2] == [x, y - 10], (person.draft(), x, y))
    person.key("Escape")
    person.does(lambda: person.key("e"), "is chosen")
    person.does(lambda: person.key("Delete"), "is dropped")
    person.does(lambda: person.key("p"), "The call stands.")
    person.key("0")


def try_colours(person, shots):
    person.open(10)
    for name in in_colours(person):
        person.shot(os.path.join(shots, f"{name}.png"))
        if name == "forced":
            outline = person.js("getComputedStyle(document.querySelector('.row.open')).outlineStyle")
            check("forced colours mark the open row", outline == "solid", outline)
        canvas_is(f"{name}: the page is black on white", person, 10, 1)


def try_names(person):
    check("every control has a name", nameless(person) == [], nameless(person))
    for button, dialog in (("#show_people", "people"), ("#show_many", "many"), ("#show_productions", "productions"), ("#show_keys", "keys")):
        person.click(button)
        person.until(f"document.getElementById('{dialog}').open")
        check(f"in the dialog {dialog} too", nameless(person) == [], nameless(person))
        person.key("Escape")
        person.until(f"!document.getElementById('{dialog}').open")


def try_small(office, shots):
    with small_window(office, ELLIS) as person:
        person.open(10)
        cut = cut_off(person)
        sheet = person.js("[document.getElementById('sheet').clientWidth, document.getElementById('sheet').clientHeight]")
        check("at 800 by 600 nothing is cut off, and the page has room", cut == [] and sheet[0] > 250 and sheet[1] > 350, (cut, sheet))
        person.shot(os.path.join(shots, "800x600.png"))
        for button, dialog in (("#show_many", "many"), ("#show_productions", "productions")):
            person.click(button)
            person.until(f"document.getElementById('{dialog}').open")
            check(f"the dialog {dialog} fits", fits(person, dialog))
            person.shot(os.path.join(shots, f"800x600-{dialog}.png"))
            person.key("Escape")


def main():
    scratch, shots, program = given()
    with (closing(Office(scratch, program, desks=2)) as office, window(office, ELLIS) as ellis, window(office, MARLOW) as marlow):
        try_two_windows(ellis, marlow, office, shots)
        try_held(ellis, marlow, office, shots)
        try_new_people(ellis, office)
        try_many(marlow, office, shots)
        try_last(ellis, marlow, office)
        try_list(marlow, office, shots)
        try_unsettled(ellis, office)
        try_view(ellis, shots)
        try_colours(ellis, shots)
        try_names(ellis)
        try_small(office, shots)
    finish("several at the page")


main()
