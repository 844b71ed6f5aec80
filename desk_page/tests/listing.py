#!/usr/bin/env python3
"""The list of documents to work from: names, dates and authors of fields that are chosen, filters with their counts, orders, what
others do shown meanwhile, and what that costs in calls. Over the program, where it is given, else over the stand-in.

    listing.py SCRATCH SHOTS [PROGRAM]     pictures of the screens go into the folder SHOTS
"""
import http.client
import json
import os
import time
from contextlib import closing

from batch import COLUMN, order_of
from frame import as_before, given, slow, window
from office import ELLIS, LEAD, MARLOW, Office
from person import READ, check, finish, nameless

PRODUCE = dict(responsive=True, treatment="Produce", designation="")
REFRESHED = 25  # seconds within which a small matter is told anew


def rows(person):
    """The list as it is drawn: number, name, state, and the rest."""
    return person.js("Array.from(document.querySelectorAll('#tall .row'), (it) => [Number(it.dataset.number),"
                     " ...['name', 'state', 'rest'].map((name) => it.querySelector('.' + name).textContent.trim())])")


def counts(person):
    """Each filter with its count."""
    texts = person.js("Array.from(document.getElementById('filter').options, (it) => it.textContent)")
    return {text.rpartition(" (")[0]: int(text.rpartition(" (")[2].rstrip(")").replace(",", "")) for text in texts}


def choose(person, name):
    person.choose("#filter", name)


def arrange(person, said="The list is sorted by", **values):
    """The dialog of the list."""
    person.js("document.getElementById('sheet').focus()")
    person.key("i")
    person.until("document.getElementById('list_dialog').open")
    for name, value in values.items():
        done = f"it.checked = {json.dumps(value)}" if isinstance(value, bool) else f"it.value = {value!r}"
        person.js(f"(() => {{ const it = document.querySelector('#list_dialog form').elements.{name}; {done} }})()")
    person.does(lambda: person.click("#list_dialog form button:not([type])"), said)


def asked(person, end):
    person.js("0")  # what was asked for is told with an answer
    return sum(request["url"].endswith(end) for request in person.requests)


# ---- names


def try_names(person, shots):
    person.rest()
    due = [[number, COLUMN["TITLE"][number - 1]] for number in range(1, 13)]
    shown = [row[:2] for row in rows(person)]
    check("a document in sight has the name of its title", shown[:10] == due[:10], shown)
    number, _, state, rest = rows(person)[2]
    check("with its date, its author and its pages", (number, state) == (3, "not called") and
          rest == f"{COLUMN['DOCDATE'][2]} · {COLUMN['AUTHOR'][2]} · 5 pages · with 1", rest)
    called = " · ".join(COLUMN[name][0] for name in ("TITLE", "DOCDATE", "AUTHOR"))
    check("and so it is called where it is open", person.text("doc_name") == called, person.text("doc_name"))
    person.shot(os.path.join(shots, "list.png"))
    before = asked(person, "/values")
    arrange(person, name="DOCTYPE", date="", author="RECIPIENTS")
    person.rest()
    number, name, _, rest = rows(person)[1]
    check("another field is chosen", (number, name, rest) == (2, COLUMN["DOCTYPE"][1], f"{COLUMN['RECIPIENTS'][1]} · 2 pages · with 1"), rows(person)[1])
    check("and no value is asked for twice", asked(person, "/values") == before, (before, asked(person, "/values")))


def try_kept(person, office):
    person.go("about:blank")
    person.go(office.url)
    person.come(ELLIS)
    person.until(f"document.querySelector('#document_2 .name')?.textContent.trim() === {json.dumps(COLUMN['DOCTYPE'][1])}")
    check("the choice is kept for the tab", True)
    person.rest()
    person.click("#leave")
    person.until("document.readyState === 'complete' && document.getElementById('enter')?.checkVisibility() === true")
    person.under_way.clear()  # of what a left page asked for no answer is told
    person.come(MARLOW)
    person.until(f"document.querySelector('#document_2 .name')?.textContent.trim() === {json.dumps(COLUMN['TITLE'][1])}")
    check("another person of the tab has their own", True)
    arrange(person, name="", date="", author="")
    check("none chosen, a row has two lines", [row[1] for row in rows(person)] == [""] * 12 and
          person.js("document.getElementById('document_1').clientHeight") < 55, rows(person)[:2])
    arrange(person, name="TITLE", date="DOCDATE", author="AUTHOR")


# ---- orders


def try_orders(person, shots):
    for order, field in (("author", "AUTHOR"), ("date", "DOCDATE")):
        arrange(person, order=order)
        person.until("document.querySelectorAll('#tall .row').length === 12", seconds=20)
        check(f"sorted by {order}", [row[0] for row in rows(person)] == order_of(field), ([row[0] for row in rows(person)], order_of(field)))
    person.shot(os.path.join(shots, "list-by-date.png"))
    places = order_of("DOCDATE")
    person.open(places[0])
    for number in places[1:4]:
        person.key("j")
        person.title(number)
    person.key("k")
    person.title(places[2])
    check("J and K go through the order", True)
    arrange(person, order="date", backward=True)
    check("and the other way round", [row[0] for row in rows(person)] == order_of("DOCDATE", True), [row[0] for row in rows(person)])
    arrange(person, order="number", backward=False)
    check("and by number", [row[0] for row in rows(person)] == list(range(1, 13)))


# ---- filters, and what others do


def due_counts(office, me, production=0):
    """What each filter takes, by what the desk tells of each document."""
    docs = [office.ask(LEAD, "GET", f"/docs/{number}") for number in range(1, 13)]
    called = [doc for doc in docs if doc["editor"]]
    settled = [doc for doc in called if doc["treatment"] == "Produce" or doc["confirmer"]]
    having = lambda treatment: sum(doc["treatment"].startswith(treatment) for doc in called)
    return {"all": 12, "not called": 12 - len(called), "to confirm": len(called) - len(settled), "settled": len(settled),
            "by me": sum(me in (doc["editor"], doc["confirmer"]) for doc in docs if me), "called Produce": having("Produce"),
            "called Redact": having("Redact"), "withheld": having("Withhold"), "not responsive": sum(not doc["responsive"] for doc in called),
            "produced": production, "marked": 0}


def told_within(what, person, holds, more):
    end = time.time() + REFRESHED
    while not holds() and time.time() < end:
        time.sleep(0.3)
    check(what, holds(), more())


def try_counts(person, office, shots):
    """Marlow looks on, while others work."""
    person.open(4)
    for number, treatment, responsive in ((1, "Produce", True), (2, "Produce", False), (3, "Withhold-AC", True), (4, "Withhold-WP", True), (5, "Redact", True)):
        office.ask(ELLIS, "POST", f"/docs/{number}/call", dict(responsive=responsive, treatment=treatment, designation=""))
    office.ask(LEAD, "POST", "/docs/6/call", PRODUCE)
    due = due_counts(office, None)
    told_within("what others did is in the counts", person, lambda: counts(person) == due, lambda: (counts(person), due))
    check("and in the rows", rows(person)[2][2] == "Withhold AC, to confirm", rows(person)[2])
    line = "It isn’t so any more. Now: Withhold WP, responsive; last edited by Ellis, not confirmed. Look again (L)."
    # who edited it may have to be asked for
    told_within("the open document says that it isn't as it is shown", person, lambda: person.text("outdated") == line, lambda: person.text("outdated"))
    check("and stays as it was read", "Not called" in person.text("state"), person.text("state"))
    person.shot(os.path.join(shots, "outdated.png"))
    person.does(lambda: person.key("l"), "as it stands now")
    check("looked at again it is", "Withhold WP" in person.text("state") and person.js("document.getElementById('outdated').hidden"), person.text("state"))
    for name, takes in (("first", [3, 4, 5]), ("withheld", [3, 4]), ("redacted", [5]), ("unresponsive", [2]), ("produce", [1, 2, 6]), ("settled", [1, 2, 6])):
        choose(person, name)
        check(f"the filter {name}", [row[0] for row in rows(person)] == takes, rows(person))
    office.ask(ELLIS, "POST", "/docs/7/call", PRODUCE)
    told_within("a document that others changed comes into the list", person, lambda: [row[0] for row in rows(person)] == [1, 2, 6, 7], lambda: rows(person))
    time.sleep(READ)


def try_mine(person, office):
    choose(person, "mine")
    check("who somebody is isn't known", rows(person) == [] and person.js("document.getElementById('my_name').checkVisibility()"))
    person.until("document.querySelectorAll('#my_name option').length === 4")
    check("and may be chosen", person.js("Array.from(document.querySelectorAll('#my_name option'), (it) => it.textContent)") ==
          ["who?", "lead (1)", "Ellis (2)", "Marlow (3)"])
    person.js("(() => { const it = document.getElementById('my_name'); it.value = '2'; it.dispatchEvent(new Event('change')) })()")
    check("by me: as who was chosen", [row[0] for row in rows(person)] == [1, 2, 3, 4, 5, 7], rows(person))
    person.js("document.getElementById('sheet').focus()")
    person.decide(8, "yp")
    check("a call tells who it was", person.js("document.getElementById('my_name').value") == "3" and [row[0] for row in rows(person)] == [8], rows(person))
    due = due_counts(office, 3)
    check("and its counts stand at once", counts(person) == due, (counts(person), due))
    choose(person, "all")


def try_by_state(person, office):
    arrange(person, order="state")
    called, settled = {1, 2, 3, 4, 5, 6, 7, 8}, {1, 2, 6, 7, 8}
    due = [number for number in range(1, 13) if number not in called] + [number for number in called if number not in settled] + sorted(settled)
    check("sorted by state", [row[0] for row in rows(person)] == due, (rows(person), due))
    person.decide(9, "yp")
    check("and a call moves it", [row[0] for row in rows(person)] == [number for number in due if number != 9] + [9], rows(person))
    arrange(person, order="changed")
    check("sorted by what changed last", [row[0] for row in rows(person)][:3] == [9, 8, 7], rows(person))
    arrange(person, order="number")


def try_produced(person, office):
    for number in (3, 4, 5):
        office.ask(LEAD, "POST", f"/docs/{number}/call", PRODUCE)
    for number in (10, 11, 12):
        office.ask(LEAD, "POST", f"/docs/{number}/call", PRODUCE)
    produced = office.ask(LEAD, "POST", "/productions", {"id": "R-1", "volume": "V", "prefix": "P", "width": 4, "from": 1, "to": 3, "fields": []})["items"]
    due = due_counts(office, 3, len(produced))
    told_within("what stands in a production is told", person, lambda: counts(person) == due, lambda: (counts(person), due))
    choose(person, "produced")
    check("by a filter", [row[0] for row in rows(person)] == [item["doc"] for item in produced], rows(person))
    check("with the production", rows(person)[0][2] == "Produce · in R-1", rows(person)[0])
    person.open(1)
    check("a look at the document leaves that", rows(person)[0][2] == "Produce · in R-1", rows(person)[0])
    choose(person, "all")


# ---- what it costs


def try_cost(person):
    person.rest(3)
    before = asked(person, "/states/1")
    time.sleep(21)
    check("one look each ten seconds", 2 <= asked(person, "/states/1") - before <= 3, asked(person, "/states/1") - before)
    person.js("Object.defineProperty(document, 'hidden', { value: true, configurable: true }); document.dispatchEvent(new Event('visibilitychange'))")
    before = asked(person, "/states/1")
    time.sleep(12)
    check("and none while the tab is hidden", asked(person, "/states/1") == before, asked(person, "/states/1") - before)
    person.js("delete document.hidden; document.dispatchEvent(new Event('visibilitychange'))")
    told_within("then again at once", person, lambda: asked(person, "/states/1") > before, lambda: "")


def try_names_of_controls(person):
    person.key("i")
    person.until("document.getElementById('list_dialog').open")
    check("every control of the list has a name", nameless(person) == [], nameless(person))
    person.key("Escape")
    person.until("!document.getElementById('list_dialog').open")
    # by keys alone
    person.js("document.getElementById('sheet').focus()")
    person.key("i")
    person.tab_to("[name=order]")
    person.key("ArrowDown")
    person.tab_to("#list_dialog form button:not([type])")
    person.does(lambda: person.key("Enter"), "The list is sorted by name.")
    check("keys alone sort the list", [row[0] for row in rows(person)][0] == order_of("TITLE")[0], rows(person)[0])


# ---- many documents


def settle_all(office):
    """Each document called Produce, at the stand-in's own port."""
    desk = lambda: http.client.HTTPConnection("127.0.0.1", office.ports[0], timeout=60)
    for number in range(1, 1201):
        peer = desk()
        peer.request("POST", f"/docs/{number}/call", json.dumps(PRODUCE), {"Desk-Key": LEAD})
        peer.getresponse().read()
        peer.close()


def try_many(scratch):
    os.mkdir(folder := os.path.join(scratch, "large"))
    with closing(Office(folder, copies=100)) as office:
        settle_all(office)
        try_long_walks(office)


def try_long_walks(office):
    with window(office, ELLIS) as person:
        person.rest()
        states = [request["url"].rsplit("/", 1)[1] for request in person.requests if "/states/" in request["url"]]
        check("1,200 documents are told by three looks", states[:3] == ["1", "501", "1001"] and person.text("count") == "1,200 documents", states)
        check("and each is counted", counts(person)["settled"] == 1200, counts(person))
        slow(person, 1500)
        person.says("U says how far it is", lambda: person.key("u"), "of 1,200 documents. Escape stops.")
        person.says("and stops at Escape", lambda: person.key("Escape"), "Stopped: no document that isn’t settled")
        person.says("so does an order that wants each document's fields", lambda: arrange(person, "Asked for the fields of", order="date"), "Asked for the fields of")
        person.says("Escape stops it", lambda: person.key("Escape"), "the others stand last.")
        as_before(person)
        check("what was told stands first", rows(person)[0][0] == 2 and rows(person)[0][3].startswith(min(COLUMN["DOCDATE"])), rows(person)[:2])
        arrange(person, "Asked for the fields of", order="date")
        person.until("document.getElementById('said').textContent.includes('The list is sorted by date.')", seconds=300)
        person.js("document.getElementById('documents').scrollTop = 0")
        person.until("document.getElementById('document_2') !== null")
        first = [row[0] for row in rows(person)][:5]
        check("and at its end the list is sorted", first == [2 + 12 * k for k in range(5)], first)


def main():
    scratch, shots, program = given()
    os.mkdir(folder := os.path.join(scratch, "batch"))
    with closing(Office(folder, program, desks=2)) as office, window(office, ELLIS) as person:
        try_names(person, shots)
        try_kept(person, office)
        try_orders(person, shots)
        try_counts(person, office, shots)
        try_mine(person, office)
        try_by_state(person, office)
        try_produced(person, office)
        try_cost(person)
        try_names_of_controls(person)
    try_many(scratch)
    finish("the list")


main()
