"""By keys alone: people come in, a production is planned, its pages are looked at, it is frozen."""
import os
import time

from by_keys import Hands
from frame import as_before, slow, window
from keyboard_list import sign_in, told
from keyboard_many import LETTER
from office import ELLIS, LEAD, MARLOW
from person import READ, SHIFT, check, read_saved

NAME, ROLE = "Osei Tutu", "Second"
FIELDS = {"ID": "R-1", "Volume": "vol001", "Prefix of the numbers": "abc-", "Digits": "6", "From document": "1",
          "To document": "12"}
REQUEST = {"id": "R-1", "volume": "VOL001", "prefix": "ABC-", "width": 6, "from": 1, "to": 12}
LABELS = "ABC-000001"


def try_people(person, office, shots):
    person.go(office.url)
    sign_in(person, LEAD)
    person.push("People")
    person.until("document.getElementById('people').open")
    person.state("dialog-people", looks=True)
    person.around("the dialog of people")
    person.fill("Name", NAME)
    person.pick("Role", ROLE)
    person.push("Make a key")
    person.until("document.getElementById('new_key').textContent !== ''")
    key = person.text("new_key")
    staff = office.ask(LEAD, "GET", "/staff")[-1]
    check("a person is taken in with a role", (staff["name"], staff["role"]) == (NAME, ROLE), staff)
    person.rest(0.3)
    person.state("dialog-people-key")
    close(person, "people")
    person.has_focus("the focus comes back to the button", "People")
    with window(office, kind=Hands, shots=shots) as other:
        other.go(office.url)
        other.fill("Your key", key)
        other.key("Enter")
        other.until("document.getElementById('title').textContent === 'Document 1'")
        check("who came in opens the page with the key that was shown", True)
        other.push("Leave")
        other.until("document.getElementById('enter')?.checkVisibility() === true")
        check("and Leave forgets it", other.js("document.getElementById('key').value") == "")
        person.used.update(other.used)
    person.end_part("people")


def close(person, name):
    person.push("Close")
    person.until(f"!document.getElementById('{name}').open")


# ---- the plan


def settle(office):
    """All that isn't settled yet, by others: 3 withheld, 5 and 9 redacted, all three confirmed."""
    for number in (1, 2, 4, 6, 10, 11, 12):
        for box in told(office, number)["boxes"]:
            office.ask(ELLIS, "POST", f"/docs/{number}/unbox", dict(num=box["num"]))
        office.ask(ELLIS, "POST", f"/docs/{number}/call", dict(responsive=True, treatment="Produce", designation=""))
    for number in (5, 9):
        office.ask(ELLIS, "POST", f"/docs/{number}/call", dict(responsive=True, treatment="Redact", designation="CONFIDENTIAL"))
        office.ask(ELLIS, "POST", f"/docs/{number}/box", dict(num=1, page=1, left=400, top=900, width=900, height=200, basis="PI"))
    office.ask(ELLIS, "POST", "/docs/5/hold", dict(field="AUTHOR", basis="PI"))
    office.ask(ELLIS, "POST", "/docs/3/call", dict(responsive=True, treatment="Withhold-AC", designation=""))
    for number in (3, 5):  # 5 may have a box for WP
        office.ask(ELLIS, "POST", f"/docs/{number}/entry", LETTER)
    for number in (3, 5, 9):
        office.ask(MARLOW, "POST", f"/docs/{number}/confirm", {})


def open_dialog(person):
    person.push("Production")
    person.until("document.getElementById('productions').open && document.querySelectorAll('#chosen_fields input').length > 0")


def plan(person, words):
    person.does(lambda: person.push("Plan"), words, "frozen")


def try_in_the_way(person):
    open_dialog(person)
    person.state("dialog-production", looks=True)
    person.around("the dialog of productions")
    for name, text in FIELDS.items():
        person.fill(name, text)
    plan(person, "isn’t settled")
    person.state("dialog-production-in-the-way", looks=True)
    person.push("Open document ..")
    person.until("!document.getElementById('productions').open")
    person.has_focus("a document in the way is opened, and the page has the focus", "The page")
    open_dialog(person)
    person.fill("From document", "2")
    plan(person, "document 2 is of it")
    person.state("dialog-production-family")
    person.does(lambda: person.push("Take documents 1 to 12"), "isn’t settled", "frozen")
    value = person.js("document.getElementById('freeze').elements.from.value")
    check("a range that has its families whole is taken", value == "1", value)
    person.see("another range")


def try_stop(person):
    slow(person, 3000)
    person.push("Plan")
    person.until("heard.frozen.at(-1).includes('documents of which something is held back')", 180)
    person.says("what is gathered for a plan is stopped", lambda: person.push("Stop"), "Stopped: nothing was planned.", "frozen")
    as_before(person)


def try_plan(person, office):
    names = [row["name"] for row in office.ask(LEAD, "GET", "/docs/1/values")]
    for name in names:
        person.tick(name)
    for name in names[1:]:
        person.tick(name, False)
    plan(person, "Nothing is frozen.")
    due = office.ask(LEAD, "POST", "/plan", dict(REQUEST, fields=names[:1]))
    due = f"{len(due['items'])} documents, {due['last']} pages: ABC-{due['first']:06} to ABC-{due['last']:06}."
    shown = person.js("document.getElementById('plan_summary').firstElementChild.textContent")
    check("a plan is what the desk would freeze", shown == due, (shown, due))
    person.state("dialog-production-plan", looks=True)
    for name in ("Documents", "Held fields", "Privilege log, a preview"):
        person.push(f"{name} (..")
    check("its lists open by Enter", person.js("[...document.querySelectorAll('#planned details')].every((it) => it.open)"))
    person.state("dialog-production-plan-lists")
    person.save_into(into := os.path.join(office.folder, "preview"))
    person.does(lambda: person.push("Save the preview as a file"), "is saved as VOL001-LOG-PREVIEW.CSV")
    saved = read_saved(os.path.join(into, "VOL001-LOG-PREVIEW.CSV")).decode()
    check("the preview of the log is saved", "Letter asking counsel for advice on the lease" in saved, saved)


# ---- pages as they will go out


def shows(person, text):
    person.until(f"document.getElementById('outgoing_name').textContent.startsWith('{text}')"
                 " && document.getElementById('outgoing_ink').dataset.state === 'whole'")


def try_pages(person):
    person.push(f"{LABELS} ..")
    person.until("document.getElementById('outgoing').open")
    shows(person, LABELS)
    person.has_focus("labels open their pages, and the page has the focus", "The page")
    person.key("Escape")
    person.until("!document.getElementById('outgoing').open")
    person.has_focus("the focus comes back to the labels", f"{LABELS} ..")
    person.push("Look at the pages as they will go out")
    person.until("document.getElementById('outgoing').open")
    person.rest(0.3)
    person.key("ArrowRight")
    person.key("ArrowLeft")
    for _ in range(25):
        person.key("ArrowLeft")
    shows(person, LABELS)
    person.has_focus("at the first page", "The page")
    person.state("dialog-pages", looks=True)
    person.around("the dialog of pages")
    for name, number in (("Next page", 2), ("Page before", 1)):
        person.push(name)
        shows(person, f"ABC-{number:06}")
    person.see("the first page")
    person.has_focus("where no page is before, the button beside has the focus", "Next page")
    person.pick("Size", "100 %")
    person.until("document.getElementById('outgoing_ink').width > 1600")
    person.reach("The page")
    left = lambda: person.js("document.getElementById('outgoing_sheet').scrollLeft")
    person.key("ArrowRight", SHIFT)
    check("Shift and an arrow move over a page that is wider than its place", left() > 0, left())
    person.key("ArrowLeft", SHIFT)
    check("and back", left() == 0, left())
    person.pick("Size", "whole page")
    try_sample(person)
    person.push("Close")
    person.until("!document.getElementById('outgoing').open")
    person.has_focus("the focus comes back to the button", "Look at the pages as they will go out")
    check("and the plan tells what was looked at", person.text("tally").startswith("2 of 3 pages"), person.text("tally"))


def try_sample(person):
    ticks = lambda: person.text("outgoing_told").split(" of ")[0]
    person.fill("Sample of", "2")
    person.pick("of", "pages with boxes")
    person.push("Take")
    person.until("document.querySelectorAll('#sample_pages li').length === 2")
    person.fill("Sample of", "3")
    person.pick("of", "all pages")
    person.push("Take")
    person.until("document.querySelectorAll('#sample_pages li').length === 3")
    sample = person.js("Array.from(document.querySelectorAll('#sample_pages button'), (it) => it.textContent.split(':')[0])")
    person.push(f"{sample[0]}: ..")
    shows(person, sample[0])
    person.reach("The page")
    person.key("y")
    shows(person, sample[1])
    check("Y ticks a page, and goes on to the next of the sample", ticks() == "1", person.text("outgoing_told"))
    person.key("j")
    shows(person, sample[2])
    person.key("k")
    shows(person, sample[1])
    person.push("Next of the sample J")
    shows(person, sample[2])
    person.push("The page of the sample before")
    shows(person, sample[1])
    person.tick("Looked at Y")
    person.until("document.getElementById('outgoing_told').textContent.startsWith('2 of 3')")
    person.tick("Looked at Y", False)
    person.until("document.getElementById('outgoing_told').textContent.startsWith('1 of 3')")
    person.tick("Looked at Y")
    check("a choice ticks it, too, and takes the tick away", ticks() == "2", person.text("outgoing_told"))
    person.state("dialog-pages-sample")


# ---- the freeze


def try_freeze(person, office):
    person.does(lambda: person.push("Freeze"), "It can’t be taken back", "frozen")
    person.state("dialog-production-freeze")
    time.sleep(READ)
    person.says("Enter freezes at the second press", lambda: person.push("Freeze"), "R-1 stands as it was planned", "frozen")
    stands = [row["id"] for row in office.ask(LEAD, "GET", "/productions")]
    check("at the desk", stands == ["S-1", "R-1"], stands)
    person.does(lambda: person.push("Look at the production S-1"), "S-1 stands: 2 documents", "frozen")
    person.does(lambda: person.push("Look at the production R-1"), "R-1 stands: ", "frozen")
    check("and each is looked at", person.js("document.querySelectorAll('#items tbody tr').length") == 10)
    person.state("dialog-production-stands", looks=True)
    close(person, "productions")
    person.has_focus("the focus comes back to the button", "Production")
    person.end_part("a production")


def try_production(person, office):
    try_in_the_way(person)
    settle(office)
    try_stop(person)
    try_plan(person, office)
    try_pages(person)
    try_freeze(person, office)
