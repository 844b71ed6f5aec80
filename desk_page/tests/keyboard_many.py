"""By keys alone: calls for many documents, and those taken back; the list of keys; the second review."""
import time

from frame import as_before, slow
from keyboard_decide import is_called, others
from keyboard_list import call, sign_in, told
from office import ELLIS, MARLOW
from person import READ, check

MANY = ("Produce", "Redact", "Withhold AC", "Withhold WP")
LETTER = dict(date="2019-03-04", author="Ng", recipients="Ortiz, Berg", description="Letter asking counsel for advice on the lease")


# ---- many


def open_many(person, push=False):
    if push:
        person.push("Many X")
    else:
        person.key("x")
    person.until("document.getElementById('many').open && document.getElementById('of_family').textContent.includes('document')")


def fill_many(person, which, responsive, treatment, designation):
    person.answer(*others(which, ("the family of ..", "those marked ..")))
    person.answer(*others(responsive, ("yes", "no")))
    for name in MANY:
        person.answer(*others(name, MANY))
    person.answer(*others(treatment, MANY))
    person.fill("Designation", designation)


def close_dialog(person, name):
    person.push("Close")
    person.until(f"!document.getElementById('{name}').open")


def try_many(person, office):
    for number in (11, 12):
        person.open(number)
        person.does(lambda: person.key("m"), "is marked")
    open_many(person)
    person.has_focus("what is chosen has the focus", "those marked ..")
    person.state("dialog-many", looks=True)
    person.around("the dialog of many")
    fill_many(person, "those marked ..", "no", "Produce", "m-1")
    person.says("what would be called is asked first", lambda: person.push("Call them"), "Call 2 documents: 11, 12?", "many_told")
    person.state("dialog-many-asked")
    call(office, MARLOW, 12, "Withhold-WP")
    person.says("and called at the second press", lambda: person.push("Call them"), "1 document called, 1 refused", "many_told")
    stand = [is_called(told(office, number)) for number in (11, 12)]
    check("at the desk", stand == [(False, "Produce", "M-1"), (True, "Withhold-WP", "")], stand)
    person.state("dialog-many-refused")
    person.push("Open document 12")
    person.title(12)
    person.has_focus("what was refused is opened, and the page has the focus", "The page")
    person.open(1)
    open_many(person, push=True)
    fill_many(person, "the family of ..", "yes", "Produce", "")
    slow(person, 3000)
    person.push("Call them")
    person.says("a run is stopped", lambda: person.push("Stop"), "Stopped: nothing was called.", "many_told")
    as_before(person)
    person.does(lambda: person.push("Call them"), "Call 3 documents: 1, 2, 3?", "many_told")
    person.does(lambda: person.push("Call them"), "3 documents called, 0 refused", "many_told")
    stand = [is_called(told(office, number)) for number in (1, 2, 3)]
    check("a family is called", stand == [(True, "Produce", "")] * 3, stand)
    close_dialog(person, "many")
    person.has_focus("the focus comes back to the button", "Many X")
    person.does(lambda: person.push("Take back my last call Z"), "Take back the calls of 3 documents (1 to 3)?")
    person.says("and all are taken back", lambda: person.push("Take back my last call Z"), "3 of 3 calls are taken back")
    stand = [is_called(told(office, number)) for number in (2, 3)]
    check("as they were", stand == [(False, "Produce", ""), (True, "Withhold-AC", "")], stand)
    person.end_part("many")


def try_key_list(person):
    person.to_page()
    person.key("?")
    person.until("document.getElementById('keys').open")
    person.state("dialog-keys", looks=True)
    person.around("the list of keys")
    close_dialog(person, "keys")
    person.has_focus("the focus comes back to the page", "The page")
    person.push("Keys ?")
    person.until("document.getElementById('keys').open")
    person.key("Escape")
    person.until("!document.getElementById('keys').open")
    person.has_focus("and to the button", "Keys ?")
    person.end_part("the list of keys")


# ---- the second review


def ask(person, name):
    person.push(name)
    person.until("document.getElementById('ask').open")


def try_second(person, office):
    office.ask(ELLIS, "POST", "/docs/3/entry", LETTER)
    call(office, ELLIS, 3, "Withhold-AC")
    person.go(office.url)
    sign_in(person, MARLOW)
    person.open(3)
    person.push("Document 2: ..")
    person.title(2)
    person.see("another of the family")
    check("another of the family is opened", person.is_at("Document 2: .."), person.focused())
    person.open(3)
    person.key("c")
    person.until("document.getElementById('ask').open")
    person.has_focus("C asks for one more look", "Confirm")
    person.state("dialog-confirm", looks=True)
    person.around("the dialog to confirm")
    person.push("Cancel")
    person.until("!document.getElementById('ask').open")
    person.has_focus("Cancel leads back to the page", "The page")
    check("and nothing is confirmed", told(office, 3)["confirmer"] == 0)
    ask(person, "Confirm C")
    person.says("Enter confirms", lambda: person.push("Confirm"), "Document 3 is confirmed.")
    people = told(office, 3)["editor"], told(office, 3)["confirmer"]
    check("at the desk: by another person than the one who edited it", people == (2, 3), people)
    person.has_focus("the focus comes back to the button", "Confirm C")
    person.state("confirmed")
    person.to_page()
    person.says("an edit of what is confirmed is asked for twice", lambda: person.key("r"), "would undo it")
    person.state("confirmed-warned")
    person.does(lambda: person.key("l"), "as it stands now")
    ask(person, "Send back S")
    person.state("dialog-send-back", looks=True)
    person.key("Escape")
    person.until("!document.getElementById('ask').open")
    person.has_focus("Escape leads back to the button", "Send back S")
    person.key("s")
    person.until("document.getElementById('ask').open")
    person.says("it is sent back", lambda: person.push("Send back"), "Document 3 is sent back.")
    check("and uncalled at the desk", told(office, 3)["editor"] == 0, told(office, 3))
    call(office, ELLIS, 3, "Withhold-AC")
    person.key("l")
    person.until("document.getElementById('state').textContent.includes('Withhold AC')")
    try_changed(person, office)
    person.end_part("the second review")


def try_changed(person, office):
    """Somebody else changes a document that is open."""
    person.to_page()
    call(office, ELLIS, 3, "Withhold-WP")
    person.says("a call on what another changed isn't sent", lambda: person.key("a"), "Nothing was sent: Document 3 was changed")
    person.state("changed-by-another")
    time.sleep(READ)
    call(office, ELLIS, 3, "Withhold-AC")
    person.until("!document.getElementById('outdated').hidden", 60)
    person.state("outdated")
    person.does(lambda: person.key("l"), "as it stands now")
