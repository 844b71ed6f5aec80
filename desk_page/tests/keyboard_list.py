"""By keys alone: the way in, the list of documents with its filters, orders and fields, pages and their view."""
from batch import COLUMN, order_of
from office import ELLIS, LEAD, MARLOW
from person import SHIFT, check

ORDERS = {"number": list(range(1, 13)), "name": order_of("TITLE"), "date": order_of("DOCDATE"), "author": order_of("AUTHOR")}
PRODUCED = {"id": "S-1", "volume": "S1", "prefix": "S", "width": 4, "from": 7, "to": 8, "fields": []}
MARKED, ELLIS_IS = 1, 2  # a document, and a number of the staff
IS_CALLED = lambda treatment: lambda row: row["editor"] and row["treatment"].startswith(treatment)
IS_SETTLED = lambda row: row["editor"] and (row["treatment"] == "Produce" or row["confirmer"])
FILTERS = {
    "not called": lambda row: row["editor"] == 0,
    "to confirm": lambda row: row["editor"] and not IS_SETTLED(row),
    "settled": IS_SETTLED,
    "by me": lambda row: ELLIS_IS in (row["editor"], row["confirmer"]),
    "called Produce": IS_CALLED("Produce"),
    "called Redact": IS_CALLED("Redact"),
    "withheld": IS_CALLED("Withhold"),
    "not responsive": lambda row: row["editor"] and not row["responsive"],
    "produced": lambda row: row["production"] is not None,
    "marked": lambda row: row["doc"] == MARKED,
    "all": lambda row: True,
}


def call(office, key, number, treatment, responsive=True):
    office.ask(key, "POST", f"/docs/{number}/call", dict(responsive=responsive, treatment=treatment, designation=""))


def decide(office):
    """What others did before, so that each filter takes some."""
    for number, key, treatment in ((1, MARLOW, "Produce"), (2, ELLIS, "Produce"), (3, ELLIS, "Withhold-AC"), (7, MARLOW, "Produce"),
                                   (8, MARLOW, "Produce"), (9, ELLIS, "Redact")):
        call(office, key, number, treatment, number != 2)
    office.ask(LEAD, "POST", "/productions", PRODUCED)


def told(office, number):
    """What the desk tells of a document."""
    return office.ask(LEAD, "GET", f"/docs/{number}")


def listed(person):
    return person.js("Array.from(document.querySelectorAll('#tall .row'), (it) => Number(it.dataset.number))")


# ---- the way in


def sign_in(person, key):
    person.fill("Your key", key)
    person.push("Open")
    person.until("document.getElementById('title').textContent.startsWith('Document ')")


def try_way_in(person, office):
    person.go(office.url)
    person.has_focus("the field for the key has the focus", "Your key")
    person.state("enter", looks=True)
    person.around("the way in")
    person.fill("Your key", "nobody")
    person.says("a wrong key is refused", lambda: person.push("Open"), "KeyUnknown", "denied")
    person.until("!document.querySelector('#enter button').disabled")
    person.has_focus("and its field has the focus again", "Your key")
    person.state("enter-refused")
    sign_in(person, ELLIS)
    person.rest()
    person.has_focus("once in, the page has the focus", "The page")
    person.state("room", looks=True)
    person.around("the room")
    person.end_part("the way in")


# ---- the list


def try_list(person, office):
    person.reach("Documents")
    for key, number in (("ArrowDown", 2), ("ArrowUp", 1)):
        person.key(key)
        person.title(number)
    check("arrows go through the list", person.is_at("Documents"), person.focused())
    for key, number in (("j", 2), ("k", 1)):
        person.key(key)
        person.title(number)
    person.key("o")
    person.has_focus("O goes to the number of a document", "number of a document")
    person.fill("number of a document", "9")
    person.push("Go")
    person.title(9)
    person.has_focus("and what is opened has the focus", "The page")
    person.key("u")
    person.title(10)
    check("U goes to the next one that isn't settled", True)
    person.open(1)
    try_filters(person, office)
    try_orders(person)
    try_fields(person)
    person.end_part("the list")


def try_filters(person, office):
    person.does(lambda: person.push("Mark M"), "Document 1 is marked")
    rows = office.ask(LEAD, "GET", "/states/1")
    for name, takes in FILTERS.items():
        due = [row["doc"] for row in rows if takes(row)]
        person.key("f")
        person.has_focus("F goes to the filters", "Show F")
        person.pick("Show F", f"{name} (")
        if name == "by me":
            person.state("filter-by-me-asked")
            person.pick("I am", f"Ellis ({ELLIS_IS})")
            person.key("Escape")
        count = "12 documents" if name == "all" else f"{len(due)} of 12 documents"
        person.until(f"document.getElementById('count').textContent === '{count}'")
        check(f"the filter {name}", 0 < len(due) and listed(person) == due, (listed(person), due))
        if name == "to confirm":
            person.state("filter")
    person.key("Escape")
    person.has_focus("Escape leaves it for the page", "The page")
    person.does(lambda: person.key("m"), "isn’t marked")


def arrange(person, order, backward=False):
    person.key("i")
    person.until("document.getElementById('list_dialog').open")
    person.pick("Sorted by", order)
    person.tick("the other way round", backward)
    person.does(lambda: person.push("Show"), "The list is sorted by")
    person.has_focus("the focus comes back to the page", "The page")


def try_orders(person):
    person.key("Escape")
    for order, due in ORDERS.items():
        arrange(person, order)
        check(f"sorted by {order}", listed(person) == due, (listed(person), due))
    arrange(person, "number", backward=True)
    check("the other way round", listed(person) == list(range(12, 0, -1)), listed(person))
    arrange(person, "state")
    check("by state, what nobody called first", listed(person)[:6] == [4, 5, 6, 10, 11, 12], listed(person))
    person.open(6)
    person.does(lambda: person.press("yp"), "The call stands.")
    arrange(person, "changed")
    check("by what changed last", listed(person)[0] == 6, listed(person))
    arrange(person, "number")


def try_fields(person):
    person.reach("List I")
    person.key("Enter")
    person.until("document.getElementById('list_dialog').open")
    person.state("dialog-list", looks=True)
    person.around("the dialog of the list")
    for name, field in (("Name of a document", "DOCTYPE"), ("Date", "none"), ("Author", "RECIPIENTS")):
        person.pick(name, field)
    person.does(lambda: person.push("Show"), "The list is sorted by number.")
    person.has_focus("the focus comes back to the button", "List I")
    person.until(f"document.querySelector('#document_2 .name')?.textContent.trim() === '{COLUMN['DOCTYPE'][1]}'")
    rest = person.js("document.querySelector('#document_2 .rest').textContent")
    is_other = rest.startswith(COLUMN["RECIPIENTS"][1]) and COLUMN["DOCDATE"][1] not in rest
    check("name, date and author by other fields", is_other, rest)
    person.focus_comes_back("Cancel leaves the list as it was", lambda: cancel(person))
    check("and so it is", listed(person) == list(range(1, 13)), listed(person))
    person.state("list-other-fields")


def cancel(person):
    person.key("Enter")
    person.until("document.getElementById('list_dialog').open")
    person.pick("Sorted by", "number")
    person.tick("the other way round")
    person.push("Cancel")
    person.until("!document.getElementById('list_dialog').open")


# ---- pages


def place_of(person):
    return person.text("place")


def scrolled(person):
    return person.js("[document.getElementById('sheet').scrollLeft, document.getElementById('sheet').scrollTop]")


def try_pages(person):
    person.open(10)
    person.turn(2, 4)
    person.turn(1, 4, "ArrowLeft")
    person.push("Next page")
    person.until("document.getElementById('place').textContent === 'page 2 of 4'")
    person.push("Page before")
    person.until("document.getElementById('place').textContent === 'page 1 of 4'")
    person.see("the first page")
    person.has_focus("at the first page the button beside it has the focus", "Next page")
    person.to_page()
    for _ in range(20):
        if place_of(person) != "page 1 of 4":
            break
        person.key(" ")
        person.rest(0.2)
    check("Space reads on", place_of(person) == "page 2 of 4", place_of(person))
    person.key(" ", SHIFT)
    person.until("document.getElementById('place').textContent === 'page 1 of 4'")
    check("and with Shift back", True)
    person.key("ArrowDown")
    check("an arrow moves the page", scrolled(person)[1] > 0, scrolled(person))
    person.key("ArrowUp")
    check("and back", scrolled(person)[1] == 0, scrolled(person))
    try_sizes(person)
    try_turns(person)
    try_words(person)
    person.end_part("pages")


def width(person):
    person.whole()
    return person.js("document.getElementById('ink').width")


def try_sizes(person):
    at_first = width(person)
    person.key("+")
    check("+ makes the page larger", width(person) > at_first, width(person))
    person.key("-")
    person.key("-")
    check("- smaller", width(person) < at_first, width(person))
    person.key("0")
    check("0 as wide as its place", width(person) == at_first, width(person))
    person.push("Larger")
    larger = width(person)
    check("and so do the buttons: larger", larger > at_first, larger)
    person.push("Smaller")
    check("smaller", width(person) < larger, width(person))
    person.pick("Size", "100 %")
    check("a size is chosen: a point of the screen is one of the page", width(person) == 2550, width(person))
    person.pick("Size", "400 %")
    person.to_page()
    person.whole()
    before = scrolled(person)
    person.key("ArrowLeft", SHIFT)
    person.key("ArrowUp", SHIFT)
    back = scrolled(person)
    check("Shift and the arrows move the view to the left and up", back[0] < before[0] and back[1] < before[1], (before, back))
    person.key("ArrowRight", SHIFT)
    person.key("ArrowDown", SHIFT)
    check("and back", all(abs(now - then) <= 1 for now, then in zip(scrolled(person), before)), (before, scrolled(person)))
    check("and turn no page", place_of(person) == "page 1 of 4", place_of(person))
    person.state("page-400-percent")
    person.pick("Size", "whole page")
    person.state("page-whole")
    person.pick("Size", "page width")
    person.to_page()


def try_turns(person):
    def turned():
        person.whole()
        return person.js("document.getElementById('turned').style.transform")

    upright = turned()
    person.says("V turns the view", lambda: person.key("v"), "turned by 90 degrees")
    check("by a quarter", turned() != upright, turned())
    person.state("page-turned")
    for degrees in (180, 270):
        person.does(lambda: person.push("Turn the view"), f"turned by {degrees} degrees")
    person.says("and so does the button", lambda: person.push("Turn the view"), "upright again")
    check("to where it was", turned() == upright, turned())


def try_words(person):
    shown = "document.querySelectorAll('#over .word').length"
    person.to_page()
    person.key("t")
    person.until(f"{shown} > 20")
    person.state("page-words")
    person.key("t")
    person.until(f"{shown} === 0")
    person.tick("Words")
    person.until(f"{shown} > 20")
    person.tick("Words", False)
    person.until(f"{shown} === 0")
    check("T shows the words and hides them, and so does the choice", True)
    person.to_page()
