"""By keys alone: the call, boxes, words that are chosen, held fields, the log entry."""
import batch
from keyboard_list import told
from office import LEAD
from person import CTRL, SHIFT, check

RESPONSIVE = ("yes Y", "no N")
TREATMENTS = ("Produce P", "Redact R", "Withhold AC A", "Withhold WP W")
ENTRY = {"Date G": "2019-05-02", "Author": "Berg", "Recipients": "Ng; Ortiz, Hall",
         "Description": "Note (of 2 May), quoting counsel's advice."}
SIDES = ("left", "top", "width", "height")


def is_called(doc):
    return doc["responsive"], doc["treatment"], doc["designation"]


def others(name, group):
    return (name, *(other for other in group if other != name))


# ---- the call


def try_call(person, office):
    person.open(4)
    person.says("a treatment before the answer to responsive", lambda: person.key("p"), "Say first whether it is responsive")
    person.state("refused")
    # the treatment is chosen already
    for key, *due in (("y", True, "Produce"), ("p", True, "Produce"), ("n", False, "Produce"), ("y", True, "Produce"),
                      ("a", True, "Withhold-AC"), ("w", True, "Withhold-WP"), ("r", True, "Redact")):
        person.does(lambda: person.key(key), "The call stands.")
        check(f"{key.upper()}: {due}", is_called(told(office, 4)) == (*due, ""), told(office, 4))
    person.says("Z takes the last call back", lambda: person.key("z"), "The call of document 4 is taken back")
    check("as it was before", is_called(told(office, 4)) == (True, "Withhold-WP", ""), told(office, 4))
    person.open(5)
    person.answer(*others("no N", RESPONSIVE))
    for name in TREATMENTS:
        person.answer(*others(name, TREATMENTS))
    person.answer(*others("Redact R", TREATMENTS))
    person.key("d")
    person.has_focus("D goes to the designation", "Designation D")
    person.fill("Designation D", "confidential")
    person.state("call-unsent")
    person.says("a call is set by its form", lambda: person.push("Set call"), "The call stands.")
    check("as it was filled in", is_called(told(office, 5)) == (False, "Redact", "CONFIDENTIAL"), told(office, 5))
    person.answer(*others("yes Y", RESPONSIVE))
    person.does(lambda: person.push("Set call"), "The call stands.")
    person.says("and taken back by a button", lambda: person.push("Take back my last call Z"), "The call of document 5 is taken")
    check("to what it was", is_called(told(office, 5))[0] is False, told(office, 5))
    person.to_page()
    person.does(lambda: person.key("y"), "The call stands.")
    person.does(lambda: person.push("Look again L"), "Document 5 as it stands now.")
    person.to_page()
    person.does(lambda: person.key("l"), "Document 5 as it stands now.")
    person.end_part("the call")


# ---- boxes


def boxes(office, number):
    return {box["num"]: box for box in told(office, number)["boxes"]}


def sides_of(box):
    return [box[side] for side in SIDES]


def try_boxes(person, office):
    person.open(5)
    person.says("B makes a box", lambda: person.key("b"), "A new box")
    at = person.draft()
    wanted = [at[0] - 43, at[1] + 31, at[2] + 102, at[3] + 24]
    person.adjust(wanted)
    check("which the arrows move and, with Shift, size", person.draft() == wanted, (person.draft(), wanted))
    person.state("box-draft")
    for key, basis in (("1", "AC"), ("2", "WP"), ("4", "TS"), ("3", "PI")):
        person.key(key)
        check(f"{key} gives it the basis {basis}", person.js("document.getElementById('basis').value") == basis)
    person.says("Enter puts it", lambda: person.key("Enter"), "Box 1 stands.")
    box = boxes(office, 5)[1]
    check("at the desk too", (sides_of(box), box["basis"], box["page"]) == (wanted, "PI", 1), box)
    person.does(lambda: person.push("New box"), "A new box")
    person.has_focus("a box by the button: the page has the focus", "The page")
    person.key("ArrowDown", SHIFT)
    person.does(lambda: person.key("Enter"), "Box 2 stands.")
    second = sides_of(boxes(office, 5)[2])
    person.key("b")
    person.key("Escape")
    check("Escape leaves a box", person.draft() is None and len(boxes(office, 5)) == 2)
    try_chosen_box(person, office, second)
    person.end_part("boxes")


def try_chosen_box(person, office, second):
    for number in (1, 2):
        person.does(lambda: person.key("e"), f"Box {number} is chosen")
    person.says("a chosen box has another basis by a choice", lambda: person.pick("for", "TS"), "Box 2 stands.")
    check("at the desk", boxes(office, 5)[2]["basis"] == "TS", boxes(office, 5))
    person.does(lambda: person.push("Box 2, .."), "Box 2 is chosen")
    person.has_focus("one is chosen in the list: the page has the focus", "The page")
    person.key("ArrowRight")
    person.key("ArrowUp", CTRL)
    person.does(lambda: person.key("Enter"), "Box 2 stands.")
    moved = [second[0] + 10, second[1] - 1, *second[2:]]
    stands = sides_of(boxes(office, 5)[2])
    check("the arrows move it, by ten pixels and with Ctrl by one", stands == moved, (stands, moved))
    person.key("t")
    person.until("document.querySelectorAll('#over .word').length > 20")
    person.state("boxes", looks=True)
    person.key("t")
    person.does(lambda: person.key("e"), "Box 1 is chosen")
    person.says("Delete drops the chosen one", lambda: person.key("Delete"), "Box 1 is dropped.")
    person.says("and a button one of the list", lambda: person.push("Drop box 2"), "Box 2 is dropped.")
    check("at the desk too", boxes(office, 5) == {}, boxes(office, 5))
    person.has_focus("the page has the focus of what is gone", "The page")


def chosen(person):
    return person.js("Array.from(document.querySelectorAll('#over .chosen'), (it) => ['x', 'y', 'width', 'height']"
                     ".map((name) => Number(it.getAttribute(name))))")


def try_words(person, office):
    words = [list(word[1:5]) for word in batch.WORDS[4][0]]
    person.says("; chooses a word", lambda: person.key(";"), "1 word is chosen")
    at = words.index(chosen(person)[0])
    person.does(lambda: person.key("ArrowRight"), "1 word is chosen")
    check("an arrow goes to the next one", chosen(person) == [words[at + 1]], chosen(person))
    person.does(lambda: person.key("ArrowRight", SHIFT), "2 words are chosen")
    check("with Shift it chooses more", chosen(person) == words[at + 1 : at + 3], chosen(person))
    person.state("words-chosen")
    person.key("Escape")
    check("Escape leaves them", chosen(person) == [])
    person.does(lambda: person.key(";"), "1 word is chosen")
    word = chosen(person)[0]
    person.key("2")
    person.says("Enter makes a box of it", lambda: person.key("Enter"), "Box 1 stands.")
    box = boxes(office, 5)[1]
    around = all(box[SIDES[k]] <= word[k] and box[SIDES[k]] + box[SIDES[k + 2]] >= word[k] + word[k + 2] for k in (0, 1))
    check("around it, for the basis that is set", around and box["basis"] == "WP", (box, word))
    person.key("t")
    person.end_part("words that are chosen")


# ---- fields and entry


def try_fields(person, office):
    held = lambda: {row["name"]: row["held"] for row in office.ask(LEAD, "GET", "/docs/5/values") if row["held"]}
    person.key("h")
    person.has_focus("H goes to the fields", "Field H")
    person.pick("Field H", "AUTHOR")
    person.pick("Basis", "PI")
    person.says("a field is held back", lambda: person.push("Hold back"), "AUTHOR is held back. Held now: AUTHOR (PI).")
    check("at the desk too", held() == {"AUTHOR": "PI"}, held())
    person.push("All fields and their values")
    person.until("document.getElementById('all_fields').open")
    check("the values of all fields open by Enter", True)
    person.state("fields")
    person.key(" ")
    person.until("!document.getElementById('all_fields').open")
    check("and close by Space", True)
    person.says("a field is freed", lambda: person.push("Free AUTHOR"), "AUTHOR is freed. Held still: no field.")
    check("at the desk too", held() == {}, held())
    person.has_focus("the page has the focus of what is gone", "The page")
    person.end_part("held fields")


def try_entry(person, office):
    person.key("g")
    person.has_focus("G goes to the log entry", "Date G")
    for name, text in ENTRY.items():
        person.fill(name, text)
    person.state("entry-unsent")
    person.says("Ctrl and Enter put the entry", lambda: person.key("Enter", CTRL), "The log entry stands.")
    due = dict(zip(("date", "author", "recipients", "description"), ENTRY.values()))
    check("as it was typed", told(office, 5)["entry"] == due, told(office, 5)["entry"])
    person.fill("Author", "Berg and Hall")
    person.says("and so does the button", lambda: person.push("Put entry"), "The log entry stands.")
    check("with what was changed", told(office, 5)["entry"] == dict(due, author="Berg and Hall"), told(office, 5)["entry"])
    person.to_page()
    person.end_part("the log entry")
