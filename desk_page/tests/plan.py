#!/usr/bin/env python3
"""A production by the page, from the plan to the freeze: what stands in the way, each document of it; what would go out and what is held back;
the pages as they will go out; what was changed between plan and freeze; the productions that stand. Over the program, where it is given, each
page that was drawn is compared with the image that `press` writes, pixel by pixel, and the log as it was shown with the one that `log` prints.

    plan.py SCRATCH SHOTS [PROGRAM]     pictures of the screens go into the folder SHOTS
"""
import csv
import io
import os
import subprocess
import time
from contextlib import closing

import batch
from drawn_pages import told, try_by_chance, try_model
from frame import as_before, fits, given, in_colours, small_window, window
from office import ELLIS, LEAD, MARLOW, Office
from person import READ, check, finish, nameless, read_page, read_saved
from small_batch import SMALL, make_small_batch

HERE = os.path.dirname(os.path.abspath(__file__))
ENTRIES = {3: dict(date="2019-03-04", author="Ng", recipients="Ortiz, Berg", description='Letter asking "counsel" for advice on the lease'),
           10: dict(date="2019-05-02", author="Berg", recipients="Ng", description="Note quoting counsel")}


class Planned(Office):
    """The example batch, and over the program a second one of two documents of small pages."""

    def make_matter(self):
        super().make_matter()
        if self.program:
            make_small_batch(os.path.join(self.folder, SMALL))
            self.run("import", SMALL)

    @property
    def last(self):
        return 14 if self.program else 12


def call(office, number, treatment, responsive=True, designation=""):
    office.ask(ELLIS, "POST", f"/docs/{number}/call", dict(responsive=responsive, treatment=treatment, designation=designation))


def put_box(office, number, num, page, left, top, width, height, basis):
    office.ask(ELLIS, "POST", f"/docs/{number}/box", dict(num=num, page=page, left=left, top=top, width=width, height=height, basis=basis))


def decide_first(office):
    """What isn't settled yet, each in another way: 3 and 10 without log entry, 5 with nothing held back, 11 not called."""
    for number in (1, 2, 4, 6, 9, 12):
        call(office, number, "Produce")
    for number in (7, 8):
        call(office, number, "Produce", False)
    call(office, 3, "Withhold-AC", designation="CONFIDENTIAL")
    for number in (5, 10):
        call(office, number, "Redact", designation="HIGHLY CONFIDENTIAL_2" if number == 10 else "")
    put_box(office, 10, 1, 2, 430, 662, 1690, 670, "AC")
    for number in range(13, office.last + 1):
        call(office, number, "Redact", designation="ABCDEFGHIJKLMNOPQRSTUVWXYZ0123456789-_. ")


def decide_rest(office):
    """Boxes that lie over one another, with and without room for letters, at the page's edges; the rest settled."""
    for num, box in enumerate(((1, 1420, 460, 680, 60, "PI"), (1, 325, 950, 1900, 180, "PI"), (1, 500, 1000, 400, 200, "TS"),
                               (1, 510, 1010, 38, 27, "PI"), (1, 600, 1010, 39, 26, "PI"), (1, 700, 1010, 39, 27, "TS"),
                               (2, 0, 0, 100, 100, "PI"), (2, 2450, 3200, 100, 100, "TS"), (2, 2451, 3201, 39, 27, "PI")), 1):
        put_box(office, 5, num, *box)
    office.ask(ELLIS, "POST", "/docs/5/hold", dict(field="AUTHOR", basis="PI"))
    office.ask(ELLIS, "POST", "/docs/10/hold", dict(field="TITLE", basis="WP"))
    call(office, 11, "Produce")
    for number, entry in ENTRIES.items():
        office.ask(ELLIS, "POST", f"/docs/{number}/entry", entry)
    if office.program:
        put_box(office, 13, 1, 1, 3, 3, 50, 30, "TS")
        put_box(office, 14, 1, 1, 1, 1, 39, 27, "PI")
        put_box(office, 14, 2, 1, 20, 10, 39, 27, "TS")
    for number in (3, 5, 10, *range(13, office.last + 1)):
        office.ask(MARLOW, "POST", f"/docs/{number}/confirm", {})


# ---- the dialog


def open_dialog(person):
    person.click("#show_productions")
    person.until("document.getElementById('productions').open && document.querySelectorAll('#chosen_fields input').length > 0")


def fill(person, **values):
    for name, value in values.items():
        person.js(f"(() => {{ const it = document.getElementById('freeze').elements[{name!r}]; it.value = {str(value)!r};"
                  " it.dispatchEvent(new Event('input', { bubbles: true })) })()")


def plan(person, words):
    person.does(lambda: person.click("#freeze [name=plan]"), words, "frozen")


def rows(person, selector):
    return person.js(f"Array.from(document.querySelectorAll('{selector} tbody tr'), (it) => Array.from(it.cells, (cell) => cell.textContent))")


def items(person, selector):
    return person.js(f"Array.from(document.querySelectorAll('{selector} li'), (it) => it.textContent)")


def try_in_the_way(person, office, shots):
    open_dialog(person)
    fill(person, id="R-1", volume="VOL001", prefix="ABC", to=12)
    plan(person, "Document 3 isn’t settled")
    due = ["Open document 3 Withhold AC, to confirm: needs a log entry, a second person’s confirmation.",
           "Open document 5 Redact, to confirm: needs a box or a held field, a second person’s confirmation.",
           "Open document 10 Redact, to confirm: needs a log entry, a second person’s confirmation.",
           "Open document 11 not called: needs a call."]
    check("each document that isn't settled is listed, with what it lacks", items(person, "#unsettled") == due, items(person, "#unsettled"))
    check("no plan is shown", not person.js("document.getElementById('planned').checkVisibility()"))
    person.shot(os.path.join(shots, "plan-in-the-way.png"))
    fill(person, **{"from": 2, "to": 11})
    plan(person, "document 2 is of it")
    due = ["Open document 1 The family of document 1, documents 1 to 3, reaches outside the range. Take documents 1 to 11",
           "Open document 12 The family of document 9, documents 9 to 12, reaches outside the range. Take documents 2 to 12"]
    check("both families that are cut are listed", items(person, "#cut_families") == due, items(person, "#cut_families"))
    check("and the documents that aren't settled, too", len(items(person, "#unsettled")) == 4, items(person, "#unsettled"))
    person.does(lambda: person.click("#cut_families li:nth-child(2) button:last-child"), "document 2 is of it", "frozen")
    check("a wider range is taken by a button", person.js("document.getElementById('freeze').elements.to.value") == "12")
    person.does(lambda: person.click("#cut_families button:last-child"), "Document 3 isn’t settled", "frozen")
    person.click("#unsettled li:last-child button")
    person.title(11)
    check("and a document is opened", person.text("state") == "○ Not called yet.", person.text("state"))


def value_of(number, field):
    return batch.VALUES[number - 1][batch.FIELDS.index(field)]


def try_plan(person, office, shots):
    open_dialog(person)
    person.click("#chosen_fields [value=AUTHOR]")
    fill(person, to=office.last)
    plan(person, "Nothing is frozen.")
    more = office.last - 12  # documents of the small batch, of one page each
    due = [f"{10 + more} documents, {23 + more} pages: ABC00000001 to ABC{23 + more:08}.",
           "Produced whole: 7 documents, 14 pages.",
           f"Redacted: {2 + more} documents, {8 + more} pages; {13 if more else 10} boxes (AC 1, PI {7 if more else 6}, TS {5 if more else 3}); "
           "2 held fields (WP 1, PI 1).",
           "Withheld: 1 document (AC 1), a sheet in the place of each.", "Left out: 2 documents of families without a responsive one."]
    check("what would go out, by basis", items(person, "#plan_summary") == due, items(person, "#plan_summary"))
    documents = rows(person, "#planned_documents")
    check("each document with its labels and what is held back", documents[2:5] == [
        ["3", "Withhold AC", "ABC00000006", "CONFIDENTIAL", "all of it"], ["4", "Produce", "ABC00000007", "", ""],
        ["5", "Redact", "ABC00000008 to ABC00000011", "", "9 boxes (PI 6, TS 3), AUTHOR (PI)"]], documents)
    held = rows(person, "#planned_held")
    check("held fields by name and value", held == [
        ["5", "ABC00000008", "AUTHOR", value_of(5, "AUTHOR"), "PI", "WITHHELD - PI"],
        ["10", "ABC00000016", "TITLE", value_of(10, "TITLE"), "WP", "not in it"]], held)
    log = rows(person, "#planned_log")
    check("the log as it will be", log == [
        ["ABC00000006", "ABC00000006", "Withheld", "AC", *ENTRIES[3].values()],
        ["ABC00000016", "ABC00000019", "Redacted", "AC;WP", *ENTRIES[10].values()]], log)
    for name in ("planned_documents", "planned_held", "planned_log"):
        person.click(f"#{name} summary")
    check("every control of the plan has a name", nameless(person) == [], nameless(person))
    person.shot(os.path.join(shots, "plan.png"))
    return log, saved_log(person, office)


def saved_log(person, office):
    """The bytes of the file that the page saves the preview as."""
    into = os.path.join(office.folder, "saved")
    person.save_into(into)
    person.does(lambda: person.click("#save_log"), "is saved as VOL001-LOG-PREVIEW.CSV")
    saved = read_saved(os.path.join(into, "VOL001-LOG-PREVIEW.CSV"))
    check("the preview of the log is saved as a file", list(csv.reader(io.StringIO(saved.decode())))[1:] == rows(person, "#planned_log"), saved)
    return saved


# ---- the pages as they will go out

# The page on the canvas, at full size: its sides, and the digest of its packed rows; null where a cell is neither black nor white.
PIXELS = """(async () => {
  const canvas = document.getElementById('outgoing_ink')
  const { width, height } = canvas
  const { data } = canvas.getContext('2d').getImageData(0, 0, width, height)
  const stride = (width + 7) >> 3
  const rows = new Uint8Array(stride * height)
  for (let k = 0; k < width * height; k += 1) {
    const value = data[4 * k]
    if ((value !== 0 && value !== 255) || data[4 * k + 1] !== value || data[4 * k + 2] !== value) return null
    const column = k % width
    if (value === 0) rows[((k - column) / width) * stride + (column >> 3)] |= 0x80 >> (column & 7)
  }
  const digest = new Uint8Array(await crypto.subtle.digest('SHA-256', rows))
  return [width, height, Array.from(digest, (byte) => byte.toString(16).padStart(2, '0')).join('')]
})()"""


def drawn(person, place):
    person.until(f"(({{ place, state }}) => place === '{place}' && state === 'whole')(document.getElementById('outgoing_ink').dataset)")
    return person.js(PIXELS)


def try_pages(person, office, shots):
    """Steps through all pages at full size by keys alone; what was drawn of each."""
    person.js("document.getElementById('look_at_pages').focus()")
    person.key("Enter")
    person.until("document.getElementById('outgoing').open")
    count = 23 + office.last - 12
    person.choose("#outgoing_size", "1")
    person.js("document.getElementById('outgoing_sheet').focus()")
    for _ in range(count):
        person.key("ArrowLeft")
    pages = []
    for place in range(count):
        pages.append(drawn(person, place))
        if place in (5, 7, 16):  # the sheet, the list with boxes, the note
            person.choose("#outgoing_size", "page")
            person.until("document.getElementById('outgoing_ink').width < 1700")
            person.shot(os.path.join(shots, f"outgoing-{place}.png"))
            person.choose("#outgoing_size", "1")
            person.until("document.getElementById('outgoing_ink').width >= 1700")
        person.key("ArrowRight")
    check("each page is drawn in black and white alone", all(pages), [place for place, page in enumerate(pages) if page is None])
    check("the sheet for the withheld document", pages[5][:2] == [1700, 2232], pages[5])
    person.choose("#outgoing_size", "width")
    return pages


def try_sample(person, office, shots):
    """A sample that is spread over the pages, and its ticks, by keys alone."""
    person.js("document.querySelector('#sample [name=count]').select()")
    person.js("document.querySelector('#sample [name=count]').focus()")
    person.type("5")
    person.key("Enter")
    person.until("document.querySelectorAll('#sample_pages li').length === 5")
    count = 23 + office.last - 12
    due = [f"ABC{int((k + 0.5) * count / 5) + 1:08}" for k in range(5)]
    listed = [text[2:13] for text in items(person, "#sample_pages")]
    check("a sample is spread over the range", listed == due, listed)
    person.js("document.getElementById('outgoing_sheet').focus()")
    for _ in range(count):
        person.key("ArrowLeft")
    person.key("j")
    person.until(f"document.getElementById('outgoing_name').textContent.startsWith('{due[0]}')")
    for label in due[:3]:
        person.until(f"document.getElementById('outgoing_name').textContent.startsWith('{label}')")
        drawn(person, int(label[3:]) - 1)
        person.key("y")
    person.until(f"document.getElementById('outgoing_name').textContent.startsWith('{due[3]}')")
    check("pages of it are ticked by a key, which goes on to the next", person.text("outgoing_told") == "3 of 5 pages of the sample were looked at.",
          person.text("outgoing_told"))
    check("every control has a name", nameless(person) == [], nameless(person))
    person.shot(os.path.join(shots, "outgoing-sample.png"))
    person.key("k")
    person.until(f"document.getElementById('outgoing_name').textContent.startsWith('{due[2]}')")
    drawn(person, int(due[2][3:]) - 1)
    check("a page that was looked at has its tick", person.js("document.getElementById('looked_at').checked"))
    person.click("#looked_at")
    check("and a tick is taken away", person.text("outgoing_told").startswith("2 of 5"), person.text("outgoing_told"))
    person.js("(() => { const it = document.querySelector('#sample [name=from]'); it.value = 'held'; document.getElementById('sample').requestSubmit() })()")
    person.until("document.querySelectorAll('#sample_pages li')[0].textContent.includes('ABC00000006')")
    held = [text[2:13] for text in items(person, "#sample_pages")]
    due = ["ABC00000006", "ABC00000008", "ABC00000009", "ABC00000017", *(f"ABC{number:08}" for number in range(24, 24 + office.last - 12))]
    if len(due) > 5:
        due = [due[int((k + 0.5) * len(due) / 5)] for k in range(5)]
    check("or over the pages on which something is held back", held == due, (held, due))
    person.key("Escape")
    person.until("!document.getElementById('outgoing').open")
    check("the plan tells how much was looked at", "of the sample" in person.text("tally"), person.text("tally"))


# ---- the freeze


def try_changed(person, office):
    """What is changed between plan and freeze keeps it from being frozen: a box that is moved too, which no number tells."""
    office.ask(ELLIS, "POST", "/docs/5/box", dict(num=1, page=1, left=1421, top=460, width=680, height=60, basis="PI"))
    office.ask(MARLOW, "POST", "/docs/5/confirm", {})
    press_freeze(person, "Press Freeze again")
    time.sleep(READ)
    press_freeze(person, "Nothing was frozen, as something was changed since it was planned")
    check("it is said what", "Document 5 was changed since you looked, last by Ellis (boxes)" in person.text("frozen"), person.text("frozen"))
    check("nothing was frozen", office.ask(LEAD, "GET", "/productions") == [])
    put_box(office, 5, 1, 1, 1420, 460, 680, 60, "PI")
    office.ask(MARLOW, "POST", "/docs/5/confirm", {})
    plan(person, "Nothing is frozen.")


def press_freeze(person, words):
    person.does(lambda: person.click("#freeze_it"), words, "frozen")


def try_not_allowed(ellis):
    """A reviewer plans, and may not freeze; all by keys."""
    ellis.tab_to("#show_productions")
    ellis.key("Enter")
    ellis.until("document.getElementById('productions').open && document.querySelectorAll('#chosen_fields input').length > 0")
    for name, text in (("id", "R-1"), ("volume", "vol001"), ("prefix", "abc")):
        ellis.tab_to(f"#freeze [name={name}]")
        ellis.type(text)
    ellis.does(lambda: ellis.key("Enter"), "Nothing is frozen.", "frozen")
    check("a reviewer may plan, by keys alone", ellis.js("document.getElementById('planned').checkVisibility()"))
    ellis.tab_to("#look_at_pages")
    ellis.key("Enter")
    drawn(ellis, 1)
    ellis.key("y")
    ellis.until("document.getElementById('outgoing_told').textContent.startsWith('1 of ')")
    ellis.key("Escape")
    ellis.tab_to("#freeze_it")
    ellis.does(lambda: ellis.js("for (let k = 0; k < 2; k += 1) document.activeElement.click()"),
               "1 of 10 pages of the sample was looked at. Press Freeze again.", "frozen")
    ellis.rest(0.5)
    check("a double press is one", ellis.text("frozen").endswith("Press Freeze again."), ellis.text("frozen"))
    time.sleep(READ)
    ellis.does(lambda: ellis.key("Enter"), "Your role may not do this", "frozen")
    check("and may not freeze", True)
    ellis.key("Escape")


# the answer to the freeze is held back until `go_on`
HOLD = """window.whole = window.fetch
window.fetch = async (path, request) => {
  const answer = await whole(path, request)
  if (request.method === 'POST' && path.endsWith('/productions')) await new Promise((go) => { window.go_on = go })
  return answer
}"""


def try_freeze(person, office, shots):
    press_freeze(person, f"Freeze documents 1 to {office.last} as R-1? It can’t be taken back")
    check("it says how much of the sample was looked at", "of the sample" in person.text("frozen"), person.text("frozen"))
    person.shot(os.path.join(shots, "freeze.png"))
    time.sleep(READ)
    person.js(HOLD)
    person.click("#freeze_it")
    person.until("window.go_on !== undefined")
    put_box(office, 5, 10, 3, 10, 10, 50, 50, "PI")
    person.does(lambda: person.js("window.go_on()"), "It may not be as it was planned; look at its volume.", "frozen")
    check("what is changed in the moment of the freeze is told", "Document 5 was changed since you looked, last by Ellis (boxes, confirmation)"
          in person.text("frozen"), person.text("frozen"))
    as_before(person)
    office.ask(ELLIS, "POST", "/docs/5/unbox", dict(num=10))
    check("the production stands", f"R-1 stands: {office.last - 2} documents, ABC00000001 to " in person.text("frozen"), person.text("frozen"))
    check("it is listed", rows(person, "#kept") == [["R-1", "VOL001", f"ABC00000001 to ABC{11 + office.last:08}", f"1 to {office.last}",
                                                     str(office.last - 2), "Look"]], rows(person, "#kept"))
    person.click("#kept button")
    person.until("document.querySelectorAll('#items tbody tr').length > 0")
    frozen = office.ask(LEAD, "GET", "/productions/R-1")["items"]
    check("and looked at", [row[0] for row in rows(person, "#items")] == [str(item["doc"]) for item in frozen], rows(person, "#items"))
    person.shot(os.path.join(shots, "plan-production.png"), "#productions")
    plan(person, "R-1 stands: ")
    check("a plan with its words tells that it stands", not person.js("document.getElementById('planned').checkVisibility()"))
    fill(person, volume="VOL002")
    plan(person, "This ID belongs to a production with other words")
    fill(person, id="R-2", prefix="DEF")
    plan(person, "Nothing is left to produce")


def try_small(office, shots):
    """A small window, and the system's colours: dialogs fit, and what is drawn stays black on white."""
    with small_window(office, LEAD) as person:
        open_dialog(person)
        fill(person, id="R-1", volume="VOL001", prefix="ABC")
        plan(person, "Nothing is frozen.")
        person.shot(os.path.join(shots, "800x600-plan.png"))
        check("at 800 by 600 the dialog fits", fits(person, "productions"))
        person.click("#look_at_pages")
        drawn(person, 1)
        check("and so do the pages", fits(person, "outgoing"))
        room = person.js("(({ clientWidth, clientHeight }) => [clientWidth, clientHeight])(document.getElementById('outgoing_sheet'))")
        check("with room for one", room[0] > 350 and room[1] > 350, room)
        person.shot(os.path.join(shots, "800x600-outgoing.png"))
        for name in in_colours(person, "dark", "forced"):
            person.shot(os.path.join(shots, f"outgoing-{name}.png"))
        person.key("Escape")
        for name in in_colours(person, "dark", "forced"):
            person.shot(os.path.join(shots, f"plan-{name}.png"))


def try_difference(person):
    """A production that isn't as it was planned is told so: the plan beside one with other labels, and one document less."""
    found = person.js("""(async () => {
      const { Plan } = await import('./plan.js')
      const planned = { id: 'R-1', volume: 'V', prefix: 'A', width: 4, first: 1, last: 3,
        items: [{ doc: 1, first: 1, last: 2, treatment: 'Produce' }, { doc: 2, first: 3, last: 3, treatment: 'Produce' }] }
      const plan = new Plan({ fields: [] }, planned, [])
      const frozen = { ...planned, last: 2, items: [{ doc: 1, first: 1, last: 2, treatment: 'Redact' }] }
      return [plan.differences(planned), plan.differences(frozen)]
    })()""")
    check("a production like the plan has no difference", found[0] == [], found[0])
    check("another has each told", found[1] == [
        "The last is 2, and was planned as 3.",
        "Document 1 is in it as Redact, A0001 to A0002, and was planned as one that is in it as Produce, A0001 to A0002.",
        "Document 2 isn’t in it, and was planned as one that is in it as Produce, A0003 to A0003."], found[1])


# ---- the volume


def try_volume(office, pages, log, saved):
    office.close_desk()
    office.run("press", "R-1")
    folder = os.path.join(office.folder, "out", "VOL001", "IMAGES", "0001")
    names = sorted(os.listdir(folder))
    due = [told(*read_page(os.path.join(folder, name))) for name in names]
    wrong = [name for name, page, image in zip(names, pages, due) if page != image]
    check(f"each of {len(due)} drawn pages is the volume's, pixel by pixel", len(pages) == len(due) and wrong == [], wrong)
    printed = office.run("log", "R-1")
    check("the log as it was shown is the one that `log` prints, cell by cell", list(csv.reader(io.StringIO(printed)))[1:] == log, printed)
    with open(os.path.join(office.folder, "out", "VOL001", "DATA", "VOL001-LOG.CSV"), "rb") as file:
        check("and as it was saved byte for byte, in the volume too", saved == printed.encode() == file.read(), saved)


def main():
    scratch, shots, program = given()
    glyphs = subprocess.run([os.path.join(HERE, "glyphs.py"), "check"], check=False)
    check("the page's glyphs are the program's own table", glyphs.returncode == 0)
    with closing(Planned(scratch, program)) as office:
        decide_first(office)
        with window(office, LEAD) as person:
            try_in_the_way(person, office, shots)
            decide_rest(office)
            log, saved = try_plan(person, office, shots)
            pages = try_pages(person, office, shots)
            try_sample(person, office, shots)
            try_small(office, shots)
            try_changed(person, office)
            with window(office, ELLIS) as ellis:
                try_not_allowed(ellis)
            try_freeze(person, office, shots)
            try_difference(person)
            try_by_chance(person)
        if program:
            try_volume(office, pages, log, saved)
        else:
            try_model(office, pages)
    finish("a plan and its production")


main()
