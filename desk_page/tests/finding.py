#!/usr/bin/env python3
"""Find at the page: words in turn, what is found listed with its line and marked on the page, gone through by keys; the list of what
was found beside filters; the link; refusals, and a search without a desk. What is found is compared with the batch's own files.
Over the program, where it is given, else over the stand-in.

    finding.py SCRATCH SHOTS [PROGRAM]     pictures of the screens go into the folder SHOTS
"""
import json
import os
import re
import time
from contextlib import closing

import batch
from frame import as_before, cut_off, given, in_colours, slow, small_window, window
from office import ELLIS, LEAD, MARLOW, Office
from person import check, finish, nameless

PHONE = "###-####"
PRODUCE = dict(responsive=True, treatment="Produce", designation="")
ROOM = 14  # pixels that a mark may be wider than its word at each side

# the hits that are drawn as rows: number, head, the marked words, and all of the line
ROWS = """Array.from(document.querySelectorAll('#hits_tall .row'), (it) => [Number(it.dataset.number),
  it.querySelector('.number').textContent, it.querySelector('mark').textContent, it.querySelector('.line').textContent])"""
IN_SIGHT = """[...document.querySelectorAll('#hits_tall .row')].filter((it) => {
  const [at, on] = [it.getBoundingClientRect(), document.getElementById('hits').getBoundingClientRect()]
  return at.bottom > on.top && at.top < on.bottom })"""
MARKS = """Array.from(document.querySelectorAll('#over .hit'), (it) =>
  [...['x', 'y', 'width', 'height'].map((name) => Number(it.getAttribute(name))), it.classList.contains('current')])"""


def find(person, words):
    """Types words into the panel, and waits until the search is at its end."""
    person.key("/")
    person.until("document.activeElement.name === 'words'")
    person.type(words)
    person.key("Enter")
    person.until("document.getElementById('find_told').textContent.match(/^[0-9,]+ hits? in [0-9,]+ documents?[.]$/) !== null"
                 " && document.getElementById('stop_find').disabled")


def told(found):
    documents = len({hit[0] for hit in found})
    return f"{len(found)} hit{'s' * (len(found) != 1)} in {documents} document{'s' * (documents != 1)}."


# ---- what is found, and its lines


def try_hits(person, shots):
    for words in ("roof", "building 4", "May rent, ledger", "zzz"):
        found = batch.hits(*words.split())
        find(person, words)
        check(f"find {words}: as the batch has it", person.text("find_told") == told(found), (person.text("find_told"), told(found)))
        person.js("document.getElementById('sheet').focus()")
        if found:
            try_lines(person, words, found)
    for words, terms in (("of buildi*", ("of", "Building")), ("*oof", ("roof",))):
        find(person, words)
        # no word of the batch but these begins or ends so
        check(f"find {words}: as {' '.join(terms)}", person.text("find_told") == told(batch.hits(*terms)), (person.text("find_told"), told(batch.hits(*terms))))
        person.js("document.getElementById('sheet').focus()")
    find(person, PHONE)
    numbers = sum(is_phone(word[-1]) for pages in batch.WORDS for page in pages for word in page)
    numbers += sum(is_phone(text) for values in batch.VALUES for value in values for text in value.split(" "))
    check(f"find {PHONE}: figures", numbers > 0 and person.text("find_told").startswith(f"{numbers} hit"), (person.text("find_told"), numbers))
    person.js("document.getElementById('sheet').focus()")
    find(person, "building 4")
    person.rest()
    person.shot(os.path.join(shots, "find.png"))


def is_phone(text):
    return any(re.fullmatch("[0-9]{3}-[0-9]{4}", it) for it in (text, batch.core(text)))


def try_lines(person, words, found):
    """Each row in sight has its document and place, and the line around it."""
    person.until(f"({IN_SIGHT}).length > 0 && ({IN_SIGHT}).every((it) => it.querySelector('mark').textContent !== '…')")
    count = len(words.split())
    rows = [row for row in person.js(ROWS) if row[2] != "…"]
    wrong = []
    for number, head, mark, line in rows:
        doc, page, field, _ = hit = found[number]
        if page == 0:
            texts = [text for text in batch.VALUES[doc - 1][field - 1].split(" ") if text]
            due = (f"{doc}, {batch.FIELDS[field - 1]}", " ".join(texts[hit[3] - 1 : hit[3] - 1 + count]), " ".join(texts))
        else:
            due = (f"{doc}, page {page}", *batch.line_of(hit, count))
        shown = line.strip().replace("\n", " ").removeprefix("… ").removesuffix(" …")
        if (head, mark) != due[:2] or shown.replace("  ", " ") not in due[2].replace("\n", " ") or mark not in shown:
            wrong.append((number, head, mark, line, due))
    in_sight = person.js(f"({IN_SIGHT}).length")
    check(f"find {words}: each hit in sight with its line", not wrong and len(rows) >= min(in_sight, len(found)) > 0, (wrong[:2], len(rows), in_sight))


# ---- through the hits


def try_steps(person, shots):
    found = batch.hits("building", "4")
    person.js("document.getElementById('sheet').focus()")
    person.open(1)
    find(person, "building 4")
    person.key("Escape")
    person.js("document.getElementById('sheet').focus()")
    marks_fit(person, found, 1, 1)
    for at in range(4):
        person.does(lambda: person.key("."), f"Hit {at + 1} of {len(found)}: ")
        doc, page = found[at][:2]
        check(f"hit {at + 1} is gone to", (person.text("title"), person.text("place").split(" of ")[0]) == (f"Document {doc}", f"page {max(page, 1)}"),
              (person.text("title"), person.text("place")))
    check("a hit of a field is told with its value", any("TITLE of document 1, Roof of Building 4: papers for the file." in text for text in person.heard()), person.heard()[-4:])
    doc, page = found[3][:2]
    marks_fit(person, found, doc, page)
    current = [mark for mark in person.js(MARKS) if mark[4]]
    check("the one that was gone to is marked apart", len(current) == 1, current)
    row = person.js("document.querySelector('#hits_tall .row.open')?.dataset.number")
    check("and so is its row", row == "3", row)
    person.shot(os.path.join(shots, "find-hit.png"))
    person.does(lambda: person.key(","), f"Hit 3 of {len(found)}: ")
    check(", goes back", person.text("place").startswith(f"page {found[2][1]} "), person.text("place"))
    person.js("document.getElementById('hits').focus()")
    person.does(lambda: person.key("ArrowDown"), f"Hit 4 of {len(found)}: ")
    check("arrows go through the hits in their list", True)
    person.click("#hit_0")
    person.until("document.getElementById('said').textContent.includes('Hit 1 of')")
    person.says("before the first there is none", lambda: person.key(","), "This is the first hit.")
    person.js("document.getElementById('sheet').focus()")
    person.does(lambda: person.press("n"), "And the treatment?")
    check("N is still not responsive", person.js("document.getElementById('call').elements.responsive.value") == "no")
    person.js("document.querySelectorAll('#call [type=radio]').forEach((it) => { it.checked = false })")


def marks_fit(person, found, doc, page):
    """Each word of each hit of the open page is under a mark, one for each line, and no mark is elsewhere."""
    due = []
    for hit in (hit for hit in found if hit[:2] == (doc, page)):
        words = batch.WORDS[doc - 1][page - 1][hit[3] - 1 : hit[3] + 1]
        for line in dict.fromkeys(word[0] for word in words):
            on = [word for word in words if word[0] == line]
            due.append((min(word[1] for word in on), min(word[2] for word in on), max(word[1] + word[3] for word in on), max(word[2] + word[4] for word in on)))
    person.until(f"document.querySelectorAll('#over .hit').length === {len(due)}")
    marks = [(left, top, left + width, top + height) for left, top, width, height, _ in person.js(MARKS)]
    fits = lambda mark, word: all(0 <= by <= ROOM for by in (word[0] - mark[0], word[1] - mark[1], mark[2] - word[2], mark[3] - word[3]))
    check(f"page {page} of document {doc}: {len(due)} marks, each over its words", len(due) > 0 and all(fits(*pair) for pair in zip(marks, due)), (marks, due))


# ---- the list of what was found


def listed(person):
    return person.js("Array.from(document.querySelectorAll('#tall .row'), (it) => Number(it.dataset.number))")


def try_list(person, office, shots):
    documents = sorted({hit[0] for hit in batch.hits("building", "4")})
    office.ask(MARLOW, "POST", f"/docs/{documents[1]}/call", PRODUCE)
    office.ask(MARLOW, "POST", f"/docs/{documents[2]}/call", dict(PRODUCE, treatment="Withhold-AC"))
    not_found = next(number for number in range(1, 13) if number not in documents)
    office.ask(MARLOW, "POST", f"/docs/{not_found}/call", PRODUCE)
    person.click("#list_found")
    person.until("!document.querySelector('nav').classList.contains('finding')")
    check("the list of what was found", listed(person) == documents and person.text("count") == f"{len(documents)} of 12 documents", (listed(person), person.text("count")))
    person.until("[...document.getElementById('filter').options].some((it) => it.textContent === 'called Produce (1)')", seconds=30)
    person.choose("#filter", "produce")
    check("beside a filter: both hold", listed(person) == [documents[1]], listed(person))
    person.shot(os.path.join(shots, "found-list.png"))
    person.choose("#filter", "all")
    person.js("document.getElementById('sheet').focus()")
    person.open(documents[0])
    for number in documents[1:4]:
        person.key("j")
        person.title(number)
    check("J goes through what was found", True)
    person.open(not_found)
    person.key("j")
    person.title(next(number for number in documents if number > not_found))
    check("also from a document that wasn't", True)
    person.click("#found_only")
    check("all are listed again", person.text("count") == "12 documents", person.text("count"))


# ---- links


def try_links(person, office):
    person.open(3)
    person.until("location.hash === '#3/1?find=building+4'")
    check("a search is in the address", True)
    found = batch.hits("lease", "of")
    person.go("about:blank")
    person.go(office.url + "#4/1?find=lease+of")
    person.come(ELLIS)
    person.until(f"document.getElementById('find_told').textContent === {json.dumps(told(found))}")
    check("a link with a search is followed", person.text("title") == "Document 4" and person.js("document.querySelector('#finder input').value") == "lease of", person.text("title"))
    # 100 % # + & stand in a link as they are in the words
    for words in ("100 %", "a#b&c+d=e é"):
        find(person, words)
        person.js("document.getElementById('sheet').focus()")
        person.until("location.hash.includes('?find=') && !location.hash.includes('lease')")
        link = person.js("new URLSearchParams(location.hash.split('?')[1]).get('find')")
        person.until(f"new URLSearchParams(location.hash.split('?')[1]).get('find') === {json.dumps(words)}")
        check(f"the words {words} in a link", True, link)
    before = len([request for request in person.requests if request["url"].endswith("/find")])
    person.js("location.hash = '#5/2?find=lease+of'")
    person.title(5)
    person.until(f"document.getElementById('find_told').textContent === {json.dumps(told(found))}")
    person.js("location.hash = '#6/1?find=lease+of'")
    person.title(6)
    person.rest()
    after = len([request for request in person.requests if request["url"].endswith("/find")])
    check("in an open page too, and what stands isn't sought again", after == before + 1, (before, after))
    person.click("#clear_find")
    person.until("location.hash === '#6/1'")
    check("cleared, the address has none", person.text("find_told") == "", person.text("find_told"))
    check("and nothing is marked or chosen", person.js(MARKS) == [] and person.js("document.getElementById('found_only').disabled"))


# ---- refusals


def try_refusals(person, office):
    person.says("nine words are refused in words", lambda: (person.key("/"), person.type("a b c d e f g h i"), person.key("Enter")), "TermRefused")
    check("in the panel too", "A search takes 1 to 8 words" in person.text("find_told"), person.text("find_told"))
    person.js("document.getElementById('sheet').focus()")
    person.says("a step without hits", lambda: person.key("."), "Nothing was found.")
    office.close_desk()
    person.says("a search without a desk", lambda: (person.key("/"), person.type("roof"), person.key("Enter")), "No desk is open")
    check("and nothing is unsure of it", "It isn’t known" not in person.text("said"), person.text("said"))
    office.open_desk()
    if not office.program:
        office.take_in_all()  # a stand-in forgets
    person.js("document.getElementById('sheet').focus()")
    find(person, "roof")
    check("and again with one", person.text("find_told") == told(batch.hits("roof")), person.text("find_told"))


# ---- by keys alone, by name, in small windows and other colours


def try_keys(person):
    person.js("document.getElementById('sheet').focus()")
    person.key("/")
    person.tab_to("#list_found")
    person.key("Enter")
    person.until("document.getElementById('found_only').checked")
    person.js("document.getElementById('filter').focus()")
    person.tab_to("#found_only")
    person.key(" ")
    person.until("!document.getElementById('found_only').checked")
    person.key("Escape")
    person.key("/")
    person.tab_to("#hits")
    person.does(lambda: person.key("ArrowDown"), "Hit ")
    check("keys alone: find, list, filter, hits", True)
    check("every control has a name", nameless(person) == [], nameless(person))


def try_looks(person, shots):
    for name in in_colours(person):
        person.shot(os.path.join(shots, f"find-{name}.png"))
        if name == "forced":
            outline = person.js("getComputedStyle(document.querySelector('.hit_row.open')).outlineStyle")
            check("forced colours mark the hit that is open", outline == "solid", outline)


def try_small(office, shots):
    cut = lambda person: cut_off(person, "#finder", "#finder form")
    with small_window(office, ELLIS) as person:
        find(person, "building 4")
        person.rest()
        high = person.js("document.getElementById('hits').clientHeight")
        check("at 800 by 600 nothing is cut off, and the hits have room", cut(person) == [] and high > 120, (cut(person), high))
        person.shot(os.path.join(shots, "800x600-find.png"))
        person.click("#close_finder")
        high = person.js("document.getElementById('documents').clientHeight")
        check("and so has the list", cut(person) == [] and high > 120, (cut(person), high))
        person.shot(os.path.join(shots, "800x600-list.png"))


# ---- a long search


def try_stop(scratch):
    """A matter of 1,200 documents, by the stand-in: what is found is told as it comes, and Escape stops."""
    os.mkdir(folder := os.path.join(scratch, "large"))
    with closing(Office(folder, copies=100)) as office, window(office, LEAD) as person:
        person.rest()
        found = batch.hits("roof")
        start = time.time()
        find(person, "roof")
        print(f"1,200 documents: found after {time.time() - start:.1f} s, by the stand-in")
        due = f"{100 * len(found):,} hits in {100 * len({hit[0] for hit in found}):,} documents."
        check("all answers of a search together", person.text("find_told") == due, (person.text("find_told"), due))
        bodies = [json.loads(request["postData"]) for request in person.requests if request["url"].endswith("/find")]
        check("each goes on where the last one ended", len(bodies) > 3 and bodies[0]["from"] == 1 and
              all(a["from"] < b["from"] for a, b in zip(bodies, bodies[1:])), bodies)
        person.js("document.getElementById('hits').scrollTop = 1e9")
        person.until(f"document.getElementById('hit_{100 * len(found) - 1}')?.querySelector('mark').textContent.toLowerCase().includes('roof') === true")
        check("the last hit is listed with its line", person.js("document.querySelectorAll('#hits_tall .row').length") < 40)
        person.js("document.getElementById('sheet').focus()")
        slow(person, 400)
        person.key("/")
        person.type("roof")
        person.key("Enter")
        person.until("document.getElementById('find_told').textContent.match(/hits in .* of documents 1 to .*[.] Escape stops[.]$/) !== null")
        person.until("document.querySelectorAll('#hits_tall .row').length > 3")
        check("hits are listed as they come", True)
        person.says("and Escape stops", lambda: person.key("Escape"), "Stopped: ")
        asked = sum(request["url"].endswith("/find") for request in person.requests)
        time.sleep(1.5)
        check("nothing more is asked for", sum(request["url"].endswith("/find") for request in person.requests) == asked)
        as_before(person)


def main():
    scratch, shots, program = given()
    os.mkdir(folder := os.path.join(scratch, "batch"))
    with closing(Office(folder, program, desks=2)) as office, window(office, ELLIS) as person:
        try_hits(person, shots)
        try_steps(person, shots)
        try_list(person, office, shots)
        try_links(person, office)
        try_refusals(person, office)
        try_keys(person)
        try_looks(person, shots)
        try_small(office, shots)
    try_stop(scratch)
    finish("find")


main()
