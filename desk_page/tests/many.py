#!/usr/bin/env python3
"""The page over 10,000 documents. Over the program, behind nginx, over a batch that is drawn: how long the list takes, a find, the next
document, each from its key, and what memory the tab has; and that what comes next stands though no desk answers any more. By the
stand-in: how many calls the page makes, as each of them takes a place of the desks' journal.

    many.py SCRATCH [PROGRAM [DOCUMENTS]]
"""
import os
import subprocess
import sys
import time
from contextlib import closing

import drawn_batch
from frame import window
from measures import NEXT, is_busy, memory, seconds_from_key
from office import ELLIS, LEAD, Office, digest
from person import check, finish

DOCUMENTS = 10000
LIST, FIND, NEXT_ONE, MEGABYTES = 2, 1, 0.06, 400  # what is due: seconds, and a tab's memory
KEYS, PAUSE = 40, 0.35  # so many documents, each looked at for so many seconds
COPIES = 833  # of 12 documents: 9,996

ROWS = "Array.from(document.querySelectorAll('#tall .row'))"
IN_SIGHT = ROWS + (".filter((it) => it.getBoundingClientRect().bottom < document.getElementById('documents').getBoundingClientRect().bottom)")
# all are told of, those in sight with what stands of them and their names, and the first page is there
LISTED = ("document.getElementById('count').textContent === %r && document.getElementById('room').checkVisibility() &&"
          f" {IN_SIGHT}.length > 5 && {IN_SIGHT}.every((it) => it.querySelector('.state').textContent.endsWith('not called')"
          " && it.querySelector('.name').textContent.trim() !== '') && document.getElementById('ink').dataset.state === 'whole'")
FOUND = ("document.getElementById('find_told').textContent === %r && document.getElementById('stop_find').disabled"
         " && document.querySelector('#hits_tall .row mark') !== null")


def judge(what, took, due):
    """A time that is due, which says nothing where others have the processors."""
    print(f"{what}: {took:.3f} s, and {due} s are due" + (" (NOT JUDGED, as others have the processors)" if is_busy() else ""), flush=True)
    if not is_busy():
        check(what, took <= due, took)


# ---- over the program


class Drawn(Office):
    documents = DOCUMENTS

    def make_matter(self):
        start = time.time()
        self.batch = drawn_batch.make(self.folder, self.documents)
        made = time.time() - start
        self.run("init", digest(LEAD))
        start = time.time()
        # a busy machine may take long
        told = subprocess.run([self.program, "import", drawn_batch.NAME], cwd=self.folder, capture_output=True, text=True, timeout=1200,
                              check=True).stdout
        print(f"{told.strip()}: drawn in {made:.0f} s, imported in {time.time() - start:.0f} s", flush=True)


def try_list(person, office):
    person.go(office.url)
    person.click("#key")
    person.type(ELLIS)
    took = seconds_from_key(person, "Enter", LISTED % f"{office.documents:,} documents")
    judge("the list stands after the key", took, LIST)
    person.rest()


def try_find(person, office):
    """A rare pair of words, one by its end, and one that stands everywhere."""
    for words in ("needle hay", "*eedle", drawn_batch.OFTEN):
        hits, documents = office.batch.hits[words]
        person.js("document.getElementById('sheet').focus()")
        person.key("/")
        person.until("document.activeElement.name === 'words'")
        person.type(words)
        took = seconds_from_key(person, "Enter", FOUND % f"{hits:,} hits in {documents:,} documents.")
        judge(f"{words}: {hits:,} hits stand", took, FIND)
    person.rest()
    asked, due = sum(request["url"].endswith("/find") for request in person.requests), 3 * -(-office.batch.parts // 1000)
    check("a search is one call for each 1,000 parts", asked == due, (asked, due))
    person.click("#close_finder")  # the list again
    person.js("document.getElementById('sheet').focus()")


def try_next(person):
    person.js(NEXT)
    for _ in range(KEYS):
        count = person.js("times.length")
        person.key("j")
        person.until(f"times.length === {count + 1}")
        time.sleep(PAUSE)
    times, stood = sorted(person.js("times")), sorted(person.js("stood"))
    for what, found in (("stands in the page", stood), ("is on the screen", times)):
        print(f"the next document {what} after {found[len(found) // 2]:.0f} ms in the middle of {KEYS}, "
              f"{found[int(len(found) * 0.95)]:.0f} ms at 95 of 100, {found[-1]:.0f} ms at most")
    judge("the next document is on the screen", times[len(times) // 2] / 1000, NEXT_ONE)


# from now on no desk answers
SILENT = "window.whole = window.fetch; window.fetch = () => new Promise(() => {})"


def try_without_answer(person):
    """What was fetched ahead stands though no desk answers any more: two documents."""
    person.rest()
    number = int(person.text("title").split()[1])
    person.js(SILENT)
    for by in (1, 2):
        person.key("j")
        try:
            person.until(f"document.getElementById('title').textContent === 'Document {number + by}' &&"
                         " document.getElementById('ink').dataset.state === 'whole'", seconds=20)
            check(f"the document {by} after this one stands while no desk answers", True)
        except RuntimeError as why:
            check(f"the document {by} after this one stands while no desk answers", False, why)


def over_program(scratch, program):
    with closing(Drawn(scratch, program)) as office, window(office) as person:
        try_list(person, office)
        try_find(person, office)
        try_next(person)
        to_the_end(person, office.documents)
        person.open(office.documents // 2)
        try_without_answer(person)
        check(f"the tab takes less than {MEGABYTES} MB", (taken := memory(person)) < MEGABYTES, taken)
        print(f"the tab takes {taken:.0f} MB")


# ---- by the stand-in


def to_the_end(person, last):
    """The end of the list at once, so that what is passed over never rests in sight."""
    person.js("document.getElementById('documents').scrollTop = 1e9")
    person.until(f"document.getElementById('document_{last}')?.querySelector('.name').textContent.trim() > ''")
    person.rest()


def calls(person, path=""):
    return sum("/desk" + path in request["url"] for request in person.requests)


def over_stand_in(scratch):
    with closing(Office(scratch, copies=COPIES)) as office, window(office, ELLIS) as person:
        person.rest(2)
        opened, rows = calls(person), person.js(f"{ROWS}.length")
        check("a look for each 500 documents", calls(person, "/states/") == -(-12 * COPIES // 500), calls(person, "/states/"))
        # fields of the rows; a document, its page and what comes next
        check("and few more, as the rows in sight alone ask for their fields", calls(person, "/docs/") <= rows + 10 and rows < 40, (opened, rows))
        print(f"9,996 documents: {opened} calls, with {rows} rows in the list")
        to_the_end(person, 12 * COPIES)
        check("what was passed over in the list isn't asked for", calls(person) - opened <= 40, calls(person) - opened)
        person.open(5000)
        person.until("document.getElementById('document_5000') !== null")  # drawn once the list has scrolled
        check("an open document has its row in sight", person.js("document.getElementById('document_5000').getBoundingClientRect().top > 0"))


def main():
    scratch = sys.argv[1]
    if len(sys.argv) > 3:
        Drawn.documents = int(sys.argv[3])
    for folder in ("program", "stand_in"):
        os.mkdir(os.path.join(scratch, folder))
    if len(sys.argv) > 2:
        over_program(os.path.join(scratch, "program"), sys.argv[2])
    else:
        print("over the program: NOT TRIED, as it isn't there")
    over_stand_in(os.path.join(scratch, "stand_in"))
    finish("many")


main()
