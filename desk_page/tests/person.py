"""Somebody who works at the page in a headless Chromium, and what the tests of it compare."""
import hashlib
import json
import os
import subprocess
import sys
import time

from chromium import Chromium
from office import BATCH

CTRL, SHIFT = 2, 8
READ = 0.8  # seconds after which somebody may have read that a document was changed
counts = [0, 0]  # of what was as due, and what wasn't


def check(what, holds, more=""):
    counts[not holds] += 1
    print("ok         " if holds else "NOT AS DUE ", what, "" if holds else more, flush=True)


def finish(what):
    """Prints how it went, and ends with 1 where something isn't as due."""
    print(f"{what}: {counts[0]} as due, {counts[1]} not")
    sys.exit(counts[1] > 0)


# All that the page says, in its order: what stands at a moment may have taken the place of other words just before.
HEARD = """window.heard = { said: [], denied: [], frozen: [], many_told: [], screens_told: [], received_said: [] }
new MutationObserver((all) => all.forEach(({ target, addedNodes }) => {
  heard[target.id]?.push(...Array.from(addedNodes, (node) => node.textContent))
})).observe(document, { childList: true, subtree: true })"""


class Person(Chromium):
    """Who works at the page."""

    def __init__(self, *words, **more):
        super().__init__(*words, **more)
        self("Page.addScriptToEvaluateOnNewDocument", source=HEARD)

    def enter(self, url, key):
        self.go(url)
        self.come(key)

    def come(self, key):
        self.click("#key")
        self.type(key)
        self.key("Enter")
        self.until("document.getElementById('title').textContent.startsWith('Document ')")

    def stage(self, text):
        """A script for what the page is in, as a slow desk, and not for what somebody does."""
        return self.js(text)

    def title(self, number):
        """Waits until a document is open."""
        self.until(f"document.getElementById('title').textContent === 'Document {number}'")

    def press_at(self, place):
        self.mouse("mousePressed", *place)
        self.mouse("mouseReleased", *place)

    def mouse_with_shift(self, place):
        for kind in ("mousePressed", "mouseReleased"):
            self("Input.dispatchMouseEvent", type=kind, x=place[0], y=place[1], button="left", buttons=int(kind == "mousePressed"), clickCount=1,
                 modifiers=SHIFT)

    def go_to(self, number, page):
        """A page of a document, by its link."""
        self.js(f"location.hash = '#{number}/{page}'")
        self.until(f"document.getElementById('title').textContent === 'Document {number}' && "
                   f"document.getElementById('place').textContent.startsWith('page {page} of')")

    def ask_confirm(self):
        self.key("c")
        self.until("document.getElementById('ask').open")

    def key(self, key, modifiers=0):
        super().key(key, modifiers)
        if key in ("0", "+", "-", "v"):
            self.whole()

    def whole(self):
        """Waits until the page stands at its size, which a worker makes."""
        self.until("document.getElementById('ink').dataset.state !== 'changes'")

    def text(self, name):
        return self.js(f"document.getElementById({name!r}).textContent")

    def heard(self, place="said"):
        return self.js(f"heard.{place}")

    def does(self, work, words, place="said", seconds=60):
        """Does something, and waits until that is said of it."""
        before = len(self.heard(place))
        work()
        self.until(f"heard.{place}.slice({before}).some((text) => text.includes({json.dumps(words)}))", seconds)

    def says(self, what, work, words, place="said", seconds=60):
        """A check of what is said."""
        try:
            self.does(work, words, place, seconds)
            check(what, True)
        except RuntimeError as why:
            check(what, False, (why, self.heard(place)[-5:]))

    def tab_to(self, selector, most=120):
        """Presses Tab until an element that fits has the focus."""
        for _ in range(most):
            if self.js(f"document.activeElement.matches({json.dumps(selector)})"):
                return
            self.key("Tab")
        raise RuntimeError(f"Tab never comes to {selector}")

    def press(self, keys):
        for key in keys:
            self.key(key)

    def open(self, number):
        self.key("o")
        self.type(str(number))
        self.key("Enter")
        self.until(f"document.getElementById('title').textContent === 'Document {number}' && "
                   "document.activeElement.id === 'sheet'")

    def turn(self, page, of, key="ArrowRight"):
        self.key(key)
        self.until(f"document.getElementById('place').textContent === 'page {page} of {of}'")

    def decide(self, number, keys, designation=""):
        self.open(number)
        if designation:
            self.key("d")
            self.type(designation)
            self.key("Escape")
        self.does(lambda: self.press(keys), "The call stands.")

    def hold(self, name, basis):
        self.key("h")
        choices = f"const {{ field, basis }} = document.getElementById('hold').elements; field.value = {name!r}; basis.value = {basis!r}"
        self.js(f"(() => {{ {choices} }})()")
        self.click("#hold > button")
        self.key("Escape")

    def choose(self, selector, value):
        """A choice has another value, as if it was chosen."""
        self.js(f"(() => {{ const it = document.querySelector({json.dumps(selector)}); it.value = {value!r};"
                " it.dispatchEvent(new Event('change')) })()")

    def size(self, value):
        self.choose("#size", value)
        self.whole()

    def save_into(self, folder):
        """What is saved goes to a folder."""
        self("Browser.setDownloadBehavior", behavior="allow", downloadPath=folder)

    def at(self, x, y, sides=(2550, 3300)):
        """Where a pixel of the page stands in the window."""
        left, top, width, height = self.js(
            "(() => { const on = document.getElementById('paper').getBoundingClientRect();"
            " return [on.left, on.top, on.width, on.height] })()")
        return left + (x + 0.5) * width / sides[0], top + (y + 0.5) * height / sides[1]

    def draw(self, left, top, width, height):
        self.js("document.getElementById('sheet').scrollTo(0, 0)")
        self.drag(self.at(left, top), self.at(left + width - 1, top + height - 1))

    def boxes(self):
        return self.js("Array.from(document.querySelectorAll('#boxes li'), (it) => it.children[0].textContent)")

    def told_box(self, num):
        """Left and top of a box, by the list."""
        row = next(row for row in self.boxes() if row.startswith(f"Box {num},"))
        left, top = row.split(" at ")[1].split(", ")[:2]
        return int(left), int(top)

    def draft(self):
        return self.js("(() => { const it = document.querySelector('.draft'); if (it === null) return null;"
                       " return ['x', 'y', 'width', 'height'].map((name) => Number(it.getAttribute(name))) })()")

    def adjust(self, wanted):
        """The chosen box by the arrows to where it is wanted: by ten pixels, and then by one."""
        for is_size, names in ((False, ("ArrowLeft", "ArrowRight", "ArrowUp", "ArrowDown")),
                               (True, ("ArrowLeft", "ArrowRight", "ArrowUp", "ArrowDown"))):
            for axis in (0, 1):
                k = axis + 2 * is_size
                off = wanted[k] - self.draft()[k]
                name = names[2 * axis + (off > 0)]
                self.keys(*[name] * (abs(off) // 10), modifiers=SHIFT * is_size)
                self.keys(*[name] * (abs(off) % 10), modifiers=SHIFT * is_size | CTRL)


def read_saved(path, seconds=60):
    """The bytes of a file that the browser saves, once all of it is there."""
    end = time.time() + seconds
    is_saved = lambda: os.path.exists(path) and not any(name.endswith(".crdownload") for name in os.listdir(os.path.dirname(path)))
    while not is_saved() and time.time() < end:
        time.sleep(0.1)
    with open(path, "rb") as file:
        return file.read()


def scan_path(number, page):
    """The file of a page of the batch."""
    with open(os.path.join(BATCH, "load.opt"), encoding="utf-8-sig") as file:
        lines = [line.rstrip("\r\n").split(",") for line in file if line.strip()]
    starts = [k for k, line in enumerate(lines) if line[3] == "Y"]
    return os.path.join(BATCH, lines[starts[number - 1] + page - 1][2].replace("\\", "/"))


def read_page(path):
    """A page as libtiff reads it: its sides and its packed rows, with the unused bits of each row 0."""
    told = subprocess.run(["tifftopnm", "-quiet", "-byrow", path], capture_output=True, check=True).stdout
    _, sides, rows = told.split(b"\n", 2)
    width, height = map(int, sides.split())
    stride, unused = (width + 7) // 8, -width % 8
    masked = bytearray(rows[: stride * height])
    for at in range(stride - 1, len(masked), stride):
        masked[at] &= 0xFF << unused & 0xFF
    return width, height, bytes(masked)


def scan(number, page):
    """The pixels of a page as libtiff reads them: width, height, rows of text with 1 for black."""
    width, height, rows = read_page(scan_path(number, page))
    stride = (width + 7) // 8
    row = lambda k: f"{int.from_bytes(rows[k * stride:(k + 1) * stride], 'big'):0{stride * 8}b}"[:width]
    return width, height, [row(k) for k in range(height)]


def grey_of(width, height, rows, across, down):
    """The bytes of the canvas that the page is due: each cell as dark as the share of its pixels that are black."""
    if (across, down) == (width, height):  # a pixel a cell, and millions of them
        return "".join(rows).translate({ord("0"): 255, ord("1"): 0}).encode("latin-1")
    columns, lines = [-(-k * width // across) for k in range(across + 1)], [-(-k * height // down) for k in range(down + 1)]
    out = bytearray()
    for line in range(down):
        part = rows[lines[line] : lines[line + 1]]
        for column in range(across):
            left, right = columns[column], columns[column + 1]
            black = sum(row.count("1", left, right) for row in part)
            # halves are rounded up, as by Math.round
            out.append(255 - int(255 * black / (len(part) * (right - left)) + 0.5))
    return bytes(out)


CANVAS = """(async () => {
  const { width, height } = document.getElementById('ink')
  const { data } = document.getElementById('ink').getContext('2d').getImageData(0, 0, width, height)
  const grey = data.filter((_, i) => i % 4 === 0)
  const isGrey = data.every((value, i) => value === (i % 4 === 3 ? 255 : data[i - (i % 4)]))
  const digest = new Uint8Array(await crypto.subtle.digest('SHA-256', grey))
  return [width, height, isGrey, Array.from(digest, (byte) => byte.toString(16).padStart(2, '0')).join('')]
})()"""


def canvas_is(what, person, number, page):
    """The canvas has the scan's pixels, as many of them in a cell as the size says."""
    person.whole()
    across, down, is_grey, digest = person.js(CANVAS)
    due = hashlib.sha256(grey_of(*scan(number, page), across, down)).hexdigest()
    check(f"{what}, {across} by {down} cells", is_grey and digest == due, digest)


ROLES = ("button", "link", "textbox", "combobox", "checkbox", "radio", "listbox", "option", "searchbox", "spinbutton", "canvas", "image",
         "dialog", "DisclosureTriangle")


def controls(person):
    """The controls of Chromium's tree, and whatever else can have the focus: role, name, and whether it is on."""
    person("Accessibility.enable")
    found = []
    for node in person("Accessibility.getFullAXTree")["nodes"]:
        role = node.get("role", {}).get("value", "")
        has = {it["name"] for it in node.get("properties", []) if it["value"].get("value") is True}
        if not node.get("ignored") and (role in ROLES or "focusable" in has):
            found.append((role, " ".join(node.get("name", {}).get("value", "").split()), "disabled" not in has))
    return found


def nameless(person):
    """The roles of those that have no name."""
    return [role for role, name, _ in controls(person) if name == ""]
