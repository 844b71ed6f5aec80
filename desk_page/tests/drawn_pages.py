"""Pages as they will go out, beside the plain model of trials/fuzz_pages.py."""
import hashlib
import json
import os
import random
import sys

from office import LEAD
from person import check, read_page, scan_path

sys.path.insert(0, os.path.join(os.path.dirname(os.path.abspath(__file__)), "..", "..", "trials"))
sys.dont_write_bytecode = True
import fuzz_pages  # noqa: E402
import t6_model  # noqa: E402

BY_CHANCE = 60


def told(width, height, packed):
    return [width, height, hashlib.sha256(packed).hexdigest()]


def by_model(office, number, page, label):
    """A page that goes out, by the plain model of trials/fuzz_pages.py; page 0 is the sheet of a withheld document."""
    doc = office.ask(LEAD, "GET", f"/docs/{number}")
    if page == 0:
        made = fuzz_pages.slip(doc["treatment"][-2:], label, doc["designation"])
    else:
        width, height, rows = read_page(scan_path(number, page))
        stride = (width + 7) // 8
        scanned = fuzz_pages.Page(width, height, [t6_model.edges_of(rows[at : at + stride], width) for at in range(0, len(rows), stride)])
        stamps = [tuple(box[name] for name in ("left", "top", "width", "height", "basis")) for box in doc["boxes"] if box["page"] == page]
        made = fuzz_pages.banded(fuzz_pages.covered(scanned, stamps, "lettered"), label, doc["designation"])
    return told(made.width, made.height, made.packed())


def case_by_chance(chance):
    """A small page with boxes that may lie over one another, and what becomes of it by the model."""
    width, height = chance.choice(((61, 40), (200, 90), (333, 128), (40, 30), (700, 60)))
    stride = (width + 7) // 8
    rows = b"".join((chance.getrandbits(width) << -width % 8).to_bytes(stride, "big") for _ in range(height))
    boxes = []
    for num in range(1, chance.randrange(1, 7)):
        wide, high = chance.randrange(1, min(width, 60) + 1), chance.randrange(1, min(height, 40) + 1)
        boxes.append(dict(num=num, left=chance.randrange(width - wide + 1), top=chance.randrange(height - high + 1), width=wide, height=high,
                          basis=chance.choice(("AC", "WP", "PI", "TS"))))
    label = chance.choice(("A0001", "ABC00000012", "ABCDEF-H_JKL0000000123"))
    designation = "".join(chance.choice(list(fuzz_pages.GLYPHS)) for _ in range(chance.randrange(41)))
    page = fuzz_pages.Page(width, height, [t6_model.edges_of(rows[at : at + stride], width) for at in range(0, len(rows), stride)])
    stamps = [tuple(box[name] for name in ("left", "top", "width", "height", "basis")) for box in boxes]
    made = fuzz_pages.banded(fuzz_pages.covered(page, stamps, "lettered"), label, designation)
    words = dict(width=width, height=height, rows=rows.hex(), boxes=chance.sample(boxes, len(boxes)), designation=designation, label=label)
    return words, [made.width, made.height, made.packed().hex()]


DRAW = """(async () => {
  const { producedPage, slipSheet } = await import('./outgoing.js')
  const bytes = (hex) => Uint8Array.from(hex.match(/../g), (byte) => parseInt(byte, 16))
  const told = ({ width, height, rows }) => [width, height, Array.from(rows, (byte) => byte.toString(16).padStart(2, '0')).join('')]
  return [...%s.map(({ width, height, rows, boxes, designation, label }) =>
    told(producedPage({ width, height, rows: bytes(rows) }, boxes, designation, label))),
  ...['AC', 'WP'].map((basis) => told(slipSheet(basis, 'CONFIDENTIAL', 'ABC00000006')))]
})()"""


def try_by_chance(person):
    """Pages by chance, and both sheets, drawn by the page's module and by the model of trials/fuzz_pages.py."""
    chance = random.Random(7)
    cases = [case_by_chance(chance) for _ in range(BY_CHANCE)]
    sheets = [fuzz_pages.slip(basis, "ABC00000006", "CONFIDENTIAL") for basis in ("AC", "WP")]
    due = [page for _, page in cases] + [[sheet.width, sheet.height, sheet.packed().hex()] for sheet in sheets]
    made = person.js(DRAW % json.dumps([words for words, _ in cases]))
    check(f"{BY_CHANCE} pages by chance and both sheets are drawn as by trials/fuzz_pages.py", made == due,
          [k for k, (one, other) in enumerate(zip(made, due)) if one != other])


def try_model(office, pages):
    """Where no program is there to write a volume, each page beside a plain model."""
    frozen = office.ask(LEAD, "GET", "/productions/R-1")["items"]
    places = [(item["doc"], 0 if item["treatment"].startswith("Withhold") else number - item["first"] + 1, number)
              for item in frozen for number in range(item["first"], item["last"] + 1)]
    wrong = [number for k, (doc, page, number) in enumerate(places) if pages[k] != by_model(office, doc, page, f"ABC{number:08}")]
    check(f"each of {len(places)} drawn pages is as by trials/fuzz_pages.py, pixel by pixel", len(pages) == len(places) and wrong == [], wrong)
    print("the volume: not tried, as the program isn't built")
