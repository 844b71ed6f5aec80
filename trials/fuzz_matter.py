"""A plain model of a matter: its kept rows (docs/FORMATS.md, bp_matter), when they are those of a valid matter, its
review calls, freezes and logs (docs/STATUSES.md)."""
import copy
import functools
import re
import struct

import find_model
import fuzz_loads as loads
import fuzz_pages as pages
import t6_model
from fuzz_tools import Rule

ROLES = ["Reviewer", "Second", "Lead", "Clerk", "Receiver"]
BASES = ["AC", "WP", "PI", "TS"]
INKS = ["Black", "Lettered"]
TREATMENTS = ["Produce", "Redact", "AC", "WP"]
COLUMNS = ["BEGDOC", "ENDDOC", "BEGATTACH", "ENDATTACH", "PAGECOUNT", "DESIGNATION", "WITHHELD", "TEXTPATH"]
CONTROLS, PRIVILEGED = "\0-\x1f\x7f", ("AC", "WP")


class Matter:
    """Tables: what is numbered from 1 stands in lists, the rest by its key."""

    def __init__(self):
        self.staff, self.fields, self.docs, self.prefixes, self.productions, self.batches = [], [], [], [], [], []
        self.pages, self.words, self.calls, self.boxes, self.held, self.entries = {}, {}, {}, {}, {}, {}

    def marks(self, doc):
        boxes = {key[1]: box for key, box in self.boxes.items() if key[0] == doc}
        return dict(sorted(boxes.items())), dict(sorted((key[1], basis) for key, basis in self.held.items() if key[0] == doc))

    def page_count(self, doc):
        return self.docs[doc - 1]["pages"]

    def family(self, parent):
        return [k for k, doc in enumerate(self.docs, 1) if doc["parent"] == parent]


def begun(digest):
    matter = Matter()
    matter.staff.append(("Lead", digest, "lead"))
    return matter


# ---- rows


def u32(*numbers):
    return struct.pack(f"<{len(numbers)}I", *numbers)


def text(value):
    data = value.encode("utf-8")
    return u32(len(data)) + data


def listed(values, part):
    return u32(len(values)) + b"".join(part(value) for value in values)


def page_body(page):
    return u32(page.width, page.height, *page.xres, *page.yres) + bytes([page.unit]) + strip_of(page)


def strip_of(page):
    """The strip of a page, coded once."""
    if not hasattr(page, "strip"):
        page.strip = pages.strip_of(page)
    return page.strip


def box_rest(box):
    return u32(*box[:5]) + bytes([BASES.index(box[5])])


def entry_part(entry):
    return b"".join(text(part) for part in entry)


def item_part(item):
    out = u32(item["doc"], item["parent"]) + bytes([TREATMENTS.index(item["treatment"])])
    out += listed(list(item["boxes"].items()), lambda pair: u32(pair[0]) + box_rest(pair[1]))
    out += listed(list(item["held"].items()), lambda pair: u32(pair[0]) + bytes([BASES.index(pair[1])]))
    out += bytes([item["entry"] is not None]) + (entry_part(item["entry"]) if item["entry"] is not None else b"")
    return out + text(item["designation"]) + struct.pack("<QQ", item["first"], item["last"])


def rows_of(matter):
    rows = {}
    for k, (role, digest, name) in enumerate(matter.staff, 1):
        rows[1, k, 0] = bytes([ROLES.index(role)]) + digest + text(name)
    for k, name in enumerate(matter.fields, 1):
        rows[2, k, 0] = text(name)
    for k, doc in enumerate(matter.docs, 1):
        rows[3, k, 0] = u32(doc["parent"], doc["pages"], doc["batch"]) + text(doc["id"]) + listed(doc["values"], text)
    for key, page in matter.pages.items():
        rows[4, *key] = page_body(page)
    for doc, call in matter.calls.items():
        state, editor, confirmer, responsive, treatment, designation = call
        rows[5, doc, 0] = bytes([state]) + u32(editor, confirmer) + bytes([responsive, TREATMENTS.index(treatment)]) + text(designation)
    for key, box in matter.boxes.items():
        rows[6, *key] = box_rest(box)
    for key, basis in matter.held.items():
        rows[7, *key] = bytes([BASES.index(basis)])
    for doc, entry in matter.entries.items():
        rows[8, doc, 0] = entry_part(entry)
    for k, (width, after, prefix) in enumerate(matter.prefixes, 1):
        rows[9, k, 0] = bytes([width]) + struct.pack("<Q", after) + text(prefix)
    for k, made in enumerate(matter.productions, 1):
        body = text(made["id"]) + text(made["volume"]) + text(made["prefix"]) + bytes([made["width"]])
        body += u32(made["from"], made["to"]) + listed(made["fields"], text)
        rows[10, k, 0] = body + listed(made["items"], item_part)
    for k, (digest, documents, count, name) in enumerate(matter.batches, 1):
        rows[11, k, 0] = digest + u32(documents, count) + text(name)
    for key, words in matter.words.items():
        rows[12, *key] = listed(words, lambda word: u32(*word[:5]) + text(word[5]))
    return {key: version_of(matter, key) + body for key, body in rows.items()}


def version_of(matter, key):
    kind, k, _ = key
    return bytes([1 + INKS.index(matter.productions[k - 1]["ink"])]) if kind == 10 else b"\1"


class Unformed(Exception):
    pass


class Body:
    """Reads the parts of a body one after another."""

    def __init__(self, data):
        self.data, self.at = data, 0

    def take(self, count):
        if self.at + count > len(self.data):
            raise Unformed
        self.at += count
        return self.data[self.at - count : self.at]

    def u8(self):
        return self.take(1)[0]

    def u32(self):
        return int.from_bytes(self.take(4), "little")

    def u64(self):
        return int.from_bytes(self.take(8), "little")

    def among(self, values):
        number = self.u8()
        if number >= len(values):
            raise Unformed
        return values[number]

    def text(self):
        try:
            return self.take(self.u32()).decode("utf-8")
        except UnicodeDecodeError:
            raise Unformed from None

    def list(self, part):
        return [part() for _ in range(self.u32())]

    def box(self):
        return (*(self.u32() for _ in range(5)), self.among(BASES))

    def entry(self):
        return tuple(self.text() for _ in range(4))

    def item(self):
        item = {"doc": self.u32(), "parent": self.u32(), "treatment": self.among(TREATMENTS)}
        item["boxes"] = self.list(lambda: (self.u32(), self.box()))
        item["held"] = self.list(lambda: (self.u32(), self.among(BASES)))
        item["entry"] = self.entry() if self.among((False, True)) else None
        return item | {"designation": self.text(), "first": self.u64(), "last": self.u64()}

    def page(self):
        return page_of(self.take(len(self.data) - self.at))

    def call(self):
        state, editor, confirmer = self.u8(), self.u32(), self.u32()
        if state not in (1, 2) or (confirmer == 0) != (state == 1):
            raise Unformed
        return state, editor, confirmer, self.among((False, True)), self.among(TREATMENTS), self.text()

    def production(self):
        made = {key: self.text() for key in ("id", "volume", "prefix")}
        made |= {"width": self.u8(), "from": self.u32(), "to": self.u32()}
        return made | {"fields": self.list(self.text), "items": self.list(self.item)}

    def of_kind(self, kind):
        version = self.u8()
        if version != 1 and (kind, version) != (10, 2):
            raise Unformed
        read = {
            1: lambda: (self.among(ROLES), self.take(32), self.text()),
            2: self.text,
            3: lambda: {"parent": self.u32(), "pages": self.u32(), "batch": self.u32(), "id": self.text(), "values": self.list(self.text)},
            4: self.page, 5: self.call, 6: self.box, 7: lambda: self.among(BASES), 8: self.entry,
            9: lambda: (self.u8(), self.u64(), self.text()),
            10: lambda: self.production() | {"ink": INKS[version - 1]},
            11: lambda: (self.take(32), self.u32(), self.u32(), self.text()),
            12: lambda: self.list(lambda: (*(self.u32() for _ in range(5)), self.text())),
        }.get(kind)
        if read is None:
            raise Unformed
        value = read()
        if self.at != len(self.data):
            raise Unformed
        return value


@functools.lru_cache(4096)
def page_of(data):
    body = Body(data)
    width, height, *dots = (body.u32() for _ in range(6))
    unit, strip = body.u8(), data[body.at :]
    if unit not in (1, 2, 3) or not pages.can_be_a_page(width, height):
        raise Unformed
    try:
        page = pages.Page(width, height, t6_model.read(strip, width, height), tuple(dots[:2]), tuple(dots[2:]), unit)
    except t6_model.Refused:
        raise Unformed from None
    page.strip = pages.strip_of(page)
    if page.strip != strip:
        raise Unformed
    return page


def load(rows):
    """The matter of these rows, or 43 or 90."""
    if not rows:
        raise Rule(43)
    values = {}
    for key in sorted(rows):
        try:
            values[key] = Body(rows[key]).of_kind(key[0])
        except Unformed:
            raise Rule(90, key[0], key[1] * 2**32 + key[2]) from None
    matter = Matter()
    lists = {1: matter.staff, 2: matter.fields, 3: matter.docs, 9: matter.prefixes, 10: matter.productions, 11: matter.batches}
    maps = {4: matter.pages, 6: matter.boxes, 7: matter.held, 12: matter.words}
    for (kind, k1, k2), value in values.items():
        if kind in lists:
            lists[kind].append(value)
            if (k1, k2) != (len(lists[kind]), 0):
                raise Rule(90)
        elif kind in maps:
            maps[kind][k1, k2] = value
        elif k2 != 0:
            raise Rule(90)
        else:
            (matter.calls if kind == 5 else matter.entries)[k1] = value
    for made in matter.productions:
        for item in made["items"]:
            for part in ("boxes", "held"):
                numbers = [number for number, _ in item[part]]
                if numbers != sorted(set(numbers)):
                    raise Rule(90)
                item[part] = dict(item[part])
    if not is_valid(matter):
        raise Rule(90)
    return matter


# ---- what a valid matter is


def is_said(value, limit):
    """A text that a call accepts."""
    return len(value.encode("utf-8")) <= limit and not re.search(f"[{CONTROLS}\u00fe]", value)


def is_designation(value):
    return re.fullmatch("[A-Z0-9_. -]{0,40}", value) is not None


def is_entry(entry):
    return all(is_said(value, 200) for value in entry[:3]) and is_said(entry[3], 1000)


def is_id(value):
    return re.fullmatch("[A-Za-z0-9_-]{1,32}", value) is not None


def is_volume(value):
    return re.fullmatch("[A-Z0-9_-]{1,32}", value) is not None


def inside(page, left, top, width, height):
    return left + width <= page.width and top + height <= page.height


def differ(values):
    values = list(values)
    return len(set(values)) == len(values)


def is_logged(treatment, boxes, held):
    return treatment in PRIVILEGED or any(box[5] in PRIVILEGED for box in boxes.values()) or any(b in PRIVILEGED for b in held.values())


def is_valid(m):
    return (limits_kept(m) and staff_valid(m) and docs_valid(m) and pages_valid(m) and marks_valid(m) and calls_valid(m)
            and productions_valid(m) and spans_valid(m))


def sizes_of(images):
    """How many pixels they have, and how many bytes of strips."""
    images = list(images)
    return sum(page.width * page.height for page in images), sum(len(strip_of(page)) for page in images)


def strips_fit(pixels, strips):
    return pixels <= 4000000000 or strips <= 2000000000


def limits_kept(m):
    pixels, strips = sizes_of(m.pages.values())
    return (len(m.docs) <= 10000 and len(m.pages) <= 20000 and pixels <= 200000000000 and strips_fit(pixels, strips) and len(m.fields) <= 64
            and all(len(list_) <= 1000 for list_ in (m.staff, m.batches, m.productions)))


def staff_valid(m):
    return (bool(m.staff) and m.staff[0][0] == "Lead" and differ(digest for _, digest, _ in m.staff)
            and all(name and is_said(name, 200) for _, _, name in m.staff)
            and differ(m.fields) and not any(re.search("[\u00fe\x14\r\u00ae\n]", name) for name in m.fields)
            and differ(batch[3] for batch in m.batches) and all(is_id(batch[3]) for batch in m.batches))


def docs_valid(m):
    before = 1
    for k, doc in enumerate(m.docs, 1):
        if doc["parent"] not in (k, before) or doc["pages"] < 1 or len(doc["values"]) > len(m.fields):
            return False
        if not 1 <= doc["batch"] <= len(m.batches) or not re.fullmatch("[^\u00fe\x14\r\u00ae\n,]+", doc["id"]):
            return False
        if any(re.search("[\u00fe\x14\r\u00ae]", value) for value in doc["values"]):
            return False
        before = doc["parent"]
    return True


def pages_valid(m):
    if sum(doc["pages"] for doc in m.docs) != len(m.pages):
        return False
    due = {(k, p) for k, doc in enumerate(m.docs, 1) for p in range(1, doc["pages"] + 1)}
    if set(m.pages) != due or set(m.words) != due or not all(pages.can_come_in(p.width, p.height) for p in m.pages.values()):
        return False
    return all(inside(m.pages[key], *word[1:5]) and word[5] and not re.search(f"[{CONTROLS}]", word[5])
               for key, words in m.words.items() for word in words)


def marks_valid(m):
    count = len(m.docs)
    for (doc, number), (page, *rect, _) in m.boxes.items():
        if not 1 <= number <= 1000 or (doc, page) not in m.pages or not inside(m.pages[doc, page], *rect):
            return False
        if doc in m.calls and m.calls[doc][4] != "Redact":
            return False
    for doc, field in m.held:
        if not 1 <= doc <= count or not 1 <= field <= len(m.fields) or (doc in m.calls and m.calls[doc][4] != "Redact"):
            return False
    return all(1 <= doc <= count and is_entry(entry) for doc, entry in m.entries.items())


def calls_valid(m):
    for doc, (state, editor, confirmer, _, treatment, designation) in m.calls.items():
        if not 1 <= doc <= len(m.docs) or not 1 <= editor <= len(m.staff) or not is_designation(designation):
            return False
        if state == 2:
            if not 1 <= confirmer <= len(m.staff) or m.staff[confirmer - 1][0] not in ("Second", "Lead") or confirmer == editor:
                return False
            boxes, held = m.marks(doc)
            if treatment == "Redact" and not boxes and not held:
                return False
            if is_logged(treatment, boxes, held) and doc not in m.entries:
                return False
    return True


def productions_valid(m):
    if not differ(made["id"] for made in m.productions) or not differ(made["volume"] for made in m.productions):
        return False
    taken = set()
    for made in m.productions:
        if not is_id(made["id"]) or not is_volume(made["volume"]) or not made["items"]:
            return False
        if not all(1 <= made[end] <= len(m.docs) for end in ("from", "to")) or not differ(made["fields"]):
            return False
        if any(name not in m.fields or name in COLUMNS for name in made["fields"]):
            return False
        if not any((made["width"], made["prefix"]) == (width, prefix) for width, _, prefix in m.prefixes):
            return False
        docs = [item["doc"] for item in made["items"]]
        if docs != sorted(set(docs)) or any(not 1 <= doc <= len(m.docs) for doc in docs) or taken & set(docs):
            return False
        taken |= set(docs)
        if any(not set(m.family(m.docs[doc - 1]["parent"])) <= set(docs) for doc in docs):
            return False
        if not all(item_valid(m, item) for item in made["items"]):
            return False
    return True


def item_valid(m, item):
    doc, boxes, held = item["doc"], item["boxes"], item["held"]
    if item["parent"] != m.docs[doc - 1]["parent"] or not is_designation(item["designation"]):
        return False
    due = 1 if item["treatment"] in PRIVILEGED else m.page_count(doc)
    if item["last"] + 1 != item["first"] + due:
        return False
    for number, (page, *rect, _) in boxes.items():
        if not 1 <= number <= 1000 or (doc, page) not in m.pages or not inside(m.pages[doc, page], *rect):
            return False
    if not all(1 <= field <= len(m.fields) for field in held) or ((boxes or held) and item["treatment"] != "Redact"):
        return False
    if item["entry"] is not None:
        return is_entry(item["entry"])
    return not is_logged(item["treatment"], boxes, held)


def spans_valid(m):
    if not differ(prefix for _, _, prefix in m.prefixes):
        return False
    for width, after, prefix in m.prefixes:
        under = [made for made in m.productions if made["prefix"] == prefix]
        if not loads.good_prefix(prefix, width) or not 1 <= after <= loads.largest(width) + 1 or not under:
            return False
        number = 1
        for item in (item for made in under for item in made["items"]):
            if item["first"] != number or item["last"] < number:
                return False
            number = item["last"] + 1
        if number != after:
            return False
    return True


# ---- imports


def batch_in(matter, batch):
    """The batch comes in: documents and pages."""
    for digest, documents, count, name in matter.batches:
        if name == batch["name"]:
            if digest != batch["digest"]:
                raise Rule(34)
            return documents, count
    images = [page for doc in batch["docs"] for page, _ in doc["pages"]]
    pixels, strips = sizes_of([*matter.pages.values(), *images])
    fields = [*matter.fields, *(name for name in batch["fields"] if name not in matter.fields)]
    for which, reached, limit in (
        (1, len(matter.docs) + len(batch["docs"]), 10000), (2, len(matter.pages) + len(images), 20000),
        (3, pixels, 200000000000), (8, strips, strips if strips_fit(pixels, strips) else 2000000000), (4, len(fields), 64),
        (6, len(matter.batches) + 1, 1000),
    ):
        if reached > limit:
            raise Rule(35, which, reached)
    first = len(matter.docs)
    matter.fields = fields
    matter.batches.append((batch["digest"], len(batch["docs"]), len(images), batch["name"]))
    for doc in batch["docs"]:
        named = dict(zip(batch["fields"], doc["values"]))
        matter.docs.append({
            "parent": first + doc["parent"], "pages": len(doc["pages"]), "batch": len(matter.batches), "id": doc["id"],
            "values": [named.get(name, "") for name in fields],
        })
        for p, (page, words) in enumerate(doc["pages"], 1):
            matter.pages[len(matter.docs), p], matter.words[len(matter.docs), p] = page, words
    return len(batch["docs"]), len(images)


# ---- review calls

REVIEWERS, SECONDS = ("Reviewer", "Second", "Lead"), ("Second", "Lead")
MAY = {
    "AddStaff": ("Lead",), "SetCall": REVIEWERS, "PutBox": REVIEWERS, "DropBox": REVIEWERS, "HoldField": REVIEWERS,
    "FreeField": REVIEWERS, "PutEntry": REVIEWERS, "Confirm": SECONDS, "SendBack": SECONDS, "Freeze": ("Clerk", "Lead"),
}


def step(m, digest, name, call):
    """The reply to a call, by its members: a dictionary, a list, or a page; or the rule, and then nothing is changed."""
    caller = next((k for k, row in enumerate(m.staff, 1) if row[1] == digest), None)
    if caller is None:
        raise Rule(9)
    if m.staff[caller - 1][0] not in MAY.get(name, ("Reviewer", "Second", "Lead", "Clerk")):
        raise Rule(12)
    if name == "AddStaff":
        return add_staff(m, call)
    if name == "Freeze":
        return produced(freeze(m, call))
    if name == "GetProduction":
        return produced(production(m, call["id"]))
    if name in LOOKS:
        return LOOKS[name](m, call)
    doc = call["doc"]
    if not 1 <= doc <= len(m.docs):
        raise Rule(10, doc)
    if name in ("SeePage", "SeeWords", "PutBox") and (doc, call["page"]) not in m.pages:
        raise Rule(11, call["page"])
    return STEPS[name](m, caller, doc, call)


def production(m, id_):
    for made in m.productions:
        if made["id"] == id_:
            return made
    raise Rule(33)


def produced(made):
    items = [{"doc": i["doc"], "first": i["first"], "last": i["last"], "treatment": treatment_word(i["treatment"])} for i in made["items"]]
    return {"first": items[0]["first"], "id": made["id"], "items": items, "last": items[-1]["last"],
            "prefix": made["prefix"], "volume": made["volume"], "width": made["width"]}


def treatment_word(treatment):
    return "Withhold-" + treatment if treatment in BASES else treatment


def add_staff(m, call):
    if not call["name"] or not is_said(call["name"], 200):
        raise Rule(23)
    for k, (role, digest, name) in enumerate(m.staff, 1):
        if digest == call["digest"]:
            if (role, name) != (call["role"], call["name"]):
                raise Rule(36, k)
            return {"staff": k}
    if len(m.staff) >= 1000:
        raise Rule(35, 5, len(m.staff) + 1)
    m.staff.append((call["role"], call["digest"], call["name"]))
    return {"staff": len(m.staff)}


def see_doc(m, caller, doc, call):
    state, editor, confirmer, responsive, treatment, designation = m.calls.get(doc, (0, 0, 0, False, "Produce", ""))
    boxes, held = m.marks(doc)
    entry = m.entries.get(doc)
    return {
        "boxes": [{"basis": b[5], "height": b[4], "left": b[1], "num": n, "page": b[0], "top": b[2], "width": b[3]}
                  for n, b in boxes.items()],
        "confirmer": confirmer, "designation": designation, "doc": doc, "editor": editor,
        "entry": dict(zip(("date", "author", "recipients", "description"), entry)) if entry is not None else None,
        "held": [{"basis": basis, "field": field} for field, basis in held.items()], "pages": m.page_count(doc),
        "parent": m.docs[doc - 1]["parent"], "responsive": responsive, "treatment": treatment_word(treatment),
    }


def see_page(m, caller, doc, call):
    return m.pages[doc, call["page"]]


def see_words(m, caller, doc, call):
    return [dict(zip(("line", "left", "top", "width", "height", "text"), word)) for word in m.words[doc, call["page"]]]


DONE = {"done": True}


def set_call(m, caller, doc, call):
    if not is_designation(call["designation"]):
        raise Rule(23)
    treatment = call["treatment"].removeprefix("Withhold-")
    if treatment in ("PI", "TS"):
        raise Rule(17)
    if treatment != "Redact" and any(m.marks(doc)):
        raise Rule(16)
    row = (1, caller, 0, call["responsive"], treatment, call["designation"])
    m.calls[doc] = row
    return DONE


def edited(m, caller, doc):
    """A called document is called First by who edits it."""
    if doc in m.calls:
        m.calls[doc] = (1, caller, 0, *m.calls[doc][3:])


def put_box(m, caller, doc, call):
    rect = [call[key] for key in ("left", "top", "width", "height")]
    if not 1 <= call["num"] <= 1000 or 0 in rect[2:]:
        raise Rule(14)
    if not inside(m.pages[doc, call["page"]], *rect):
        raise Rule(13)
    if doc not in m.calls or m.calls[doc][4] != "Redact":
        raise Rule(15)
    m.boxes[doc, call["num"]] = (call["page"], *rect, call["basis"])
    edited(m, caller, doc)
    return DONE


def drop_box(m, caller, doc, call):
    if m.boxes.pop((doc, call["num"]), None) is not None:
        edited(m, caller, doc)
    return DONE


def field_number(m, call):
    if call["field"] not in m.fields:
        raise Rule(22)
    return m.fields.index(call["field"]) + 1


def hold_field(m, caller, doc, call):
    field = field_number(m, call)
    if doc not in m.calls or m.calls[doc][4] != "Redact":
        raise Rule(15)
    m.held[doc, field] = call["basis"]
    edited(m, caller, doc)
    return DONE


def free_field(m, caller, doc, call):
    if m.held.pop((doc, field_number(m, call)), None) is not None:
        edited(m, caller, doc)
    return DONE


def put_entry(m, caller, doc, call):
    entry = tuple(call[key] for key in ("date", "author", "recipients", "description"))
    if not is_entry(entry):
        raise Rule(23)
    m.entries[doc] = entry
    edited(m, caller, doc)
    return DONE


def confirm(m, caller, doc, call):
    if doc not in m.calls:
        raise Rule(18)
    state, editor, confirmer, responsive, treatment, designation = m.calls[doc]
    boxes, held = m.marks(doc)
    if caller == editor:
        raise Rule(19)
    if treatment == "Redact" and not boxes and not held:
        raise Rule(20)
    if is_logged(treatment, boxes, held) and doc not in m.entries:
        raise Rule(21)
    if state != 2:
        m.calls[doc] = (2, editor, caller, responsive, treatment, designation)
    return DONE


def send_back(m, caller, doc, call):
    m.calls.pop(doc, None)
    return DONE


# ---- looks


def see_states(m, call):
    if not 1 <= call["from"] <= len(m.docs):
        raise Rule(10, call["from"])
    return [state_of(m, doc) for doc in range(call["from"], min(call["from"] + 499, len(m.docs)) + 1)]


def state_of(m, doc):
    row = see_doc(m, 0, doc, {})
    made = next((made["id"] for made in m.productions if any(item["doc"] == doc for item in made["items"])), None)
    counts = {"boxes": len(row["boxes"]), "held": len(row["held"])}
    return row | counts | {"entry": row["entry"] is not None, "production": made}


def see_values(m, caller, doc, call):
    values, (_, held) = m.docs[doc - 1]["values"], m.marks(doc)
    return [{"field": k, "held": held.get(k), "name": name, "value": values[k - 1] if k <= len(values) else ""}
            for k, name in enumerate(m.fields, 1)]


def see_staff(m, call):
    return [{"name": name, "role": role, "staff": k} for k, (role, _, name) in enumerate(m.staff, 1)]


def see_productions(m, call):
    return [{"first": made["items"][0]["first"], "last": made["items"][-1]["last"], "items": len(made["items"])}
            | {key: made[key] for key in ("from", "id", "prefix", "to", "volume", "width")} for made in m.productions]


def find(m, call):
    documents = [(row["values"], [[word[5] for word in m.words[doc, p]] for p in range(1, row["pages"] + 1)])
                 for doc, row in enumerate(m.docs, 1)]
    found = find_model.find(documents, call["terms"], call["from"], call["page"])
    if isinstance(found, str):
        raise Rule({"TermRefused": 140, "NoDocument": 10, "NoPage": 11}[found],
                   {"TermRefused": 0, "NoDocument": call["from"], "NoPage": call["page"]}[found])
    hits = [dict(zip(("doc", "page", "field", "place", "count"), hit)) for hit in found[0]]
    return {"hits": hits, "next": found[1], "next_page": found[2]}


def plan(m, call):
    """What a freeze answers, with nothing kept of it."""
    other = copy.copy(m)
    other.prefixes, other.productions = list(m.prefixes), list(m.productions)
    return produced(freeze(other, call))


LOOKS = {"SeeStates": see_states, "SeeStaff": see_staff, "SeeProductions": see_productions, "Find": find, "Plan": plan}
STEPS = {
    "SeeDoc": see_doc, "SeePage": see_page, "SeeWords": see_words, "SetCall": set_call, "PutBox": put_box, "DropBox": drop_box,
    "HoldField": hold_field, "FreeField": free_field, "PutEntry": put_entry, "Confirm": confirm, "SendBack": send_back,
    "SeeValues": see_values,
}


# ---- the freeze


def freeze(m, asked):
    for made in m.productions:
        if made["id"] == asked["id"]:
            if any(made[key] != asked[key] for key in ("volume", "prefix", "width", "from", "to", "fields")):
                raise Rule(28)
            return made
    if not loads.good_prefix(asked["prefix"], asked["width"]):
        raise Rule(29)
    if not is_id(asked["id"]) or not is_volume(asked["volume"]):
        raise Rule(32)
    if any(made["volume"] == asked["volume"] for made in m.productions):
        raise Rule(41)
    if not differ(asked["fields"]) or any(name in COLUMNS for name in asked["fields"]):
        raise Rule(40)
    if any(name not in m.fields for name in asked["fields"]):
        raise Rule(22)
    kept = next((k for k, row in enumerate(m.prefixes) if row[2] == asked["prefix"]), None)
    if kept is not None and m.prefixes[kept][0] != asked["width"]:
        raise Rule(30, m.prefixes[kept][0])
    if not 1 <= asked["from"] <= asked["to"] <= len(m.docs):
        raise Rule(24)
    families = families_of(m, range(asked["from"], asked["to"] + 1))
    number = 1 if kept is None else m.prefixes[kept][1]
    items = []
    for doc in (doc for family in families for doc in family):
        *_, treatment, designation = m.calls[doc]
        due = 1 if treatment in PRIVILEGED else m.page_count(doc)
        if number + due - 1 > loads.largest(asked["width"]):
            raise Rule(31, loads.largest(asked["width"]))
        boxes, held = m.marks(doc)
        items.append({"doc": doc, "parent": m.docs[doc - 1]["parent"], "treatment": treatment, "boxes": boxes, "held": held,
                      "entry": m.entries.get(doc), "designation": designation, "first": number, "last": number + due - 1})
        number += due
    if len(m.productions) >= 1000:
        raise Rule(35, 7, len(m.productions) + 1)
    row = (asked["width"], number, asked["prefix"])
    if kept is None:
        m.prefixes.append(row)
    else:
        m.prefixes[kept] = row
    made = {key: asked[key] for key in ("id", "volume", "prefix", "width", "from", "to", "fields")} | {"items": items, "ink": "Lettered"}
    m.productions.append(made)
    return made


def families_of(m, asked):
    """The families that are produced, or 25, 26, 27."""
    taken = {item["doc"] for made in m.productions for item in made["items"]}
    families = {}
    for doc in asked:
        families.setdefault(m.docs[doc - 1]["parent"], m.family(m.docs[doc - 1]["parent"]))
    for doc in asked:
        if any(other not in asked for other in families[m.docs[doc - 1]["parent"]]):
            raise Rule(25, doc)
    for doc in asked:
        call = m.calls.get(doc)
        if doc not in taken and (call is None or (call[4] != "Produce" and call[0] != 2)):
            raise Rule(26, doc)
    chosen = [family for family in families.values()
              if not taken & set(family) and any(m.calls[doc][3] for doc in family)]
    if not chosen:
        raise Rule(27)
    return chosen


def log_of(made):
    lines = ["BEGLABEL,ENDLABEL,TREATMENT,BASIS,DATE,AUTHOR,RECIPIENTS,DESCRIPTION"]
    for item in made["items"]:
        if not is_logged(item["treatment"], item["boxes"], item["held"]):
            continue
        grounds = {item["treatment"], *(box[5] for box in item["boxes"].values()), *item["held"].values()}
        row = [loads.label(made["prefix"], made["width"], item[end]) for end in ("first", "last")]
        row += ["Redacted" if item["treatment"] == "Redact" else "Withheld", ";".join(b for b in PRIVILEGED if b in grounds)]
        row += item["entry"]
        lines.append(",".join('"' + v.replace('"', '""') + '"' if re.search('[,"]', v) else v for v in row))
    return "".join(line + "\n" for line in lines).encode("utf-8")
