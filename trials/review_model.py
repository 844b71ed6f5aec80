"""A plain model of a matter under review: what each of the twenty calls is answered over HTTP, and what the matter is after it.

Written from docs/FORMATS.md and docs/STATUSES.md, apart from the proved crates, for desks.py, which replays by it what many
clients were answered. A matter knows which rows a call may read or change (`touched`), and gives and takes the state of
rows as a value (`state`, `put_state`), so that calls on other rows can be replayed in any order.
"""
import functools
import hashlib
import json
import re

import find_model

NAMES = {
    9: "KeyUnknown", 10: "NoDocument", 11: "NoPage", 12: "RoleRefused", 13: "BoxOutside", 14: "BoxShape", 15: "WrongTreatment",
    16: "BoxesRemain", 17: "BadBasis", 18: "NotCalled", 19: "SamePerson", 20: "NothingRedacted", 21: "EntryMissing", 22: "NoField",
    23: "TextRefused", 24: "RangeEmpty", 25: "SplitFamily", 26: "Unsettled", 27: "NothingResponsive", 28: "RequestDiffers",
    29: "BadPrefix", 30: "PrefixDiffers", 31: "BatesFull", 32: "BadVolume", 33: "NoProduction", 35: "MatterFull", 36: "StaffThere",
    40: "FieldChoice", 41: "VolumeTaken", 140: "TermRefused",
}
STATUS = {9: 401, 10: 404, 11: 404, 12: 403, 33: 404, 38: 404}
EDITORS, CONFIRMERS, CLERKS = {"Reviewer", "Second", "Lead"}, {"Second", "Lead"}, {"Clerk", "Lead"}
MAY = {
    "AddStaff": {"Lead"}, "SetCall": EDITORS, "PutBox": EDITORS, "DropBox": EDITORS, "HoldField": EDITORS, "FreeField": EDITORS,
    "PutEntry": EDITORS, "Confirm": CONFIRMERS, "SendBack": CONFIRMERS, "Freeze": CLERKS,
}
ALL_BUT_RECEIVERS = {"Reviewer", "Second", "Lead", "Clerk"}
LOOKS = {"SeeDoc", "SeePage", "SeeWords", "SeeStates", "SeeState", "SeeValues", "SeeStaff", "SeeProductions", "Find", "Plan",
         "GetProduction"}
OF_NO_DOCUMENT = {"AddStaff", "Freeze", "GetProduction", "SeeStates", "SeeStaff", "SeeProductions", "Find", "Plan"}
COLUMNS = {"BEGDOC", "ENDDOC", "BEGATTACH", "ENDATTACH", "PAGECOUNT", "DESIGNATION", "WITHHELD", "TEXTPATH"}
PRIVILEGED = {"AC", "WP"}
ROLES = ["Reviewer", "Second", "Lead", "Clerk", "Receiver"]
BASES = ["AC", "WP", "PI", "TS"]
TREATMENTS = ["Produce", "Redact", "Withhold-AC", "Withhold-WP"]
STAFF_LIMIT, PRODUCTION_LIMIT = 1000, 1000
STATES_TOLD = 500


class Broken(Exception):
    """The first rule that a call breaks, with its two values."""

    def __init__(self, rule, a=0, b=0):
        super().__init__(rule)
        self.rule, self.a, self.b = rule, a, b


def compact(value):
    return json.dumps(value, separators=(",", ":"), sort_keys=True, ensure_ascii=False).encode()


def refused(broken):
    body = {"a": broken.a, "b": broken.b, "line": 0, "name": NAMES[broken.rule], "rule": broken.rule}
    return STATUS.get(broken.rule, 409), compact(body)


def bad_text(text, limit):
    return len(text.encode()) > limit or any(ord(c) < 0x20 or ord(c) in (0x7F, 0xFE) for c in text)


def bad_designation(text):
    return re.fullmatch(r"[A-Z0-9\-_. ]{0,40}", text) is None


class Document:
    """The decisions on a document: its call, boxes, held fields and log entry; and the id of the production that has its family."""

    def __init__(self, parent, sizes):
        self.parent, self.sizes = parent, sizes
        self.produced, self.boxes, self.held, self.entry = None, {}, {}, None
        self.uncall()

    def state(self):
        called = (self.editor, self.confirmer, self.responsive, self.treatment, self.designation)
        return called, self.produced, tuple(sorted(self.boxes.items())), tuple(sorted(self.held.items())), self.entry

    def put_state(self, state):
        (self.editor, self.confirmer, self.responsive, self.treatment, self.designation), self.produced, boxes, held, self.entry = state
        self.boxes, self.held = dict(boxes), dict(held)

    def edited(self, staff):
        """After an edit a document that is called is the editor's, and not confirmed; another stays uncalled."""
        if self.editor:
            self.editor, self.confirmer = staff, 0

    def uncall(self):
        self.editor = self.confirmer = 0
        self.responsive, self.treatment, self.designation = False, "Produce", ""

    def is_settled(self):
        return bool(self.editor) and (self.treatment == "Produce" or bool(self.confirmer))

    def is_withheld(self):
        return self.treatment.startswith("Withhold")

    def is_privileged(self):
        grounds = {box[2] for box in self.boxes.values()} | set(self.held.values())
        return self.is_withheld() or bool(grounds & PRIVILEGED)

    def called(self, number):
        """What SeeDoc and SeeStates tell alike."""
        return {
            "doc": number, "parent": self.parent, "pages": len(self.sizes), "editor": self.editor, "confirmer": self.confirmer,
            "responsive": self.responsive, "treatment": self.treatment, "designation": self.designation,
        }

    def state_row(self, number):
        counts = {"boxes": len(self.boxes), "held": len(self.held)}
        return self.called(number) | counts | {"entry": self.entry is not None, "production": self.produced}

    def view(self, number):
        boxes = [
            {"num": num, "page": page, "left": rect[0], "top": rect[1], "width": rect[2], "height": rect[3], "basis": basis}
            for num, (page, rect, basis) in sorted(self.boxes.items())
        ]
        entry = self.entry and dict(zip(("date", "author", "recipients", "description"), self.entry))
        held = [{"field": field, "basis": basis} for field, basis in sorted(self.held.items())]
        return self.called(number) | {"boxes": boxes, "held": held, "entry": entry}


class Texts:
    """What a search looks through, which no call changes: of each document its values, and the words of its pages."""

    def __init__(self, documents):
        self.documents = documents
        self.parts = [(number, page) for number, (_, pages) in enumerate(documents, 1) for page in range(len(pages) + 1)]
        self.places = {part: place for place, part in enumerate(self.parts)}
        self.hits = functools.lru_cache(maxsize=500)(self.all_hits)

    def __deepcopy__(self, _memo):
        return self

    def value(self, number, field):
        values = self.documents[number - 1][0]
        return values[field - 1] if field <= len(values) else ""

    def all_hits(self, terms):
        """The hits of each part, in order."""
        return [find_model.part_hits(terms, self.documents[number - 1], number, page) for number, page in self.parts]

    def found(self, terms, begin, page):
        """The hits from a part on, and the first part that was not taken."""
        first, hits = self.places[begin, page], []
        for place, more in enumerate(self.hits(tuple(terms))[first:], first):
            if place == first + find_model.MOST_PARTS or len(hits) >= find_model.ENOUGH_HITS:
                return hits, self.parts[place]
            hits += more
        return hits, (0, 0)


class Matter:
    """Staff 1 is the lead. `pages` gives of each document its parent and the sides of its pages; `seen` the bodies of
    SeePage and SeeWords by document and page; `texts` the values and words of each document."""

    def __init__(self, lead, fields, pages, seen, texts):
        self.staff = [("Lead", lead, "lead")]
        self.fields, self.seen, self.texts = fields, seen, Texts(texts)
        self.documents = {number: Document(parent, sizes) for number, (parent, sizes) in enumerate(pages, 1)}
        self.families = {}
        for number, document in self.documents.items():
            self.families.setdefault(document.parent, []).append(number)
        self.prefixes, self.volumes, self.productions, self.made_rows = {}, {}, {}, ()

    # ---- what a call touches

    def touched(self, call, status):
        """The rows that a call with an answer of this status reads or changes; a call that touches none is answered alike at any
        place. Staff that came is looked up by AddStaff and SeeStaff alone: no call of a test is made by it."""
        name = call["call"]
        if name in ("AddStaff", "SeeStaff"):
            return [("staff", 0)]
        if name in ("SeePage", "SeeWords", "Find"):
            return []
        if name == "SeeStates":
            return [("document", number) for number in self.told_from(call)] if status == 200 else []
        if name == "GetProduction":
            return [("production", call["id"])]
        if name == "SeeProductions":
            return [("productions", 0)]
        if name not in ("Freeze", "Plan"):
            return [("document", call["doc"])]
        reached = {other for number in self.range_of(call) for other in self.families[self.documents[number].parent]}
        named = [("production", call["id"]), ("volume", call["volume"]), ("prefix", call["prefix"])]
        # a freeze that is refused adds none to the list of productions
        named += [("productions", 0)] if name == "Freeze" and status == 200 else []
        return named + [("document", number) for number in sorted(reached)]

    def told_from(self, call):
        return range(call["from"], min(call["from"] + STATES_TOLD - 1, len(self.documents)) + 1)

    def range_of(self, call):
        return range(max(call["from"], 1), min(call["to"], len(self.documents)) + 1)

    def state(self, row):
        kind, key = row
        if kind == "staff":
            return tuple(self.staff)
        if kind == "productions":
            return self.made_rows
        if kind == "document":
            return self.documents[key].state() if key in self.documents else None
        return self.table(kind).get(key)

    def put_state(self, row, state):
        kind, key = row
        if kind == "staff":
            self.staff = list(state)
        elif kind == "productions":
            self.made_rows = state
        elif kind == "document":
            if state is not None:
                self.documents[key].put_state(state)
        elif state is None:
            self.table(kind).pop(key, None)
        else:
            self.table(kind)[key] = state

    def table(self, kind):
        return {"prefix": self.prefixes, "volume": self.volumes, "production": self.productions}[kind]

    # ---- a call

    def step(self, key, call):
        """Makes a call. Returns the status and the body of its reply."""
        try:
            return 200, self.made(key, call)
        except Broken as broken:
            return refused(broken)

    def made(self, key, call):
        name = call["call"]
        digest = hashlib.sha256(key.encode()).hexdigest()
        caller = next((at for at, row in enumerate(self.staff, 1) if row[1] == digest), None)
        if caller is None:
            raise Broken(9)
        if self.staff[caller - 1][0] not in MAY.get(name, ALL_BUT_RECEIVERS):
            raise Broken(12)
        if name in OF_NO_DOCUMENT:
            return getattr(self, name)(caller, call)
        number = call["doc"]
        document = self.document(number)
        if "page" in call and not 1 <= call["page"] <= len(document.sizes):
            raise Broken(11, call["page"])
        if name in ("SeePage", "SeeWords"):
            return self.seen[name, number, call["page"]]
        if name == "SeeDoc":
            return compact(document.view(number))
        if name == "SeeState":
            return compact(document.state_row(number))
        if name == "SeeValues":
            return self.values(number, document)
        getattr(self, name)(caller, document, call)
        return compact({"done": True})

    def document(self, number):
        if number not in self.documents:
            raise Broken(10, number)
        return self.documents[number]

    def AddStaff(self, _caller, call):
        if not call["name"] or bad_text(call["name"], 200):
            raise Broken(23)
        row = (call["role"], call["digest"], call["name"])
        for number, there in enumerate(self.staff, 1):
            if there[1] == row[1]:
                if there != row:
                    raise Broken(36, number)
                return compact({"staff": number})
        if len(self.staff) == STAFF_LIMIT:
            raise Broken(35, 5, STAFF_LIMIT + 1)
        self.staff.append(row)
        return compact({"staff": len(self.staff)})

    def SetCall(self, caller, document, call):
        if bad_designation(call["designation"]):
            raise Broken(23)
        if call["treatment"] in ("Withhold-PI", "Withhold-TS"):
            raise Broken(17)
        if (document.boxes or document.held) and call["treatment"] != "Redact":
            raise Broken(16)
        document.editor, document.confirmer = caller, 0
        document.responsive, document.treatment, document.designation = call["responsive"], call["treatment"], call["designation"]

    def PutBox(self, caller, document, call):
        left, top, width, height = rect = (call["left"], call["top"], call["width"], call["height"])
        if not 1 <= call["num"] <= 1000 or not width or not height:
            raise Broken(14)
        sides = document.sizes[call["page"] - 1]
        if left + width > sides[0] or top + height > sides[1]:
            raise Broken(13)
        if not document.editor or document.treatment != "Redact":
            raise Broken(15)
        document.boxes[call["num"]] = (call["page"], rect, call["basis"])
        document.edited(caller)

    def DropBox(self, caller, document, call):
        if document.boxes.pop(call["num"], None) is not None:
            document.edited(caller)

    def field_of(self, call):
        if call["field"] not in self.fields:
            raise Broken(22)
        return self.fields.index(call["field"]) + 1

    def HoldField(self, caller, document, call):
        field = self.field_of(call)
        if not document.editor or document.treatment != "Redact":
            raise Broken(15)
        document.held[field] = call["basis"]
        document.edited(caller)

    def FreeField(self, caller, document, call):
        if document.held.pop(self.field_of(call), None) is not None:
            document.edited(caller)

    def PutEntry(self, caller, document, call):
        entry = tuple(call[name] for name in ("date", "author", "recipients", "description"))
        if any(bad_text(text, limit) for text, limit in zip(entry, (200, 200, 200, 1000))):
            raise Broken(23)
        document.entry = entry
        document.edited(caller)

    def Confirm(self, caller, document, _call):
        if not document.editor:
            raise Broken(18)
        if document.editor == caller:
            raise Broken(19)
        if document.treatment == "Redact" and not document.boxes and not document.held:
            raise Broken(20)
        if document.entry is None and document.is_privileged():
            raise Broken(21)
        document.confirmer = document.confirmer or caller

    def SendBack(self, _caller, document, _call):
        document.uncall()

    # ---- looks; SeeState is no call, but what SeeStates tells of one document

    def SeeStates(self, _caller, call):
        self.document(call["from"])
        return compact([self.documents[number].state_row(number) for number in self.told_from(call)])

    def values(self, number, document):
        return compact([
            {"field": field, "name": name, "value": self.texts.value(number, field), "held": document.held.get(field)}
            for field, name in enumerate(self.fields, 1)
        ])

    def SeeStaff(self, _caller, _call):
        return compact([{"staff": number, "name": name, "role": role} for number, (role, _, name) in enumerate(self.staff, 1)])

    def SeeProductions(self, _caller, _call):
        return b"[" + b",".join(row for _, row in self.made_rows) + b"]"

    def Find(self, _caller, call):
        terms = call["terms"]
        if not 1 <= len(terms) <= find_model.MOST_TERMS or not all(find_model.good_term(term) for term in terms):
            raise Broken(140)
        document = self.document(call["from"])
        if call["page"] > len(document.sizes):
            raise Broken(11, call["page"])
        hits, (following, page) = self.texts.found(terms, call["from"], call["page"])
        hits = [dict(zip(("doc", "page", "field", "place", "count"), hit)) for hit in hits]
        return compact({"hits": hits, "next": following, "next_page": page})

    def Plan(self, _caller, call):
        return self.frozen(call)[0][2]

    # ---- productions: each is kept as its request, its items and its reply

    def Freeze(self, _caller, call):
        production, following = self.frozen(call)
        if call["id"] not in self.productions:
            self.keep(call, production, following)
        return production[2]

    def frozen(self, call):
        """The production that answers a request, kept or not, and the number that then comes next."""
        request = tuple(call[name] for name in ("id", "volume", "prefix", "width", "from", "to")) + (tuple(call["fields"]),)
        if call["id"] in self.productions:
            if self.productions[call["id"]][0] != request:
                raise Broken(28)
            return self.productions[call["id"]], None
        self.test_request(call)
        return self.numbered(call, request, self.selected(call))

    def test_request(self, call):
        prefix, width = call["prefix"], call["width"]
        if not 4 <= width <= 10 or not re.fullmatch(r"(?!-)[A-Z0-9\-_]{1,12}(?<!\d)", prefix, re.ASCII):
            raise Broken(29)
        if not re.fullmatch(r"[A-Za-z0-9\-_]{1,32}", call["id"]) or not re.fullmatch(r"[A-Z0-9\-_]{1,32}", call["volume"]):
            raise Broken(32)
        if call["volume"] in self.volumes:
            raise Broken(41)
        fields = call["fields"]
        if len(set(fields)) < len(fields) or set(fields) & COLUMNS:
            raise Broken(40)
        if set(fields) - set(self.fields):
            raise Broken(22)
        if prefix in self.prefixes and self.prefixes[prefix][0] != width:
            raise Broken(30, self.prefixes[prefix][0])
        if call["from"] == 0 or call["from"] > call["to"] or call["to"] > len(self.documents):
            raise Broken(24)

    def selected(self, call):
        asked = self.range_of(call)
        for number in asked:
            if any(other not in asked for other in self.families[self.documents[number].parent]):
                raise Broken(25, number)
        for number in asked:
            if not self.documents[number].produced and not self.documents[number].is_settled():
                raise Broken(26, number)
        families = sorted({self.documents[number].parent for number in asked if not self.documents[number].produced})
        documents = [
            number for parent in families for number in self.families[parent]
            if any(self.documents[other].responsive for other in self.families[parent])
        ]
        if not documents:
            raise Broken(27)
        return documents

    def numbered(self, call, request, documents):
        largest = 10 ** call["width"] - 1
        _, first = self.prefixes.get(call["prefix"], (call["width"], 1))
        following, items, shown = first, [], []
        for number in documents:
            document = self.documents[number]
            count = 1 if document.is_withheld() else len(document.sizes)
            if following + count - 1 > largest:
                raise Broken(31, largest)
            span = (following, following + count - 1)
            items.append((number, document.parent, document.state(), span))
            shown.append({"doc": number, "first": span[0], "last": span[1], "treatment": document.treatment})
            following += count
        if len(self.productions) == PRODUCTION_LIMIT:
            raise Broken(35, 7, PRODUCTION_LIMIT + 1)
        reply = {name: call[name] for name in ("id", "volume", "prefix", "width")}
        reply |= {"first": first, "last": following - 1, "items": shown}
        return (request, tuple(items), compact(reply)), following

    def keep(self, call, production, following):
        items = production[1]
        self.productions[call["id"]] = production
        self.prefixes[call["prefix"]] = (call["width"], following)
        self.volumes[call["volume"]] = call["id"]
        for item in items:
            self.documents[item[0]].produced = call["id"]
        row = {name: call[name] for name in ("id", "volume", "prefix", "width", "from", "to")}
        row |= {"first": items[0][3][0], "last": items[-1][3][1], "items": len(items)}
        self.made_rows += ((call["id"], compact(row)),)

    def GetProduction(self, _caller, call):
        if call["id"] not in self.productions:
            raise Broken(33)
        return self.productions[call["id"]][2]

    # ---- kept rows

    def rows(self):
        """The kept rows of staff, calls, boxes, held fields, entries, prefixes and productions: kind, first and second number,
        and body. Productions are numbered as they were made, prefixes by the first production of each."""
        for number, (role, digest, name) in enumerate(self.staff, 1):
            yield 1, number, 0, bytes([1, ROLES.index(role)]) + bytes.fromhex(digest) + text_kept(name)
        for number, document in sorted(self.documents.items()):
            if document.editor:
                state = 2 if document.confirmer else 1
                yield 5, number, 0, (
                    bytes([1, state]) + number_kept(document.editor) + number_kept(document.confirmer)
                    + bytes([document.responsive, TREATMENTS.index(document.treatment)]) + text_kept(document.designation)
                )
            for num, box in document.boxes.items():
                yield 6, number, num, bytes([1]) + box_kept(box)
            for field, basis in document.held.items():
                yield 7, number, field, bytes([1, BASES.index(basis)])
            if document.entry is not None:
                yield 8, number, 0, bytes([1]) + entry_kept(document.entry)
        made = [self.productions[identity] for identity, _ in self.made_rows]
        for number, text in enumerate(dict.fromkeys(production[0][2] for production in made), 1):
            width, following = self.prefixes[text]
            yield 9, number, 0, bytes([1, width]) + following.to_bytes(8, "little") + text_kept(text)
        for number, production in enumerate(made, 1):
            yield 10, number, 0, bytes([2]) + production_kept(production)


def number_kept(number):
    return number.to_bytes(4, "little")


def text_kept(text):
    return number_kept(len(text.encode())) + text.encode()


def list_kept(members):
    return number_kept(len(members)) + b"".join(members)


def box_kept(box):
    page, rect, basis = box
    return b"".join(map(number_kept, (page, *rect))) + bytes([BASES.index(basis)])


def entry_kept(entry):
    return b"".join(map(text_kept, entry))


def item_kept(item):
    number, parent, (called, _, boxes, held, entry), span = item
    boxes = [number_kept(num) + box_kept(box) for num, box in boxes]
    held = [number_kept(field) + bytes([BASES.index(basis)]) for field, basis in held]
    entry = b"\0" if entry is None else b"\1" + entry_kept(entry)
    return (
        number_kept(number) + number_kept(parent) + bytes([TREATMENTS.index(called[3])]) + list_kept(boxes) + list_kept(held) + entry
        + text_kept(called[4]) + b"".join(label.to_bytes(8, "little") for label in span)
    )


def production_kept(production):
    (identity, volume, prefix, width, begin, end, fields), items, _ = production
    return (
        b"".join(map(text_kept, (identity, volume, prefix))) + bytes([width]) + number_kept(begin) + number_kept(end)
        + list_kept(list(map(text_kept, fields))) + list_kept(list(map(item_kept, items)))
    )
