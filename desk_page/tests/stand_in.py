#!/usr/bin/env python3
"""A stand-in for desks of one matter: the routes of docs/FORMATS.md (bp_web) over a batch, with the rules of review, at each desk one
exchange after another, in memory. It is for the tests of the page where the program isn't built, and for matters of many documents.

    stand_in.py PORT[,PORT ..] BATCH LEADKEY [COPIES]    serves the batch in the folder BATCH, so many times over; Ctrl-C ends it
"""
import json
import re
import socketserver
import sys
import threading

import stand_in_looks as looks
from stand_in_freeze import REQUEST
from stand_in_matter import Matter, sides_of
from stand_in_rules import BASES, CHECKERS, INSIDERS, REVIEWERS, ROLES, TREATMENTS, Refused


# ---- calls


def text(value, limit=200):
    if len(value.encode()) > limit or re.search("[\x00-\x1f\x7fþ]", value):
        raise Refused("TextRefused")
    return value


def page_of(doc, number):
    if not 1 <= number <= len(doc.files):
        raise Refused("NoPage", number)
    return number - 1


def add_staff(matter, _caller, _numbers, body):
    person = (text(body["name"]), body["role"], body["digest"])
    if person[0] == "":
        raise Refused("TextRefused")
    for number, known in enumerate(matter.staff, 1):
        if known[2] == person[2]:
            if known != person:
                raise Refused("StaffThere", number)
            return dict(staff=number)
    matter.staff.append(person)
    return dict(staff=len(matter.staff))


def see_doc(matter, _caller, numbers, _body):
    return matter.doc(numbers[0]).view()


def see_page(matter, _caller, numbers, _body):
    doc = matter.doc(numbers[0])
    with open(doc.files[page_of(doc, numbers[1])], "rb") as file:
        return file.read()


def see_words(matter, _caller, numbers, _body):
    doc = matter.doc(numbers[0])
    return doc.words[page_of(doc, numbers[1])]


def set_call(matter, caller, numbers, body):
    doc, treatment = matter.doc(numbers[0]), body["treatment"]
    if len(body["designation"]) > 40 or re.search("[^A-Z0-9_. -]", body["designation"]):
        raise Refused("TextRefused")
    if treatment in ("Withhold-PI", "Withhold-TS"):
        raise Refused("BadBasis")
    if treatment != "Redact" and (doc.boxes or doc.held):
        raise Refused("BoxesRemain")
    doc.call = (body["responsive"], treatment, body["designation"])
    doc.edited(caller)


def put_box(matter, caller, numbers, body):
    doc = matter.doc(numbers[0])
    page = page_of(doc, body["page"])
    if not 1 <= body["num"] <= 1000 or 0 in (body["width"], body["height"]):
        raise Refused("BoxShape")
    width, height = sides_of(doc.files[page])
    if body["left"] + body["width"] > width or body["top"] + body["height"] > height:
        raise Refused("BoxOutside")
    called_redact(doc)
    doc.boxes[body["num"]] = {name: body[name] for name in ("basis", "height", "left", "page", "top", "width")}
    doc.edited(caller)


def called_redact(doc):
    if not doc.call or doc.call[1] != "Redact":
        raise Refused("WrongTreatment")


def drop_box(matter, caller, numbers, body):
    doc = matter.doc(numbers[0])
    if doc.boxes.pop(body["num"], None):
        doc.edited(caller)


def field_of(matter, name):
    if name not in matter.fields:
        raise Refused("NoField")
    return matter.fields.index(name) + 1


def hold_field(matter, caller, numbers, body):
    doc, field = matter.doc(numbers[0]), field_of(matter, body["field"])
    called_redact(doc)
    doc.held[field] = body["basis"]
    doc.edited(caller)


def free_field(matter, caller, numbers, body):
    doc, field = matter.doc(numbers[0]), field_of(matter, body["field"])
    if doc.held.pop(field, None):
        doc.edited(caller)


def put_entry(matter, caller, numbers, body):
    doc = matter.doc(numbers[0])
    limits = dict(author=200, date=200, description=1000, recipients=200)
    doc.entry = {name: text(body[name], limit) for name, limit in limits.items()}
    doc.edited(caller)


def confirm(matter, caller, numbers, _body):
    doc = matter.doc(numbers[0])
    if not doc.call:
        raise Refused("NotCalled")
    if doc.editor == caller:
        raise Refused("SamePerson")
    marks = [box["basis"] for box in doc.boxes.values()] + list(doc.held.values())
    if doc.call[1] == "Redact" and not marks:
        raise Refused("NothingRedacted")
    if not doc.entry and (doc.call[1].startswith("Withhold") or {"AC", "WP"} & set(marks)):
        raise Refused("EntryMissing")
    doc.confirmer = doc.confirmer or caller


def send_back(matter, _caller, numbers, _body):
    doc = matter.doc(numbers[0])
    doc.call, doc.editor, doc.confirmer = None, 0, 0


def freeze(matter, _caller, _words, body):
    return matter.productions.freeze(body)


def get_production(matter, _caller, words, _body):
    return matter.productions.see(words[0])


DIGEST = re.compile("[0-9a-f]{64}")
DOC = r"/docs/([1-9]\d{0,8})"
# method, target, who may, what it does, members
ROUTES = [
    ("POST", "/staff", {"Lead"}, add_staff, dict(name=str, role=ROLES, digest=DIGEST)),
    ("GET", DOC, INSIDERS, see_doc, {}),
    ("GET", DOC + r"/pages/([1-9]\d{0,8})", INSIDERS, see_page, {}),
    ("GET", DOC + r"/pages/([1-9]\d{0,8})/words", INSIDERS, see_words, {}),
    ("POST", DOC + "/call", REVIEWERS, set_call, dict(responsive=bool, treatment=TREATMENTS, designation=str)),
    ("POST", DOC + "/box", REVIEWERS, put_box,
     dict(num=int, page=int, left=int, top=int, width=int, height=int, basis=BASES)),
    ("POST", DOC + "/unbox", REVIEWERS, drop_box, dict(num=int)),
    ("POST", DOC + "/hold", REVIEWERS, hold_field, dict(field=str, basis=BASES)),
    ("POST", DOC + "/free", REVIEWERS, free_field, dict(field=str)),
    ("POST", DOC + "/entry", REVIEWERS, put_entry, dict(date=str, author=str, recipients=str, description=str)),
    ("POST", DOC + "/confirm", CHECKERS, confirm, {}),
    ("POST", DOC + "/back", CHECKERS, send_back, {}),
    ("POST", "/productions", {"Clerk", "Lead"}, freeze, REQUEST),
    ("GET", "/productions/([^/?]+)", INSIDERS, get_production, {}),
    ("GET", r"/states/([1-9]\d{0,8})", INSIDERS, looks.see_states, {}),
    ("GET", DOC + "/values", INSIDERS, looks.see_values, {}),
    ("GET", "/staff", INSIDERS, looks.see_staff, {}),
    ("GET", "/productions", INSIDERS, looks.see_productions, {}),
    ("POST", "/find", INSIDERS, looks.find, {"terms": list, "from": int, "page": int}),
    ("POST", "/plan", INSIDERS, looks.plan, REQUEST),
]


def fits(value, kind):
    """Whether a member has a value of its kind: one of a set, a text of a form, a number of a range, a list of texts, a text, truth, or a
    number."""
    if isinstance(kind, set):
        return isinstance(value, str) and value in kind
    if isinstance(kind, re.Pattern):
        return isinstance(value, str) and kind.fullmatch(value) is not None
    if isinstance(kind, range):
        return type(value) is int and value in kind
    if kind is list:
        return isinstance(value, list) and all(isinstance(text, str) for text in value)
    return type(value) is kind and (kind is not int or 0 <= value < 1 << 32)


def read_number(digits):
    """A number with a sign fits no member, and -0 neither."""
    return int(digits) if digits.isdigit() else -1


def read_body(body):
    """The object of a body: UTF-8, and JSON without half of a pair of surrogates."""
    try:
        value = json.loads(body.decode(), parse_int=read_number)
        json.dumps(value, ensure_ascii=False).encode()
        return value
    except ValueError:
        raise Refused("BodyRefused") from None


def answer(matter, method, target, fields, body):
    """What a request is answered: an object, the bytes of a page, or None where it is done."""
    for way, pattern, roles, work, members in ROUTES:
        found = re.fullmatch(pattern, target)
        if way == method and found:
            break
    else:
        raise Refused("NoRoute")
    keys = [value for name, value in fields if name == "desk-key"]
    if len(keys) != 1:
        raise Refused("KeyMissing")
    value = read_body(body) if way == "POST" else {}
    if not isinstance(value, dict) or not all(fits(value.get(name), kind) for name, kind in members.items()):
        raise Refused("BodyRefused")
    caller, role = matter.who(keys[0])
    if role not in roles:
        raise Refused("RoleRefused")
    words = [int(word) if r"\d" in pattern else word for word in found.groups()]
    return work(matter, caller, words, value)


# ---- exchanges, one after another


def compact(value):
    return json.dumps(value, ensure_ascii=False, separators=(",", ":"), sort_keys=True).encode()


PHRASES = {200: "OK", 400: "Bad Request", 401: "Unauthorized", 403: "Forbidden", 404: "Not Found", 409: "Conflict",
           413: "Payload Too Large"}


class Exchange(socketserver.StreamRequestHandler):
    timeout = 10
    matter, count = None, 0
    turn = threading.Lock()  # calls of all desks are made one after another

    def handle(self):
        lines = []
        while (line := self.rfile.readline(16384).decode("latin-1").rstrip("\r\n")) or not lines:
            if not line:
                return
            lines.append(line)
        method, target, _ = lines[0].split(" ")
        fields = [(name.lower(), value.strip()) for name, _, value in (line.partition(":") for line in lines[1:])]
        try:
            if len(fields) > 32:
                raise Refused("HeadRefused")
            sent = self.body(method, fields)
            with Exchange.turn:
                Exchange.count += 1
                status, kind, body = 200, "application/json", answer(Exchange.matter, method, target, fields, sent)
        except Refused as why:
            status, kind, body = why.status(), "application/json", why.told()
        if isinstance(body, bytes):
            kind = "image/tiff" if target.startswith("/docs/") else "application/octet-stream"
        else:
            body = compact({"done": True} if body is None else body)
        head = f"HTTP/1.1 {status} {PHRASES[status]}\r\nContent-Type: {kind}\r\nContent-Length: {len(body)}\r\n"
        self.wfile.write((head + "Connection: close\r\n\r\n").encode() + body)

    def body(self, method, fields):
        if method != "POST":
            return b""
        lengths = [value for name, value in fields if name == "content-length"]
        if len(lengths) != 1 or any(name == "transfer-encoding" for name, _ in fields):
            raise Refused("BodyRefused")
        if int(lengths[0]) > 1048576:
            raise Refused("BodyLimit")
        return self.rfile.read(int(lengths[0]))


class Door(socketserver.TCPServer):
    allow_reuse_address = True
    request_queue_size = 128

    def handle_error(self, request, client_address):
        pass  # a peer that was cut off


def serve(matter, *ports):
    """Desks of a matter at these ports, until Ctrl-C."""
    Exchange.matter = matter
    first, *others = [Door(("127.0.0.1", int(port)), Exchange) for port in ports]
    for door in others:
        threading.Thread(target=door.serve_forever, daemon=True).start()
    try:
        first.serve_forever()
    except KeyboardInterrupt:
        print(f"served {Exchange.count}")


if __name__ == "__main__":
    if len(sys.argv) not in (4, 5):
        sys.exit("usage: stand_in.py PORT[,PORT ..] BATCH LEADKEY [COPIES]")
    serve(Matter(sys.argv[3], sys.argv[2], int(sys.argv[4]) if len(sys.argv) == 5 else 1), *sys.argv[1].split(","))
