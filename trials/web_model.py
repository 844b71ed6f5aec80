#!/usr/bin/env python3
"""A plain model of how requests are read and the replies to looks are written (docs/FORMATS.md, bp_web), apart
from the proved crates. It knows nothing of them but the form of the lines that bp_test_requests reads.

    web_model.py check FILE..     compares what each line says is to be told with the model
    web_model.py make COUNT SEED  writes COUNT lines of requests and replies, usual and damaged, with what is due
"""
import hashlib
import json
import random
import re
import sys

HEAD_LIMIT, MAX_FIELDS, MAX_BODY, DEPTH = 16384, 32, 1048576, 127
TOKEN = set(b"!#$%&'*+-.^_`|~") | set(range(48, 58)) | set(range(65, 91)) | set(range(97, 123))
TARGET = set(range(0x21, 0x7F)) | set(range(0x80, 0x100))
VALUE = {9} | set(range(0x20, 0x7F)) | set(range(0x80, 0x100))


# ---- heads, a byte at a time (RFC 9112, sections 2 to 5)


class Head:
    """Takes bytes one by one: `open` while more may make a head, then `done` or `dead`."""

    def __init__(self):
        self.state, self.step = "open", self.blank
        self.method, self.target, self.word = b"", b"", b""
        self.name, self.value, self.fields = b"", b"", []

    def feed(self, byte):
        self.step(byte)

    def dead(self, _byte=None):
        self.state = "dead"

    def blank(self, byte):
        if byte == 13:
            self.step = lambda b: self.go(b == 10, self.blank)
        elif byte != 10:
            self.step = self.in_method
            self.feed(byte)

    def go(self, fits, step):
        if fits:
            self.step = step
        else:
            self.dead()

    def in_method(self, byte):
        if byte == 32 and self.method:
            self.step = self.in_target
        elif byte in TOKEN:
            self.method += bytes([byte])
        else:
            self.dead()

    def in_target(self, byte):
        if byte == 32 and self.target:
            # a target is tested for UTF-8 at its end
            self.go(is_utf8(self.target), self.in_version)
        elif byte in TARGET:
            self.target += bytes([byte])
        else:
            self.dead()

    def in_version(self, byte):
        self.word += bytes([byte])
        fits = any(v.startswith(self.word) for v in (b"HTTP/1.0", b"HTTP/1.1"))
        self.go(fits, self.line_end if len(self.word) == 8 else self.in_version)

    def line_end(self, byte):
        if byte == 13:
            self.step = lambda b: self.go(b == 10, self.line_start)
        else:
            self.go(byte == 10, self.line_start)

    def finish(self, fits):
        self.state = "done" if fits else "dead"

    def line_start(self, byte):
        if byte == 13:
            self.step = lambda b: self.finish(b == 10)
        elif byte == 10:
            self.finish(True)
        elif byte in TOKEN:
            self.name, self.value = bytes([byte]), b""
            self.step = self.in_name
        else:
            self.dead()

    def in_name(self, byte):
        if byte == 58:
            self.step = self.in_value
        elif byte in TOKEN:
            self.name += bytes([byte])
        else:
            self.dead()

    def in_value(self, byte):
        if byte == 13:
            self.step = self.value_end
        elif byte == 10:
            self.field()
        elif byte in VALUE:
            self.value += bytes([byte])
        else:
            self.dead()

    def value_end(self, byte):
        if byte == 10:
            self.field()
        else:
            self.dead()

    def field(self):
        self.fields.append((self.name.lower(), self.value.strip(b" \t")))
        self.go(len(self.fields) <= MAX_FIELDS, self.line_start)


def is_utf8(data):
    try:
        data.decode("utf-8")
        return True
    except UnicodeDecodeError:
        return False


def head_of(data):
    """The head, and how many bytes it took, or how many showed that there is none."""
    head = Head()
    for count, byte in enumerate(data[:HEAD_LIMIT]):
        head.feed(byte)
        if head.state != "open":
            return head, count + 1
    return head, min(len(data), HEAD_LIMIT)


# ---- routes

N = r"([1-9][0-9]{0,8})"
ROUTES = [
    ("POST", r"/staff", "AddStaff"),
    ("GET", rf"/docs/{N}", "SeeDoc"),
    ("GET", rf"/docs/{N}/pages/{N}", "SeePage"),
    ("GET", rf"/docs/{N}/pages/{N}/words", "SeeWords"),
    ("POST", rf"/docs/{N}/call", "SetCall"),
    ("POST", rf"/docs/{N}/box", "PutBox"),
    ("POST", rf"/docs/{N}/unbox", "DropBox"),
    ("POST", rf"/docs/{N}/hold", "HoldField"),
    ("POST", rf"/docs/{N}/free", "FreeField"),
    ("POST", rf"/docs/{N}/entry", "PutEntry"),
    ("POST", rf"/docs/{N}/confirm", "Confirm"),
    ("POST", rf"/docs/{N}/back", "SendBack"),
    ("POST", r"/productions", "Freeze"),
    ("GET", r"/productions/([^/?]+)", "GetProduction"),
    ("GET", rf"/states/{N}", "SeeStates"),
    ("GET", rf"/docs/{N}/values", "SeeValues"),
    ("GET", r"/staff", "SeeStaff"),
    ("GET", r"/productions", "SeeProductions"),
    ("POST", r"/find", "Find"),
    ("POST", r"/plan", "Plan"),
]


def route_of(head):
    method, target = head.method.decode("latin-1"), head.target.decode("utf-8")
    for way, pattern, name in ROUTES:
        found = re.fullmatch(pattern, target, re.S)
        if method == way and found:
            return way, name, found.groups()
    return None


# ---- JSON (RFC 8259), read to its end, at most 127 deep


class Refused(Exception):
    pass


class Json:
    def __init__(self, text):
        self.text, self.at, self.depth = text, 0, 0

    def whole(self):
        value = self.value()
        self.space()
        if self.at != len(self.text):
            raise Refused
        return value

    def peek(self):
        return self.text[self.at] if self.at < len(self.text) else ""

    def take(self, piece):
        if not self.text.startswith(piece, self.at):
            raise Refused
        self.at += len(piece)

    def space(self):
        while self.peek() and self.peek() in " \t\r\n":
            self.at += 1

    def value(self):
        self.space()
        first = self.peek()
        if first == "{":
            return self.within("}", self.member)
        if first == "[":
            return self.within("]", self.value)
        if first == '"':
            return ("text", self.string())
        for word in ("true", "false", "null"):
            if first == word[0]:
                self.take(word)
                return ("word", word)
        return self.number()

    def within(self, close, part):
        opening = self.peek()
        self.depth += 1
        if self.depth > DEPTH:
            raise Refused
        self.at += 1
        parts = []
        self.space()
        if self.peek() == close:
            self.at += 1
        else:
            while True:
                parts.append(part())
                self.space()
                if self.peek() == close:
                    self.at += 1
                    break
                self.take(",")
        self.depth -= 1
        # of several members with one name the last counts
        return ("object", dict(parts)) if opening == "{" else ("list", parts)

    def member(self):
        self.space()
        if self.peek() != '"':
            raise Refused
        name = self.string()
        self.space()
        self.take(":")
        return (name, self.value())

    def string(self):
        self.take('"')
        out = ""
        while True:
            c = self.peek()
            if c == "" or c < " ":
                raise Refused
            self.at += 1
            if c == '"':
                return out
            out += self.escape() if c == "\\" else c

    def escape(self):
        c = self.peek()
        self.at += 1
        if c == "u":
            unit = self.unit()
            if 0xD800 <= unit < 0xDC00:
                self.take("\\u")
                low = self.unit()
                if not 0xDC00 <= low < 0xE000:
                    raise Refused
                return chr(0x10000 + ((unit - 0xD800) << 10) + (low - 0xDC00))
            if 0xDC00 <= unit < 0xE000:
                raise Refused
            return chr(unit)
        plain = {'"': '"', "\\": "\\", "/": "/", "b": "\b", "f": "\f", "n": "\n", "r": "\r", "t": "\t"}
        if c not in plain or c == "":
            raise Refused
        return plain[c]

    def unit(self):
        digits = self.text[self.at : self.at + 4]
        if not re.fullmatch(r"[0-9a-fA-F]{4}", digits):
            raise Refused
        self.at += 4
        return int(digits, 16)

    def number(self):
        found = re.compile(r"-?(0|[1-9][0-9]*)(\.[0-9]+)?([eE][+-]?[0-9]+)?").match(self.text, self.at)
        if not found or found.group() == "":
            raise Refused
        self.at = found.end()
        # one that no double holds is refused
        if abs(float(found.group())) == float("inf"):
            raise Refused
        return ("number", found.group())


def object_of(body):
    if not is_utf8(body):
        raise Refused
    kind, value = Json(body.decode("utf-8")).whole()
    if kind != "object":
        raise Refused
    return value


# ---- members

ROLES = ["Reviewer", "Second", "Lead", "Clerk", "Receiver"]
BASES = ["AC", "WP", "PI", "TS"]
TREATMENTS = ["Produce", "Redact"] + ["Withhold-" + basis for basis in BASES]


def member(body, name, kind):
    if name not in body or body[name][0] != kind:
        raise Refused
    return body[name][1]


def text(body, name):
    return member(body, name, "text")


def among(body, name, words):
    if text(body, name) not in words:
        raise Refused
    return text(body, name)


def number(body, name, most=4294967295):
    digits = member(body, name, "number")
    if not re.fullmatch(r"[0-9]+", digits) or int(digits) > most:
        raise Refused
    return str(int(digits))


def flag(body, name):
    value = member(body, name, "word")
    if value == "null":
        raise Refused
    return "yes" if value == "true" else "no"


def texts(body, name):
    out = []
    for kind, value in member(body, name, "list"):
        if kind != "text":
            raise Refused
        out.append(value)
    return out


def digest(body):
    if not re.fullmatch(r"[0-9a-f]{64}", text(body, "digest")):
        raise Refused
    return text(body, "digest")


def call_of(name, parts, body):
    """The words of a call, each a text but for the digits."""
    if name == "AddStaff":
        return [said(text(body, "name")), among(body, "role", ROLES), digest(body)]
    if name == "SetCall":
        return [parts[0], flag(body, "responsive"), among(body, "treatment", TREATMENTS), said(text(body, "designation"))]
    if name == "PutBox":
        n = {key: number(body, key) for key in ("num", "page", "left", "top", "width", "height")}
        return [parts[0], *n.values(), among(body, "basis", BASES)]
    if name == "DropBox":
        return [parts[0], number(body, "num")]
    if name == "HoldField":
        return [parts[0], said(text(body, "field")), among(body, "basis", BASES)]
    if name == "FreeField":
        return [parts[0], said(text(body, "field"))]
    if name == "PutEntry":
        return [parts[0]] + [said(text(body, key)) for key in ("date", "author", "recipients", "description")]
    if name in ("Freeze", "Plan"):
        words = [said(text(body, key)) for key in ("id", "volume", "prefix")]
        words += [number(body, "width", 255), number(body, "from"), number(body, "to")]
        return words + [said(item) for item in texts(body, "fields")]
    if name == "Find":
        return [said(term) for term in texts(body, "terms")] + [number(body, "from"), number(body, "page")]
    if name == "GetProduction":
        return [said(parts[0])]
    return list(parts)


def said(characters):
    """A text as a line says it."""
    out = ""
    for c in characters:
        if c == " ":
            out += "_"
        elif c in "_%" or ord(c) < 0x20 or ord(c) == 0x7F:
            out += "%%%02x" % ord(c)
        else:
            out += c
    return out or "-"


# ---- a request


def decided(data):
    """What the head decides: a refusal, or the call's route, its key and the length of its body."""
    head, count = head_of(data)
    if head.state != "done":
        return "HeadRefused", head, count, 0
    route = route_of(head)
    if route is None:
        return "NoRoute", head, count, 0
    keys = [value for name, value in head.fields if name == b"desk-key"]
    if len(keys) != 1:
        return "KeyMissing", head, count, 0
    key = hashlib.sha256(keys[0]).hexdigest()[:8]
    if route[0] == "GET":
        return (key, route), head, count, 0
    lengths = [value for name, value in head.fields if name == b"content-length"]
    if any(name == b"transfer-encoding" for name, _ in head.fields):
        return "BodyRefused", head, count, 0
    if len(lengths) != 1 or not re.fullmatch(rb"[0-9]{1,9}", lengths[0]):
        return "BodyRefused", head, count, 0
    if int(lengths[0]) > MAX_BODY:
        return "BodyLimit", head, count, 0
    return (key, route), head, count, int(lengths[0])


def read(data):
    due, _, count, length = decided(data)
    if isinstance(due, str):
        return due
    key, (way, name, parts) = due
    body = data[count : count + length]
    try:
        if len(body) < length:
            raise Refused
        words = call_of(name, parts, {} if way == "GET" else object_of(body))
    except Refused:
        return "BodyRefused"
    return " ".join([key, name] + words)


def enough(data):
    due, head, count, length = decided(data)
    if head.state == "done":
        return len(data) >= count + length
    return head.state == "dead" or len(data) >= HEAD_LIMIT


def lengths(data):
    """The first bytes that tell a length, that length, and the first that are enough."""
    _, head, count, length = decided(data)
    if head.state == "open" and len(data) < HEAD_LIMIT:
        return "none tells, none is enough"
    whole = count + length if head.state == "done" else count
    if len(data) < whole:
        return f"{count} tell {whole}, none is enough"
    return f"{count} tell {whole}, {whole} are enough"


# ---- replies to looks


class Unread(Exception):
    pass


class Words:
    """The words of a line, read one after another."""

    def __init__(self, words):
        self.words = words[::-1]

    def word(self):
        if not self.words:
            raise Unread
        return self.words.pop()

    def number(self, most=4294967295):
        word = self.word()
        if not re.fullmatch(r"[0-9]+", word) or int(word) > most:
            raise Unread
        return int(word)

    def among(self, named):
        word = self.word()
        if word not in named:
            raise Unread
        return named[word]

    def text(self):
        word = self.word().encode("utf-8").replace(b"_", b" ")
        data = re.sub(rb"%([0-9a-f]{2})", lambda found: bytes([int(found[1], 16)]), b"" if word == b"-" else word)
        if not is_utf8(data):
            raise Unread
        return data.decode("utf-8")

    def several(self, part):
        # the program that reads the line takes a hundred at most
        return [part(self) for _ in range(min(self.number(), 100))]


YES = {"yes": True, "no": False}
TREATMENT_WORDS = {"produce": "Produce", "redact": "Redact"} | {basis: "Withhold-" + basis for basis in BASES}
ROLE_WORDS = {role.lower(): role for role in ROLES}
GROUNDS = {basis: basis for basis in BASES} | {"-": None}


def state_row(words):
    row = {key: words.number() for key in ("doc", "parent", "pages", "editor", "confirmer")}
    if row["editor"] == 0:
        row["confirmer"] = 0
    row |= {"responsive": words.among(YES), "treatment": words.among(TREATMENT_WORDS), "designation": words.text()}
    row |= {"boxes": words.number(), "held": words.number(), "entry": words.among(YES)}
    return row | {"production": words.text() or None}


def value_row(words):
    return {"field": words.number(), "name": words.text(), "value": words.text(), "held": words.among(GROUNDS)}


def person_row(words):
    return {"staff": words.number(), "name": words.text(), "role": words.among(ROLE_WORDS)}


def production_row(words):
    row = {key: words.text() for key in ("id", "volume", "prefix")} | {"width": words.number(255)}
    row |= {key: words.number(2**64 - 1) for key in ("first", "last")}
    return row | {key: words.number() for key in ("items", "from", "to")}


def hit_row(words):
    return {key: words.number() for key in ("doc", "page", "field", "place", "count")}


def found(words):
    following = {key: words.number() for key in ("next", "next_page")}
    return following | {"hits": words.several(hit_row)}


REPLIES = {
    "states": lambda words: words.several(state_row), "values": lambda words: words.several(value_row),
    "people": lambda words: words.several(person_row), "productions": lambda words: words.several(production_row), "found": found,
}


def compact(value):
    """Compact JSON, its members in byte order of their names."""
    return json.dumps(value, ensure_ascii=False, separators=(",", ":"), sort_keys=True).encode("utf-8")


def replied(asked):
    """What is told of a line with the reply to a look; nothing of a line with another."""
    kind, *rest = asked.split(" ")
    if kind not in REPLIES:
        return None
    words = Words(rest)
    try:
        value = REPLIES[kind](words)
        if words.words:
            raise Unread
    except Unread:
        return "not read"
    body = compact(value)
    head = f"HTTP/1.1 200 OK\r\nContent-Type: application/json\r\nContent-Length: {len(body)}\r\nConnection: close\r\n\r\n"
    return escaped(head.encode() + body)


# ---- lines


def bytes_in(line):
    out, at = b"", 0
    plain = {"r": b"\r", "n": b"\n", "t": b"\t", "\\": b"\\"}
    while at < len(line):
        c = line[at]
        if c != "\\":
            out += c.encode("utf-8")
            at += 1
        elif line[at + 1] == "x":
            out += bytes([int(line[at + 2 : at + 4], 16)])
            at += 4
        elif line[at + 1] == "(":
            end = line.index(")", at)
            count, piece = line[at + 2 : end].split(" ", 1)
            out += int(count) * piece.encode("utf-8")
            at = end + 1
        else:
            out += plain[line[at + 1]]
            at += 2
    return out


def escaped(data):
    plain = {13: "\\r", 10: "\\n", 92: "\\\\"}
    return "".join(plain.get(b) or (chr(b) if 32 <= b <= 126 else "\\x%02x" % b) for b in data)


def told(asked):
    verb, _, rest = asked.partition(" ")
    if verb == "read":
        return read(bytes_in(rest))
    if verb == "from":
        return lengths(bytes_in(rest))
    if verb == "enough":
        return "yes" if enough(bytes_in(rest)) else "no"
    if verb == "reply":
        return replied(rest)
    return None


def check(files):
    lines = others = 0
    for file in files:
        for number, line in enumerate(open(file, encoding="utf-8").read().split("\n"), 1):
            asked, _, wanted = line.partition(" = ")
            due = told(asked) if asked and not asked.startswith("#") else None
            if due is None:
                continue
            lines += 1
            if due != wanted:
                others += 1
                print(f"{file}:{number}: the model tells {due}")
    print(f"{lines} lines of requests and replies, {others} of them otherwise in the model")


# ---- requests made at random


def usual(draw):
    """A request that is read."""
    way, pattern, name = draw.choice(ROUTES)
    target = pattern
    while N in target:
        target = target.replace(N, str(draw.choice([1, 9, 10, 12345, 999999999])), 1)
    target = target.replace("([^/?]+)", draw.choice(["R", "R-1", "a%2Fb", "caf\u00e9", "*", "#"]))
    body = "" if way == "GET" else object_text(draw, name)
    fields = [("Host", "h"), (draw.choice(["Desk-Key", "desk-key", "DESK-KEY"]), draw.choice(["abc", "abd", "", "a b"]))]
    if way == "POST":
        fields.append((draw.choice(["Content-Length", "content-length"]), str(len(body.encode("utf-8")))))
    for _ in range(draw.choice([0, 0, 1, 3])):
        fields.insert(draw.randrange(len(fields) + 1), draw.choice([("Accept", "*/*"), ("X", ""), ("Expect", "100-continue")]))
    end = draw.choice(["\r\n", "\r\n", "\r\n", "\n"])
    head = f"{way} {target} HTTP/1.{draw.choice([1, 1, 1, 0])}{end}"
    for field, value in fields:
        head += f"{field}:{draw.choice([' ', ' ', '', '  '])}{value}{draw.choice(['', '', ' '])}{end}"
    return (head + end + body).encode("utf-8") + draw.choice([b"", b"", b"GET /"])


def value_text(draw, name):
    if name in ("num", "page", "left", "top", "width", "height", "from", "to"):
        return draw.choice(["0", "1", "255", "256", "4294967295", "4294967296", "01", "-0", "1.0", "1e0", '"1"'][: draw.choice([3, 3, 11])])
    if name == "responsive":
        return draw.choice(["true", "false", "null"][: draw.choice([2, 2, 3])])
    if name == "treatment":
        return '"' + draw.choice(TREATMENTS) + '"'
    if name == "basis":
        return '"' + draw.choice(BASES + ["ac"][: draw.choice([0, 1])]) + '"'
    if name == "role":
        return '"' + draw.choice(ROLES) + '"'
    if name == "digest":
        return '"' + "0a" * 31 + draw.choice(["ff", "ff", "FF", "f"]) + '"'
    if name == "fields":
        return draw.choice(["[]", '["A","B"]', '[ "A" , 1 ]', "{}"])
    if name == "terms":
        return terms_text(draw)
    return draw.choice(['""', '"A b"', '"\\u00e9\\n"', '"\\ud83d\\ude00"', '"\\ud83d"', '"caf\u00e9"', "1"][: draw.choice([4, 4, 7])])


def terms_text(draw):
    terms = [draw.choice(['"ask"', '"Counsel*"', '"###-####"', '"*"', '""', '"a b"', '"\\u0000_%"', '"caf\u00e9"', '"' + "x" * 201 + '"'])
             for _ in range(draw.choice([0, 1, 1, 2, 3, 8, 9]))]
    if draw.random() < 0.15:
        terms.append(draw.choice(["1", "null", "[]", '["ask"]', "{}"]))
    return draw.choice(["[" + ",".join(terms) + "]"] * 8 + ["[ " + " , ".join(terms) + " ]", '"ask"', "null", "{}"])


MEMBERS = {
    "AddStaff": ["name", "role", "digest"],
    "SetCall": ["responsive", "treatment", "designation"],
    "PutBox": ["num", "page", "left", "top", "width", "height", "basis"],
    "DropBox": ["num"],
    "HoldField": ["field", "basis"],
    "FreeField": ["field"],
    "PutEntry": ["date", "author", "recipients", "description"],
    "Freeze": ["id", "volume", "prefix", "width", "from", "to", "fields"],
    "Plan": ["id", "volume", "prefix", "width", "from", "to", "fields"],
    "Find": ["terms", "from", "page"],
}


def object_text(draw, name):
    members = [(key, value_text(draw, key)) for key in MEMBERS.get(name, [])]
    for _ in range(draw.choice([0, 0, 1])):
        members.insert(draw.randrange(len(members) + 1), draw.choice([("x", "[1e5,{\"y\":[]}]"), ("x", "1e999"), ("num", "\"x\"")]))
    if draw.random() < 0.1 and members:
        members.pop(draw.randrange(len(members)))
    draw.shuffle(members)
    space = draw.choice(["", "", " ", "\n"])
    return "{" + ("," + space).join(f'"{key}":{space}{value}' for key, value in members) + "}"


def damaged(draw, data):
    """The same with a few bytes changed, dropped, doubled or cut off."""
    for _ in range(draw.choice([1, 1, 2, 4])):
        at = draw.randrange(len(data) + 1)
        kind = draw.randrange(5)
        if kind == 0:
            data = data[:at] + bytes([draw.choice(b"\r\n :/{}\"\\,0aZ?\x00\x7f\xff")]) + data[at + 1 :]
        elif kind == 1:
            data = data[:at] + data[at + draw.choice([1, 2, 9]) :]
        elif kind == 2:
            data = data[:at] + data[max(0, at - draw.choice([1, 8, 30])) :]
        elif kind == 3:
            data = data[:at]
        else:
            data = data[:at] + bytes([draw.randrange(256)]) + data[at:]
    return data


# ---- replies made at random

TEXTS = ["-", "A", "A_b", "Say_%22x%22\\y", "caf\u00e9", "\U0001f600", "%5f%25", "%00%08%0c%1f%7f", "%0a%0d%09", "</x>", "\u2028", "_"]


def number_word(draw, most=4294967295):
    return str(draw.choice([0, 1, 2, 9, 10, 256, draw.randrange(most + 1), most]))


def row_words(draw, kind):
    numbers, text, yes = lambda count: [number_word(draw) for _ in range(count)], lambda: draw.choice(TEXTS), lambda: draw.choice(list(YES))
    if kind == "states":
        named = [yes(), draw.choice(list(TREATMENT_WORDS)), text()]
        return [*numbers(5), *named, *numbers(2), yes(), text()]
    if kind == "values":
        return [*numbers(1), text(), text(), draw.choice(list(GROUNDS))]
    if kind == "people":
        return [*numbers(1), text(), draw.choice(list(ROLE_WORDS))]
    if kind == "productions":
        spans = [number_word(draw, 2**64 - 1) for _ in range(2)]
        return [text(), text(), text(), number_word(draw, 255), *spans, *numbers(3)]
    return numbers(5)


def reply_line(draw):
    """The reply to a look as a line gives it; some with a word that is lost, doubled or another."""
    kind = draw.choice(list(REPLIES))
    count = draw.choice([0, 1, 1, 2, 5, 100])
    words = [number_word(draw), number_word(draw)] if kind == "found" else []
    words.append(str(count))
    for _ in range(count):
        words += row_words(draw, kind)
    if draw.random() < 0.3:
        at = draw.randrange(len(words))
        words[at : at + 1] = draw.choice([[], [words[at]] * 2, [draw.choice(["x", "-", "-1", "4294967296", "2", "yes", "AC", "", "lead"])]])
    return " ".join(["reply", kind, *words])


def make(count, seed):
    draw = random.Random(seed)
    for _ in range(count):
        if draw.random() < 0.1:
            line = reply_line(draw)
            print(f"{line} = {told(line)}")
            continue
        data = usual(draw)
        if draw.random() < 0.6:
            data = damaged(draw, data)
        verb = draw.choice(["read", "read", "read", "from"])
        line = escaped(data)
        if " = " in line:
            continue
        print(f"{verb} {line} = {told(verb + ' ' + line)}")


if __name__ == "__main__":
    if sys.argv[1] == "check":
        check(sys.argv[2:])
    else:
        make(int(sys.argv[2]), int(sys.argv[3]))
