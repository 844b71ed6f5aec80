"""Days at the built program: command lines over a folder, a matter and an empty or old folder `out`, each of them compared
with the model by its status, its line, the files below `out` and the kept rows; raw requests at its desks, compared by the
bytes of each reply."""
import hashlib
import json
import os
import re
import shutil
import socket
import sqlite3
import subprocess
import sys
import time

sys.path.insert(0, os.path.join(os.path.dirname(os.path.abspath(__file__)), "..", "tools", "tests"))
import check_model
import fuzz_batch as batches
import fuzz_loads as loads
import fuzz_matter as matters
import fuzz_pages as pages
import page_sums
import web_model
from fuzz_tools import Rule

LIMIT = int(os.environ.get("FUZZ_SECONDS", "60"))
TABLE = ("CREATE TABLE IF NOT EXISTS kept (kind INTEGER NOT NULL CHECK (kind BETWEEN 0 AND 255), "
         "k1 INTEGER NOT NULL CHECK (k1 BETWEEN 0 AND 4294967295), k2 INTEGER NOT NULL CHECK (k2 BETWEEN 0 AND 4294967295), "
         "body BLOB NOT NULL, PRIMARY KEY (kind, k1, k2)) STRICT")
KEYS = [f"key {k}" for k in range(8)]
DIGESTS = [hashlib.sha256(key.encode()).digest() for key in KEYS]


class Different(Exception):
    """The program does otherwise than the model."""


# ---- kept rows


def kept_rows(folder):
    database = sqlite3.connect(os.path.join(folder, "matter.db"))
    try:
        if not database.execute("SELECT count(*) FROM sqlite_master WHERE name = 'kept'").fetchone()[0]:
            return {}
        return {(kind, k1, k2): bytes(body) for kind, k1, k2, body in database.execute("SELECT kind, k1, k2, body FROM kept")}
    finally:
        database.close()


def write_rows(folder, rows, has_sums=True):
    """A new matter.db with these rows; with sums as the program makes one, or without, as it was made before."""
    path = os.path.join(folder, "matter.db")
    for ending in ("", "-wal", "-shm"):
        if os.path.exists(path + ending):
            os.remove(path + ending)
    if has_sums:
        page_sums.blank(path)
    database = sqlite3.connect(path)
    database.execute("PRAGMA synchronous = OFF")
    database.execute(TABLE)
    database.executemany("INSERT INTO kept VALUES (?, ?, ?, ?)", [(*key, body) for key, body in rows.items()])
    database.commit()
    database.close()
    page_sums.seal(path)


# ---- the program


def run(program, words, folder):
    """Status and what is printed."""
    try:
        done = subprocess.run([program, *words], cwd=folder, capture_output=True, timeout=LIMIT)
    except subprocess.TimeoutExpired:
        raise Different(f"{words[:1]} took more than {LIMIT} seconds") from None
    return done.returncode, done.stdout


def files_below(folder):
    found = {}
    for at, _, names in os.walk(folder):
        for name in names:
            with open(os.path.join(at, name), "rb") as file:
                found[os.path.relpath(os.path.join(at, name), folder)] = file.read()
    return found


# ---- command lines

SMALL = re.compile("0|[1-9][0-9]{0,8}")


def is_command_line(words):
    if not words or any(word == "" or word.startswith("-") for word in words):
        return False
    name, rest = words[0], words[1:]

    def numbers(*places):
        return all(SMALL.fullmatch(rest[k]) for k in places)

    if name == "burn":
        return len(rest) == 7 and numbers(1, 2, 3, 4) and rest[6] in ("plain", "g4")
    if name == "init":
        return len(rest) == 1 and re.fullmatch("[0-9a-f]{64}", rest[0]) is not None
    if name == "serve":
        return len(rest) == 2 and numbers(0, 1) and 1 <= int(rest[0]) <= 16 and 1 <= int(rest[1]) <= 1000000
    if name == "produce":
        return len(rest) >= 6 and numbers(3, 4, 5) and int(rest[3]) <= 255
    if name == "check":
        return len(rest) in (2, 3)
    return name in ("import", "press", "log") and len(rest) == 1


class Day:
    """The model of a folder with a matter: what the next command line prints, and what then stands there."""

    def __init__(self, folder):
        self.folder, self.rows, self.out = folder, {}, {}
        # as it was before, for the case that is told
        self.done = []

    def matter(self):
        return matters.load(self.rows)

    def carry_out(self, words):
        """Status and line; the rows and the files below `out` are then those after it."""
        if not is_command_line(words):
            return 1, "words refused\n"
        try:
            return 0, self.commands()[words[0]](*words[1:])
        except Rule as rule:
            return 2, rule.told() + "\n"
        except batches.Fault:
            return 3, "source fault\n"

    def commands(self):
        return {"burn": self.burn, "init": self.init, "import": self.import_, "produce": self.produce, "press": self.press,
                "log": self.log, "check": self.check}

    def burn(self, source, left, top, width, height, out, form):
        source, out = loads.path_of(source), loads.path_of(out)
        read, _ = batches.read_below(self.folder)
        page = pages.read_tiff(read(source, 0))
        if not pages.can_come_in(page.width, page.height):
            raise Rule(62, page.width, page.height)
        left, top, width, height = (int(n) for n in (left, top, width, height))
        if width == 0 or height == 0:
            raise Rule(14)
        if left + width > page.width or top + height > page.height:
            raise Rule(13)
        data = pages.tiff_of(pages.burned(page, [(left, top, width, height)]), form)
        self.out[out] = data
        return f"burned {len(data)}\n"

    def init(self, digest):
        if self.rows:
            raise Rule(42)
        self.rows = matters.rows_of(matters.begun(bytes.fromhex(digest)))
        return "matter made\n"

    def keep(self, matter):
        self.rows = matters.rows_of(matter)

    def import_(self, name):
        matter = self.matter()
        documents, count = matters.batch_in(matter, batches.read_batch(self.folder, name))
        self.keep(matter)
        return f"batch {name} documents {documents} pages {count}\n"

    def produce(self, id_, volume, prefix, width, first, last, *fields):
        matter = self.matter()
        asked = {"id": id_, "volume": volume, "prefix": prefix, "width": int(width), "from": int(first), "to": int(last),
                 "fields": list(fields)}
        made = matters.freeze(matter, asked)
        self.keep(matter)
        return self.pressed(matter, made)

    def press(self, id_):
        matter = self.matter()
        return self.pressed(matter, matters.production(matter, id_))

    def log(self, id_):
        return matters.log_of(matters.production(self.matter(), id_)).decode("utf-8")

    def check(self, *paths):
        return "checked " + check_model.check(batches.read_below(self.folder)[0], *paths) + "\n"

    def pressed(self, matter, made):
        files = volume_of(matter, made)
        self.out.update(files)
        manifest = hashlib.sha256(list(files.values())[-1]).hexdigest()
        first, last = (label_of(made, made["items"][k][end]) for k, end in ((0, "first"), (-1, "last")))
        return f"production {made['id']} labels {first} to {last} files {len(files)} manifest {manifest}\n"


# ---- the volume


def label_of(made, number):
    return loads.label(made["prefix"], made["width"], number)


def volume_of(matter, made):
    volume, files, opt, count = made["volume"], {}, [], 0
    table = [[*matters.COLUMNS, *made["fields"]]]
    for item in made["items"]:
        withheld = item["treatment"] if item["treatment"] in matters.PRIVILEGED else ""
        text = f"DOCUMENT WITHHELD - {withheld}\r\n\f" if withheld else ""
        for k, number in enumerate(range(item["first"], item["last"] + 1)):
            label, folder = label_of(made, number), f"{count // 1000 + 1:04}"
            if k == 0:
                text_path = f"{volume}/TEXT/{folder}/{label}.TXT"
            path = f"{volume}/IMAGES/{folder}/{label}.TIF"
            if withheld:
                page = slip_of(withheld, label, item["designation"])
            else:
                stamps = [box[1:] for box in item["boxes"].values() if box[0] == k + 1]
                boxes = [stamp[:4] for stamp in stamps]
                scan = pages.covered(matter.pages[item["doc"], k + 1], stamps, made["ink"].lower())
                page = pages.banded(scan, label, item["designation"])
                text += loads.page_text(loads.kept(matter.words[item["doc"], k + 1], boxes))
            files[path] = pages.tiff_of(page, "g4")
            opt.append((label, volume, path.replace("/", "\\"), k == 0, False, False,
                        str(item["last"] - item["first"] + 1) if k == 0 else ""))
            count += 1
        files[text_path] = text.encode("utf-8")
        table.append(row_of(matter, made, item, text_path, withheld))
    files[f"{volume}/DATA/{volume}.DAT"] = loads.dat_of(table[0], table[1:])
    files[f"{volume}/DATA/{volume}.OPT"] = loads.opt_of(opt)
    files[f"{volume}/DATA/{volume}-LOG.CSV"] = matters.log_of(made)
    manifest = "".join(f"{hashlib.sha256(data).hexdigest()}  {path}\n" for path, data in files.items())
    files[f"{volume}/MANIFEST.TXT"] = manifest.encode("utf-8")
    return files


def slip_of(basis, label, designation, made={}):
    """The same sheet is made once."""
    if (basis, label, designation) not in made:
        if len(made) > 2000:
            made.clear()
        made[basis, label, designation] = pages.slip(basis, label, designation)
    return made[basis, label, designation]


def row_of(matter, made, item, text_path, withheld):
    family = [other for other in made["items"] if other["parent"] == item["parent"]]
    row = [label_of(made, number) for number in (item["first"], item["last"], family[0]["first"], family[-1]["last"])]
    row += [str(item["last"] - item["first"] + 1), item["designation"], withheld, text_path.replace("/", "\\")]
    values = matter.docs[item["doc"] - 1]["values"]
    for name in made["fields"]:
        field = matter.fields.index(name) + 1
        value = values[field - 1] if field <= len(values) else ""
        if field in item["held"]:
            value = "WITHHELD - " + item["held"][field]
        row.append("" if withheld else value)
    return row


# ---- requests at a desk

PHRASES = {200: "OK", 400: "Bad Request", 401: "Unauthorized", 403: "Forbidden", 404: "Not Found", 409: "Conflict",
           413: "Payload Too Large", 503: "Service Unavailable"}
REFUSED = {"HeadRefused": (400, 101), "BodyRefused": (400, 102), "BodyLimit": (413, 103), "KeyMissing": (401, 104),
           "NoRoute": (404, 105)}


def reply(status, body, kind="application/json"):
    head = f"HTTP/1.1 {status} {PHRASES[status]}\r\nContent-Type: {kind}\r\nContent-Length: {len(body)}\r\nConnection: close\r\n\r\n"
    return head.encode("ascii") + body


def as_json(value):
    return json.dumps(value, ensure_ascii=False, separators=(",", ":"), sort_keys=True).encode("utf-8")


def refusal(status, number, name, line=0, a=0, b=0):
    return reply(status, as_json({"a": a, "b": b, "line": line, "name": name, "rule": number}))


def answered(matter, data):
    """The reply to a request, and whether it made a call."""
    due, _, count, length = web_model.decided(data)
    if isinstance(due, str):
        status, number = REFUSED[due]
        return refusal(status, number, due), False
    _, (way, name, parts) = due
    body = data[count : count + length]
    try:
        if len(body) < length:
            raise web_model.Refused
        found = {} if way == "GET" else web_model.object_of(body)
        web_model.call_of(name, parts, found)
    except web_model.Refused:
        return refusal(400, 102, "BodyRefused"), False
    keys = [value for field, value in web_model.head_of(data)[0].fields if field == b"desk-key"]
    try:
        told = matters.step(matter, hashlib.sha256(keys[0]).digest(), name, members(name, parts, found))
    except Rule as rule:
        status = {9: 401, 12: 403, 10: 404, 11: 404, 33: 404, 38: 404}.get(rule.number, 409)
        return refusal(status, rule.number, matters_name(rule), rule.line, rule.a, rule.b), True
    if isinstance(told, pages.Page):
        return reply(200, pages.tiff_of(told, "g4"), "image/tiff"), True
    return reply(200, as_json(told)), True


def matters_name(rule):
    return rule.told().split(" ")[2]


def members(name, parts, body):
    """The parts of a call by their names."""
    call = {}
    for key, (kind, value) in body.items():
        if kind == "text":
            call[key] = bytes.fromhex(value) if key == "digest" and name == "AddStaff" else value
        elif kind == "number":
            call[key] = int(value) if value.isdigit() else None
        elif kind == "word":
            call[key] = value == "true"
        elif kind == "list":
            call[key] = [item[1] for item in value]
    numbers = {"GetProduction": ("id",), "SeeStates": ("from",)}.get(name, ("doc", "page"))
    return call | {key: part if name == "GetProduction" else int(part) for key, part in zip(numbers, parts)}


def ask(port, data, started):
    """What a desk replies to these bytes."""
    while True:
        try:
            peer = socket.create_connection(("127.0.0.1", port), timeout=LIMIT)
            break
        except ConnectionRefusedError:
            if time.monotonic() - started > LIMIT:
                raise Different("no desk is opened") from None
            time.sleep(0.002)
    with peer:
        try:
            peer.sendall(data)
            peer.shutdown(socket.SHUT_WR)
        except OSError:
            pass
        out = b""
        try:
            while piece := peer.recv(65536):
                out += piece
        except TimeoutError:
            raise Different("a desk doesn't reply") from None
        except ConnectionResetError:
            pass
    return out


def serve(day, program, desks, requests):
    """The requests at the desks in turn; each reply is compared."""
    process = subprocess.Popen([program, "serve", str(desks), str(len(requests) // desks)], cwd=day.folder,
                               stdout=subprocess.PIPE, stderr=subprocess.PIPE)
    started, made, matter = time.monotonic(), 0, None
    try:
        try:
            matter = day.matter()
        except Rule as rule:
            told = process.communicate(timeout=LIMIT)[0]
            same((2, rule.told() + "\n"), (process.returncode, told.decode()), "serve")
            return
        for k, data in enumerate(requests):
            due, is_call = answered(matter, data)
            made += is_call
            got = ask(48201 + k % desks, data, started)
            if got != due:
                day.done.append(("request", data))
                raise Different(f"request {data!r}: the desk replies {got!r}, and due is {due!r}")
        told = process.communicate(timeout=LIMIT)[0]
        same((0, f"served {made}\n"), (process.returncode, told.decode()), "serve")
        day.keep(matter)
    except subprocess.TimeoutExpired:
        raise Different("serve doesn't end") from None
    finally:
        if process.poll() is None:
            process.kill()
            process.wait()


def same(due, got, what):
    if due != got:
        raise Different(f"{what}: the program gives {got!r}, and due is {due!r}")


# ---- random days


def some_call(draw, matter):
    """A request that is read, most often one that makes sense."""
    docs = len(matter.docs)
    doc = draw.randrange(1, docs + 1) if docs and draw.random() < 0.95 else draw.choice((1, docs + 1, 999999999))
    count = matter.page_count(doc) if 1 <= doc <= docs else 1
    page = draw.randrange(1, count + 1) if draw.random() < 0.95 else count + 1
    image = matter.pages.get((doc, page), pages.Page(8, 1, [[]]))
    field = draw.choice([*matter.fields, *matter.fields, "NOTE", "x"])
    texts = ["", "Ng", "Ortiz, Berg", 'say "x"', "caf\u00e9", "\u4e2d", "x" * 200, "A B"]
    if draw.random() < 0.06:
        texts = ["x" * 201, "a\tb", "\u00fe", "\x7f", "\u00e9" * 101, "\U0001f600" * 50, "a\nb"]
    name = draw.choice(("SetCall", "SetCall", "SetCall", "PutBox", "PutBox", "PutBox", "DropBox", "HoldField", "HoldField", "FreeField",
                        "PutEntry", "PutEntry", "Confirm", "Confirm", "Confirm", "Confirm", "SendBack", "SeeDoc", "SeeDoc", "SeePage",
                        "SeeWords", "AddStaff", "Freeze", "GetProduction", "SeeStates", "SeeValues", "SeeStaff", "SeeProductions",
                        "Find", "Find", "Plan", "Plan"))
    basis = draw.choice(("AC", "WP", "PI", "TS"))
    body, way, target = {}, "POST", f"/docs/{doc}/"
    if name == "SetCall":
        treatment = draw.choice(("Produce", "Produce", "Redact", "Redact", "Redact", "Withhold-AC", "Withhold-WP", "Withhold-PI"))
        designation = draw.choice(("", "", "CONFIDENTIAL", "A.B-C_D 9", "X" * 40, *(("X" * 41, "a", "\u00e9") if draw.random() < 0.1 else ())))
        body = {"responsive": draw.random() < 0.8, "treatment": treatment, "designation": designation}
        target += "call"
    elif name == "PutBox":
        left, top = draw.randrange(image.width), draw.randrange(image.height)
        width, height = draw.randrange(1, image.width - left + 1), draw.randrange(1, image.height - top + 1)
        body = {"num": draw.choice((1, 2, 3, 1000, *((0, 1001) if draw.random() < 0.1 else ()))), "page": page, "left": left, "top": top,
                "width": width, "height": height, "basis": basis}
        if draw.random() < 0.1:
            body[draw.choice(("left", "top", "width", "height"))] = draw.choice((0, 2**32 - 1, image.width, image.height + 1))
        target += "box"
    elif name == "DropBox":
        body, target = {"num": draw.choice((1, 1, 2, 3, 7))}, target + "unbox"
    elif name == "HoldField":
        body, target = {"field": field, "basis": basis}, target + "hold"
    elif name == "FreeField":
        body, target = {"field": field}, target + "free"
    elif name == "PutEntry":
        body = {key: draw.choice(texts) for key in ("date", "author", "recipients", "description")}
        if draw.random() < 0.1:
            body["description"] = draw.choice(("y" * 1000, "y" * 1001))
        target += "entry"
    elif name in ("Confirm", "SendBack"):
        target += "confirm" if name == "Confirm" else "back"
    elif name == "AddStaff":
        k = draw.randrange(len(KEYS))
        roles = ("Second", "Reviewer", "Clerk", "Receiver", "Lead", "Second")
        body = {"name": draw.choice((f"member {k}", f"member {k}", draw.choice(texts))), "role": roles[k % 6], "digest": DIGESTS[k].hex()}
        target = "/staff"
    elif name in ("Freeze", "Plan"):
        body, target = freeze_body(draw, matter), "/productions" if name == "Freeze" else "/plan"
    elif name == "Find":
        body = {"terms": some_terms(draw, matter), "from": draw.choice((doc, doc, 1, 0)), "page": draw.choice((0, 0, page))}
        target = "/find"
    elif name == "GetProduction":
        way, target = "GET", "/productions/" + draw.choice([*(made["id"] for made in matter.productions), "none"])
    else:
        way, target = "GET", {
            "SeeDoc": f"/docs/{doc}", "SeePage": f"/docs/{doc}/pages/{page}", "SeeWords": f"/docs/{doc}/pages/{page}/words",
            "SeeStates": f"/states/{doc}", "SeeValues": f"/docs/{doc}/values", "SeeStaff": "/staff", "SeeProductions": "/productions"}[name]
    key = draw.choice(KEYS[: len(matter.staff) + (draw.random() < 0.1)] if draw.random() < 0.9 else KEYS)
    data = as_json(body) if draw.random() < 0.5 else json.dumps(body).encode()
    head = f"{way} {target} HTTP/1.1\r\nDesk-Key: {key}\r\n"
    if way == "GET":
        return (head + "\r\n").encode("utf-8")
    return (head + f"Content-Length: {len(data)}\r\n\r\n").encode("utf-8") + data


def some_terms(draw, matter):
    """Terms that stand for words in a row of some page or value, most often; or others."""
    rows = [[word[5] for word in words] for words in matter.words.values()]
    rows += [value.split(" ") for doc in matter.docs for value in doc["values"]]
    row = draw.choice([row for row in rows if row] or [["w"]])
    at = draw.randrange(len(row))
    terms = [some_term(draw, word) for word in row[at : at + draw.choice((1, 1, 1, 2, 3, 8))]]
    if draw.random() < 0.15:
        terms = draw.choice(([], [""], ["*"] * 9, ["a\tb"], ["x" * 201], ["\u00e9" * 100], ["*", "*"], ["**"], ["#"], ["\x7f"], ["\x80"]))
    return terms


def some_term(draw, word):
    """What stands for the word or its core, or what hardly doesn't."""
    kind = draw.randrange(9)
    if kind == 0:
        return draw.choice((word.upper(), word.lower(), word.casefold(), word.swapcase()))
    if kind == 1:
        return re.sub("[0-9]", "#", word)
    if kind == 2:
        return word.strip("\"'.,:;()[]<>!?-_ \u00ab\u00bb\u2018\u2019\u201c\u201d")
    at = draw.randrange(len(word) + 1)
    parts = {3: word[:at] + "*", 4: "*" + word[at:], 5: "*" + word[at : at + 3] + "*", 6: word[:at] + "*" + word[at:], 7: word[:at]}
    return parts.get(kind, word)


def freeze_body(draw, matter):
    docs = len(matter.docs)
    if matter.productions and draw.random() < 0.3:
        made = draw.choice(matter.productions)
        asked = {key: made[key] for key in ("id", "volume", "prefix", "width", "from", "to", "fields")}
    else:
        n = len(matter.productions)
        first = draw.randrange(1, docs + 1) if docs else 1
        asked = {"id": f"R-{n}", "volume": f"VOL{n}", "prefix": draw.choice(("AB-", "C_")), "width": draw.choice((4, 4, 4, 8)),
                 "from": draw.choice((1, 1, first)), "to": draw.choice((docs, docs, draw.randrange(first, docs + 1) if docs else 1)),
                 "fields": draw.sample(matter.fields, min(len(matter.fields), draw.choice((0, 1, 2))))}
    if draw.random() < 0.25:
        key = draw.choice(list(asked))
        asked[key] = draw.choice({
            "id": ("", "a b", "x" * 33, "R-9"), "volume": ("vol", "VOL0", "", "X" * 33, "V9"), "prefix": ("AB1", "", "-A", "Q" * 13, "Z"),
            "width": (3, 11, 0, 255, 5), "from": (0, 1, 2, docs + 1), "to": (0, 1, docs + 1, 4294967295),
            "fields": (["NOTE", "NOTE"], ["x"], ["PAGECOUNT"], ["BEGDOC"]),
        }[key])
    return asked


def some_requests(draw, matter, count):
    """Requests: those of some_call, a few damaged ones, and those of web_model."""
    out = []
    for _ in range(count):
        kind = draw.random()
        data = web_model.usual(draw) if kind < 0.1 else some_call(draw, matter)
        if kind > 0.85:
            data = web_model.damaged(draw, data)
        out.append(data)
    return out


def settled_requests(draw, matter):
    """Requests that call most documents, mark some, and confirm them, so that a freeze finds something."""
    out = []

    def ask_for(key, target, body):
        data = as_json(body)
        out.append(f"POST {target} HTTP/1.1\r\nDesk-Key: {key}\r\nContent-Length: {len(data)}\r\n\r\n".encode() + data)

    if len(matter.staff) < 2:
        ask_for(KEYS[0], "/staff", {"name": "member 1", "role": "Reviewer", "digest": DIGESTS[1].hex()})
    for doc in range(1, len(matter.docs) + 1):
        if doc in matter.calls and draw.random() < 0.7:
            continue
        treatment = draw.choice(("Produce", "Produce", "Redact", "Redact", "Withhold-AC", "Withhold-WP"))
        body = {"responsive": draw.random() < 0.9, "treatment": treatment, "designation": draw.choice(("", "CONFIDENTIAL"))}
        ask_for(KEYS[1], f"/docs/{doc}/call", body)
        for number in range(1, draw.choice((2, 3)) if treatment == "Redact" else 1):
            page = draw.randrange(1, matter.page_count(doc) + 1)
            image = matter.pages[doc, page]
            left, top = draw.randrange(image.width), draw.randrange(image.height)
            ask_for(KEYS[1], f"/docs/{doc}/box", {
                "num": number, "page": page, "left": left, "top": top, "width": draw.randrange(1, image.width - left + 1),
                "height": draw.randrange(1, image.height - top + 1), "basis": draw.choice(("AC", "WP", "PI", "TS"))})
        if treatment == "Redact" and matter.fields and draw.random() < 0.5:
            ask_for(KEYS[1], f"/docs/{doc}/hold", {"field": draw.choice(matter.fields), "basis": draw.choice(("AC", "PI"))})
        ask_for(KEYS[1], f"/docs/{doc}/entry", {"date": "2019-03-04", "author": "Ng", "recipients": draw.choice(("Ortiz, Berg", 'a"b')),
                                                "description": draw.choice(("", "Letter", "caf\u00e9"))})
        ask_for(KEYS[0], f"/docs/{doc}/confirm", {})
    return out


def produce_words(draw, matter):
    asked = freeze_body(draw, matter)
    return ["produce", asked["id"], asked["volume"], asked["prefix"], *(str(asked[key]) for key in ("width", "from", "to")),
            *asked["fields"]]


def other_words(draw, words):
    """A command line with something wrong in its words."""
    words = list(words)
    at = draw.randrange(len(words))
    kind = draw.randrange(5)
    if kind == 0:
        words.pop(at)
    elif kind == 1:
        words.insert(at, draw.choice(("x", "", "-h", "--help", "1", "plain")))
    elif kind == 2:
        words[at] = draw.choice(("", "-x", "01", "1000000000", "+1", "0", "G4", "256", "--", "help"))
    elif kind == 3:
        words[at] = words[at].upper()
    else:
        words[at] += draw.choice(("0", " ", "x"))
    return words


class Kept:
    """A case that is told: the commands of the day, and how to have it again."""

    def __init__(self, keep, job, seed, number):
        self.place = os.path.join(keep, f"{job}-{seed}-{number}")

    def write(self, day, why):
        shutil.rmtree(self.place, ignore_errors=True)
        shutil.copytree(day.folder, os.path.join(self.place, "folder"))
        with open(os.path.join(self.place, "why"), "w", encoding="utf-8") as file:
            file.write(f"{why}\n\n" + "\n".join(repr(step) for step in day.done) + "\n")
        return self.place


def compared(day, program, words):
    """Carries out a command line by both, and compares all that may differ."""
    day.done.append(words)
    out = os.path.join(day.folder, "out")
    shutil.rmtree(out, ignore_errors=True)
    day.out = {}
    status, line = day.carry_out(words)
    got = run(program, words, day.folder)
    same((status, line.encode("utf-8")), got, " ".join(words[:3]))
    same(sorted(day.out), sorted(files_below(out)), "files below out")
    for path, data in files_below(out).items():
        if data != day.out[path]:
            raise Different(f"{path} below out has other bytes")
    if words[:1] != ["burn"]:
        same_rows(day)
    return status, line


def same_rows(day):
    rows = kept_rows(day.folder)
    for key in sorted(rows.keys() | day.rows.keys()):
        if rows.get(key) != day.rows.get(key):
            raise Different(f"row {key} is {rows.get(key)!r}, and due is {day.rows.get(key)!r}")
