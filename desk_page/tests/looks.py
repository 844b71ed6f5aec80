#!/usr/bin/env python3
"""The stand-in beside the program: the same calls of the same people over the example batch, whose replies have to be equal byte for
byte, head and body. Most are looks: states and values of each document, people, productions, finds and plans by chance, some of them to
be refused; by each role, by a receiver, by an unknown key and without one. So what the page is tried over where the program isn't there
answers as that does.

    looks.py SCRATCH [PROGRAM [ROUNDS [SEED]]]
"""
import json
import os
import random
import signal
import socket
import subprocess
import sys

from looks_drawn import Calls, Plans, find_body, texts_of_batch
from office import BATCH, FIRST_PORT, HERE, LEAD, digest, free_ports, wait_for
from person import check, finish

ROUNDS, SEED = 25, 7
STAFF = (("Ellis", "Reviewer"), ("Marlow", "Second"), ("Dunn", "Clerk"), ("Rook", "Receiver"), ("Ødegård", "Reviewer"))
DOCUMENTS = 12
TIMEOUT = 60


def key_of(name):
    return f"the key of {name}"


PEOPLE = [LEAD] + [key_of(name) for name, _ in STAFF[:3]]
STRANGERS = [key_of("Rook"), key_of("nobody"), None]


class Pair:
    """A desk of the program and one of the stand-in, over the same batch."""

    def __init__(self, folder, program):
        self.asked, self.differs, self.kinds = 0, [], {}
        os.symlink(BATCH, os.path.join(folder, "CVI_001"))
        for words in (["init", digest(LEAD)], ["import", "CVI_001"]):
            subprocess.run([program, *words], cwd=folder, check=True, stdout=subprocess.DEVNULL)
        other = free_ports(1)[0]
        self.ports = (FIRST_PORT, other)
        self.processes = []
        try:
            self.begin(folder, FIRST_PORT, [program, "serve", "1", "100000"])
            self.begin(folder, other, [sys.executable, os.path.join(HERE, "stand_in.py"), str(other), BATCH, LEAD])
        except BaseException:
            self.close()
            raise

    def begin(self, folder, port, words):
        process = subprocess.Popen(words, cwd=folder, stdout=subprocess.DEVNULL,
                                   preexec_fn=lambda: signal.signal(signal.SIGINT, signal.SIG_DFL))
        self.processes.append(process)
        wait_for(port, process)

    def ask(self, key, method, path, body=None):
        """The reply of the program, as a status and bytes; what the stand-in tells otherwise is kept."""
        told, other = (exchange(port, key, method, path, body) for port in self.ports)
        self.asked += 1
        if told != other:
            self.differs.append((key, method, path, body, told, other))
        head, _, content = told.partition(b"\r\n\r\n")
        status = head.split(b" ")[1].decode()
        name = json.loads(content).get("name", "") if status != "200" else ""
        kind = (method, path.split("/")[1], f"{status} {name}".strip())
        self.kinds[kind] = self.kinds.get(kind, 0) + 1
        return status, content

    def same(self, what, work):
        """A check that all replies are equal while something is done, and that some were asked for."""
        asked, before = self.asked, len(self.differs)
        work()
        check(f"{what}: {self.asked - asked} replies", self.asked > asked and len(self.differs) == before, self.differs[before:][:2])

    def close(self):
        for process in self.processes:
            process.terminate()
            process.wait(TIMEOUT)


def exchange(port, key, method, path, body):
    """All bytes of a reply."""
    sent = b"" if body is None else body if isinstance(body, bytes) else json.dumps(body).encode()
    head = f"{method} {path} HTTP/1.1\r\nHost: desk\r\n" + (f"Desk-Key: {key}\r\n" if key is not None else "")
    head += f"Content-Length: {len(sent)}\r\n" if method == "POST" else ""
    with socket.create_connection(("127.0.0.1", port), timeout=TIMEOUT) as door:
        door.sendall(head.encode() + b"\r\n" + sent)
        told = b""
        while piece := door.recv(1 << 16):
            told += piece
    return told


# ---- what is asked


def look_around(pair, keys):
    """States and values from each document on, and beyond the last; people and productions."""
    for number in (*range(1, DOCUMENTS + 3), 500, 999999999):
        for path in (f"/states/{number}", f"/docs/{number}/values"):
            pair.ask(keys[number % len(keys)], "GET", path)
    for key in keys:
        pair.ask(key, "GET", "/staff")
        pair.ask(key, "GET", "/productions")


def no_routes(pair):
    for path in ("/states", "/states/", "/states/0", "/states/01", "/states/1234567890", "/states/1/2", "/states/x", "/docs/0/values",
                 "/docs/1/values/1", "/staff/", "/staff/1", "/productions/", "/find", "/plan", "/find/1"):
        pair.ask(LEAD, "GET", path)
    for path in ("/states/1", "/docs/1/values", "/find/1", "/plan/1"):
        pair.ask(LEAD, "POST", path, {})


BODIES = [b"", b"{", b"[]", b"null", b'{"terms":["a"],"from":1}', b'{"terms":"a","from":1,"page":0}', b'{"terms":[1],"from":1,"page":0}',
          b'{"terms":["a"],"from":-0,"page":0}', b'{"terms":["a"],"from":1.0,"page":0}', b'{"terms":["a"],"from":1,"page":4294967296}',
          b'{"terms":["a"],"from":1,"page":true}', b'{"terms":["\xff"],"from":1,"page":0}', b'{"terms":["\\ud800"],"from":1,"page":0}',
          b'{"terms":["the"],"from":1,"page":0,"more":[{}]}', b'{"terms":["a"],"terms":["the"],"from":1,"page":0}', b'{"terms":null}',
          b'{"terms":["a","b",null],"from":1,"page":0}', b'{"terms":["a"],"from":"1","page":0}', b'{"x":"\\ud800"}']
REQUEST = dict(id="R-9", volume="VOL009", prefix="XYZ", width=8, fields=[], to=3) | {"from": 1}
SPOILED = [dict(width=256), dict(width=-1), dict(width="8"), dict(fields=None), dict(fields=["AUTHOR", 1]), dict(id=1), dict(to=None),
           dict(volume=[]), {"from": 4294967296}]


def bodies(pair):
    for body in BODIES:
        pair.ask(LEAD, "POST", "/find", body)
        pair.ask(LEAD, "POST", "/plan", body)
    for spoiled in SPOILED:
        pair.ask(LEAD, "POST", "/plan", REQUEST | spoiled)


def strangers(pair):
    """A receiver, an unknown key, none: refused whatever they ask for, but what isn't read or is no route is refused as such."""
    for key in STRANGERS:
        look_around(pair, [key])
        for terms, number, page in ((["the"], 1, 0), ([], 0, 0), (["a\tb"], 99, 99)):
            pair.ask(key, "POST", "/find", {"terms": terms, "from": number, "page": page})
        pair.ask(key, "POST", "/plan", REQUEST)
        pair.ask(key, "POST", "/plan", REQUEST | {"id": "R-1"})
        pair.ask(key, "POST", "/find", b"{")


def finds(pair, draw, texts, count):
    """Finds by chance, and those that go on where they stop."""
    for _ in range(count):
        body = find_body(draw, texts)
        pair.ask(draw.choice(PEOPLE), "POST", "/find", body)


def rounds(pair, draw, count):
    """The same decisions at both, and between them looks and plans; a few plans are frozen."""
    calls, plans = Calls(draw, key_of), Plans(draw)
    for number in range(count):
        for _ in range(12):
            pair.ask(*calls.next())
        for path in ("/states/1", f"/docs/{draw.randint(1, DOCUMENTS)}/values", f"/docs/{draw.randint(1, DOCUMENTS)}"):
            pair.ask(draw.choice(PEOPLE), "GET", path)
        for call in calls.settled():
            pair.ask(*call)
        for _ in range(8):
            body = plans.next(number)
            status, planned = pair.ask(draw.choice(PEOPLE), "POST", "/plan", body)
            pair.ask(draw.choice(PEOPLE), "POST", "/plan", body)  # a second one gives the same
            if status == "200" and plans.is_due(body):
                frozen = pair.ask(draw.choice((LEAD, key_of("Dunn"))), "POST", "/productions", body)
                if frozen != (status, planned):
                    check("a freeze answers what was planned", False, (planned, frozen))
                pair.ask(LEAD, "GET", "/productions")


def staff(pair):
    for name, role in STAFF:
        pair.ask(LEAD, "POST", "/staff", dict(name=name, role=role, digest=digest(key_of(name))))
    known = dict(name="Ellis", role="Reviewer", digest=digest(key_of("Ellis")))
    for other in ({}, dict(name="Elli"), dict(role="Second"), dict(name="", digest="0" * 64), dict(name="a\tb"), dict(digest="0" * 63),
                  dict(digest="A" * 64), dict(role="reviewer"), dict(name=None)):
        pair.ask(LEAD, "POST", "/staff", known | other)


DUE = ("RequestDiffers", "BadPrefix", "BadVolume", "FieldChoice", "NoField", "PrefixDiffers", "RangeEmpty", "SplitFamily", "Unsettled",
       "NothingResponsive")


def tried(pair, draw, count):
    texts = texts_of_batch(BATCH)
    pair.same("people are taken in", lambda: staff(pair))
    pair.same("looks before a decision, by each role", lambda: look_around(pair, PEOPLE))
    pair.same("what is no route", lambda: no_routes(pair))
    pair.same("bodies that aren't read", lambda: bodies(pair))
    pair.same("a receiver, an unknown key and none", lambda: strangers(pair))
    pair.same("finds by chance", lambda: finds(pair, draw, texts, 10 * count))
    pair.same("plans by chance among decisions", lambda: rounds(pair, draw, count))
    pair.same("looks behind them, by each role", lambda: look_around(pair, PEOPLE))
    pair.same("and by a receiver, an unknown key and none", lambda: strangers(pair))
    pair.same("finds are the same behind them", lambda: finds(pair, draw, texts, count))
    # what was due to come by chance has come
    for kind in [("POST", "plan", "200"), ("POST", "productions", "200"), ("POST", "find", "200"), ("POST", "find", "409 TermRefused"),
                 *(("POST", "plan", f"409 {name}") for name in DUE)]:
        check(f"{' '.join(kind)}, {pair.kinds.get(kind, 0)} times", kind in pair.kinds)


def main():
    scratch = sys.argv[1]
    if len(sys.argv) < 3:
        print("NOT TRIED: the program isn't there, beside which the stand-in is tried")
        return
    count, seed = (int(word) for word in (*sys.argv[3:5], *(str(ROUNDS), str(SEED))[len(sys.argv) - 3 :]))
    pair = Pair(scratch, sys.argv[2])
    try:
        tried(pair, random.Random(seed), count)
    finally:
        pair.close()
    for (method, first, told), often in sorted(pair.kinds.items()):
        print(f"{often:6} {method} /{first}: {told}")
    finish("looks")


main()
