#!/usr/bin/env python3
"""What nginx does between browsers and desks, by the page's own configuration: which fields a desk gets, that a key stays at
one desk, that no call is repeated, what is refused ahead of the desks, and what each answer is sent with. The desks are
sockets that keep what came; then the stand-in's, or the program's where it is given: one, and several of one matter.

    nginx.py SCRATCH [PROGRAM]
"""
import http.client
import json
import os
import socket
import ssl
import sys
import threading
import time

from office import ELLIS, Office

passed = failed = 0
DONE = b'HTTP/1.1 200 OK\r\nContent-Type: application/json\r\nContent-Length: 13\r\nConnection: close\r\n\r\n{"done":true}'


def check(what, holds, more=""):
    global passed, failed
    passed, failed = passed + bool(holds), failed + (not holds)
    print("ok         " if holds else "NOT AS DUE ", what, "" if holds else more, flush=True)


class Desk:
    """A socket that keeps each request, and answers it or hangs up."""

    def __init__(self, answer=DONE):
        self.door, self.came, self.answer = socket.create_server(("127.0.0.1", 0)), [], answer
        self.port = self.door.getsockname()[1]
        threading.Thread(target=self.serve, daemon=True).start()

    def serve(self):
        while True:
            try:
                peer, _ = self.door.accept()
            except OSError:
                return  # it was closed
            with peer:
                request = b""
                while b"\r\n\r\n" not in request and (piece := peer.recv(65536)):
                    request += piece
                head, _, body = request.partition(b"\r\n\r\n")
                length = next((int(line.split(b":")[1]) for line in head.split(b"\r\n") if line.lower().startswith(b"content-length")), 0)
                while len(body) < length and (piece := peer.recv(65536)):
                    body += piece
                self.came.append((head.decode(), body))
                if self.answer:
                    peer.sendall(self.answer)

    def close(self):
        self.door.shutdown(socket.SHUT_RDWR)
        self.door.close()

    def fields(self):
        """The names of the fields of the last request, and its first line."""
        lines = self.came[-1][0].split("\r\n")
        return lines[0], [line.partition(":")[0].lower() for line in lines[1:]]


class Behind(Office):
    """nginx over some desks of this test."""

    def __init__(self, folder, desks):
        self.desks = desks
        super().__init__(folder)

    def make_matter(self):
        pass

    def open_desk(self):
        self.ports = [desk.port for desk in self.desks]

    def take_in(self, *_words):
        pass


class Watched(Office):
    """nginx over desks of one matter, which writes down who came to which desk."""

    def site(self):
        kept = f"access_log {self.folder}/came desks;"
        return "log_format desks '$upstream_addr $http_desk_key';\n" + super().site().replace("access_log off;", kept)

    def went(self):
        """The desks of each key."""
        found = {}
        with open(os.path.join(self.folder, "came"), encoding="utf-8") as file:
            for line in file:
                desk, _, key = line.rstrip("\n").partition(" ")
                found.setdefault(key, set()).add(desk)
        return found


def raw(office, text):
    """The status of the reply to bytes as they are."""
    plain = socket.create_connection(("127.0.0.1", office.port), timeout=60)
    with ssl._create_unverified_context().wrap_socket(plain) as peer:
        peer.sendall(text)
        reply = http.client.HTTPResponse(peer)
        reply.begin()
        return reply.status, reply.read()


def try_fields(scratch):
    desk = Desk()
    office = Behind(make(scratch, "fields"), [desk])
    try:
        many = {f"X-Field-{k}": "x" for k in range(40)}
        status, _, _ = office.request("k", "POST", "/desk/docs/1/call", {"responsive": True}, **{name.replace("-", "_"): "x" for name in many},
                                      Cookie="a=b", Authorization="Basic eA==", Referer="https://x/", Origin="https://x")
        line, fields = desk.fields()
        check("a desk gets host, key, connection and length of a call, and no other field",
              status == 200 and sorted(fields) == ["connection", "content-length", "desk-key", "host"], (status, fields))
        check("and the path without /desk", line == "POST /docs/1/call HTTP/1.1", line)
        status, _ = raw(office, b"POST /desk/docs/1/confirm HTTP/1.1\r\nHost: x\r\nDesk-Key: k\r\nTransfer-Encoding: chunked\r\n\r\n2\r\n{}\r\n0\r\n\r\n")
        check("a body in chunks comes with its length", status == 200 and desk.came[-1][1] == b"{}" and
              "transfer-encoding" not in desk.fields()[1], desk.came[-1])
        status, _, _ = office.request(None, "GET", "/desk/docs/1")
        check("without a key a desk gets none", status == 200 and "desk-key" not in desk.fields()[1], desk.fields())
        before = len(desk.came)
        for target in ("/docs/1", "/desk", "/../desk.conf", "/nginx.conf", "/desk_page.conf", "/page/"):
            status, _ = raw(office, f"GET {target} HTTP/1.1\r\nHost: x\r\nConnection: close\r\n\r\n".encode())
            check(f"{target} shows nothing", status in (301, 400, 404), status)
        for method in ("POST", "PUT", "DELETE"):
            status, _, _ = office.request("k", method, "/index.html", {})
            check(f"{method} of the page is refused", status in (403, 405), status)
        check("and no desk got them", len(desk.came) == before)
        status, _, _ = office.request("k", "POST", "/desk/docs/1/entry", {"date": "x" * (1 << 20)})
        check("a body over the desk's limit is refused ahead of it", status == 413 and len(desk.came) == before, status)
        try_heads(office)
    finally:
        office.close()


def try_heads(office):
    for path, due in (("/", 200), ("/main.js", 200), ("/layout.css", 200), ("/none", 404), ("/desk/docs/1", 200)):
        status, head, _ = office.request("k", "GET", path)
        policy = head.get("Content-Security-Policy", "")
        check(f"{path} comes with the policy, once, and is kept nowhere",
              status == due and "default-src 'none'" in policy and "unsafe" not in policy and head["Cache-Control"] == "no-store"
              and head["X-Content-Type-Options"] == "nosniff" and len(head.get_all("Content-Security-Policy")) == 1, (status, head.items()))


FLOOD = 400  # of which 100 pass at once, 100 more may wait, and 50 pass a second


def try_flood(scratch):
    desk = Desk()
    office = Behind(make(scratch, "flood"), [desk])
    try:
        # all are open before the first asks
        trust = ssl._create_unverified_context()
        peers = [trust.wrap_socket(socket.create_connection(("127.0.0.1", office.port), timeout=60)) for _ in range(FLOOD)]
        start = time.time()
        for peer in peers:
            peer.sendall(b"GET /desk/docs/1 HTTP/1.1\r\nHost: x\r\nDesk-Key: k\r\nConnection: close\r\n\r\n")
        statuses = [int(peer.recv(65536).split(b" ")[1]) for peer in peers]
        took = time.time() - start
        check(f"of {FLOOD} requests at once some are refused, and of the others all but 100 wait for their turn",
              set(statuses) == {200, 429} and len(desk.came) == statuses.count(200) > 150 and took > (statuses.count(200) - 102) / 60,
              (statuses.count(429), len(desk.came), took))
    finally:
        office.close()


def try_two_floods(scratch):
    """Two people behind one address have a limit each."""
    desk = Desk()
    office = Behind(make(scratch, "floods"), [desk])
    try:
        trust = ssl._create_unverified_context()
        peers = [trust.wrap_socket(socket.create_connection(("127.0.0.1", office.port), timeout=60)) for _ in range(FLOOD)]
        for k, peer in enumerate(peers):
            peer.sendall(b"GET /desk/docs/1 HTTP/1.1\r\nHost: x\r\nDesk-Key: k%d\r\nConnection: close\r\n\r\n" % (k % 2))
        statuses = [int(peer.recv(65536).split(b" ")[1]) for peer in peers]
        check(f"of {FLOOD} requests of two people none is refused", set(statuses) == {200}, statuses.count(429))
    finally:
        office.close()


def try_first(scratch):
    """Where a person's own desk isn't open, the first one gets what they ask; where it hung up, nobody does."""
    desks = [Desk(), Desk(answer=None)]
    office = Behind(make(scratch, "first"), desks)
    try:
        keys = [f"key {k}" for k in range(12)]
        second = [key for key in keys if office.request(key, "POST", "/desk/docs/1/confirm", {})[0] == 502]
        check("whose desk hangs up isn't served by another", 0 < len(second) < len(keys) and
              len(desks[0].came) == len(keys) - len(second) and len(desks[1].came) == len(second), (second, len(desks[0].came)))
        desks[1].close()
        before = len(desks[0].came)
        statuses = {office.request(key, method, path, members)[0] for key in keys
                    for method, path, members in (("GET", "/desk/docs/1", None), ("POST", "/desk/docs/1/call", {"responsive": True}))}
        check("whose desk isn't open is at the first", statuses == {200} and len(desks[0].came) == before + 2 * len(keys), statuses)
        head, body = desks[0].came[-1]
        check("with the same path, key and body", head.startswith("POST /docs/1/call HTTP/1.1\r\n") and
              "desk-key: key 11" in head.lower() and body == b'{"responsive": true}', desks[0].came[-1])
        desks[0].close()
        status, fields, _ = office.request(keys[0], "GET", "/desk/docs/1")
        check("without any desk it is 502, as a page of nginx", status == 502 and fields["Content-Type"].startswith("text/html"), status)
    finally:
        office.close()


def try_keys(scratch):
    desks = [Desk() for _ in range(3)]
    office = Behind(make(scratch, "keys"), desks)
    try:
        went = {}
        for _ in range(3):
            for k in range(20):
                counts = [len(desk.came) for desk in desks]
                office.request(f"key {k}", "GET", "/desk/docs/1")
                went.setdefault(k, set()).add(next(d for d, desk in enumerate(desks) if len(desk.came) != counts[d]))
        check("each of 20 keys stays at one of three desks", all(len(where) == 1 for where in went.values()), went)
        check("and each desk has some", len(set.union(*went.values())) == 3, went)
    finally:
        office.close()


def try_repeats(scratch):
    desks = [Desk(answer=None), Desk(answer=None)]
    office = Behind(make(scratch, "repeats"), desks)
    try:
        for method, members in (("GET", None), ("POST", {})):
            before = sum(len(desk.came) for desk in desks)
            status, _, _ = office.request("k", method, "/desk/docs/1/confirm", members)
            count = sum(len(desk.came) for desk in desks) - before
            check(f"a {method} whose desk hangs up is made once", status == 502 and count == 1, (status, count))
    finally:
        office.close()


def try_desk(scratch, program):
    office = Office(make(scratch, "desk"), program)
    try:
        status, head, body = office.request(ELLIS, "GET", "/desk/docs/1")
        check("a document comes as JSON", status == 200 and head["Content-Type"] == "application/json", (status, head.items()))
        status, head, body = office.request(ELLIS, "GET", "/desk/docs/1/pages/1")
        check("a page comes as a TIFF file", status == 200 and head["Content-Type"] == "image/tiff" and body[:2] == b"II", head.items())
        for key, path, due in (("nobody", "/docs/1", (401, b"KeyUnknown")), (None, "/docs/1", (401, b"KeyMissing")),
                               (ELLIS, "/docs/99", (404, b"NoDocument")), (ELLIS, "/docs/1?t=1", (404, b"NoRoute"))):
            status, _, body = office.request(key, "GET", "/desk" + path)
            check(f"{path} with {'no key' if key is None else 'a key'}: {due[1].decode()}", status == due[0] and due[1] in body, (status, body))
        status, _, body = office.request(ELLIS, "POST", "/desk/docs/1/entry",
                                         dict(date="", author="", recipients="", description="x" * 1001))
        check("a text over its limit is refused by the desk", status == 409 and b"TextRefused" in body, (status, body[:80]))
        request = dict(id="R", volume="V", prefix="P", width=4, fields=[], to=12, **{"from": 1})
        looks = (("GET", "/states/1", None), ("GET", "/docs/1/values", None), ("GET", "/staff", None), ("GET", "/productions", None),
                 ("POST", "/find", {"terms": ["roof"], "from": 1, "page": 0}), ("POST", "/plan", request))
        told = [office.request(ELLIS, method, "/desk" + path, members)[0::2] for method, path, members in looks]
        # nothing is called yet, so that a plan is refused by the desk
        check("the looks at many come through", [status for status, _ in told] == [200] * 5 + [409] and b"Unsettled" in told[-1][1]
              and len(json.loads(told[0][1])) == 12 and json.loads(told[4][1])["next"] == 0, told)
        fields = {f"X_{k}": "x" for k in range(40)}
        status, _, _ = office.request(ELLIS, "GET", "/desk/docs/1", **fields)
        check("40 fields of a browser are no matter", status == 200, status)
    finally:
        office.close()


DESKS, PEOPLE = 4, [f"person {k}" for k in range(8)]


def try_desks(scratch, program):
    """Several desks of one matter: a person stays at one of them, and sees what others did at theirs."""
    office = Watched(make(scratch, "desks"), program, desks=DESKS)
    try:
        for key in PEOPLE:
            office.take_in(key, "Second", key)
        views = []
        for number, key in enumerate(PEOPLE, 1):
            office.ask(key, "POST", f"/docs/{number}/call", dict(responsive=True, treatment="Withhold-AC", designation=key.upper()))
            views.append({json.dumps(office.ask(other, "GET", f"/docs/{number}")) for other in PEOPLE})
        check("what one did at a desk, all see at theirs",
              all(len(view) == 1 and key.upper() in view.copy().pop() for key, view in zip(PEOPLE, views)), views)
        office.ask(PEOPLE[1], "POST", "/docs/1/entry", dict(date="", author="", recipients="", description="x"))
        status, _, body = office.request(PEOPLE[1], "POST", "/desk/docs/1/confirm", {})
        check("nobody confirms at one desk what they edited", status == 409 and b"SamePerson" in body, (status, body))
        office.ask(PEOPLE[2], "POST", "/docs/1/confirm", {})
        went = office.went()
        check(f"each of {len(PEOPLE)} people stays at one of {DESKS} desks", all(len(went[key]) == 1 for key in PEOPLE), went)
        check("and they are at several", len(set.union(*(went[key] for key in PEOPLE))) > 1, went)
    finally:
        office.close()


def make(scratch, name):
    folder = os.path.join(scratch, name)
    os.mkdir(folder)
    return folder


def main():
    scratch, program = sys.argv[1], sys.argv[2] if len(sys.argv) > 2 else None
    try_fields(scratch)
    try_flood(scratch)
    try_two_floods(scratch)
    try_first(scratch)
    try_keys(scratch)
    try_repeats(scratch)
    try_desk(scratch, program)
    try_desks(scratch, program)
    print(f"nginx before the desks: {passed} as due, {failed} not")
    sys.exit(failed > 0)


main()
