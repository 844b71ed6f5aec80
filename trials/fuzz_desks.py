#!/usr/bin/env python3
"""Raw requests, right and damaged, at sixteen desks at once: fuzz_desks.py PROGRAM COUNT SEED KEEP [DESKS]

Rounds of some hundred requests each, until COUNT were sent. A round: a matter of 120 small documents is imported, PROGRAM serves it, and 32
clients ask at their desks at once, two at each. Requests are those of fuzz_days.py and desks.py, a part of them damaged, some sent in pieces,
and some that are broken off: the peer sends a part of a request, or a whole one that reads, and resets the connection. Then
  - a reply to bytes that are no call is the very one that the model of requests (web_model.py) has for them;
  - the calls are replayed as desks.py does it: there is one order of them, each once, in which the model (review_model.py) gives every
    reply to the byte, and a call that began after another had its reply comes after it;
  - `served N` counts the calls that were answered, and at most those more that were broken off;
  - the kept rows are those of the model after that order, and the database is sound.
A round that differs is kept in KEEP: its requests with times and replies, the folder, and why. The same words give the same requests, and
not the same order. Takes the ports 48201 to 48216, in a network of its own where that can be. Ends with 1 where a round differs.
"""
import collections
import copy
import json
import multiprocessing
import os
import random
import shutil
import socket
import struct
import subprocess
import sys
import tempfile
import threading
import time

sys.dont_write_bytecode = True
HERE = os.path.dirname(os.path.abspath(__file__))
sys.path.insert(0, os.path.join(HERE, "..", "tools", "tests"))
import apart  # noqa: E402
import desks  # noqa: E402
import desks_batch  # noqa: E402
import fuzz_batch as batches  # noqa: E402
import fuzz_days as days  # noqa: E402
import fuzz_matter as matters  # noqa: E402
import fuzz_pages as pages  # noqa: E402
import fuzz_tools  # noqa: E402
import review_model  # noqa: E402
import web_model  # noqa: E402

DOCUMENTS, EACH, CLIENTS, PROCESSES, LIMIT = 120, 40, 2, 4, 300
ROLES = ("Lead", "Second", "Reviewer", "Second", "Reviewer", "Clerk", "Receiver", "Lead")
MEMBERS = {name: [] for _, _, name in web_model.ROUTES} | web_model.MEMBERS
Sent = collections.namedtuple("Sent", "data manner")  # whole, pieces or broken


class Different(Exception):
    """The desks do otherwise than any order of the calls."""


def differs(text):
    raise Different(text)


desks.stop = differs
desks.DOCUMENTS = DOCUMENTS


class Key:
    """A key as the bytes of a head have it."""

    def __init__(self, data):
        self.data = data

    def encode(self):
        return self.data

    def __str__(self):
        return repr(self.data)


# ---- requests


class Asker(desks.Asker):
    """Calls of desks.py, by the keys of this matter and over its documents, most of which are settled."""

    SETTLES = 0

    def document(self):
        kind = self.chance.random()
        least = DOCUMENTS - 11 if kind < 0.3 else 1
        return self.chance.randint(least, DOCUMENTS) if kind < 0.99 else self.chance.choice((DOCUMENTS + 1, 999999999))

    def key(self):
        return self.chance.choices(days.KEYS, (4, 4, 4, 4, 4, 2, 0.3, 4))[0] if self.chance.random() < 0.98 else "nobody"

    def request(self, call):
        super().request(call)
        begin = self.batch[self.chance.randint(1, DOCUMENTS) - 1][0]
        call["from"], call["to"] = begin, min(begin + self.chance.randint(0, 3), DOCUMENTS)


def a_request(draw, asker, matter):
    kind = draw.random()
    if kind < 0.08:
        data = web_model.usual(draw)
    elif kind < 0.55:
        data = desks.bytes_of(*asker.next())
    else:
        data = days.some_call(draw, matter)
        # a freeze of all documents would be over all that is under way
        while b"POST /productions HTTP" in data or b"POST /plan HTTP" in data:
            data = days.some_call(draw, matter)
    kind = draw.random()
    if kind < 0.2:
        data = (web_model.damaged if kind < 0.1 else fuzz_tools.damaged)(draw, data)
    return data


def sent(draw, data):
    """How it is sent; what is broken off makes no call, or one that changes nothing."""
    kind = draw.random()
    if kind < 0.05:
        return Sent(data, "pieces")
    if kind < 0.09:
        call = call_of(data)[1]
        if call is None or call["call"] in review_model.LOOKS:
            return Sent(data, "broken")
        cut = data[: draw.randrange(len(data))]
        if call_of(cut)[1] is None:
            return Sent(cut, "broken")
    return Sent(data, "whole")


def call_of(data):
    """The key and the call of these bytes, or none and the reply that is due."""
    due, _, count, length = web_model.decided(data)
    if not isinstance(due, str):
        _, (way, name, parts) = due
        body = data[count : count + length]
        try:
            if len(body) < length:
                raise web_model.Refused
            found = {} if way == "GET" else web_model.object_of(body)
            web_model.call_of(name, parts, found)
        except web_model.Refused:
            return days.refusal(400, 102, "BodyRefused"), None
        found = {key: found[key] for key in MEMBERS[name]}
        call = days.members(name, parts, found) | {"call": name}
        if name == "AddStaff":
            call["digest"] = call["digest"].hex()
        keys = [value for field, value in web_model.head_of(data)[0].fields if field == b"desk-key"]
        return Key(keys[0]), call
    status, number = days.REFUSED[due]
    return days.refusal(status, number, due), None


# ---- clients


def exchanged(port, one):
    """What a desk replies; nothing where the connection is broken off."""
    peer = socket.socket()
    peer.settimeout(LIMIT)
    try:
        peer.connect(("127.0.0.1", port))
        if one.manner == "broken":
            peer.setsockopt(socket.SOL_SOCKET, socket.SO_LINGER, struct.pack("ii", 1, 0))
            peer.sendall(one.data)
            return None
        out = b""
        try:
            step = len(one.data) // 3 + 1 if one.manner == "pieces" else max(len(one.data), 1)
            for at in range(0, len(one.data), step):
                peer.sendall(one.data[at : at + step])
                if one.manner == "pieces":
                    time.sleep(0.002)
            peer.shutdown(socket.SHUT_WR)
        except OSError:
            pass
        try:
            while piece := peer.recv(1 << 16):
                out += piece
        except ConnectionResetError:
            pass
        return out
    finally:
        peer.close()


def client(port, asked, told):
    for number, one in asked:
        began = time.monotonic_ns()
        try:
            reply = exchanged(port, one)
        except OSError as why:
            reply = repr(why).encode()
        told.append((number, began, time.monotonic_ns(), port - desks.FIRST_PORT + 1, reply))


def clients(lists, out):
    """The clients of some desks, each a thread; what they were told goes into a pipe."""
    told = []
    threads = [threading.Thread(target=client, args=(port, asked, told)) for port, asked in lists]
    for thread in threads:
        thread.start()
    for thread in threads:
        thread.join()
    out.send(told)
    out.close()


def all_asked(count, requests):
    """All clients of all desks ask at once: a list of number, times, desk and reply."""
    lists = []
    for desk in range(count):
        own = [(k, one) for k, one in enumerate(requests) if k % count == desk]
        lists += [(desks.FIRST_PORT + desk, own[k::CLIENTS]) for k in range(CLIENTS)]
    pipes = []
    for k in range(PROCESSES):
        receive, out = multiprocessing.Pipe(duplex=False)
        multiprocessing.Process(target=clients, args=(lists[k::PROCESSES], out), daemon=True).start()
        out.close()
        pipes.append(receive)
    return [told for receive in pipes for told in receive.recv()]


# ---- a round


class Room:
    """The imported matter, as a folder and by both models."""

    def __init__(self, program):
        self.program, self.folder = program, tempfile.mkdtemp(dir="/dev/shm" if os.path.isdir("/dev/shm") else None)
        os.chdir(self.folder)
        self.batch = list(desks_batch.documents(DOCUMENTS))
        desks_batch.main("B", DOCUMENTS)
        self.matter = matters.begun(days.DIGESTS[0])
        matters.batch_in(self.matter, batches.read_batch(".", "B"))
        self.matter.staff += [(ROLES[k], days.DIGESTS[k], f"member {k}") for k in range(1, len(ROLES))]
        self.model = None
        self.seen = {("SeePage", *key): pages.tiff_of(page, "g4") for key, page in self.matter.pages.items()}
        for (doc, page), _ in self.matter.words.items():
            self.seen["SeeWords", doc, page] = days.as_json(matters.see_words(self.matter, 1, doc, {"page": page}))

        self.model = self.begun()
        # most documents are decided already, so that calls of all kinds find something
        for data in days.settled_requests(random.Random(7), self.matter):
            days.answered(self.matter, data)
            self.model.step(*call_of(data))
        self.rows = matters.rows_of(self.matter)

    def begun(self):
        if self.model is not None:
            return copy.deepcopy(self.model)
        sizes = [(doc["parent"], [(page.width, page.height) for key, page in sorted(self.matter.pages.items()) if key[0] == k])
                 for k, doc in enumerate(self.matter.docs, 1)]
        model = review_model.Matter(days.DIGESTS[0].hex(), list(self.matter.fields), sizes, self.seen, list(desks.texts_of(self.batch)))
        model.staff = [(role, digest.hex(), name) for role, digest, name in self.matter.staff]
        return model


class Round:
    def __init__(self, room, count, draw, seed):
        self.room, self.count, self.told = room, count, []
        asker = Asker(seed, room.batch)
        self.requests = [sent(draw, a_request(draw, asker, room.matter)) for _ in range(EACH * count)]

    def go(self):
        """The round, compared with the models. How many calls were made, and how large the largest part was that was under way at once."""
        days.write_rows(".", self.room.rows)
        words = [self.room.program, "serve", str(self.count), str(EACH)]
        process = subprocess.Popen(words, stdout=subprocess.PIPE, stderr=subprocess.DEVNULL)
        try:
            for desk in range(self.count):
                desks.wait_for(desks.FIRST_PORT + desk)
            self.told = all_asked(self.count, self.requests)
            printed = process.communicate(timeout=LIMIT)[0]
        except subprocess.TimeoutExpired:
            differs("the desks don't end")
        finally:
            if process.poll() is None:
                process.kill()
                process.communicate()
        if process.returncode != 0:
            differs(f"serve ended with {process.returncode} and {printed!r}")
        asked, most = self.calls()
        made = printed.decode().split()
        if made[:1] != ["served"] or not len(asked) <= int(made[1]) <= most:
            differs(f"{len(asked)} calls were answered, {most - len(asked)} more may have been made, and {printed!r} is printed")
        model = self.room.begun()
        several, largest, open_rows = desks.replayed(model, asked)
        desks.test_rows(model, open_rows)
        return len(asked), largest, collections.Counter(one.status for one in asked)

    def calls(self):
        """The calls that were answered, and how many calls were made at most; each other reply is tested here."""
        asked, most = [], 0
        for number, began, ended, desk, reply in self.told:
            one = self.requests[number]
            key, call = call_of(one.data)
            most += call is not None
            if one.manner == "broken":
                continue
            if call is None:
                if reply != key:
                    differs(f"request {number}, {one.data!r}: the reply is {reply!r}, and due is {key!r}")
                continue
            head, _, body = reply.partition(b"\r\n\r\n")
            word = head.split(b" ", 2)[1:2]
            status = int(word[0]) if word and word[0].isdigit() else 0
            kind = "image/tiff" if call["call"] == "SeePage" and status == 200 else "application/json"
            if status not in days.PHRASES or reply != days.reply(status, body, kind):
                differs(f"request {number}, {one.data!r}: the reply is {reply!r}")
            asked.append(desks.Asked(began, ended, desk, key, call, status, body))
        return asked, most

    def keep(self, place, why):
        shutil.rmtree(place, ignore_errors=True)
        shutil.copytree(".", place)
        with open(os.path.join(place, "why"), "w", encoding="utf-8") as file:
            file.write(f"{why}\n")
            for number, began, ended, desk, reply in sorted(self.told, key=lambda told: told[1]):
                one = self.requests[number]
                file.write(json.dumps([number, began, ended, desk, one.manner, one.data.hex(), reply and reply.hex()]) + "\n")


def main():
    if len(sys.argv) not in (5, 6):
        sys.exit(__doc__)
    program, count, seed, keep = os.path.abspath(sys.argv[1]), int(sys.argv[2]), sys.argv[3], os.path.abspath(sys.argv[4])
    desk_count = int(sys.argv[5]) if len(sys.argv) > 5 else 16
    os.makedirs(keep, exist_ok=True)
    apart.in_own_network()
    room = Room(program)
    began, rounds, calls, largest, failed, answers = time.monotonic(), 0, 0, 0, 0, collections.Counter()
    try:
        while rounds * EACH * desk_count < count:
            one = Round(room, desk_count, random.Random(f"desks {seed} {rounds}"), f"{seed} {rounds}")
            try:
                made, most, told = one.go()
                calls, largest = calls + made, max(largest, most)
                answers += told
            except Different as why:
                failed += 1
                place = os.path.join(keep, f"desks-{seed}-{rounds}")
                one.keep(place, why)
                print(f"{place}: {str(why)[:600]}", flush=True)
            rounds += 1
    finally:
        shutil.rmtree(room.folder, ignore_errors=True)
    told = ", ".join(f"{status}: {times}" for status, times in sorted(answers.items()))
    print(f"desks, seed {seed}: {rounds * EACH * desk_count} requests in {rounds} rounds at {desk_count} desks in {time.monotonic() - began:.0f} s, "
          f"{calls} of them calls ({told}), the largest part under way at once {largest}; {failed} rounds otherwise")
    sys.exit(1 if failed else 0)


if __name__ == "__main__":
    main()
