#!/usr/bin/env python3
"""Many clients at several desks of one matter at once, and then a replay: is there one order of all answered calls in which each
stands once and each answer is right?

    desks.py PROGRAM DESKS CLIENTS CALLS [SEED]

A matter of 1,000 small documents is made and imported. While its database is locked, PROGRAM is refused it. Then PROGRAM serves it at
DESKS desks, ports 48201 on, and holds it so that nobody else can lock it; at each desk CLIENTS clients ask, one request a connection,
CALLS in all: calls of all twenty kinds, good and bad ones, some documents asked for often. Now and then the disk takes nothing for a
moment (the program's limit for the size of a file is lowered: prlimit), so that commits fail and the desks answer 503. Some such faults
have the keeper keep nothing more until the desks are opened anew; so they are, three times.
  - `served N` has each time as many calls as were answered by one (all but 503 and 507);
  - the calls are put in order by a plain model of a matter (review_model.py): a call that began after another had its answer comes
    after it; the model gives each call the very answer that its client had; a list of the states of more than ten documents is
    replayed as a look at each of them, and one moment is right for all of these looks;
  - a desk that is opened anew takes a change, also where the disk failed so that the keeper took none until the end;
  - the kept rows are those of the model's matter, and the database is sound.
Takes twelve minutes at most: clients stop asking after seven, and then the desks are ended as by Ctrl-C and print nothing. Needs Linux'
prlimit, python3 with sqlite3, and the ports free. Ends with 0 where all holds.
"""
import collections
import contextlib
import hashlib
import itertools
import json
import multiprocessing
import os
import random
import resource
import shutil
import signal
import socket
import sqlite3
import string
import subprocess
import sys
import tempfile
import threading
import time

sys.dont_write_bytecode = True
sys.path.insert(0, os.path.dirname(os.path.abspath(__file__)))
import desks_batch  # noqa: E402
import review_model  # noqa: E402
import t6_model  # noqa: E402

DOCUMENTS, FIRST_PORT = 1000, 48201
PEOPLE = [("lead", "Lead"), ("second 1", "Second"), ("second 2", "Second"), ("reviewer 1", "Reviewer"), ("reviewer 2", "Reviewer"),
          ("clerk", "Clerk"), ("receiver", "Receiver")]
HOT = 20  # documents that many clients ask for, the last ones
FEW = 10  # states that are replayed as of one moment
ROUNDS = 4  # how often the desks are opened
ASKING, WHOLE = 420, 720  # seconds
Asked = collections.namedtuple("Asked", "began ended desk key call status body")


def digest(text):
    return hashlib.sha256(text.encode()).hexdigest()


def stop(text):
    sys.exit(f"desks.py: {text}")


# ---- calls, and how they are asked for


TARGETS = {"GetProduction": "/productions/{id}", "SeeStates": "/states/{from}", "SeeStaff": "/staff", "SeeProductions": "/productions"}


def request_of(call):
    """The first line of a request, and its body where it has one."""
    name, members = call["call"], {name: value for name, value in call.items() if name not in ("call", "doc")}
    at = f"/docs/{call['doc']}" if "doc" in call else ""
    if name == "SeeDoc":
        return f"GET {at}", None
    if name in ("SeePage", "SeeWords"):
        return f"GET {at}/pages/{call['page']}" + ("/words" if name == "SeeWords" else ""), None
    if name == "SeeValues":
        return f"GET {at}/values", None
    if name in TARGETS:
        return "GET " + TARGETS[name].format_map(call), None
    routes = {"SetCall": "call", "PutBox": "box", "DropBox": "unbox", "HoldField": "hold", "FreeField": "free", "PutEntry": "entry",
              "Confirm": "confirm", "SendBack": "back"}
    route = {"AddStaff": "/staff", "Freeze": "/productions", "Find": "/find", "Plan": "/plan"}.get(name) or f"{at}/{routes[name]}"
    return f"POST {route}", json.dumps(members)


def bytes_of(key, call):
    line, body = request_of(call)
    head = f"{line} HTTP/1.1\r\nHost: 127.0.0.1\r\nDesk-Key: {key}\r\n"
    if body is None:
        return (head + "\r\n").encode()
    body = body.encode()
    return (head + f"Content-Length: {len(body)}\r\n\r\n").encode() + body


def ask(port, key, call):
    """The status and the body of the reply, or None where the desk can't be reached."""
    with contextlib.closing(socket.create_connection(("127.0.0.1", port), timeout=120)) as peer:
        peer.sendall(bytes_of(key, call))
        reply = bytearray()
        while piece := peer.recv(1 << 16):
            reply += piece
    head, _, body = bytes(reply).partition(b"\r\n\r\n")
    return int(head.split(b" ", 2)[1]), body


class Asker:
    """What a client asks for, by chance; now and then all that a family needs to be produced."""

    SETTLES = 0.0005

    def __init__(self, seed, batch):
        self.chance, self.batch, self.name, self.made = random.Random(seed), batch, seed.replace(" ", "-"), 0
        self.planned, self.queue = None, []

    def document(self):
        if self.chance.random() < 0.1:
            return self.chance.randint(DOCUMENTS - HOT + 1, DOCUMENTS)
        return self.chance.randint(1, DOCUMENTS) if self.chance.random() < 0.995 else self.chance.choice((DOCUMENTS + 1, 999999999))

    def page(self, document):
        pages = len(self.batch[document - 1][1]) if document <= DOCUMENTS else 1
        return self.chance.randint(1, pages) if self.chance.random() < 0.97 else pages + 1

    def key(self):
        if self.chance.random() < 0.01:
            return "nobody"
        return self.chance.choices([name for name, _ in PEOPLE], (4, 4, 4, 4, 4, 2, 0.2))[0]

    def next(self):
        if self.queue:
            return self.queue.pop(0)
        if self.chance.random() < self.SETTLES:
            self.settle(self.batch[self.chance.randint(1, DOCUMENTS) - 1][0])
        name, weight = zip(*KINDS)
        call = {"call": self.chance.choices(name, weight)[0]}
        getattr(self, call["call"])(call)
        return self.key(), call

    def settle(self, parent):
        """Has a family settled, and its production planned, frozen and seen."""
        family = [number for number, (other, _) in enumerate(self.batch, 1) if other == parent]
        for doc in family:
            treatment, entry = self.chance.choice(("Produce", "Redact", "Withhold-AC")), ("date", "author", "recipients", "description")
            self.then("reviewer 1", "SetCall", doc=doc, responsive=True, treatment=treatment, designation="A-1_.")
            self.then("reviewer 1", "PutEntry", doc=doc, **dict.fromkeys(entry, "Ärzte"))
            self.then("second 1", "Confirm", doc=doc)
        self.made += 1
        named = f"S{self.name}-{self.made}"
        request = {"id": named, "volume": named.upper(), "prefix": "S-", "width": 8, "from": parent, "to": family[-1], "fields": ["AUTHOR"]}
        for key, name in (("reviewer 1", "Plan"), ("clerk", "Freeze"), ("second 1", "Plan")):
            self.then(key, name, **request)
        self.then("lead", "SeeProductions")
        self.then("lead", "GetProduction", id=named)

    def then(self, key, name, **members):
        self.queue.append((key, {"call": name, **members}))

    def text(self, *others):
        return self.chance.choice((f"{self.name} {self.chance.randint(1, 99)}", "Ärzte", *others))

    def AddStaff(self, call):
        self.made += 1
        call["name"] = self.chance.choice((f"N {self.made}", "", "x" * 201))
        call["role"] = self.chance.choice(("Reviewer", "Second", "Clerk"))
        call["digest"] = digest(self.chance.choice((f"{self.name} {self.made % 3}", "clerk")))

    def SeeDoc(self, call):
        call["doc"] = self.document()

    def SeePage(self, call):
        call["doc"] = self.document()
        call["page"] = self.page(call["doc"])

    SeeWords = SeePage
    Confirm = SendBack = SeeValues = SeeDoc

    def SeeStaff(self, call):
        pass

    SeeProductions = SeeStaff

    def SeeStates(self, call):
        few = self.chance.random() < 0.9
        call["from"] = self.chance.randint(DOCUMENTS - FEW + 1, DOCUMENTS) if few else self.document()

    def Find(self, call):
        call["terms"] = self.chance.choice(TERMS)
        call["from"] = self.document() if self.chance.random() < 0.99 else 0
        call["page"] = 0 if self.chance.random() < 0.7 else self.page(call["from"] or 1)

    def SetCall(self, call):
        call["doc"] = self.document()
        call["responsive"] = self.chance.random() < 0.8
        call["treatment"] = self.chance.choice(("Produce", "Redact", "Redact", "Redact", "Withhold-AC", "Withhold-WP", "Withhold-PI"))
        call["designation"] = self.chance.choice(("", "CONFIDENTIAL", "A-1_.", "secret"))

    def basis(self):
        return self.chance.choice(review_model.BASES)

    def PutBox(self, call):
        call["doc"] = self.document()
        call["num"] = self.chance.choice((1, 2, 3, 1000, 1001))
        call["page"] = self.page(call["doc"])
        for name in ("left", "top", "width", "height"):
            call[name] = self.chance.choice((0, 1, 2, 5)) if self.chance.random() < 0.98 else 4294967295
        call["basis"] = self.basis()

    def DropBox(self, call):
        call["doc"], call["num"] = self.document(), self.chance.choice((1, 2, 3, 7))

    def HoldField(self, call):
        call["doc"], call["field"], call["basis"] = self.document(), self.chance.choice(("AUTHOR", "AUTHOR", "CC")), self.basis()

    def FreeField(self, call):
        call["doc"], call["field"] = self.document(), self.chance.choice(("AUTHOR", "AUTHOR", "CC"))

    def PutEntry(self, call):
        call["doc"], call["date"], call["author"] = self.document(), self.text(), self.text("þ", "a\tb")
        call["recipients"], call["description"] = self.text("y" * 201), self.text("z" * 1000, "z" * 1001)

    def Freeze(self, call):
        """Now and then the request that was planned last."""
        if self.planned and self.chance.random() < 0.3:
            call.update(self.planned)
        else:
            self.request(call)

    def Plan(self, call):
        self.request(call)
        self.planned = {name: value for name, value in call.items() if name != "call"}

    def request(self, call):
        self.made += 1
        call["id"] = f"Q{self.name}-{self.made}" if self.chance.random() < 0.8 else f"Q{self.chance.randint(1, 20)}"
        call["volume"] = call["id"].upper() if self.chance.random() < 0.95 else "v"
        call["prefix"] = self.chance.choice((*(f"{letter}-" for letter in string.ascii_uppercase), "7"))
        call["width"] = self.chance.choice((8, 8, 8, 5, 3))
        begin = self.batch[self.chance.randint(1, DOCUMENTS) - 1][0]
        call["from"], call["to"] = begin, begin + self.chance.randint(0, 3)
        call["fields"] = self.chance.choice(([], ["AUTHOR"], ["AUTHOR"], ["CC"], ["AUTHOR", "AUTHOR"]))

    def GetProduction(self, call):
        call["id"] = f"Q{self.chance.randint(1, 20)}"


KINDS = [("SetCall", 18), ("PutBox", 14), ("DropBox", 5), ("HoldField", 6), ("FreeField", 4), ("PutEntry", 8), ("Confirm", 12),
         ("SendBack", 4), ("SeeDoc", 16), ("SeePage", 5), ("SeeWords", 4), ("Freeze", 3), ("GetProduction", 1), ("AddStaff", 0.05),
         ("SeeStates", 0.5), ("SeeValues", 2), ("SeeStaff", 0.2), ("SeeProductions", 0.2), ("Find", 1.5), ("Plan", 2)]
TERMS = [["w7"], ["W12*"], ["*99"], ["w###"], ["*7*"], ["#*"], ["*"], ["*", "*"], ["counsel"], ["counse"], ["coun*", "now"],
         ["ask", "counsel"], ["ASK", '"Counsel,"', "*"], ["now", "555-####"], ["###-####"], ["author", "3"], ["Author", "1#"], ["*1"],
         ["ärzte"], ["ÄRZTE", "ask", "Counsel"], ["nothing"], ["*"] * 8, ["w" * 200], [], ["*"] * 9, ["w7", ""], ["a\tb"], ["w" * 201]]


def client(seed, port, count, batch, until, told):
    """Asks so often at one desk, or until that time, and adds what was asked and answered to a list."""
    asker = Asker(seed, batch)
    for _ in range(count):
        key, call = asker.next()
        began = time.monotonic_ns()
        if began > until:
            return
        status, body = ask(port, key, call)
        told.append(Asked(began, time.monotonic_ns(), port - FIRST_PORT + 1, key, call, status, body))


def desk_clients(seed, port, counts, batch, until, out):
    """The clients of one desk, each a thread; what they were told goes into a pipe, or the error that ended one."""
    told, failed = [], []

    def one(number, count):
        try:
            client(f"{seed} {port - FIRST_PORT + 1} {number}", port, count, batch, until, told)
        except Exception as error:  # told to who waits, who then ends with it
            failed.append(f"client {number} of desk {port - FIRST_PORT + 1}: {error!r}")

    threads = [threading.Thread(target=one, args=each) for each in enumerate(counts)]
    for thread in threads:
        thread.start()
    for thread in threads:
        thread.join()
    out.send((told, failed))
    out.close()


# ---- the matter, and what pages and words are told as


def page_body(place):
    """The Group 4 file of a page (TIFF 6.0; docs/FORMATS.md), by the plain coder of t6_model.py."""
    width, height = desks_batch.SIZES[place]
    packed, size = desks_batch.strip_of(width, height), (width + 7) // 8
    strip = t6_model.code([t6_model.edges_of(packed[at: at + size], width) for at in range(0, len(packed), size)], width)
    short, long, rational = 3, 4, 5
    entries = [(256, long, width), (257, long, height), (258, short, 1), (259, short, 4), (262, short, 0), (266, short, 1), (273, long, 198),
               (277, short, 1), (278, long, height), (279, long, len(strip)), (282, rational, 182), (283, rational, 190), (293, long, 0),
               (296, short, 2)]
    number = lambda value, size: value.to_bytes(size, "little")  # noqa: E731
    directory = b"".join(number(tag, 2) + number(kind, 2) + number(1, 4) + number(value, 4) for tag, kind, value in entries)
    resolution = number(desks_batch.RESOLUTION, 4) + number(1, 4)
    return b"II" + number(42, 2) + number(8, 4) + number(len(entries), 2) + directory + bytes(4) + resolution * 2 + strip


def seen_bodies(batch):
    pages, seen, at = [page_body(place) for place in range(len(desks_batch.SIZES))], {}, 0
    names = ("line", "left", "top", "width", "height", "text")
    for number, (_, places) in enumerate(batch, 1):
        for page, place in enumerate(places, 1):
            at += 1
            seen["SeePage", number, page] = pages[place]
            seen["SeeWords", number, page] = review_model.compact([dict(zip(names, word)) for word in desks_batch.words_of(at)])
    return seen


def texts_of(batch):
    """Of each document its values, and the words of its pages."""
    at = 0
    for number, (_, places) in enumerate(batch, 1):
        pages = [[text for *_, text in desks_batch.words_of(at + page)] for page in range(1, len(places) + 1)]
        at += len(places)
        yield [desks_batch.value_of(number)], pages


def begun(batch):
    pages = [(parent, [desks_batch.SIZES[place] for place in places]) for parent, places in batch]
    return review_model.Matter(digest(PEOPLE[0][0]), ["AUTHOR"], pages, seen_bodies(batch), list(texts_of(batch)))


# ---- the replay


class Rows:
    """What the rows may be at a place of the replay. Most have one state. Where calls that were under way at once may have come in
    several orders, the rows that they touch stand together, with all their states that the answers so far allow."""

    def __init__(self, matter):
        self.matter, self.together = matter, {}

    def states(self, rows):
        """All rows that stand together with these, and each state that they may be in."""
        found, states = [], [()]
        for row in rows:
            if row not in found:
                more, theirs = self.together.get(row) or ((row,), [(self.matter.state(row),)])
                found += more
                states = [state + other for state in states for other in theirs]
        return tuple(found), states

    def put(self, rows, states):
        """These rows are in one of these states. A row whose state says nothing of the others' stands alone again."""
        for row in rows:
            self.together.pop(row, None)
        while rows:
            for at, row in enumerate(rows):
                own = {(state[at],) for state in states}
                rest = {state[:at] + state[at + 1:] for state in states}
                if len(own) * len(rest) == len(states):
                    self.keep((row,), list(own))
                    rows, states = rows[:at] + rows[at + 1:], list(rest)
                    break
            else:
                self.keep(rows, states)
                return

    def keep(self, rows, states):
        if len(states) == 1:
            load(self.matter, rows, states[0])
        else:
            self.together.update({row: (rows, states) for row in rows})

    def all_states(self):
        """The groups of rows that may be in several states at the end, and these."""
        return list({id(states): (rows, states) for rows, states in self.together.values()}.values())


def load(matter, rows, state):
    for row, value in zip(rows, state):
        matter.put_state(row, value)


def parts_of(matter, asked):
    """Parts the calls so that two that were under way at once and touch one row come into one part, and gives the parts so that of
    each row the calls of a part were over before those of the next began."""
    until, last, following = {}, {}, [[] for _ in asked]
    for at, one in enumerate(asked):
        for row in matter.touched(one.call, one.status):
            if row in last:
                following[last[row]].append(at)
                if until[row] >= one.began:
                    following[at].append(last[row])
            until[row], last[row] = max(until.get(row, -1), one.ended), at
    return [[asked[at] for at in sorted(part)] for part in strong_parts(following)]


def strong_parts(following):
    """The strongly connected parts of a graph, each before those that follow it (Tarjan)."""
    number, lowest, stack, on_stack, parts = {}, {}, [], set(), []
    for root in reversed(range(len(following))):
        if root in number:
            continue
        number[root] = lowest[root] = len(number)
        stack.append(root)
        on_stack.add(root)
        path = [(root, iter(following[root]))]
        while path:
            at, others = path[-1]
            other = next(others, None)
            if other is None:
                path.pop()
                if path:
                    lowest[path[-1][0]] = min(lowest[path[-1][0]], lowest[at])
                if lowest[at] == number[at]:
                    cut = stack.index(at) if stack[-1] != at else len(stack) - 1
                    parts.append(stack[cut:])
                    on_stack.difference_update(parts[-1])
                    del stack[cut:]
            elif other not in number:
                number[other] = lowest[other] = len(number)
                stack.append(other)
                on_stack.add(other)
                path.append((other, iter(following[other])))
            elif other in on_stack:
                lowest[at] = min(lowest[at], number[other])
    return parts[::-1]


def changes_nothing(one):
    return one.status != 200 or one.call["call"] in review_model.LOOKS


def ends_of(matter, calls, rows, begin):
    """The states in which these calls may leave the rows, each answered as it was, in any order that the times allow: a call comes
    after those that had ended before it began. One that changes nothing comes as soon as it may: no other order ends otherwise."""
    ends, tried = set(), set()
    todo = [(tuple(sorted(calls, key=lambda one: one.ended)), begin)]
    while todo:
        left, state = todo.pop()
        if not left:
            ends.add(state)
            continue
        able = [at for at, one in enumerate(left) if one.began <= left[0].ended]
        for at in sorted(able, key=lambda at: not changes_nothing(left[at])):
            one = left[at]
            load(matter, rows, state)
            made = matter.made_rows
            if matter.step(one.key, one.call) == (one.status, one.body):
                rest, after = left[:at] + left[at + 1:], tuple(matter.state(row) for row in rows)
                mark = (tuple(map(id, rest)), after)
                if mark not in tried:
                    tried.add(mark)
                    todo.append((rest, after))
                if changes_nothing(one):
                    break
            else:
                # a freeze that was refused doesn't touch these rows, and the model may have made it
                matter.made_rows = made
    return ends


def spread(matter, asked):
    """The calls, with a look at each document in place of a look at the states of many."""
    for at, one in enumerate(asked):
        if one.call["call"] != "SeeStates" or one.status != 200 or len(matter.told_from(one.call)) <= FEW:
            yield one
            continue
        rows, due = json.loads(one.body), matter.told_from(one.call)
        if review_model.compact(rows) != one.body or [row["doc"] for row in rows] != list(due):
            stop(f"{one[:6]} tells of {[row['doc'] for row in rows]}, or isn't compact: {one.body[:300]}")
        for row in rows:
            yield one._replace(call={"call": "SeeState", "doc": row["doc"], "of": at}, body=review_model.compact(row))


def moments_of(matter, calls, look, rows, states):
    """From when to when a look may have been made, as these calls tell."""
    times = sorted({time for one in calls for time in (one.began, one.ended) if look.began <= time <= look.ended})
    fit = []
    for begin, end in zip(times, times[1:]):
        now = look._replace(began=(begin + end) / 2, ended=(begin + end) / 2)
        if any(ends_of(matter, [now if one is look else one for one in calls], rows, state) for state in states):
            fit += begin, end
    return (fit[0], fit[-1]) if fit else (look.began, look.ended)


def replayed(matter, asked):
    """Replays the calls, and leaves the matter after them. Returns how many parts had more than one call, the largest, and the rows
    that may have ended in several states."""
    asked = sorted(spread(matter, answered(asked)), key=lambda one: one.began)
    rows, several, largest, moments = Rows(matter), 0, 0, {}
    for calls in parts_of(matter, asked):
        named = sorted({row for one in calls for row in matter.touched(one.call, one.status)}, key=str)
        reached, states = rows.states(named)
        ends = sorted({end for state in states for end in ends_of(matter, calls, reached, state)}, key=repr)
        if not ends:
            for one in calls[:40]:
                print(*one[:6], one.body[:300], file=sys.stderr)
            stop(f"no order of {len(calls)} calls gives the answers that were told ({named[:8]})")
        for look in calls if len(calls) > 1 else ():
            if "of" in look.call:
                begin, end = moments_of(matter, calls, look, reached, states)
                least, most = moments.get(look.call["of"], (begin, end))
                moments[look.call["of"]] = least, most = max(least, begin), min(most, end)
                if least >= most:
                    stop(f"at no moment the states were as they were told ({look[:6]})")
        rows.put(reached, ends)
        several, largest = several + (len(calls) > 1), max(largest, len(calls))
    return several, largest, rows.all_states()


# ---- the run


def run(program, *words):
    done = subprocess.run([program, *words], capture_output=True, text=True, check=False)
    if done.returncode:
        stop(f"{' '.join(words)} ended with {done.returncode}: {done.stdout}")


def wait_for(port):
    """Waits until the desk listens, without a connection: one would be counted."""
    wanted = f":{port:04X} "
    for _ in range(600):
        with open("/proc/net/tcp", encoding="ascii") as table:
            if any(wanted in line and " 0A " in line for line in table):
                return
        time.sleep(0.05)
    stop(f"no desk at port {port}")


def disturb(desk, over, faults):
    """Lowers, now and then, the limit for the size of the program's files, so that commits fail, and lifts it again."""
    while not over.wait(0.7):
        size = max((os.path.getsize(name) for name in os.listdir(".") if name.startswith("matter.db")), default=0)
        resource.prlimit(desk.pid, resource.RLIMIT_FSIZE, (min(size, 4096), resource.RLIM_INFINITY))
        faults.append(time.monotonic())
        over.wait(0.02)
        resource.prlimit(desk.pid, resource.RLIMIT_FSIZE, (resource.RLIM_INFINITY, resource.RLIM_INFINITY))


def as_a_desk():
    """In the child: a file over its limit is an error of the write, and Ctrl-C ends it, also where this runs in the background."""
    signal.signal(signal.SIGXFSZ, signal.SIG_IGN)
    signal.signal(signal.SIGINT, signal.SIG_DFL)


def try_lock(program):
    """A database that another holds is refused, as a fault of the keeper, before a desk is opened."""
    with contextlib.closing(sqlite3.connect("matter.db", isolation_level=None)) as other:
        other.execute("BEGIN EXCLUSIVE")
        done = subprocess.run([program, "serve", "1", "1"], capture_output=True, text=True, timeout=60, check=False)
    if (done.returncode, done.stdout) != (5, "keeper fault\n"):
        stop(f"over a locked database serve ended with {done.returncode}: {done.stdout}")


def is_held():
    """Whether nobody else can write the database."""
    with contextlib.closing(sqlite3.connect("matter.db", timeout=0, isolation_level=None)) as other:
        try:
            other.execute("BEGIN IMMEDIATE")
        except sqlite3.OperationalError as error:
            return "locked" in str(error)
    return False


class Desks:
    """The desks of one matter with their clients: what they were asked and answered, and how often the disk failed."""

    def __init__(self, program, desks, clients, seed, batch):
        self.program, self.desks, self.clients, self.seed, self.batch = program, desks, clients, seed, batch
        self.until = time.monotonic_ns() + ASKING * 10**9
        self.asked, self.faults = [], []

    def serve(self, number, each):
        """Opens the desks for so many calls each. Whether all were asked before the time was over."""
        with open("served", "w+b") as out:
            words = [self.program, "serve", str(self.desks), str(each)]
            desk = subprocess.Popen(words, stdout=out, stderr=subprocess.STDOUT, preexec_fn=as_a_desk)
            over, before = threading.Event(), len(self.asked)
            try:
                for at in range(self.desks):
                    wait_for(FIRST_PORT + at)
                if not is_held():
                    stop("another can lock the database while desks are open")
                if number == 0:
                    self.take_in_staff()
                disturber = threading.Thread(target=disturb, args=(desk, over, self.faults))
                disturber.start()
                self.have_asked(number, each, len(self.asked) - before)
                over.set()
                disturber.join()
                is_whole = len(self.asked) - before == each * self.desks
                if not is_whole:
                    desk.send_signal(signal.SIGINT)
                if desk.wait(60) != (0 if is_whole else -signal.SIGINT):
                    stop(f"serve ended with {desk.returncode}")
            finally:
                over.set()
                if desk.poll() is None:
                    desk.kill()
            out.seek(0)
            printed, made = out.read().decode(), len(answered(self.asked[before:]))
        if is_whole and printed != f"served {made}\n":
            stop(f"{made} calls were answered, and the program printed {printed!r}")
        return is_whole

    def take_in_staff(self):
        """By the first desk, before the others are asked."""
        for name, role in PEOPLE[1:]:
            began, call = time.monotonic_ns(), {"call": "AddStaff", "name": name, "role": role, "digest": digest(name)}
            self.asked.append(Asked(began, began, 1, "lead", call, *ask(FIRST_PORT, "lead", call)))

    def have_asked(self, number, each, already):
        """All clients ask; the first desk had some calls already."""
        told = [multiprocessing.Pipe(duplex=False) for _ in range(self.desks)]
        for at in range(self.desks):
            count = each - (0 if at else already)
            counts = [count // self.clients + (k < count % self.clients) for k in range(self.clients)]
            words = (f"{self.seed} {number}", FIRST_PORT + at, counts, self.batch, self.until, told[at][1])
            multiprocessing.Process(target=desk_clients, args=words, daemon=True).start()
            told[at][1].close()
        for receive, _ in told:
            more, failed = receive.recv()
            self.asked += more
            if failed:
                stop(failed[0])


def answered(asked):
    """Those that were answered by a call: neither a fault of the keeper nor want of memory."""
    return [one for one in asked if one.status not in (503, 507)]


def open_anew(program, matter, open_rows):
    """A desk that is opened anew takes a change of a document whose state is known."""
    unknown = {row for rows, _ in open_rows for row in rows}
    call = {"call": "SendBack", "doc": next(doc for doc in range(1, DOCUMENTS + 1) if ("document", doc) not in unknown)}
    desk = subprocess.Popen([program, "serve", "1", "1"], stdout=subprocess.PIPE, text=True)
    try:
        wait_for(FIRST_PORT)
        answer, due = ask(FIRST_PORT, "second 1", call), matter.step("second 1", call)
        printed = desk.communicate(timeout=60)[0]
    finally:
        desk.kill()
    if (answer, printed) != (due, "served 1\n"):
        stop(f"opened anew a desk answers {answer} and prints {printed!r}")


def rows_of(matter, open_rows):
    """The model's kept rows, for each state that the rows may be in; those of more than one state are few, and looked at together."""
    choices = [[(rows, state) for state in states] for rows, states in open_rows]
    for chosen in itertools.islice(itertools.product(*choices), 100000):
        for rows, state in chosen:
            load(matter, rows, state)
        yield sorted(matter.rows())


def test_rows(matter, open_rows):
    """The kept rows are the model's."""
    with contextlib.closing(sqlite3.connect("matter.db")) as connection:
        if connection.execute("PRAGMA integrity_check").fetchall() != [("ok",)]:
            stop("the database isn't sound")
        kept = connection.execute("SELECT kind, k1, k2, body FROM kept WHERE kind IN (1, 5, 6, 7, 8, 9, 10)").fetchall()
    kept = sorted((kind, k1, k2, bytes(body)) for kind, k1, k2, body in kept)
    for due in rows_of(matter, open_rows):
        if kept == due:
            return len(kept)
    other = next((pair for pair in zip(kept, due) if pair[0] != pair[1]), (len(kept), len(due)))
    stop(f"the kept rows aren't those of the calls: {other}")


def told_of(desks, took, calls):
    """What is said of a run."""
    asked, kinds = desks.asked, collections.Counter(one.status for one in desks.asked)
    cut = "" if len(asked) == calls else f" of {calls}, as the time was over,"
    answers = ", ".join(f"{status}: {count}" for status, count in sorted(kinds.items()))
    yield f"desks {desks.desks}, clients {desks.desks * desks.clients}, calls {len(asked)}{cut} in {took:.0f} s ({len(asked) / took:.0f} a second)"
    yield f"answers {answers}; kinds of calls {len({one.call['call'] for one in asked})}; the disk failed {len(desks.faults)} times"


def main(words):
    program, count, clients, calls = os.path.abspath(words[0]), *map(int, words[1:4])
    signal.signal(signal.SIGALRM, lambda *_: stop(f"it took more than {WHOLE} seconds"))
    signal.alarm(WHOLE)
    batch = list(desks_batch.documents(DOCUMENTS))
    room = tempfile.mkdtemp()
    os.chdir(room)
    try:
        desks_batch.main("B", DOCUMENTS)
        run(program, "init", digest(PEOPLE[0][0]))
        run(program, "import", "B")
        try_lock(program)
        each, began = calls // (count * ROUNDS), time.monotonic()
        desks = Desks(program, count, clients, words[4] if len(words) > 4 else "1", batch)
        all(desks.serve(number, each) for number in range(ROUNDS))
        took, matter = time.monotonic() - began, begun(batch)
        print(*told_of(desks, took, each * count * ROUNDS), sep="\n", flush=True)
        several, largest, open_rows = replayed(matter, desks.asked)
        open_anew(program, matter, open_rows)
        rows = test_rows(matter, open_rows)
    finally:
        shutil.rmtree(room, ignore_errors=True)
    print(f"one order of {len(answered(desks.asked))} calls gives every answer; {several} parts were under way at once, the largest of {largest}; "
          f"rows equal: {rows}")


if __name__ == "__main__":
    main(sys.argv[1:])
