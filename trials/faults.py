#!/usr/bin/env python3
"""Refuses each call at the database's files in turn, over small days, and turns its bits: faults.py PROGRAM KEEP [BITS] [CASE..]

Each case is a command over a folder, or a desk that is asked some requests, of growth_cases.py. A run without a refusal tells its calls (reads,
writes, cuts and syncs of `matter.db`, of its log and of their folder) and what is right. Then the Nth is refused, for each N, by faults.c, which
is compiled and preloaded: it alone; it and each after it, as where the disk is gone; and of a write its second half, as where the disk is full.
The program has to give the right answer, or to end with 5 and `keeper fault` and no file of what isn't kept. What stands has to be the rows from
before, or those of the whole command, and a whole database for sqlite3, with the right sum on each page; then the command is given again, with a
disk: it has to give the right answer over that. A desk has to reply what is right, or 503 to a call, and each call that it answered stands in the
rows. Where a refused call is kept all the same is counted apart. The files have sums, as the program makes them.

Then BITS bits (3,000 if not said, 0 for none) of a drawn matter are turned, one at a time, at least one of each page, and its volume is pressed:
of a file with sums, as the program makes it, each has to be refused with 5, the file as it was, or to change nothing; of a file without sums it is
counted how often it was refused, was the same, or was another with status 0, and which rows those bits are of; of a log with the calls of a desk
that was killed, how many of the last calls were gone (which nothing tells, as in SQLite), but never others; and of the file below that log.

KEEP has each case that ended otherwise, with its folder. Prints a table, and ends with 1 where a case ended otherwise. Takes the port 48201, in a
network of its own where that can be. Needs cc.
"""
import collections
import copy
import itertools
import os
import random
import shutil
import socket
import sqlite3
import subprocess
import sys
import tempfile
import time

sys.dont_write_bytecode = True
HERE = os.path.dirname(os.path.abspath(__file__))
sys.path.insert(0, os.path.join(HERE, "..", "tools", "tests"))
import apart  # noqa: E402
import fuzz_days as days  # noqa: E402
import fuzz_matter as matters  # noqa: E402
import page_sums  # noqa: E402
from keep.pages import size_of_pages  # noqa: E402
from growth_cases import CASES, get, post  # noqa: E402
from growths import Otherwise, Told, exchanged, files_in, is_beginning  # noqa: E402

LIMIT = 120
PORT = 48201
WAYS = {"once": {}, "lasting": {"FAULT_LASTING": "1"}, "half": {"FAULT_HALF": "1"}}
KINDS = {"r": "reads", "w": "writes", "c": "cuts", "s": "syncs"}
DATABASE = ("matter.db", "matter.db-wal")
NAMES = "init import import_again import_more produce produce_again press log claw demo serve deliver".split()
FAULT = (5, b"keeper fault\n")
NOT_KEPT = days.refusal(503, 107, "KeeperFault")
DRAWN, CALLS = ["demo", "7", "20"], 8
KINDS_OF_ROWS = dict(enumerate(
    "member of the staff,field,document,page,call,box,held field,log entry,prefix,production,batch,words of a page".split(","), 1))


def rows_in(folder, is_new=False):
    """The rows as sqlite3 reads them of a copy, so that what the program finds next is what it left; refused where they aren't whole. None
    where a new database is half made, which sqlite3 doesn't take, and the program's next open does."""
    with tempfile.TemporaryDirectory() as room:
        for name in DATABASE:
            if os.path.exists(os.path.join(folder, name)):
                shutil.copy(os.path.join(folder, name), room)
        if not os.path.exists(os.path.join(room, DATABASE[0])):
            return {}
        try:
            database = sqlite3.connect(os.path.join(room, DATABASE[0]))
            told = database.execute("PRAGMA integrity_check").fetchall()
            database.close()
            rows = days.kept_rows(room)
            wrong = list(page_sums.wrong_pages(os.path.join(room, DATABASE[0])))
        except sqlite3.Error as why:
            if is_new:
                return None
            raise Otherwise(f"sqlite3 says of matter.db: {why}") from None
    if told != [("ok",)]:
        raise Otherwise(f"sqlite3 says of matter.db: {told[:3]}")
    if wrong:
        raise Otherwise(f"the sums are wrong of the pages {wrong[:9]}")
    return rows


# ---- runs


def asked(process, data):
    """What the desk of a process replies; None where it ended before."""
    began = time.monotonic()
    while process.poll() is None:
        with socket.socket() as peer:
            peer.settimeout(LIMIT)
            try:
                peer.connect(("127.0.0.1", PORT))
                return exchanged(peer, data)
            except ConnectionRefusedError:
                if time.monotonic() - began > LIMIT:
                    raise Otherwise("no desk is opened") from None
                time.sleep(0.001)
    return None


class Command:
    """The runs of a command by the preloaded program."""

    def __init__(self, program, library, case, room):
        self.program, self.library, self.case = program, library, case
        self.template, self.folder, self.tell = (os.path.join(room, name) for name in ("template", "folder", "tell"))
        os.makedirs(self.template)
        self.matter = case.prepare(self.template)
        self.fresh()
        self.before, self.old = rows_in(self.folder), files_in(self.folder)

    def rows(self):
        return rows_in(self.folder, is_new=not self.before)

    def fresh(self):
        shutil.rmtree(self.folder, ignore_errors=True)
        shutil.copytree(self.template, self.folder)

    def start(self, words, at=0, way="once"):
        environ = {"LD_PRELOAD": self.library, "FAULT_REFUSE": str(at), "FAULT_TELL": self.tell, **WAYS[way]}
        return subprocess.Popen([self.program, *words], cwd=self.folder, env=environ, stdin=subprocess.DEVNULL, stdout=subprocess.PIPE,
                                stderr=subprocess.DEVNULL)

    def ended(self, process):
        try:
            out = process.communicate(timeout=LIMIT)[0]
        except subprocess.TimeoutExpired:
            process.kill()
            process.communicate()
            raise Otherwise(f"no end after {LIMIT} seconds") from None
        return process.returncode, out

    def calls(self):
        """A letter for each call of the last run, a capital where it was refused."""
        with open(self.tell, encoding="ascii") as file:
            return file.read().strip()

    def carried_out(self, at=0, way="once"):
        status, out = self.ended(self.start(self.case.words, at, way))
        return Told(status, out, self.rows(), files_in(self.folder))

    def begin(self):
        """What is right, and the calls."""
        self.right = self.carried_out()
        return self.calls()

    def verdict(self, at, way):
        """What became of a run with a refusal; what isn't allowed raises."""
        self.fresh()
        told = self.carried_out(at, way)
        if told == self.right:
            return "right"
        if (told.status, told.out) != FAULT:
            raise Otherwise(f"status {told.status}, {told.out!r}, rows as due: {told.rows == self.right.rows}")
        if told.rows is None and told.files == self.old:
            return "5, half made"
        if told.rows not in (self.before, self.right.rows):
            raise Otherwise("status 5, and the rows are neither those from before nor those of the command")
        if not is_beginning(told.files, self.right.files, self.old) or told.rows == self.before != self.right.rows and told.files != self.old:
            raise Otherwise(f"status 5, and other files: {sorted(told.files)}")
        return "5" if told.rows == self.before else "5, and kept"

    def again(self):
        """With a disk, over what stands."""
        due = self.right
        if self.case.name in ("init", "demo") and self.rows():
            due = due._replace(status=2, out=b"refused 42 MatterThere 0 0 0\n", files=files_in(self.folder))
        told = self.carried_out()
        if told != due:
            raise Otherwise(f"given again: status {told.status}, {told.out!r}; due was {due.status}, {due.out!r}")


class Desk(Command):
    """The runs of a desk that is asked some requests, one after another."""

    def words(self, count):
        return ["serve", "1", str(count)] if self.case.words[0] == "serve" else ["deliver", str(count), *self.case.words[1:]]

    def asked(self, requests, at=0, way="once"):
        """The replies, each None where nobody was there to give one; status and what was printed."""
        process = self.start(self.words(len(requests)), at, way)
        try:
            return [asked(process, data) for data in requests], *self.ended(process)
        finally:
            if process.poll() is None:
                process.kill()
                process.communicate()

    def begin(self):
        self.requests = self.case.requests()
        self.replies, status, out = self.asked(self.requests)
        self.right = status, out, rows_in(self.folder)
        if self.case.words[0] == "serve" and self.due(self.replies) != [self.right]:
            raise Otherwise(f"without a refusal the desk doesn't do what the model says: {status}, {out!r}")
        return self.calls()

    def due(self, replies):
        """How it may end after these replies, each a status, a line and rows: without the calls that weren't kept, and with the first of them."""
        matter, kept, made = self.matter, None, 0
        for k, (data, reply) in enumerate(zip(self.requests, replies)):
            after = copy.deepcopy(matter)
            told, is_call = days.answered(after, data)
            is_change = matters.rows_of(after) != matters.rows_of(matter)
            if reply == told:
                if kept and is_change:
                    days.answered(kept, data)
                matter, made = after, made + is_call
            elif reply == NOT_KEPT and is_change:
                kept = kept or after
            else:
                raise Otherwise(f"request {k} is replied {reply!r}; due was {told!r}")
        return [(0, f"served {made}\n".encode(), matters.rows_of(each)) for each in (matter, kept) if each]

    def verdict(self, at, way):
        self.fresh()
        replies, status, out = self.asked(self.requests, at, way)
        told = status, out, rows_in(self.folder)
        if (replies, told) == (self.replies, self.right):
            return "right"
        if all(reply is None for reply in replies):
            if told != (*FAULT, self.before):
                raise Otherwise(f"no desk was opened: status {status}, {out!r}, rows from before: {told[2] == self.before}")
            return "5"
        if self.case.words[0] == "deliver":
            raise Otherwise(f"a delivery, of which nothing is kept: status {status}, {out!r}, other replies or rows")
        allowed = self.due(replies)
        if told not in allowed:
            raise Otherwise(f"status {status}, {out!r}; due was {allowed[0][:2]}; rows as due: {told[2] == allowed[0][2]}")
        return "503" if told == allowed[0] else "503, and kept"

    def again(self):
        """The desk opens over what stands."""
        rows = rows_in(self.folder)
        replies, status, _ = self.asked([get(days.KEYS[0], "/docs/1")])
        if status != 0 or not replies[0] or not replies[0].startswith(b"HTTP/1.1 200 ") or rows_in(self.folder) != rows:
            raise Otherwise(f"opened again: status {status}, {replies!r}")


# ---- all of them


def keep(place, folder, why):
    """Keeps what ended otherwise, and says so."""
    shutil.rmtree(place, ignore_errors=True)
    shutil.copytree(folder, place)
    with open(os.path.join(place, "why"), "w", encoding="utf-8") as file:
        file.write(f"{why}\n")
    print(f"{place}: {str(why)[:400]}", flush=True)


def swept(name, program, library, kept):
    """A row of the table of a case, and whether all was as it is due."""
    case = next(case for case in CASES if case.name == name)
    found = {way: collections.Counter() for way in WAYS}
    with tempfile.TemporaryDirectory(dir="/dev/shm" if os.path.isdir("/dev/shm") else None) as room:
        trial = (Desk if case.requests else Command)(program, library, case, room)
        calls = trial.begin()
        for at, kind in enumerate(calls, 1):
            for way in WAYS if kind == "w" else ("once", "lasting"):
                try:
                    verdict = trial.verdict(at, way)
                    if trial.calls().islower():
                        raise Otherwise("nothing was refused")
                    trial.again()
                except Otherwise as why:
                    verdict = "otherwise"
                    keep(os.path.join(kept, f"{name}-{at}-{way}"), trial.folder, f"call {at} of {calls}, {KINDS[kind]}, {way}: {why}")
                found[way][verdict] += 1
    counts = "; ".join(f"{calls.count(kind)} {called}" for kind, called in KINDS.items())
    print(f"| {name} | {counts} | " + " | ".join(listed(found[way]) for way in WAYS) + " |", flush=True)
    return not any(each["otherwise"] for each in found.values())


def listed(counter):
    return ", ".join(f"{what}: {times}" for what, times in sorted(counter.items()))


# ---- bits


LOG_HEAD, FRAME_HEAD = 32, 24  # bytes, of SQLite's log


class Turned:
    """Bits of a file of a drawn matter, turned one at a time, and what `press DEMO` then does. Below them stand: the matter with its sums, as the
    program makes it; without sums, as it was made before; and with calls that a desk answered before it was killed, which stand in the log alone."""

    def __init__(self, program, kept, room, prepare, name):
        self.program, self.kept, self.name = program, kept, name
        self.template, self.folder = os.path.join(room, "template"), os.path.join(room, "folder")
        os.makedirs(self.template)
        subprocess.run([program, *DRAWN], cwd=self.template, check=True, stdout=subprocess.DEVNULL)
        shutil.rmtree(os.path.join(self.template, "out"))
        # what the rows may be, the last what is due
        self.states = prepare(program, self.template)
        self.path, self.found = os.path.join(self.folder, name), collections.Counter()
        self.fresh()
        # a log is made longer in advance, by zeros
        self.size, self.pages = len(self.bytes_of(name).rstrip(b"\0")), size_of_pages(self.bytes_of(DATABASE[0]))
        self.right = self.pressed()
        if self.right[0] != 0 or self.rows() != self.states[-1]:
            raise Otherwise(f"without a turned bit `press` gives {self.right[:2]}, rows as due: {self.rows() == self.states[-1]}")

    def fresh(self):
        shutil.rmtree(self.folder, ignore_errors=True)
        shutil.copytree(self.template, self.folder)

    def bytes_of(self, name):
        with open(os.path.join(self.folder, name), "rb") as file:
            return file.read()

    def rows(self):
        try:
            return days.kept_rows(self.folder)
        except sqlite3.Error as why:
            return f"none, by sqlite3: {why}"

    def pressed(self):
        done = subprocess.run([self.program, "press", "DEMO"], cwd=self.folder, stdin=subprocess.DEVNULL, capture_output=True, timeout=LIMIT,
                              check=False)
        return done.returncode, done.stdout, files_in(self.folder)

    def turn(self, place, bit):
        with open(self.path, "r+b") as file:
            file.seek(place)
            was = file.read(1)[0]
            file.seek(place)
            file.write(bytes([was ^ 1 << bit]))

    def places(self, count):
        """Each bit of the head, one in each page or in head and page of each frame, and so many more."""
        draw, is_log = random.Random(1), self.name == DATABASE[1]
        first, step, starts = (LOG_HEAD, FRAME_HEAD + self.pages, (0, FRAME_HEAD)) if is_log else (0, self.pages, (0,))
        found = {(place, bit) for place in range(first or 100) for bit in range(8)}
        for page in range(first, self.size, step):
            for start, end in zip(starts, (*starts[1:], step)):
                found.add((min(page + draw.randrange(start, end), self.size - 1), draw.randrange(8)))
        while len(found) < min(count, 8 * self.size):
            found.add((draw.randrange(self.size), draw.randrange(8)))
        return sorted(found)

    def with_one(self, place, bit):
        self.fresh()
        self.turn(place, bit)
        before = self.bytes_of(DATABASE[0])
        told = self.pressed()
        verdict = self.verdict(told, self.rows() if told[0] == 0 else None, self.bytes_of(DATABASE[0]) == before)
        self.found[verdict] += 1
        if verdict.startswith("otherwise"):
            keep(os.path.join(self.kept, f"bit-{self.name}-{place}-{bit}"), self.folder,
                 f"{self.what}: bit {bit} of byte {place}: {verdict}: status {told[0]}, {told[1]!r}, {len(told[2])} files")

    def go(self, count):
        """Whether nothing came that isn't allowed; prints what came."""
        places = self.places(count)
        for place, bit in places:
            self.with_one(place, bit)
        print(f"{self.what}: {len(places):,} bits of {8 * self.size:,}: {listed(self.found)}", flush=True)
        return not any(verdict.startswith("otherwise") for verdict in self.found)


class Summed(Turned):
    """A bit is found, or it is as if it hadn't turned."""

    what = "matter.db with sums"

    def verdict(self, told, rows, is_as_it_was):
        if told == (*FAULT, {}):
            return "5" if is_as_it_was else "otherwise, 5 and the file was changed"
        return "as due" if told == self.right and rows == self.states[-1] else "otherwise"


class Below(Summed):
    what = "matter.db with sums, below a log"


class Plain(Turned):
    """Nothing finds a bit of a row that is as good with it."""

    what = "matter.db without sums"

    def verdict(self, told, rows, _):
        status, out, files = told
        if status == 2 and not files:
            return f"refused {out.split()[1].decode()}"
        if status in (5, 6) and not files:
            return f"status {status}"
        if status:
            return "otherwise"
        if told == self.right and rows == self.states[-1]:
            return "as due"
        return f"another {'matter' if told == self.right else 'volume'}, by rows of: {changed(rows, self.states[-1])}"


def changed(rows, due):
    """Of which kinds the rows are that sqlite3 finds to be others."""
    if isinstance(rows, str):
        return "none, by sqlite3"
    return " and ".join(sorted({KINDS_OF_ROWS.get(key[0], "another") for key in rows.keys() | due.keys() if rows.get(key) != due.get(key)})) or "none"


class Log(Turned):
    """A bit ends the log there, as SQLite reads it: the calls from that commit on are gone, and nothing tells that they were."""

    what = "matter.db-wal"

    def verdict(self, told, rows, _):
        if told != self.right or rows not in self.states:
            return "otherwise"
        gone = len(self.states) - 1 - self.states.index(rows)
        return f"the last {gone} of {len(self.states) - 1} calls gone" if gone else "as due"


def as_made(_, folder):
    if not page_sums.has_sums(os.path.join(folder, DATABASE[0])) or any(page_sums.wrong_pages(os.path.join(folder, DATABASE[0]))):
        raise Otherwise("the program made a file without sums, or with wrong ones")
    return [days.kept_rows(folder)]


def without_sums(_, folder):
    rows = days.kept_rows(folder)
    days.write_rows(folder, rows, has_sums=False)
    return [rows]


def with_calls(program, folder):
    states = [rows_in(folder)]
    process = subprocess.Popen([program, "serve", "1", "1000"], cwd=folder, stdin=subprocess.DEVNULL, stdout=subprocess.DEVNULL)
    try:
        for number in range(CALLS):
            data = post("lead", f"/docs/{number + 1}/call", {"responsive": False, "treatment": "Produce", "designation": f"C{number}"})
            if not asked(process, data).endswith(b'{"done":true}'):
                raise Otherwise(f"call {number + 1} isn't answered as due")
            states.append(rows_in(folder))
    finally:
        process.kill()
        process.communicate()
    if any(one == other for one, other in itertools.combinations(states, 2)):
        raise Otherwise("a call changed no row")
    return states


def bits_turned(program, count, kept):
    is_well = True
    for kind, prepare, name in ((Summed, as_made, DATABASE[0]), (Plain, without_sums, DATABASE[0]),
                                (Log, with_calls, DATABASE[1]), (Below, with_calls, DATABASE[0])):
        with tempfile.TemporaryDirectory(dir="/dev/shm" if os.path.isdir("/dev/shm") else None) as room:
            is_well = kind(program, kept, room, prepare, name).go(count) and is_well
    return is_well


def main():
    if len(sys.argv) < 3:
        sys.exit(__doc__)
    program, kept = os.path.abspath(sys.argv[1]), os.path.abspath(sys.argv[2])
    bits = int(sys.argv[3]) if len(sys.argv) > 3 else 3000
    os.makedirs(kept, exist_ok=True)
    apart.in_own_network()
    is_well = True
    with tempfile.TemporaryDirectory() as room:
        library = os.path.join(room, "faults.so")
        subprocess.run(["cc", "-O2", "-shared", "-fPIC", "-o", library, os.path.join(HERE, "faults.c"), "-ldl"], check=True)
        print("| Case | Calls | Each once | From there on | Half a write |\n|---|---|---|---|---|", flush=True)
        for name in sys.argv[4:] or NAMES:
            is_well = swept(name, program, library, kept) and is_well
    if bits:
        is_well = bits_turned(program, bits, kept) and is_well
    sys.exit(0 if is_well else 1)


if __name__ == "__main__":
    main()
