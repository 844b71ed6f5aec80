#!/usr/bin/env python3
"""Refuses each growth of a program in turn, over small days: growths.py PROGRAM KEEP [SECONDS] [CASE..]

Each case is a command over a folder, or a desk that is asked some requests. A run without a refusal tells how many growths it has and what
is right. Then the Nth is refused, for each N, by growths.c, which is compiled and preloaded: the program has to give the right answer, or
to end with 6 and leave what docs/STATUSES.md says: rows as before, or those of the whole command; of its files some first ones, the last
perhaps in part. A desk has to reply what is right, or that memory ran out, or a beginning of either; the calls that it answered stand in
the rows, and one that it didn't answer may. After every sixteenth the command is given again, with memory: it has to give the right answer
over what stands. No other answer is let through. Where what is refused is a thread, two desks are served one behind the other: the answers
have to be right in that order.

KEEP has what was tried, so that the same words go on where they were left, also of another run of the same program; and each case that
ended otherwise, with its folder. First comes one N for each place of the program that growths come from; then all others, in an order that
is spread evenly at each moment. At the end, or after SECONDS, a table is printed. Names of cases run these alone; `list list` tells them.
The case `day` is the commands of a day over one folder: behind the one of which a growth was refused it is given again, and the others follow.
The cases `lines_..` are bp_test_codecs over files of lines; it is looked for beside PROGRAM, in crates/bp_test_codecs/out, and where LINES says.

A name that ends in +lasting has each growth from the Nth on refused, as where memory stays full (not of a desk or a day); one that ends in
+libc has also those refused that the C library makes for itself: the system then fails in other ways, so that also the answers 3, 4, 5 and 7
may come. Takes the ports 48201 and 48202, in a network of its own where that can be. Needs cc.
"""
import collections
import copy
import hashlib
import os
import shutil
import signal
import socket
import sqlite3
import struct
import subprocess
import sys
import tempfile
import time

sys.dont_write_bytecode = True
HERE = os.path.dirname(os.path.abspath(__file__))
sys.path.insert(0, os.path.join(HERE, "..", "tools", "tests"))
import apart  # noqa: E402
import fuzz_days as days  # noqa: E402
import fuzz_matter as matters  # noqa: E402
from growth_cases import CASES, get  # noqa: E402

LIMIT = 300
LACKS = b"out of memory\n"
AT_ONCE = 50  # of a case, before the next has its turn
AGAIN = 16
WORDS, INNERMOST = 27, 9  # of a record of growths.c; of its places
FIRST_PORT = 48201
SOON = 5  # seconds, before desks are looked for that are served in turn
NO_MEMORY = (b"HTTP/1.1 507 Insufficient Storage\r\nContent-Type: application/json\r\nContent-Length: 54\r\nConnection: close\r\n\r\n"
             b'{"a":0,"b":0,"line":0,"name":"OutOfMemory","rule":108}')


class Otherwise(Exception):
    """The program does what no answer allows."""


class InTurn(Exception):
    """No thread was started, so the desks are served one behind another, each until all its connections were taken."""


# ---- what stands


def rows_in(folder):
    place = os.path.join(folder, "matter.db")
    if not os.path.exists(place):
        return {}
    try:
        return days.kept_rows(folder)
    except sqlite3.Error as why:
        raise Otherwise(f"matter.db can't be read: {why}") from None


def files_in(folder):
    return days.files_below(os.path.join(folder, "out"))


def in_order(files):
    """The paths of volumes in the order in which they are written: that of the manifest of each, which comes last."""
    manifests = sorted(path for path in files if path.endswith("/MANIFEST.TXT"))
    if not manifests:
        return sorted(files)
    return [path for last in manifests for path in [*(line.split("  ", 1)[1] for line in files[last].decode().splitlines()), last]]


def is_beginning(files, whole, old):
    """Whether these files are some first ones of the whole, the last perhaps in part, beside those that stood there."""
    rest = dict(files)
    for at, path in enumerate(in_order(whole)):
        found = rest.pop(path, None)
        if found == whole[path]:
            continue
        is_cut = found is not None and whole[path].startswith(found)
        after = in_order(whole)[at + 1 :]
        return (found == old.get(path) or is_cut) and all(rest.pop(other, None) == old.get(other) for other in after) and rest == other_files(old, whole)
    return rest == other_files(old, whole)


def other_files(old, whole):
    return {path: data for path, data in old.items() if path not in whole}


Told = collections.namedtuple("Told", "status out rows files")


# ---- runs


class Trial:
    """The runs of a case by the preloaded program."""

    errors = subprocess.DEVNULL

    def __init__(self, program, library, case, mode, room):
        self.program, self.library, self.case, self.mode = program, library, case, mode
        self.template, self.folder = os.path.join(room, "template"), os.path.join(room, "folder")
        self.tell, self.list = os.path.join(room, "tell"), os.path.join(room, "list")
        shutil.rmtree(self.template, ignore_errors=True)
        os.makedirs(self.template)
        self.matter = case.prepare(self.template)
        self.fresh()
        self.before, self.old = rows_in(self.folder), files_in(self.folder)

    def fresh(self):
        shutil.rmtree(self.folder, ignore_errors=True)
        shutil.copytree(self.template, self.folder)

    def start(self, at, words):
        environ = {"LD_PRELOAD": self.library, "GROWTH_REFUSE": str(at), "GROWTH_TELL": self.tell}
        if "lasting" in self.mode:
            environ["GROWTH_LASTING"] = "1"
        if "libc" in self.mode:
            environ["GROWTH_LIBC"] = "1"
        if "alone" in self.mode:
            environ["GROWTH_ALONE"] = "1"
        if "list" in self.mode:
            environ["GROWTH_LIST"] = self.list
        if os.path.exists(self.tell):
            os.remove(self.tell)
        return subprocess.Popen([self.program, *words], cwd=self.folder, env=environ, stdin=subprocess.DEVNULL, stdout=subprocess.PIPE,
                                stderr=self.errors)

    def ended(self, process):
        try:
            out = process.communicate(timeout=LIMIT)[0]
        except subprocess.TimeoutExpired:
            process.kill()
            process.communicate()
            raise Otherwise(f"no end after {LIMIT} seconds") from None
        return process.returncode, out

    def counts(self):
        """How many growths the last run had, and how many were refused."""
        with open(self.tell, encoding="ascii") as file:
            words = file.read().split()
        return int(words[1]), int(words[3])

    def carried_out(self, at):
        status, out = self.ended(self.start(at, self.case.words))
        return Told(status, out, rows_in(self.folder), files_in(self.folder))

    def is_right(self, at):
        """Refuses one growth. Whether the answer was right all the same; another that is none raises."""
        self.fresh()
        told = self.carried_out(at)
        if told == self.right:
            return "right"
        if told.status != 6:
            self.let_through(told)
            return str(told.status)
        if not LACKS.startswith(told.out) and not (self.right.status == 0 and self.right.out.startswith(told.out)):
            raise Otherwise(f"status 6 and the line {told.out!r}")
        self.stands(told)
        return "6"

    def let_through(self, told):
        if "libc" in self.mode and (told.status, told.out) in ((3, b"source fault\n"), (4, b"folder fault\n"), (5, b"keeper fault\n"), (7, b"")):
            self.stands(told)
        else:
            what = [name for name in Told._fields if getattr(told, name) != getattr(self.right, name)]
            raise Otherwise(f"status {told.status}, {told.out!r}; due was {self.right.status}, {self.right.out!r}, or 6; other than right: {what}")

    def stands(self, told):
        if told.rows not in (self.before, self.right.rows):
            raise Otherwise(f"status {told.status}, and the rows are neither those from before nor those of the command")
        if not is_beginning(told.files, self.right.files, self.old):
            raise Otherwise(f"status {told.status}, and the files are no beginning: {sorted(told.files)}")
        if self.right.rows != self.before and told.rows == self.before and told.files != self.old:
            raise Otherwise(f"status {told.status}, and there are files of a command whose rows aren't kept")

    def sites(self):
        """Of each place in the program that growths come from, by the innermost calls on the stack, the first growth."""
        self.fresh()
        self.mode.append("list")
        self.whole_run()
        self.mode.remove("list")
        found = {}
        with open(self.list, "rb") as file:
            at = 1
            while (record := struct.unpack(f"<{WORDS}Q", file.read(8 * WORDS)))[0]:
                found.setdefault(record[3 : 3 + INNERMOST], at)
                at += 1
        os.remove(self.list)
        return list(found.values())

    def whole_run(self):
        self.carried_out(0)

    def again(self):
        """With memory, over what stands."""
        due = self.right
        if self.case.name in ("init", "demo") and rows_in(self.folder):
            due = due._replace(status=2, out=b"refused 42 MatterThere 0 0 0\n", files=files_in(self.folder))
        told = self.carried_out(0)
        if told != due:
            raise Otherwise(f"given again: status {told.status}, {told.out!r}")

    def carry_on(self):
        """With memory, where the day goes on behind another command's want of it."""
        told = self.carried_out(0)
        if told != self.right:
            raise Otherwise(f"the day goes on: {self.case.words[:1]} gives {told.status}, {told.out!r}; due was {self.right.status}, {self.right.out!r}")

    def begin(self):
        """What is right, and how many growths there are. Where no thread can be started the same is right."""
        self.right = self.carried_out(0)
        if self.case.name == "demo" and self.right.status == 1:
            raise Otherwise("the program knows no demo")
        count = self.counts()[0]
        self.fresh()
        self.mode.append("alone")
        alone = self.carried_out(0)
        self.mode.remove("alone")
        if alone != self.right:
            raise Otherwise(f"without threads: status {alone.status}, {alone.out!r}; with them {self.right.status}, {self.right.out!r}")
        return count


class Desk(Trial):
    """The runs of a desk that is asked some requests, one after another."""

    def __init__(self, *words):
        super().__init__(*words)
        self.desks = int(self.case.words[1]) if self.case.words[0] == "serve" else 1
        self.requests = self.case.requests()
        self.requests = self.requests[: len(self.requests) // self.desks * self.desks]
        count = str(len(self.requests) // self.desks)
        self.words = [*self.case.words, count] if self.case.words[0] == "serve" else ["deliver", count, *self.case.words[1:]]

    def asked(self, at):
        """The replies, each None where nobody was there to give one; status and what was printed."""
        process = self.start(at, self.words)
        replies = []
        try:
            for k, data in enumerate(self.requests):
                replies.append(self.reply(process, FIRST_PORT + k % self.desks, data))
            return replies, *self.ended(process)
        finally:
            if process.poll() is None:
                process.kill()
                process.communicate()

    def reply(self, process, port, data):
        began = time.monotonic()
        while process.poll() is None:
            peer = socket.socket()
            peer.settimeout(LIMIT)
            try:
                peer.connect(("127.0.0.1", port))
                return exchanged(peer, data)
            except ConnectionRefusedError:
                if time.monotonic() - began > LIMIT:
                    raise Otherwise("no desk is opened") from None
                if self.desks > 1 and time.monotonic() - began > SOON and is_alone(process) and open_desks():
                    raise InTurn from None
                time.sleep(0.001)
            finally:
                peer.close()
        return None

    def begin(self):
        replies, status, out = self.asked(0)
        self.count = self.counts()[0]
        self.rows = rows_in(self.folder)
        # what is due with all requests, and where the one at a place made no call
        self.due = {None: self.of_model(None)} if self.matter else {None: (replies, status, out, self.rows)}
        if self.due[None] != (replies, status, out, self.rows):
            at = next((k for k, pair in enumerate(zip(replies, self.due[None][0])) if pair[0] != pair[1]), None)
            raise Otherwise(f"without a refusal the desk doesn't do what the model says: {status}, {out!r}, from request {at}")
        return self.count

    def of_model(self, left_out):
        matter, replies, made = copy.deepcopy(self.matter), [], 0
        for k, data in enumerate(self.requests):
            if k == left_out:
                replies.append(None)
                continue
            due, is_call = days.answered(matter, data)
            replies.append(due)
            made += is_call
        return replies, 0, f"served {made}\n".encode(), matters.rows_of(matter)

    def whole_run(self):
        self.asked(0)

    def without(self, at):
        """What is due where the request at a place made no call: by the model, or by a run of the desk without it."""
        if at not in self.due:
            if self.matter:
                self.due[at] = self.of_model(at)
            else:
                left = self.requests
                self.requests = left[:at] + left[at + 1 :]
                words, self.words = self.words, ["deliver", str(len(self.requests)), *self.words[2:]]
                self.fresh()
                replies, status, out = self.asked(0)
                self.due[at] = (replies[:at] + [None] + replies[at:], status, out, rows_in(self.folder))
                self.requests, self.words = left, words
        return self.due[at]

    def in_turn(self, at):
        """Asks the desks one behind another, as they are opened."""
        self.fresh()
        process = self.start(at, self.words)
        matter, left, replies, due, made = copy.deepcopy(self.matter), set(range(self.desks)), [], [], 0
        try:
            while left:
                began = time.monotonic()
                while not (found := left & open_desks()):
                    if process.poll() is not None or time.monotonic() - began > LIMIT:
                        raise Otherwise(f"no other desk is opened, though {len(left)} are left")
                    time.sleep(0.01)
                desk = found.pop()
                left.remove(desk)
                for data in self.requests[desk :: self.desks]:
                    told, is_call = days.answered(matter, data)
                    made += is_call
                    due.append(told)
                    replies.append(self.reply(process, FIRST_PORT + desk, data))
            status, out = self.ended(process)
        finally:
            if process.poll() is None:
                process.kill()
                process.communicate()
        if (replies, status, out, rows_in(self.folder)) != (due, 0, f"served {made}\n".encode(), matters.rows_of(matter)):
            raise Otherwise(f"desks in turn: {status}, {out!r}; due was {made} calls")
        return "in turn"

    def is_right(self, at):
        self.fresh()
        try:
            replies, status, out = self.asked(at)
        except InTurn:
            return self.in_turn(at)
        rows = rows_in(self.folder)
        if (replies, status, out, rows) == self.due[None]:
            return "right"
        if status == 6 and all(reply is None for reply in replies):
            if not LACKS.startswith(out) or rows != self.before:
                raise Otherwise(f"no desk was opened: status 6, {out!r}, and rows are those from before: {rows == self.before}")
            return "6"
        lacking = [k for k, reply in enumerate(replies) if reply != self.due[None][0][k]]
        place = lacking[0] if lacking else len(replies)
        for due in [self.due[None]] + ([self.without(place)] if lacking else []):
            if self.is_allowed(due, place, replies, status, out, rows):
                return "6" if status == 6 else "507" if replies[place] == NO_MEMORY else "cut"
        raise Otherwise(f"status {status}, {out!r}; from request {place} on: {replies[place:][:2]!r}; due was {self.due[None][0][place:][:2]!r}")

    def is_allowed(self, due, place, replies, status, out, rows):
        """Whether these are the replies that are due, but for one at the place where memory ran out; and what was printed."""
        for k, (reply, wanted) in enumerate(zip(replies, due[0])):
            if k == place:
                if reply is None or not (NO_MEMORY.startswith(reply) or (self.due[None][0][k] or b"").startswith(reply)):
                    return False
            elif reply != wanted:
                return False
        ends = status == 0 and out == due[2] or status == 6 and (LACKS.startswith(out) or due[2].startswith(out))
        return ends and rows == due[3]

    def again(self):
        """The desk opens over what stands."""
        rows = rows_in(self.folder)
        left, self.requests = self.requests, [get(days.KEYS[0], "/docs/1")]
        words, self.words = self.words, [self.words[0], "1", *(["1"] if self.words[0] == "serve" else self.words[2:])]
        replies, status, _ = self.asked(0)
        self.requests, self.words = left, words
        if status != 0 or not replies[0].startswith(b"HTTP/1.1 200 ") or rows_in(self.folder) != rows:
            raise Otherwise(f"opened again: status {status}, {replies!r}")


class DeskInDay(Desk):
    """The same where the day goes on: a request that isn't answered is asked once more, at once, and has the right answer then."""

    def is_right(self, at):
        self.fresh()
        verdict, left, made, process = "right", 1, 0, None
        due = self.due[None]
        words = ["serve", "1", str(len(self.requests) + 1)]
        try:
            process = self.start(at, words)
            for k, data in enumerate(self.requests):
                reply = self.reply(process, FIRST_PORT, data)
                if reply is None and k == 0:
                    verdict, process = self.opened_again(process, words)
                elif reply is not None and reply != due[0][k] and left:
                    if not NO_MEMORY.startswith(reply) and not due[0][k].startswith(reply):
                        raise Otherwise(f"request {k} of the day is replied {reply!r}")
                    verdict, left = "507" if reply == NO_MEMORY else "cut", 0
                else:
                    self.is_due(k, reply)
                    continue
                self.is_due(k, self.reply(process, FIRST_PORT, data))
            if left:
                self.is_seen(self.reply(process, FIRST_PORT, get(days.KEYS[0], "/docs/1")))
            status, out = self.ended(process)
        finally:
            if process.poll() is None:
                process.kill()
                process.communicate()
        made = int(due[2].split()[1]) + 1
        if (status, out) not in ((0, b"served %d\n" % k) for k in (made - 1, made)) and not (status == 6 and LACKS.startswith(out)):
            raise Otherwise(f"the desk of the day ends with {status}, {out!r}, and {made} calls were made")
        if rows_in(self.folder) != due[3]:
            raise Otherwise("the rows after the desk of the day aren't those of its calls")
        return "6" if status == 6 and verdict == "right" else verdict

    def opened_again(self, process, words):
        status, out = self.ended(process)
        if status != 6 or not LACKS.startswith(out) or rows_in(self.folder) != self.before:
            raise Otherwise(f"no desk was opened: {status}, {out!r}")
        return "6", self.start(0, words)

    def is_due(self, k, reply):
        if reply != self.due[None][0][k]:
            raise Otherwise(f"request {k} of the day is replied {reply!r}; due is {self.due[None][0][k]!r}")

    def is_seen(self, reply):
        if reply is None or not reply.startswith((b"HTTP/1.1 200 ", b"HTTP/1.1 507 ")):
            raise Otherwise(f"a document is replied {reply!r}")

    def again(self):
        """All was asked to its end already."""

    def carry_on(self):
        replies, status, out = self.asked(0)
        if (replies, status, out, rows_in(self.folder)) != self.due[None]:
            raise Otherwise(f"the desk of the day with memory: {status}, {out!r}")


class Day:
    """The commands of a day over one folder, one after another. Where a growth of one is refused it is given again, with memory, and the
    others follow it: each has the right answer. What stands before a command was left there by the commands before it."""

    def __init__(self, program, library, case, mode, room):
        self.folder, self.steps, self.words = os.path.join(room, "folder"), [], ["init .. check"]
        self.made = program, library, mode, room
        os.makedirs(self.folder)
        case.prepare(self.folder)
        self.case, self.counts = case, []

    def begin(self):
        program, library, mode, room = self.made
        before = self.folder
        for k, case in enumerate(self.case.steps):
            place = os.path.join(room, f"{k}")
            os.makedirs(place)
            step = (DeskInDay if case.requests else Trial)(program, library, case._replace(prepare=left_by(before, case.prepare)), mode, place)
            self.counts.append(step.begin())
            before = os.path.join(place, "after")
            shutil.copytree(step.folder, before)
            step.between = case.prepare
            self.steps.append(step)
        return sum(self.counts)

    def step_of(self, at):
        for step, count in zip(self.steps, self.counts):
            if at <= count:
                return step, at
            at -= count
        return self.steps[-1], at

    def sites(self):
        found, passed = [], 0
        for step, count in zip(self.steps, self.counts):
            found += [passed + at for at in step.sites()]
            passed += count
        return found

    def is_right(self, at):
        step, own = self.step_of(at)
        self.folder = step.folder
        verdict = step.is_right(own)
        step.again()
        for later in self.steps[self.steps.index(step) + 1 :]:
            shutil.rmtree(later.folder, ignore_errors=True)
            shutil.copytree(self.folder, later.folder)
            later.between(later.folder)
            self.folder = later.folder
            later.carry_on()
        return verdict

    def again(self):
        """Each was given again."""


def left_by(before, prepare):
    """What a command of the day begins with: what stands behind the one before it."""
    def prepared(folder):
        shutil.copytree(before, folder, dirs_exist_ok=True)
        prepare(folder)
        rows = rows_in(folder)
        return matters.load(rows) if rows else None
    return prepared


class Lines(Trial):
    """The runs of bp_test_codecs over files of lines. Where memory runs out a line is told so, and what follows it in its file may be told
    otherwise as well; where it runs out for the words of a line, which bp_test_words reads, that is told as not read; where it does for one of
    two readers whose answers the program compares, that they differ; or the program ends with 1, and says on standard error why."""

    TOLD = {"out of memory": "told", "not read": "not read", "the two readers differ": "one reader"}

    def __init__(self, program, library, case, mode, room):
        beside = [os.path.join(os.path.dirname(program), "bp_test_codecs"), os.path.join(HERE, "..", "crates", "bp_test_codecs", "out", "bp_test_codecs")]
        found = [place for place in (os.environ.get("LINES"), *beside) if place and os.path.exists(place)]
        if not found:
            raise Otherwise("there is no bp_test_codecs beside the program")
        super().__init__(os.path.abspath(found[0]), library, case, mode, room)
        self.words = sorted(os.listdir(self.template), key=lambda name: int(name.split(".")[0]))
        self.case = case._replace(words=self.words)
        self.errors = tempfile.TemporaryFile()

    def begin(self):
        count = super().begin()
        if self.right.status != 0 or not self.right.out.endswith(b" lines, 0 of them told otherwise\n"):
            raise Otherwise(f"bp_test_codecs tells {self.right.out!r}")
        return count

    def is_right(self, at):
        self.fresh()
        self.errors.seek(0)
        self.errors.truncate()
        told = self.carried_out(at)
        if told == self.right:
            return "right"
        lines, lacking, verdict = told.out.decode("utf-8", "replace").split("\n"), set(), "1"
        others = 0
        for k, line in enumerate(lines):
            name, _, rest = line.partition(":")
            text = rest.partition(": ")[2]
            if name in lacking or name in self.words and text in self.TOLD:
                verdict = verdict if name in lacking else self.TOLD[text]
                lacking.add(name)
                others += 1
            elif line and line != self.right.out.decode().replace(" 0 of", f" {others} of").rstrip("\n") and k + 1 < len(lines):
                raise Otherwise(f"bp_test_codecs tells {line!r}, status {told.status}")
        self.errors.seek(0)
        why = self.errors.read()
        if told.status != 0 and (told.status != 1 or b"memory" not in why and b"no page is made" not in why):
            raise Otherwise(f"bp_test_codecs ends with {told.status}, {why!r}")
        if told.status == 0 and not lacking:
            raise Otherwise(f"bp_test_codecs tells {told.out!r}")
        return verdict if told.status == 0 else "1"

    def again(self):
        """Nothing is left behind."""


def is_alone(process):
    return len(os.listdir(f"/proc/{process.pid}/task")) == 1


def open_desks():
    """The desks, from 0, at whose ports somebody listens."""
    with open("/proc/net/tcp", encoding="ascii") as file:
        rows = [line.split() for line in file.readlines()[1:]]
    return {int(row[1].split(":")[1], 16) - FIRST_PORT for row in rows if row[3] == "0A"} & set(range(16))


def exchanged(peer, data):
    try:
        peer.sendall(data)
        peer.shutdown(socket.SHUT_WR)
    except OSError:
        pass
    out = b""
    try:
        while piece := peer.recv(65536):
            out += piece
    except ConnectionResetError:
        pass
    except TimeoutError:
        raise Otherwise("a desk doesn't reply") from None
    return out


# ---- all of them


def spread(count):
    """1 to count in an order that is spread evenly at each moment: by the digits of the places turned about."""
    bits = max(count - 1, 1).bit_length()
    for k in range(1 << bits):
        at = int(f"{k:0{bits}b}"[::-1], 2)
        if at < count:
            yield at + 1


class Sweep:
    """A case and what was tried of it."""

    def __init__(self, name, program, library, keep, sum_):
        self.name, self.keep = name, keep
        base, *mode = name.split("+")
        self.case = next(case for case in CASES if case.name == base)
        if (self.case.requests or self.case.steps) and "lasting" in mode:
            raise Otherwise("of a desk or a day one growth is refused, not all from there on")
        self.room = tempfile.mkdtemp(dir="/dev/shm" if os.path.isdir("/dev/shm") else None)
        kind = Desk if self.case.requests else Day if self.case.steps else Lines if self.case.is_lines else Trial
        self.trial = kind(program, library, self.case, mode, self.room)
        self.count = self.trial.begin()
        self.place = os.path.join(keep, f"{name}-{sum_}.tried")
        self.tried = {}
        if os.path.exists(self.place):
            with open(self.place, encoding="ascii") as file:
                self.tried = {int(at): verdict for at, verdict in (line.split() for line in file if line.count(" ") == 1)}
        sites = self.trial.sites()
        self.site_count = len(sites)
        first = [sites[at - 1] for at in spread(len(sites))] if sites else []
        self.left = iter([at for at in dict.fromkeys([*first, *spread(self.count)]) if at not in self.tried])

    def go(self, times):
        """Tries so many more. Whether any was left."""
        with open(self.place, "a", encoding="ascii") as file:
            for _ in range(times):
                at = next(self.left, None)
                if at is None:
                    return False
                verdict = self.one(at)
                self.tried[at] = verdict
                file.write(f"{at} {verdict}\n")
                file.flush()
        return True

    def one(self, at):
        try:
            verdict = self.trial.is_right(at)
            if at % AGAIN == 0:
                self.trial.again()
            return verdict
        except Otherwise as why:
            kept = os.path.join(self.keep, f"{self.name}-{at}")
            shutil.rmtree(kept, ignore_errors=True)
            shutil.copytree(self.trial.folder, kept)
            with open(os.path.join(kept, "why"), "w", encoding="utf-8") as file:
                file.write(f"growth {at} of {self.count} refused ({self.name}): {why}\n{self.case.words}\n")
            print(f"{kept}: {str(why)[:400]}", flush=True)
            return "otherwise"

    def row(self):
        verdicts = collections.Counter(self.tried.values())
        told = ", ".join(f"{verdict}: {times}" for verdict, times in sorted(verdicts.items()))
        words = getattr(self.trial, "words", self.trial.case.words)
        return f"| {self.name} | {' '.join(words)[:60]} | {self.count} | {self.site_count} | {len(self.tried)} | {told} |"

    def end(self):
        shutil.rmtree(self.room, ignore_errors=True)


def main():
    if len(sys.argv) < 3:
        sys.exit(__doc__)
    if sys.argv[1:] == ["list", "list"]:
        sys.exit(" ".join(case.name for case in CASES))
    program, keep = os.path.abspath(sys.argv[1]), os.path.abspath(sys.argv[2])
    seconds = float(sys.argv[3]) if len(sys.argv) > 3 else float("inf")
    names = sys.argv[4:] or [case.name for case in CASES]
    os.makedirs(keep, exist_ok=True)
    apart.in_own_network()
    signal.signal(signal.SIGTERM, lambda *_: sys.exit("ended"))
    began, failed, sweeps = time.monotonic(), False, []
    with open(program, "rb") as file:
        sum_ = hashlib.sha256(file.read()).hexdigest()[:12]
    library = os.path.join(tempfile.mkdtemp(), "growths.so")
    subprocess.run(["cc", "-O2", "-shared", "-fPIC", "-o", library, os.path.join(HERE, "growths.c"), "-ldl"], check=True)
    try:
        for name in names:
            try:
                sweeps.append(Sweep(name, program, library, keep, sum_))
            except Otherwise as why:
                failed = True
                print(f"{name}: {why}", flush=True)
        going = list(sweeps)
        while going and time.monotonic() - began < seconds:
            for sweep in list(going):
                if time.monotonic() - began >= seconds:
                    break
                if not sweep.go(AT_ONCE):
                    going.remove(sweep)
    finally:
        print("| Case | Words | Growths | Places | Tried | Answers |\n|---|---|---|---|---|---|")
        for sweep in sweeps:
            print(sweep.row())
            sweep.end()
        shutil.rmtree(os.path.dirname(library))
    sys.exit(1 if failed or any("otherwise" in sweep.tried.values() for sweep in sweeps) else 0)


if __name__ == "__main__":
    main()
