#!/usr/bin/env python3
"""Limits of docs/STATUSES.md and docs/FORMATS.md, those of docs/LIMITS.md, at their size and one above: at_limits.py PROGRAM [PART..]. Prints a
line of a table for each: what it is, status, line, seconds on the clock, and the peak of memory in MB. Ends with status 1
where a status or a line isn't what is due, or a command hasn't ended after AT_LIMITS_SECONDS (1,800 where that isn't set).

Parts that run where none is named: burns, documents, fields, columns, batches, import_files, check_heights, check_files,
names, numbers, connections, largest_matter, productions, requests, delivered, desks, demos. By name alone, as they take
minutes: pixels, a matter of 200,000,000,000; journal, desks of 1,048,576 calls, by serve_client.c, which needs cc;
strips, a matter of 2,000,000,000 bytes of strips, which takes 7 GB of memory and 5 GB where temporary files stand. The others
need 2 GB there. Takes the ports 48201 to 48216, in a network of its own where that can be.
"""
import functools
import hashlib
import json
import os
import re
import shutil
import signal
import sqlite3
import subprocess
import sys
import tempfile
import time

sys.dont_write_bytecode = True
HERE = os.path.dirname(os.path.abspath(__file__))
BENCH = os.path.join(HERE, "..", "bench")
for folder in (os.path.join(HERE, "..", "tools", "tests"), BENCH):
    sys.path.insert(0, folder)
import apart
import demo_model
import fuzz_batch as batches
import fuzz_days as days
import fuzz_loads as loads
import fuzz_matter as matters
import fuzz_pages as pages
import t6_model

KEY, MB = days.KEYS[0], 1024
days.LIMIT = LIMIT = int(os.environ.get("AT_LIMITS_SECONDS", "1800"))  # a large file, a machine with other work
DIGEST = days.DIGESTS[0]
failed = 0


class Starter:
    """A small process that starts the program: the system counts the memory of a process from the fork on, and this one never holds a file."""

    def __init__(self):
        (asked, self.asks), (self.tells, told) = os.pipe(), os.pipe()
        self.process = os.fork()
        if self.process == 0:
            os.setpgid(0, 0)
            os.close(self.asks)
            with os.fdopen(asked, encoding="utf-8") as lines, os.fdopen(told, "w", encoding="utf-8") as out:
                for line in lines:
                    print(json.dumps(carried_out(*json.loads(line))), file=out, flush=True)
            os._exit(0)
        os.close(asked), os.close(told)
        self.told = os.fdopen(self.tells, encoding="utf-8")

    def start(self, words, folder, out):
        os.write(self.asks, (json.dumps([words, folder, out]) + "\n").encode())

    def end(self):
        """Status, seconds, peak of memory in KB."""
        return json.loads(self.told.readline())

    def close(self):
        for each in (self.process, -self.process):
            try:
                os.kill(each, signal.SIGKILL)
            except ProcessLookupError:
                pass


def carried_out(words, folder, out):
    began = time.monotonic()
    with open(out, "wb") as file:
        process = subprocess.Popen(words, cwd=folder, stdin=subprocess.DEVNULL, stdout=file, stderr=subprocess.DEVNULL)
    signal.signal(signal.SIGALRM, lambda *_: process.kill())
    signal.alarm(LIMIT)
    _, code, used = os.wait4(process.pid, 0)
    signal.alarm(0)
    return os.waitstatus_to_exitcode(code), time.monotonic() - began, used.ru_maxrss


class Room:
    def __init__(self, program):
        self.program = os.path.abspath(program)
        self.folder, self.out = tempfile.mkdtemp(), tempfile.mkstemp()[1]
        self.starter = Starter()

    def close(self):
        self.starter.close()
        shutil.rmtree(self.folder)
        os.remove(self.out)

    def fresh(self):
        shutil.rmtree(self.folder)
        os.makedirs(self.folder)

    def write(self, path, data):
        batches.write_folder(self.folder, {path: data})

    def start(self, words):
        self.starter.start([self.program, *words], self.folder, self.out)

    def end(self, what, status, line):
        """Waits, and prints a line of the table; a line that begins with ^ is a pattern."""
        global failed
        found, took, memory = self.starter.end()
        with open(self.out, encoding="utf-8", errors="replace") as file:
            told = file.read().rstrip("\n")
        fits = re.fullmatch(line[1:], told) if line.startswith("^") else told == line
        good = found == status and bool(fits)
        failed += not good
        print(f"| {what} | {found} | `{told[:76]}` | {took:.2f} | {memory / MB:.0f} |"
              + ("" if good else f" NOT AS DUE: {status} {line}"), flush=True)

    def check(self, what, status, line, *words):
        self.start(words)
        self.end(what, status, line)

    def check_refused(self, what, rule, *words):
        self.check(what, 2, rule.told(), *words)


WHITE = pages.tiff_around(pages.Page(8, 1, [[]]), b"\x80\x08\x00\x80", "g4")


def white_page(width, height):
    """A Group 4 file of white rows: each is one bit."""
    bits = "1" * height + "000000000001" * 2
    bits += "0" * (-len(bits) % 8)
    return pages.tiff_around(pages.Page(width, height, []), int(bits, 2).to_bytes(len(bits) // 8, "big"), "g4")


def burns(room):
    for width, height in ((20000, 1), (1, 20000), (20000, 10000)):
        room.write("in.tif", white_page(width, height))
        for form in ("plain", "g4"):
            room.check(f"`burn`, a page of {width:,} by {height:,}, to {form}", 0, "^burned [0-9]+", "burn", "in.tif", "0", "0", "1", "1", "b.tif", form)
    for width, height in ((20001, 1), (1, 20001), (20000, 10001)):
        room.write("in.tif", white_page(width, height))
        room.check_refused(f"`burn`, a page of {width:,} by {height:,}", matters.Rule(62, width, height), "burn", "in.tif", "0", "0", "1", "1", "b.tif", "plain")
    for more in (0, 1):
        with open(os.path.join(room.folder, "in.tif"), "wb") as file:
            file.write(WHITE)
            file.truncate(batches.MOST + more)
        words = ("burn", "in.tif", "0", "0", "1", "1", "b.tif", "plain")
        if more:
            room.check_refused(f"`burn`, a file of {batches.MOST + 1:,} bytes", matters.Rule(55), *words)
        else:
            room.check(f"`burn`, a file of {batches.MOST:,} bytes", 0, "burned 187", *words)


def draw_name(k):
    return f"F{k}".ljust(64, "x")


def batch_of(room, name, docs, count, columns=(), image=WHITE):
    """A batch of so many documents of so many pages each, all of them one image; `count` may be a list."""
    counts = count if isinstance(count, list) else [count] * docs
    opt = [(f"D{k}-{p}", "", "a.tif", p == 0, False, False, "") for k, n in enumerate(counts) for p in range(n)]
    records = [[f"D{k}-0", "", *("x" for _ in columns)] for k in range(docs)]
    batches.write_folder(os.path.join(room.folder, name), {
        "load.dat": loads.dat_of(["BEGDOC", "BEGATTACH", *columns], records), "load.opt": loads.opt_of(opt), "words.csv": b"",
        "a.tif": image})


def begin(room):
    room.fresh()
    days.write_rows(room.folder, matters.rows_of(matters.begun(DIGEST)))


def documents(room):
    begin(room)
    batch_of(room, "A", 10001, 1)
    room.check_refused("`import` of 10,001 documents", matters.Rule(35, 1, 10001), "import", "A")
    batch_of(room, "B", 10000, [3] + [2] * 9999)
    room.check_refused("`import` of 20,001 pages", matters.Rule(35, 2, 20001), "import", "B")


def pixels(room):
    begin(room)
    batch_of(room, "Q", 1, 1000, image=white_page(20000, 10000))
    room.check("`import` of 200,000,000,000 pixels", 0, "batch Q documents 1 pages 1000", "import", "Q")
    batch_of(room, "R", 1, 1)
    room.check_refused("`import` of 8 pixels more", matters.Rule(35, 3, 200000000008), "import", "R")
    begin(room)
    batch_of(room, "P", 1, 1001, image=white_page(20000, 10000))
    room.check_refused("`import` of 200,200,000,000 pixels", matters.Rule(35, 3, 200200000000), "import", "P")


def fields(room):
    begin(room)
    batch_of(room, "F", 1, 1, [f"F{k}" for k in range(65)])
    room.check_refused("`import` of 65 fields", matters.Rule(35, 4, 65), "import", "F")
    batch_of(room, "G", 1, 1, [f"F{k}" for k in range(64)])
    room.check("`import` of 64 fields", 0, "batch G documents 1 pages 1", "import", "G")
    batch_of(room, "H", 1, 1, ["F64"])
    room.check_refused("`import` of one field more", matters.Rule(35, 4, 65), "import", "H")


def columns(room):
    """Names of columns, and of a batch."""
    begin(room)
    batch_of(room, "A", 1, 1, ["x" * 65])
    room.check_refused("`import`, the name of a column of 65 bytes", matters.Rule(52), "import", "A")
    batch_of(room, "B", 1, 1, ["x" * 64])
    room.check("`import`, the name of a column of 64 bytes", 0, "batch B documents 1 pages 1", "import", "B")
    batch_of(room, "C" * 33, 1, 1)
    room.check_refused("`import`, a batch with a name of 33 characters", matters.Rule(63), "import", "C" * 33)
    batch_of(room, "C" * 32, 1, 1)
    room.check("`import`, a batch with a name of 32 characters", 0, f"batch {'C' * 32} documents 1 pages 1", "import", "C" * 32)


def import_files(room):
    """DAT, OPT, words and image of an import."""
    for more in (0, 1):
        names = [draw_name(k) for k in range(64)]
        rows = batches.MOST // 70000
        data = loads.dat_of(["BEGDOC", "BEGATTACH", *names], [[f"D{k}", ""] + ["x" * 1000] * 64 for k in range(rows)])
        begin(room)
        batches.write_folder(os.path.join(room.folder, f"L{more}"), {
            "load.dat": data.ljust(batches.MOST + more, b"\n"), "load.opt": b"", "words.csv": b""})
        rule = matters.Rule(55) if more else matters.Rule(61, line=1)
        room.check_refused(f"`import`, a DAT file of {batches.MOST + more:,} bytes", rule, "import", f"L{more}")
        del data
        for which, (path, end) in enumerate((("load.opt", b"\n"), ("words.csv", b"\n"), ("a.tif", b"\0")), 1):
            begin(room)
            batch_of(room, "A", 1, 1)
            with open(os.path.join(room.folder, "A", path), "ab") as file:
                left = batches.MOST + more - file.tell()
                while left:
                    left -= file.write(end * min(left, 1 << 20))
            what = f"`import`, {('an OPT file', 'a file of words', 'an image')[which - 1]} of {batches.MOST + more:,} bytes"
            if more:
                room.check_refused(what, matters.Rule(55, which, line=int(which == 3)), "import", "A")
            else:
                room.check(what, 0, "batch A documents 1 pages 1", "import", "A")


def batches_(room):
    matter = matters.begun(DIGEST)
    matter.batches = [(DIGEST, 0, 0, f"N{k}") for k in range(999)]
    room.fresh()
    days.write_rows(room.folder, matters.rows_of(matter))
    batch_of(room, "X", 0, 0)
    batch_of(room, "Y", 0, 0)
    room.check("`import`, the thousandth batch", 0, "batch X documents 0 pages 0", "import", "X")
    room.check_refused("`import`, one more batch", matters.Rule(35, 6, 1001), "import", "Y")


# ---- checks


def volume_of(room, label="A-0001", image=WHITE, text=b"x"):
    """A volume of one document and one page, with a manifest; the rest of the files."""
    files = {"d.dat": loads.dat_of(["BEGDOC", "ENDDOC", "TEXTPATH"], [[label, label, "t.txt"]]),
             "o.opt": loads.opt_of([(label, "V", "x.tif", True, False, False, "1")]), "x.tif": image, "t.txt": text}
    room.fresh()
    batches.write_folder(room.folder, files | {"m.txt": manifest_of(files)})
    return files


def manifest_of(files):
    return "".join(f"{hashlib.sha256(data).hexdigest()}  {path}\n" for path, data in files.items()).encode()


def check_heights(room):
    """Pages as a volume has them, with their band; and the digits of a label."""
    for width, height in ((20000, 10032), (1, 20032), (20000, 10033), (1, 20033), (20001, 1)):
        volume_of(room, image=white_page(width, height))
        what = f"`check`, a page of {width:,} by {height:,}"
        if width > 20000 or height > 20032 or width * height > 200640000:
            room.check_refused(what, matters.Rule(62, width, height, line=1), "check", "d.dat", "o.opt", "m.txt")
        else:
            room.check(what, 0, "checked documents 1 images 1 files 4", "check", "d.dat", "o.opt", "m.txt")
    for digits in (18, 19):
        volume_of(room, label="A" + "1".zfill(digits))
        what = f"`check`, a label of {digits} digits"
        if digits == 19:
            room.check_refused(what, matters.Rule(111, line=1), "check", "d.dat", "o.opt")
        else:
            room.check(what, 0, "checked documents 1 images 1 files 0", "check", "d.dat", "o.opt")


def check_files(room):
    """Manifest, image, text and a listed file."""
    for more in (0, 1):
        size = batches.MOST + more
        image, rest = WHITE.ljust(size, b"\0"), ("check", "d.dat", "o.opt")
        volume_of(room, image=image)
        checked(room, f"`check`, an image of {size:,} bytes", more and matters.Rule(55, 3, line=1), 4, *rest, "m.txt")
        del image
        volume_of(room, text=bytes(size))
        checked(room, f"`check`, a text of {size:,} bytes", more and matters.Rule(55, 4, line=1), 4, *rest, "m.txt")
        listed = volume_of(room) | {"l": b"l" * size}
        batches.write_folder(room.folder, {"l": listed["l"], "m.txt": manifest_of(listed)})
        checked(room, f"`check`, a listed file of {size:,} bytes", more and matters.Rule(55, 5, line=5), 5, *rest, "m.txt")
        # a manifest whose last line has a path of many parts that are dropped
        listed = volume_of(room)
        short = manifest_of(listed)
        left = size - len(short) - 64 - 2 - 1
        name = "l" if left % 2 else "ll"
        room.write(name, b"l")
        path = b"./" * ((left - len(name)) // 2) + name.encode()
        room.write("m.txt", short + hashlib.sha256(b"l").hexdigest().encode() + b"  " + path + b"\n")
        checked(room, f"`check`, a manifest of {size:,} bytes", more and matters.Rule(55, 2), 5, *rest, "m.txt")


def checked(room, what, rule, count, *words):
    if rule:
        room.check_refused(what, rule, *words)
    else:
        room.check(what, 0, f"checked documents 1 images 1 files {count}", *words)


# ---- requests for a production


def to_be_produced(count):
    """A matter of so many documents of a page, all called Produce."""
    matter = matters.begun(DIGEST)
    matter.batches.append((DIGEST, count, count, "B"))
    page = pages.Page(8, 1, [[]])
    for k in range(1, count + 1):
        matter.docs.append({"parent": k, "pages": 1, "batch": 1, "id": f"D{k}", "values": []})
        matter.pages[k, 1], matter.words[k, 1] = page, []
        matter.calls[k] = (1, 1, 0, True, "Produce", "")
    return matter


def names(room):
    """Ids, names of volumes, prefixes and widths."""
    room.fresh()
    days.write_rows(room.folder, matters.rows_of(to_be_produced(5)))
    long_prefix = "ABCDEFGHIJK-"
    for what, rule, words, first in (
        ("an id of 33 characters", 32, ("x" * 33, "V1", "A-", "4"), None), ("an id of 32 characters", 0, ("x" * 32, "V1", "A-", "4"), "A-0001"),
        ("a volume with a name of 33", 32, ("Q2", "V" * 33, "A-", "4"), None), ("a volume with a name of 32", 0, ("Q2", "V" * 32, "A-", "4"), "A-0002"),
        ("a prefix of 13 characters", 29, ("Q3", "V3", "X" + long_prefix, "4"), None),
        ("a prefix of 12 characters", 0, ("Q3", "V3", long_prefix, "4"), long_prefix + "0001"),
        ("labels of 11 digits", 29, ("Q4", "V4", "W-", "11"), None), ("labels of 10 digits", 0, ("Q4", "V4", "W-", "10"), "W-0000000001"),
        ("labels of 3 digits", 29, ("Q5", "V5", "N-", "3"), None), ("labels of 4 digits", 0, ("Q5", "V5", "N-", "4"), "N-0001"),
        ("a width of 256, no word", 1, ("Q6", "V6", "N-", "256"), None), ("a width of 255, a word", 29, ("Q6", "V6", "N-", "255"), None),
    ):
        doc = words[0][1:] if words[0][1:].isdigit() else "1"
        line = ("produce", *words, doc, doc)
        if rule == 1:
            room.check(f"`produce`, {what}", 1, "words refused", *line)
        elif rule:
            room.check_refused(f"`produce`, {what}", matters.Rule(rule), *(line if doc != "6" else (*line[:-2], "1", "1")))
        else:
            room.check(f"`produce`, {what}", 0, f"^production {words[0]} labels {first} to {first} files 6 manifest [0-9a-f]{{64}}", *line)


def numbers(room):
    """The numbers of a prefix to their end: a document of 9,999 pages, and one of one."""
    matter = to_be_produced(2)
    matter.docs[0]["pages"] = 9999
    matter.batches[0] = (DIGEST, 2, 10000, "B")
    for k in range(1, 10000):
        matter.pages[1, k], matter.words[1, k] = matter.pages[2, 1], []
    room.fresh()
    days.write_rows(room.folder, matters.rows_of(matter))
    room.check("`produce` of a document of 9,999 pages under 4 digits", 0, "^production Q1 labels A-0001 to A-9999 files 10004 manifest [0-9a-f]{64}",
               "produce", "Q1", "V1", "A-", "4", "1", "1")
    room.check_refused("`produce` of one page more under that prefix", matters.Rule(31, 9999), "produce", "Q2", "V2", "A-", "4", "2", "2")
    shutil.rmtree(os.path.join(room.folder, "out"))


def connections(room):
    """Over no matter, so that nobody is waited for."""
    room.fresh()
    for words in (("serve", "1", ""), ("serve", "16", ""), ("deliver", "", "grants.csv")):
        for count in (1000000, 1000001):
            line = [word or str(count) for word in words]
            what = f"`{' '.join(line)}` where there is no matter"
            if count > 1000000:
                room.check(what, 1, "words refused", *line)
            else:
                room.check_refused(what, matters.Rule(43), *line)
    room.check("`serve 1 0`", 1, "words refused", "serve", "1", "0")


def demos(room):
    room.fresh()
    if subprocess.run([room.program, "demo", "7", "1"], cwd=room.folder, capture_output=True, check=False).returncode == 1:
        print("at_limits.py: the program knows no demo", file=sys.stderr)
        return
    for words in (("7", "2001"), ("1000000000", "1"), ("7", "0")):
        room.fresh()
        room.check(f"`demo {' '.join(words)}`", 1, "words refused", "demo", *words)
    for words in (("999999999", "1"), ("7", "2000")):
        room.fresh()
        line = demo_model.line_of(demo_model.volume(*map(int, words)))
        room.check(f"`demo {' '.join(words)}`", 2 if line.startswith("refused") else 0, line, "demo", *words)


# ---- bytes of strips


def strips(room):
    """2,000,000,000 bytes of strips: pages of 20,000 by 9,986 in which two rows of dashes take turns, written straight into matter.db, but for
    the last page, which is imported. The dashes lie so that each is coded in a horizontal mode of 23 bits: a strip of rows that are all
    V0 has as many bytes with eight times the codes."""
    free = memory_free()
    if free < 7000:
        print(f"at_limits.py: strips needs 7,000 MB of memory, and {free:,} are free", file=sys.stderr)
        return
    matter = matters.begun(DIGEST)
    strip_bytes = 2000000000 - 4
    write_strips(room, matter, strip_bytes)
    five = pages.tiff_of(pages.Page(20, 1, [[5, 10]]), "g4")
    batch_of(room, "M", 1, 1, image=five)
    room.check_refused("`import` of a byte more than 2,000,000,000 of strips", matters.Rule(35, 8, strip_bytes + 5), "import", "M")
    batch_of(room, "N", 1, 1)
    room.check("`import` to 2,000,000,000 bytes of strips", 0, "batch N documents 1 pages 1", "import", "N")


def memory_free():
    """In MB."""
    with open("/proc/meminfo", encoding="ascii") as file:
        return next(int(line.split()[1]) for line in file if line.startswith("MemAvailable")) // 1024


def write_strips(room, matter, total):
    """A document of pages that have so many bytes of strips."""
    left, made = total, []
    while (turns := min(624, most_turns(left - 4))) > 0:
        made.append((20000, 16 * turns + 2, dashed_size(turns)))
        left -= made[-1][2]
    # white rows for what is left
    while left:
        part = min(left, 1250) if left - min(left, 1250) >= 4 or left <= 1250 else left - 4
        made.append((20000, -(8 * part - 24), part))
        left -= part
    matter.docs.append({"parent": 1, "pages": len(made), "batch": 1, "id": "D", "values": []})
    matter.batches.append((DIGEST, 1, len(made), "B"))
    rows = matters.rows_of(matter) | {(12, 1, k): b"\1" + matters.listed([], None) for k in range(1, len(made) + 1)}
    room.fresh()
    days.write_rows(room.folder, rows, has_sums=False)
    database = sqlite3.connect(os.path.join(room.folder, "matter.db"))
    database.execute("PRAGMA synchronous = OFF")
    for k, (width, height, size) in enumerate(made, 1):
        strip = dashed_strip((height - 2) // 16) if height > 0 else white_strip(-height)
        assert len(strip) == size
        head = matters.u32(width, abs(height), 200, 1, 200, 1) + bytes([2])
        database.execute("INSERT INTO kept VALUES (4, 1, ?, ?)", (k, b"\1" + head + strip))
        database.commit()
    database.close()
    assert sum(size for _, _, size in made) == total and 20000 * sum(abs(height) for _, height, _ in made) > 4000000000


@functools.cache
def dashes():
    """The codes of the first two rows, white ones above, and of two further rows."""
    even, odd = ([at for left in range(shift, 19000, 55) for at in (left + 29, left + 55)] for shift in (0, 14))

    def coded(above, line):
        return "".join(bits for _, bits in t6_model.modes_of(above, line, 20000))

    below = coded(even, odd)
    return coded([], even) + below, coded(odd, even) + below


def dashed_size(turns):
    lead, turn = dashes()
    return (len(lead) + 8 * turns * len(turn) + 24 + 7) // 8


def most_turns(size):
    lead, turn = dashes()
    return (8 * size - 31 - len(lead)) // (8 * len(turn))


def dashed_strip(turns):
    """The strip of 2 and 16 times so many rows. Behind its first bytes it has the same bytes again and again: those of eight pairs of rows."""
    lead, turn = dashes()
    head = (len(lead) + 7) // 8
    bits = lead + turn * 16
    data = int(bits[: len(bits) // 8 * 8], 2).to_bytes(len(bits) // 8, "big")
    data = data[:head] + data[head : head + len(turn)] * turns + data[head : head + 1]
    whole, rest = divmod(len(lead) + 8 * turns * len(turn), 8)
    end = f"{data[whole]:08b}"[:rest] + "000000000001" * 2
    end += "0" * (-len(end) % 8)
    return data[:whole] + int(end, 2).to_bytes(len(end) // 8, "big")


def white_strip(rows):
    bits = "1" * rows + "000000000001" * 2
    return int(bits, 2).to_bytes(len(bits) // 8, "big")


def largest_matter(room):
    """10,000 documents and 20,000 pages: imported, produced, pressed, logged."""
    begin(room)
    batch_of(room, "A", 10000, 2, [f"F{k}" for k in range(64)])
    room.check("`import` of 10,000 documents, 20,000 pages and 64 fields", 0, "batch A documents 10000 pages 20000", "import", "A")
    batch_of(room, "B", 1, 1)
    room.check_refused("`import` of one document more", matters.Rule(35, 1, 10001), "import", "B")
    rows = days.kept_rows(room.folder)
    # a matter's rows change by calls; here they are written at once
    for doc in range(1, 10001):
        rows[5, doc, 0] = b"\1\1" + matters.u32(1, 0) + b"\1\0" + matters.text("CONFIDENTIAL")
    days.write_rows(room.folder, rows)
    fields = [f"F{k}" for k in range(64)]
    line = "^production R-1 labels AB-00000001 to AB-00020000 files 30004 manifest [0-9a-f]{64}"
    room.check("`produce` of all of it with 64 fields", 0, line, "produce", "R-1", "V1", "AB-", "8", "1", "10000", *fields)
    room.check("`press` of it", 0, line, "press", "R-1")
    room.check("`log` of it", 0, "BEGLABEL,ENDLABEL,TREATMENT,BASIS,DATE,AUTHOR,RECIPIENTS,DESCRIPTION", "log", "R-1")
    shutil.rmtree(os.path.join(room.folder, "out"))


def productions(room):
    matter = matters.begun(DIGEST)
    matter.batches.append((DIGEST, 1001, 1001, "B"))
    page = pages.Page(8, 1, [[]])
    for k in range(1, 1002):
        matter.docs.append({"parent": k, "pages": 1, "batch": 1, "id": f"D{k}", "values": []})
        matter.pages[k, 1], matter.words[k, 1] = page, []
        matter.calls[k] = (1, 1, 0, True, "Produce", "")
    for k in range(1, 1000):
        matters.freeze(matter, {"id": f"R{k}", "volume": f"V{k}", "prefix": "AB-", "width": 4, "from": k, "to": k, "fields": []})
    room.fresh()
    days.write_rows(room.folder, matters.rows_of(matter))
    room.check("`produce`, the thousandth production", 0, "^production R1000 labels AB-1000 to AB-1000 files 6 manifest .*",
               "produce", "R1000", "V1000", "AB-", "4", "1000", "1000")
    room.check_refused("`produce`, one more", matters.Rule(35, 7, 1001), "produce", "R1001", "V1001", "AB-", "4", "1001", "1001")


def post(target, body):
    data = days.as_json(body)
    return f"POST {target} HTTP/1.1\r\nDesk-Key: {KEY}\r\nContent-Length: {len(data)}\r\n\r\n".encode() + data


def requests(room):
    """Requests at their limits at one desk; the model says what is due."""
    global failed
    matter = matters.begun(DIGEST)
    matter.batches.append((DIGEST, 1, 1, "B"))
    matter.docs.append({"parent": 1, "pages": 1, "batch": 1, "id": "D", "values": []})
    matter.pages[1, 1], matter.words[1, 1] = pages.Page(8, 1, [[]]), []
    asked = []
    for more in (0, 1):
        head = f"GET /docs/1 HTTP/1.1\r\nDesk-Key: {KEY}\r\nX: \r\n\r\n"
        asked.append((f"a head of {16384 + more:,} bytes", head.replace("X: ", "X: " + "y" * (16384 + more - len(head))).encode()))
        fields = "".join(f"X{k}: y\r\n" for k in range(31 + more))
        asked.append((f"a head of {32 + more} fields", f"GET /docs/1 HTTP/1.1\r\nDesk-Key: {KEY}\r\n{fields}\r\n".encode()))
        body = b"{" + b" " * (1048574 + more) + b"}"
        head = f"POST /docs/1/back HTTP/1.1\r\nDesk-Key: {KEY}\r\nContent-Length: {len(body)}\r\n\r\n".encode()
        asked.append((f"a body of {len(body):,} bytes", head + body))
    for length in (200, 201):
        asked.append((f"a date of {length} bytes", post("/docs/1/entry", {"date": "x" * length, "author": "", "recipients": "", "description": ""})))
    for name in ("author", "recipients"):
        for length in (200, 201):
            entry = {"date": "", "author": "", "recipients": "", "description": ""} | {name: "x" * length}
            asked.append((f"{'an author' if name == 'author' else 'recipients'} of {length} bytes", post("/docs/1/entry", entry)))
    for length in (200, 201):
        member = {"name": "x" * length, "role": "Reviewer", "digest": "0" * 63 + str(length - 200)}
        asked.append((f"a name of a member of {length} bytes", post("/staff", member)))
    for depth in (127, 128):
        body = b'{"x":' + b"[" * (depth - 1) + b"]" * (depth - 1) + b"}"
        head = f"POST /docs/1/back HTTP/1.1\r\nDesk-Key: {KEY}\r\nContent-Length: {len(body)}\r\n\r\n".encode()
        asked.append((f"a body nested to {depth}", head + body))
    for length in (1000, 1001):
        asked.append((f"a description of {length:,} bytes", post("/docs/1/entry", {"date": "", "author": "", "recipients": "", "description": "x" * length})))
    for length in (40, 41):
        asked.append((f"a designation of {length} characters", post("/docs/1/call", {"responsive": True, "treatment": "Redact", "designation": "X" * length})))
    for number in (1000, 1001):
        asked.append((f"a box of number {number:,}", post("/docs/1/box", {"num": number, "page": 1, "left": 0, "top": 0, "width": 8, "height": 1, "basis": "PI"})))
    # with the lead and the member above these make 1,000, and one is left over
    staff = [post("/staff", {"name": f"m{k}", "role": "Reviewer", "digest": hashlib.sha256(b"%d" % k).hexdigest()}) for k in range(999)]
    room.fresh()
    days.write_rows(room.folder, matters.rows_of(matter))
    room.start(("serve", "1", str(len(asked) + len(staff))))
    calls = 0
    for what, data in [*asked, *((f"member {k + 3:,} of the staff", data) for k, data in enumerate(staff))]:
        due, made = days.answered(matter, data)
        calls += made
        began = time.monotonic()
        got = days.ask(48201, data, began)
        if not what.startswith("member") or what.split(" ")[1] in ("1,000", "1,001"):
            status, _, body = got.partition(b"\r\n")[0].decode(), None, got.rpartition(b"\r\n\r\n")[2].decode()
            print(f"| {what} | {status[9:12]} | `{body[:76]}` | {time.monotonic() - began:.3f} | |" + ("" if got == due else " NOT AS DUE"))
        failed += got != due
    room.end(f"`serve`, these and the {len(staff):,} of the staff", 0, f"served {calls}")


def delivered(room):
    """1,000 grants and one more; files of grants, notices and volumes at the limit of a file."""
    matter = matters.begun(DIGEST)
    matter.batches.append((DIGEST, 1, 1, "B"))
    matter.docs.append({"parent": 1, "pages": 1, "batch": 1, "id": "D", "values": []})
    matter.pages[1, 1], matter.words[1, 1] = pages.Page(8, 1, [[]]), []
    matter.calls[1] = (1, 1, 0, True, "Produce", "")
    matter.staff += [("Receiver", k.to_bytes(32, "big"), f"r{k}") for k in range(2, 1001)]
    matter.docs += [dict(matter.docs[0], parent=k) for k in (2, 3)]
    matter.batches[0] = (DIGEST, 3, 3, "B")
    for k in (2, 3):
        matter.pages[k, 1], matter.words[k, 1], matter.calls[k] = pages.Page(8, 1, [[]]), [], matter.calls[1]
    for k in (1, 2):
        matters.freeze(matter, {"id": f"R{k}", "volume": f"V{k}", "prefix": "AB-", "width": 4, "from": k, "to": k, "fields": []})
    room.fresh()
    days.write_rows(room.folder, matters.rows_of(matter))
    volume = days.volume_of(matter, matter.productions[0])
    batches.write_folder(room.folder, volume)
    pairs = [f"{k},R{1 + (k == 1001)}" for k in range(2, 1001)] + ["2,R2", "3,R2"]
    for count in (1000, 1001):
        room.write("grants.csv", "".join(pair + "\n" for pair in pairs[:count]).encode())
        words = ("deliver", "1", "grants.csv")
        if count == 1001:
            room.check_refused("`deliver`, 1,001 grants", matters.Rule(35, 9, 1001, line=1001), *words)
            continue
        room.start(words)
        days.ask(48201, f"GET /docs/1 HTTP/1.1\r\nDesk-Key: {KEY}\r\n\r\n".encode(), time.monotonic())
        room.end("`deliver`, 1,000 grants", 0, "delivered 1")
    for more in (0, 1):
        size = batches.MOST + more
        name = f"{size:,} bytes"
        room.write("grants.csv", b"2,R1\n".ljust(size, b"\n"))
        if more:
            room.check_refused(f"`deliver`, a file of grants of {name}", matters.Rule(55), "deliver", "1", "grants.csv")
        else:
            room.start(("deliver", "1", "grants.csv"))
            days.ask(48201, f"GET /docs/1 HTTP/1.1\r\nDesk-Key: {KEY}\r\n\r\n".encode(), time.monotonic())
            room.end(f"`deliver`, a file of grants of {name}", 0, "delivered 1")
        room.write("notice.csv", b"1,AC,,,,\n".ljust(size, b"\n"))
        words = ("claw", "R1", "V9", "notice.csv")
        if more:
            room.check_refused(f"`claw`, a notice of {name}", matters.Rule(55), *words)
        else:
            room.check(f"`claw`, a notice of {name}", 0, "^replacement V9 labels AB-0001 to AB-0001 files 6 manifest .*", *words)
        for path, rule in ((f"V1/DATA/V1.{kind}", rule) for kind, rule in (("DAT", 0), ("OPT", 1))):
            room.write(path, volume[path].ljust(size, b"\n"))
            words = ("check", "V1/DATA/V1.DAT", "V1/DATA/V1.OPT")
            if more:
                room.check_refused(f"`check`, the file {path[-3:]} of {name}", matters.Rule(55, rule), *words)
            else:
                room.check(f"`check`, the file {path[-3:]} of {name}", 0, "checked documents 1 images 1 files 0", *words)
            room.write(path, volume[path])


def desks(room):
    room.fresh()
    days.write_rows(room.folder, matters.rows_of(to_be_produced(1)))
    room.check("`serve` with 17 desks", 1, "words refused", "serve", "17", "1")
    room.start(("serve", "16", "1"))
    for k in range(16):
        days.ask(48201 + k, f"GET /docs/1 HTTP/1.1\r\nDesk-Key: {KEY}\r\n\r\n".encode(), time.monotonic())
    room.end("`serve` with 16 desks, a call at each", 0, "served 16")


def journal(room):
    """1,048,576 calls at two desks, and one more at each."""
    global failed
    matter = to_be_produced(1)
    room.fresh()
    days.write_rows(room.folder, matters.rows_of(matter))
    client, request = os.path.join(room.folder, "client"), os.path.join(room.folder, "request")
    subprocess.run(["cc", "-O2", "-o", client, os.path.join(BENCH, "serve_client.c")], check=True)
    data = f"GET /docs/1 HTTP/1.1\r\nDesk-Key: {KEY}\r\n\r\n".encode()
    room.write("request", data)
    half = 1048576 // 2
    room.start(("serve", "2", str(half + 1)))
    due = days.answered(matter, data)[0]
    places = [os.path.join(room.folder, f"reply{k}") for k in range(2)]
    # the client asks once more than it is told; the last reply is compared, and the status of each
    workers = [subprocess.Popen([client, str(48201 + k), str(half - 1), request, "200", "1", places[k]], stdout=subprocess.PIPE) for k in range(2)]
    for k, worker in enumerate(workers):
        each = worker.communicate()[0].decode().split()
        with open(places[k], "rb") as file:
            good = worker.returncode == 0 and file.read() == due
        failed += not good
        if good:
            print(f"| {half:,} calls at desk {k + 1}, the last reply | 200 | the document | {float(each[0]) * half:.0f} | |", flush=True)
    full = days.as_json({"a": 1048576, "b": 0, "line": 0, "name": "JournalFull", "rule": 106})
    for k in range(2):
        got = days.ask(48201 + k, data, time.monotonic())
        good = got.startswith(b"HTTP/1.1 429 Too Many Requests\r\n") and got.endswith(b"\r\n\r\n" + full)
        failed += not good
        print(f"| one call more at desk {k + 1} | {got[9:12].decode()} | `{full.decode()}` | | |" + ("" if good else f" NOT AS DUE: {got!r}"))
    room.end("`serve`, 1,048,576 calls at two desks", 0, "served 1048576")


PARTS = (burns, documents, fields, columns, batches_, import_files, check_heights, check_files, names, numbers, connections, largest_matter,
         productions, requests, delivered, desks, demos)
LONG = (pixels, journal, strips)


def chosen(words):
    known = {part.__name__.rstrip("_"): part for part in (*PARTS, *LONG)}
    if unknown := [word for word in words if word not in known]:
        sys.exit(f"at_limits.py: no part is named {unknown[0]}: {' '.join(known)}")
    return [known[word] for word in words] or PARTS


def main():
    if len(sys.argv) < 2:
        sys.exit(__doc__)
    parts = chosen(sys.argv[2:])
    apart.in_own_network()
    signal.signal(signal.SIGTERM, lambda *_: sys.exit("ended"))
    room = Room(sys.argv[1])
    print("| What | Status | Line or body | Seconds | MB |\n|---|---|---|---|---|")
    try:
        for part in parts:
            part(room)
    finally:
        room.close()
    sys.exit(1 if failed else 0)


if __name__ == "__main__":
    main()
