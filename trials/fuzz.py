#!/usr/bin/env python3
"""Random cases, whole and damaged, and a plain model of what is due: fuzz.py JOB PROGRAM COUNT SEED KEEP. It compares what the
built PROGRAM says with the model (docs/FORMATS.md, docs/STATUSES.md), and writes each case that differs into the folder KEEP.
Ends with status 1 where one does. The same words give the same cases.

Where PROGRAM is - the lines of these are written into files of a hundred below KEEP, for fuzz_try.sh, and nothing runs.
Jobs over the programs that read lines, COUNT lines each, of `volumes` COUNT checks:
    tiff strips pages loads words names     by bp_test_codecs
    requests                                by bp_test_requests
    volumes                                 by bp_test_volumes: right volumes, each changed in one place at a time
Jobs over the program, COUNT command lines or requests each:
    burn     page files, boxes and paths
    check    volumes as those of `volumes`, also with folders in place of files and files at the limit
    batch    imports of whole and damaged batches, one after another into one matter
    matter   damaged rows in matter.db
    file     damaged bytes of matter.db, every second one without sums: the answer is that of the rows that Python's sqlite3 reads, or a
             keeper fault
    day      imports, raw requests at desks, productions, presses and logs in turn; takes the ports 48201 to 48203
"""
import collections
import os
import random
import shutil
import subprocess
import sys
import tempfile
import time

import fuzz_batch as batches
import fuzz_check as checks
import fuzz_days as days
import fuzz_loads as loads
import fuzz_matter as matters
import fuzz_pages as pages
import web_model
from fuzz_tools import Rule, damaged

LINES = {
    "tiff": pages.tiff_lines, "strips": pages.strip_lines, "pages": pages.page_lines, "loads": loads.load_lines,
    "words": loads.word_lines, "names": loads.name_lines, "volumes": checks.volume_lines,
}
AT_ONCE, IN_A_FILE = 20000, 100


# ---- programs that read lines


def request_lines(draw):
    """Requests, usual and damaged ones, as web_model.py makes them, and ones at their limits; replies to looks."""
    while True:
        if draw.random() < 0.1:
            line = web_model.reply_line(draw)
            yield [(line, web_model.told(line))]
            continue
        data = web_model.usual(draw)
        kind = draw.random()
        if kind < 0.02:
            data = at_a_limit(draw)
        if kind < 0.01 or kind > 0.45:
            data = (web_model.damaged if draw.random() < 0.6 else damaged)(draw, data)
        line = draw.choice(("read", "read", "read", "enough", "from")) + " " + web_model.escaped(data)
        if len(data) > 3000 and line.startswith("from"):
            line = "enough" + line[4:]
        if " = " not in f"{line} ":
            yield [(line, web_model.told(line))]


def at_a_limit(draw):
    """A request with as many fields, bytes of a head or of a body, or as much nesting as may be, or one more."""
    more = draw.choice((-1, 0, 0, 1))
    kind = draw.randrange(4)
    if kind == 0:
        fields = "".join(f"X{k}: y\r\n" for k in range(31 + more))
        return f"GET /docs/1 HTTP/1.1\r\n{fields}Desk-Key: abc\r\n\r\n".encode()
    if kind == 1:
        head = "GET /docs/1 HTTP/1.1\r\nDesk-Key: abc\r\nX: \r\n\r\n"
        return head.replace("X: ", "X: " + "y" * (16384 - len(head) + more)).encode()
    if kind == 2:
        depth = 126 + more
        body = '{"x":' + "[" * depth + "]" * depth + "}"
    else:
        body = "{" + " " * draw.choice((0, 5)) + "}"
        length = draw.choice((1048576 + more, 999999999, 1000000000, 10**12))
        return f"POST /docs/1/confirm HTTP/1.1\r\nDesk-Key: abc\r\nContent-Length: {length}\r\n\r\n{body}".encode()
    return f"POST /docs/1/confirm HTTP/1.1\r\nDesk-Key: abc\r\nContent-Length: {len(body)}\r\n\r\n{body}".encode()


def fuzz_lines(job, program, count, seed, keep):
    draw = random.Random(f"{job} {seed}")
    cases = request_lines(draw) if job == "requests" else LINES[job](draw)
    done, failed, told = 0, 0, collections.Counter()
    while done < count:
        # the lines of a case stay in one file; page files are put behind an empty one
        chunk = [("file hex -", "")] if job == "tiff" else []
        while len(chunk) < (AT_ONCE if program != "-" else IN_A_FILE) and counted(job, chunk) < count - done:
            chunk += next(cases)
        if program == "-":
            write_lines(f"{keep}/{job}-{seed}-{done}.txt", chunk)
        else:
            failed += told_otherwise(program, chunk, f"{keep}/{job}-{seed}-{done}.txt", job)
        done += counted(job, chunk)
        told.update(kind_of(due) for asked, due in chunk if is_counted(job, asked))
    return done, failed, told


def counted(job, chunk):
    """How many lines of a chunk count: of volumes those that check one."""
    return len(chunk) if job != "volumes" else sum(is_counted(job, asked) for asked, _ in chunk)


def is_counted(job, asked):
    return job != "volumes" or asked.startswith("check ")


def kind_of(due):
    return " ".join(due.split(" ")[:2]) if due.startswith("refused ") else "told"


def lines_of_case(chunk, at, job):
    """The line that is told otherwise, and of a volume all lines that make it."""
    begin = at
    while job == "volumes" and begin > 0 and chunk[begin - 1][0] != "again":
        begin -= 1
    return chunk[begin : at + 1]


def write_lines(place, chunk):
    with open(place, "w", encoding="utf-8", newline="") as file:
        file.writelines(f"{asked} = {due}\n" for asked, due in chunk)


def told_otherwise(program, chunk, kept, job):
    """How many lines of a chunk are told otherwise; those are kept with what is due and what is told."""
    with tempfile.TemporaryDirectory() as room:
        place = os.path.join(room, "lines.txt")
        write_lines(place, chunk)
        try:
            done = subprocess.run([program, place], capture_output=True, timeout=days.LIMIT + len(chunk) / 100)
            out = done.stdout.decode("utf-8", "replace")
        except subprocess.TimeoutExpired:
            done, out = None, "no end"
        last = out.rstrip("\n").split("\n")[-1]
        if done is None or done.returncode != 0 or not last.startswith(f"{len(chunk)} lines, "):
            shutil.copy(place, kept)
            print(f"{kept}: the program ended otherwise: {done and done.returncode}, {last[:200]}")
            return 1
    others = [line.split(":", 2) for line in out.split("\n") if line.startswith(place + ":")]
    if last != f"{len(chunk)} lines, {len(others)} of them told otherwise":
        print(f"{kept}: {last}, and {len(others)} are printed")
    if others:
        with open(kept, "w", encoding="utf-8", newline="") as file:
            for _, number, told in others:
                asked, due = chunk[int(number) - 1]
                file.writelines(f"{line} = {wanted}\n" for line, wanted in lines_of_case(chunk, int(number) - 1, job))
                file.write(f"# told: {told}\n" + ("again\n" if job == "volumes" else ""))
                print(f"{asked[:300]}\n    due  {due[:300]}\n    told {told[1:300]}")
    return len(others)


# ---- the program


class Run:
    """Cases over the program: a folder, in memory where there is one, and what was done in it."""

    def __init__(self, job, program, count, seed, keep):
        self.job, self.program, self.count, self.seed, self.keep = job, os.path.abspath(program), count, seed, keep
        self.draw = random.Random(f"{job} {seed}")
        self.done = self.failed = 0
        self.told = {}

    def begin(self):
        base = "/dev/shm" if os.path.isdir("/dev/shm") else None
        self.room = tempfile.mkdtemp(dir=base)
        return days.Day(self.room)

    def go(self):
        while self.done < self.count:
            day = self.begin()
            try:
                getattr(self, self.job)(day)
            except days.Different as why:
                self.failed += 1
                place = days.Kept(self.keep, self.job, self.seed, self.done).write(day, why)
                print(f"{place}: {str(why)[:600]}")
            finally:
                shutil.rmtree(self.room)
        return self.done, self.failed

    def command(self, day, *words):
        self.done += 1
        status, line = days.compared(day, self.program, list(words))
        kind = " ".join(line.split(" ")[:2]).strip() if status == 2 else str(status)
        self.told[kind] = self.told.get(kind, 0) + 1
        return status

    def serve(self, day, desks, requests):
        requests = requests[: len(requests) // desks * desks]
        if requests:
            self.done += len(requests)
            day.done.append(("serve", desks, len(requests)))
            days.serve(day, self.program, desks, requests)
            days.same_rows(day)

    # -- jobs

    def burn(self, day):
        draw = self.draw
        for _ in range(50):
            page = pages.some_page(draw)
            data = pages.some_file(draw) if draw.random() < 0.4 else pages.stranger(draw, page)
            with open(os.path.join(self.room, "in.tif"), "wb") as file:
                file.write(data)
            rect = pages.some_rect(draw, page.width, page.height)
            if draw.random() < 0.7:
                left, top = draw.randrange(page.width), draw.randrange(page.height)
                rect = [left, top, draw.randrange(1, page.width - left + 1), draw.randrange(1, page.height - top + 1)]
            source = "in.tif" if draw.random() < 0.9 else draw.choice(("./in.tif", ".\\in.tif", "none.tif", "../in.tif", ".", "a/in.tif"))
            out = "b.tif" if draw.random() < 0.9 else draw.choice(("a\\b.tif", "a//b", "/b.tif", "..\\b.tif", "./b.tif", "c:b"))
            words = ["burn", source, *(str(min(n, 999999999)) for n in rect), out, draw.choice(("plain", "g4"))]
            self.command(day, *(days.other_words(draw, words) if draw.random() < 0.05 else words))

    def check(self, day):
        draw = self.draw
        volume, right = checks.a_right_one(draw)
        for k in range(checks.CHANGES):
            made = checks.some_case(draw, volume, True) if k else right
            checks.write_files(self.room, made.files)
            words = ["check", *(word.replace("\0", "") for word in made.words)]
            self.command(day, *(days.other_words(draw, words) if draw.random() < 0.03 else words))
            day.done.clear()

    def import_some(self, day, harm):
        draw = self.draw
        name = draw.choice(("B1", "B1", "B2", "B_3", "x-4"))
        if draw.random() < harm * 0.05:
            name = draw.choice(("../B1", "B 1", "B.1", "\u00e9", "B" * 33, "none", "B1/", "b\\1"))
        if re_name(name) and name != "none" and draw.random() < 0.85:
            shutil.rmtree(os.path.join(self.room, name), ignore_errors=True)
            batches.write_folder(os.path.join(self.room, name), batches.some_folder(draw, draw.random() < harm))
        return self.command(day, "import", name)

    def batch(self, day):
        if self.draw.random() < 0.98:
            self.command(day, "init", days.DIGESTS[0].hex())
        for _ in range(self.draw.choice((3, 5, 8))):
            self.import_some(day, 0.7)

    def matter(self, day):
        rows = self.a_matter(day)
        for _ in range(40):
            found = changed_rows(self.draw, rows, day) if self.draw.random() < 0.95 else rows
            self.over_rows(day, found)

    def over_rows(self, day, rows):
        draw = self.draw
        day.rows = dict(rows)
        days.write_rows(self.room, rows)
        day.done.append(("rows", {str(key): body.hex() for key, body in rows.items()}))
        matter = days.Day(self.room)
        ids = [made["id"] for made in self.made.productions] or ["R"]
        words = draw.choice((["log", ids[0]], ["log", ids[0]], ["log", draw.choice(ids)], ["press", draw.choice(ids)], ["init", "0" * 64],
                             ["import", "B1"], days.produce_words(draw, self.made)))
        del matter
        self.command(day, *words)
        day.done.pop(), day.done.pop()

    def a_matter(self, day):
        """The rows of a random matter, made by the model alone."""
        draw = self.draw
        made = matters.begun(days.DIGESTS[0])
        for name in ("B1", "B2", "B3")[: draw.choice((1, 2, 3))]:
            batches.write_folder(os.path.join(self.room, name), batches.some_folder(draw, False))
            matters.batch_in(made, batches.read_batch(self.room, name))
        for k in range(draw.choice((1, 2))):
            frozen = [freeze_request(k, made)] if made.docs else []
            settled = days.settled_requests(draw, made)
            for data in settled + frozen + days.some_requests(draw, made, draw.choice((0, 10, 40))):
                days.answered(made, data)
        self.made = made
        return matters.rows_of(made)

    def file(self, day):
        draw = self.draw
        rows = self.a_matter(day)
        days.write_rows(self.room, rows, has_sums=draw.random() < 0.5)
        place = os.path.join(self.room, "matter.db")
        with open(place, "rb") as file:
            whole = file.read()
        for _ in range(40):
            data = damaged(draw, whole)
            if draw.random() < 0.2:
                data = data[: draw.randrange(len(data) + 1)]
            for ending in ("", "-wal", "-shm", "-journal"):
                if os.path.exists(place + ending):
                    os.remove(place + ending)
            with open(place, "wb") as file:
                file.write(data)
            self.over_file(day, draw.choice([made["id"] for made in self.made.productions] or ["R"]))

    def over_file(self, day, id_):
        """The answer is that of the rows that sqlite3 reads, or that the keeper failed."""
        self.done += 1
        copy = os.path.join(self.room, "copy")
        os.makedirs(copy, exist_ok=True)
        shutil.copy(os.path.join(self.room, "matter.db"), copy)
        got = days.run(self.program, ["log", id_], self.room)
        self.told[str(got[0])] = self.told.get(str(got[0]), 0) + 1
        if got == (5, b"keeper fault\n"):
            return
        try:
            day.rows = days.kept_rows(copy)
            status, line = day.carry_out(["log", id_])
        except Exception as why:
            raise days.Different(f"the program gives {got!r}, and sqlite3 says {why}") from None
        days.same((status, line.encode("utf-8")), got, "log")

    def day(self, day):
        draw = self.draw
        self.command(day, "init", days.DIGESTS[0].hex())
        self.import_some(day, 0.1)
        for _ in range(draw.choice((2, 4, 6))):
            kind = draw.random()
            matter = day.matter()
            if kind < 0.2:
                self.import_some(day, 0.3)
            elif kind < 0.55:
                self.serve(day, draw.choice((1, 1, 2, 3)), days.some_requests(draw, matter, draw.choice((3, 20, 60))))
            elif kind < 0.8:
                self.serve(day, draw.choice((1, 1, 2)), days.settled_requests(draw, matter))
                self.command(day, *days.produce_words(draw, day.matter()))
            else:
                self.command(day, *days.produce_words(draw, matter))
            ids = [made["id"] for made in day.matter().productions]
            if ids and draw.random() < 0.5:
                self.command(day, draw.choice(("press", "log")), draw.choice(ids))
            if draw.random() < 0.1:
                words = draw.choice((["init", "0" * 64], ["press", "none"], ["log", "x y"], ["import", "B1"], ["serve", "17", "1"]))
                self.command(day, *(words if draw.random() < 0.5 else days.other_words(draw, words)))


def re_name(name):
    return name.replace("-", "").replace("_", "").isalnum() and name.isascii() and len(name) < 33


def freeze_request(number, made):
    body = days.as_json({"id": f"R{number}", "volume": f"V{number}", "prefix": "AB-", "width": 4, "from": 1, "to": len(made.docs),
                         "fields": made.fields[:1] if made.fields[:1] != ["PAGECOUNT"] and made.fields[:1] != ["TEXTPATH"] else []})
    return f"POST /productions HTTP/1.1\r\nDesk-Key: {days.KEYS[0]}\r\nContent-Length: {len(body)}\r\n\r\n".encode() + body


def changed_rows(draw, rows, day):
    """The rows with a few of them damaged, lost, moved or added."""
    rows = dict(rows)
    for _ in range(draw.choice((1, 1, 1, 2))):
        if not rows:
            break
        key = draw.choice(list(rows))
        kind = draw.randrange(10)
        if kind < 4:
            body = bytearray(rows[key])
            if body:
                at = draw.randrange(len(body)) if draw.random() < 0.5 else draw.randrange(min(len(body), 30))
                body[at] = draw.choice((body[at] ^ 1 << draw.randrange(8), (body[at] + draw.choice((1, 255))) % 256, draw.choice((0, 1, 2, 3, 255))))
            rows[key] = bytes(body)
        elif kind == 4:
            rows[key] = damaged(draw, rows[key])
        elif kind == 5:
            del rows[key]
        elif kind == 6:
            other = list(key)
            at = draw.randrange(3)
            other[at] = draw.choice((other[at] + 1, max(0, other[at] - 1), 0, draw.choice((13, 255, 1, 2, 3))))
            rows[tuple(other)] = rows[key] if draw.random() < 0.5 else rows.pop(key)
        elif kind == 7:
            same = [other for other in rows if other[0] == key[0]]
            rows[key] = rows[draw.choice(same)]
        elif kind == 8:
            new = changed_matter(draw, rows)
            rows = new if new is not None else rows
        else:
            rows[draw.choice((0, 1, 5, 6, 7, 8, 12, 13, 255)), draw.choice((0, 1, 2, 9, 4294967295)), draw.choice((0, 1, 2, 1000, 1001))] = \
                draw.choice((b"", b"\1", b"\1\0", b"\1\0\0\0\0", b"\2\1", rows[key]))
    return rows


def changed_matter(draw, rows):
    """The rows of a matter whose tables say something else; each body is of its form."""
    try:
        m = matters.load(rows)
    except Rule:
        return None
    kind = draw.randrange(12)
    small = draw.choice((0, 1, 2, 3, 4, 1000, 1001, 4294967295))
    if kind == 0 and m.staff:
        at = draw.randrange(len(m.staff))
        m.staff[at] = (draw.choice(matters.ROLES), draw.choice((m.staff[at][1], m.staff[0][1])), draw.choice((m.staff[at][2], "", "a\tb", "x" * 201)))
    elif kind == 1 and m.fields:
        m.fields[draw.randrange(len(m.fields))] = draw.choice((m.fields[0], "", "a\nb", "\u00ae", "PAGECOUNT", "z" * 300))
    elif kind == 2 and m.docs:
        doc = draw.choice(m.docs)
        doc[draw.choice(("parent", "pages", "batch"))] = small
    elif kind == 3 and m.docs:
        doc = draw.choice(m.docs)
        if draw.random() < 0.5:
            doc["id"] = draw.choice(("", "a,b", "a\nb", "\u00fe", "ok"))
        else:
            doc["values"] = draw.choice(([], [*doc["values"], "x"], ["\u00ae"], ["\r"], ["\n"], doc["values"][:-1]))
    elif kind == 4 and m.calls:
        doc = draw.choice(list(m.calls))
        call = list(m.calls[doc])
        at = draw.randrange(6)
        call[at] = draw.choice(((1, 2), (0, 1, 2, 9), (1, 2, 9), (False, True), tuple(matters.TREATMENTS), ("", "a", "X" * 41, "X" * 40))[at])
        if (call[0] == 2) != (call[2] != 0):
            call[0], call[2] = 1, 0
        m.calls[doc] = tuple(call)
    elif kind == 5 and m.boxes:
        key = draw.choice(list(m.boxes))
        box = list(m.boxes[key])
        box[draw.randrange(5)] = small
        m.boxes[key] = tuple(box)
        if draw.random() < 0.3:
            m.boxes[key[0], small] = m.boxes.pop(key)
    elif kind == 6 and m.entries:
        doc = draw.choice(list(m.entries))
        if draw.random() < 0.5:
            m.entries.pop(doc)
        else:
            m.entries[doc] = (draw.choice(("", "a\tb", "x" * 201)), "", "", draw.choice(("", "y" * 1000, "y" * 1001)))
    elif kind == 7 and m.prefixes:
        at = draw.randrange(len(m.prefixes))
        width, after, prefix = m.prefixes[at]
        m.prefixes[at] = draw.choice(((width, after + 1, prefix), (5, after, prefix), (3, after, prefix), (width, after, "A1"), (width, 0, prefix)))
    elif kind in (8, 9) and m.productions:
        made = draw.choice(m.productions)
        change_production(draw, made, small)
    elif kind == 10 and m.batches:
        at = draw.randrange(len(m.batches))
        m.batches[at] = (m.batches[at][0], small, small, draw.choice((m.batches[0][3], "a b", "", "ok", "x" * 33)))
    elif kind == 11 and m.words:
        key = draw.choice(list(m.words))
        m.words[key] = [*m.words[key], (1, 0, 0, draw.choice((0, 1, 4294967295)), 1, draw.choice(("", "x", "\t", "a b")))]
    return matters.rows_of(m)


def change_production(draw, made, small):
    if draw.random() < 0.4:
        key = draw.choice(("id", "volume", "prefix", "width", "from", "to", "fields"))
        made[key] = {"id": "a b", "volume": "vol", "prefix": "Z", "width": 5, "from": small, "to": small,
                     "fields": draw.choice((["x"], made["fields"] * 2, []))}[key]
        return
    item = draw.choice(made["items"])
    kind = draw.randrange(7)
    if kind == 0:
        item[draw.choice(("doc", "parent"))] = small
    elif kind == 1:
        item["treatment"] = draw.choice(matters.TREATMENTS)
    elif kind == 2:
        item["boxes"] = item["boxes"] | {small: (1, 0, 0, draw.choice((1, 0, 99999)), 1, "PI")}
    elif kind == 3:
        item["held"] = item["held"] | {small: draw.choice(("AC", "PI"))}
    elif kind == 4:
        item["entry"] = draw.choice((None, ("", "", "", ""), ("\t", "", "", "")))
    elif kind == 5:
        item["designation"] = draw.choice(("", "a", "X" * 41))
    else:
        item[draw.choice(("first", "last"))] += draw.choice((1, -1))


def main():
    if len(sys.argv) != 6:
        sys.exit(__doc__)
    job, program, count, seed, keep = sys.argv[1], sys.argv[2], int(sys.argv[3]), sys.argv[4], sys.argv[5]
    os.makedirs(keep, exist_ok=True)
    started = time.monotonic()
    if job in LINES or job == "requests":
        done, failed, kinds = fuzz_lines(job, program, count, seed, keep)
    else:
        run = Run(job, program, count, seed, keep)
        done, failed = run.go()
        kinds = run.told
    told = "; " + ", ".join(f"{kind}: {times}" for kind, times in sorted(kinds.items()))
    print(f"{job}, seed {seed}: {done} cases in {time.monotonic() - started:.0f} s, {failed} otherwise{told}")
    sys.exit(1 if failed else 0)


if __name__ == "__main__":
    main()
