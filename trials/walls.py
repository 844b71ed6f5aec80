#!/usr/bin/env python3
"""Whether want of memory can tell what is covered: walls.py PROGRAM [PAIRS] [SEED] [KEEP]

Pairs of matters that agree: they have the same decisions, and differ in covered pixels, in words that a box touches, in the values of held
fields, or in pages, words and values of withheld documents, or in all of these. For each of a pair `press` and `claw` run over a kept
production, and `produce` over the decisions alone, with growths.c preloaded, which lists every growth: kind, size, and where in the program.
The growths from the end of the load of the tables to the end of the program have to be the same list. The load ends where the growths of a
run part that is refused right after it, by an id of the same length that no production has. With each pair comes one of scans that differ below
a box, in a file of both forms in turn: the growths of `burn` behind the reading of the scan, which ends where those of a run part whose box is refused.

Each pair runs once with no thread, so that the order is one, and once with threads, when the sizes are compared as a bag; where bags differ
one of the two runs again, and differs from itself or not. Of `produce` the lists are also compared without what the freeze asks for, that is
the room that it makes, its commit, and the closing behind that (by the symbols of the program). Prints a table by kind of difference, and then
the first growth that differs in each pair of lists, by its place in the program, with the first few sizes. A pair's matters have to give the
same volume by the program and by the model. KEEP has the folders of the first pair of each cause. Needs cc. Ends with 1 where a list differs
beside the freeze.
"""
import collections
import copy
import os
import random
import shutil
import signal
import struct
import subprocess
import sys
import tempfile

sys.dont_write_bytecode = True
import fuzz_batch as batches  # noqa: E402
import fuzz_days as days  # noqa: E402
import fuzz_loads as loads  # noqa: E402
import fuzz_matter as matters  # noqa: E402
import fuzz_pages as pages  # noqa: E402
from fuzz_tools import Rule  # noqa: E402

HERE = os.path.dirname(os.path.abspath(__file__))
LIMIT, WORDS = 300, 27  # seconds; words of a record
KINDS = ("pixels", "words", "values", "withheld", "all")
NOTICE, SCAN = "notice.csv", "in.tif"
FREEZE = ("make_room", "commit", "bp_rules", "bp_keep", "sqlite")
Growth = collections.namedtuple("Growth", "thread kind size places")


# ---- matters that agree


def a_matter(draw, room):
    """A matter whose documents are settled, and the request for a production of all of them."""
    while True:
        made = matters.begun(days.DIGESTS[0])
        folder = tempfile.mkdtemp(dir=room)
        for name in ("B1", "B2")[: draw.choice((1, 2))]:
            batches.write_folder(os.path.join(folder, name), batches.some_folder(draw, False))
            matters.batch_in(made, batches.read_batch(folder, name))
        shutil.rmtree(folder)
        for data in days.settled_requests(draw, made):
            days.answered(made, data)
        fields = [name for name in made.fields if name not in matters.COLUMNS]
        asked = {"id": "R-0", "volume": "V0", "prefix": "AB-", "width": 4, "from": 1, "to": len(made.docs),
                 "fields": draw.sample(fields, min(len(fields), draw.choice((0, 1, 2))))}
        frozen = copy.deepcopy(made)
        try:
            matters.freeze(frozen, asked)
        except Rule:
            continue
        return made, asked, frozen


def boxes_of(item, page):
    return [box[1:5] for box in item["boxes"].values() if box[0] == page]


def other_pixels(draw, page, boxes):
    """Anything under the boxes, nothing else changed."""
    rows = pages.pixels(page)
    for left, top, width, height in boxes:
        mask, kind = pages.across(left, left + width, page.width), draw.randrange(3)
        for row in range(top, top + height):
            new = (0, (1 << page.width) - 1, draw.getrandbits(page.width))[kind]
            rows[row] = rows[row] & ~mask | new & mask
    return pages.of_pixels(page, rows)


def other_words(draw, words, page, boxes):
    """Words that a box touches go, change or come; the others stay in their order."""
    out = []
    for word in words:
        is_kept = not any(loads.touch(word[1:5], box) for box in boxes)
        if is_kept or draw.random() < 0.3:
            out.append(word)
        elif draw.random() < 0.6:
            out.append((*word[:5], draw.choice(("", "long ")) * draw.randrange(1, 60) + draw.choice(("x", "caf\u00e9", "w" * draw.randrange(1, 400)))))
    for _ in range(draw.choice((0, 1, 5, 40))):
        left, top, _, _ = draw.choice(boxes)
        out.insert(draw.randrange(len(out) + 1), (draw.randrange(9), left, top, 1, 1, "y" * draw.randrange(1, 80)))
    return out


def other_value(draw):
    return draw.choice(("", "x", "Ng", "caf\u00e9 " * draw.randrange(1, 30), "z" * draw.randrange(1, 2000)))


def alike(draw, made, production, kind):
    """A matter that agrees with this one on the production: what it withholds is other."""
    other = copy.deepcopy(made)
    for item in production["items"]:
        doc = item["doc"]
        if item["treatment"] in matters.PRIVILEGED:
            if kind in ("withheld", "all"):
                other_document(draw, other, doc)
            continue
        for page in range(1, made.page_count(doc) + 1):
            boxes = boxes_of(item, page)
            if boxes and kind in ("pixels", "all"):
                other.pages[doc, page] = other_pixels(draw, other.pages[doc, page], boxes)
            if boxes and kind in ("words", "all"):
                other.words[doc, page] = other_words(draw, other.words[doc, page], other.pages[doc, page], boxes)
        if kind in ("values", "all"):
            values = other.docs[doc - 1]["values"]
            for field in item["held"]:
                if field <= len(values):
                    values[field - 1] = other_value(draw)
    return other


def a_pair(draw, room, kind):
    """A matter before and after its freeze, what was asked, and another that agrees with each, and isn't the same."""
    while True:
        made, asked, frozen = a_matter(draw, room)
        seed = draw.getrandbits(64)
        others = [alike(random.Random(seed), matter, frozen.productions[0], kind) for matter in (made, frozen)]
        if matters.rows_of(others[1]) != matters.rows_of(frozen):
            return made, asked, frozen, others


def a_notice(draw, production):
    """One of the documents that are shown is claimed back; none where none is."""
    shown = [item["doc"] for item in production["items"] if item["treatment"] not in matters.PRIVILEGED]
    return {NOTICE: f"{draw.choice(shown)},{draw.choice(('AC', 'WP'))},2019-01-07,Ng,Berg,Letter\n".encode()} if shown else None


def two_scans(draw):
    """Two page files that differ below a box, and the box."""
    page = pages.some_page(draw)
    left, top = draw.randrange(page.width), draw.randrange(page.height)
    box = left, top, draw.randrange(1, page.width - left + 1), draw.randrange(1, page.height - top + 1)
    form = draw.choice(("plain", "g4"))
    return [{SCAN: pages.tiff_of(made, form)} for made in (page, other_pixels(draw, page, [box]))], [str(n) for n in box]


def other_document(draw, matter, doc):
    """Other pages, words and values, and perhaps more or fewer pages."""
    for page in range(1, matter.page_count(doc) + 1):
        del matter.pages[doc, page], matter.words[doc, page]
    matter.docs[doc - 1]["pages"] = draw.choice((1, 2, 3, 7))
    for page in range(1, matter.page_count(doc) + 1):
        matter.pages[doc, page] = image = pages.some_page(draw)
        matter.words[doc, page] = [(1, 0, 0, image.width, image.height, "v" * draw.randrange(1, 50))] * draw.choice((0, 1, 9))
    values = matter.docs[doc - 1]["values"]
    values[:] = [other_value(draw) for _ in values]


# ---- growths of a run


class Program:
    def __init__(self, path, room):
        self.path, self.room = os.path.abspath(path), room
        self.library, self.list = os.path.join(room, "growths.so"), os.path.join(room, "list")
        subprocess.run(["cc", "-O2", "-shared", "-fPIC", "-o", self.library, os.path.join(HERE, "growths.c"), "-ldl"], check=True)
        self.symbols = symbols_of(self.path)

    def growths(self, rows, words, is_alone):
        """The growths of a run over these rows, or these files, and what it gave: status, line, files."""
        folder = os.path.join(self.room, "folder")
        shutil.rmtree(folder, ignore_errors=True)
        os.makedirs(folder)
        files = {name: data for name, data in rows.items() if isinstance(name, str)}
        batches.write_folder(folder, files)
        if len(files) < len(rows):
            days.write_rows(folder, {key: body for key, body in rows.items() if key not in files})
        environ = {"LD_PRELOAD": self.library, "GROWTH_LIST": self.list, **({"GROWTH_ALONE": "1"} if is_alone else {})}
        done = subprocess.run([self.path, *words], cwd=folder, env=environ, capture_output=True, timeout=LIMIT)
        found = []
        with open(self.list, "rb") as file:
            while True:
                record = struct.unpack(f"<{WORDS}Q", file.read(8 * WORDS))
                if record[0] == 0:
                    break
                found.append(Growth(record[0], chr(record[1]), record[2], record[3:]))
        return found, (done.returncode, done.stdout, days.files_below(os.path.join(folder, "out")))

    def after_load(self, rows, words):
        """The growths behind the load, how many were before, and what the run gave: the load is what a run that is refused right after it
        has as well."""
        whole, told = self.growths(rows, words, True)
        refused = [*words[:2], "999999999", *words[3:]] if words[0] == "burn" else [words[0], "R 0", *words[2:]]
        loaded, (status, _, _) = self.growths(rows, refused, True)
        if status != 2:
            sys.exit(f"walls.py: {refused} ended with {status}")
        begin = next((k for k, (one, two) in enumerate(zip(whole, loaded)) if (one.kind, one.size) != (two.kind, two.size)), len(loaded))
        return whole[begin:], begin, told

    def names(self, growth):
        """The functions on the stack, from the innermost on."""
        names = []
        for at in growth.places:
            if at:
                name = name_of(self.symbols, at).split("::<")[0]
                if not names or names[-1] != name:
                    names.append(name)
        return names

    def is_of_freeze(self, growth):
        """Whether the freeze of `produce` asked for it, and not the press behind it: the room that it makes, its commit or the closing of the
        database behind that comes first on the stack."""
        for name in self.names(growth):
            if name.startswith(("bp_press", "bp_claw")):
                return False
            if any(word in name for word in FREEZE):
                return True
        return False

    def place(self, growth):
        """Where a growth was asked for: the functions of the product and of sqlite on the stack, or the numbers of all."""
        names = self.names(growth)
        own = [name for name in names if name.startswith(("bp_", "sqlite"))]
        return " < ".join((own or names)[:3])


def symbols_of(path):
    told = subprocess.run(["nm", "-n", "--defined-only", path], capture_output=True, text=True, check=False).stdout
    rows = [line.split() for line in told.splitlines()]
    return [(int(row[0], 16), row[2]) for row in rows if len(row) == 3 and row[1] in "tTwW"]


def name_of(symbols, place):
    """The symbol that a place in the program's file is behind."""
    low, high = 0, len(symbols)
    while low < high:
        middle = (low + high) // 2
        if symbols[middle][0] <= place:
            low = middle + 1
        else:
            high = middle
    return symbols[low - 1][1] if low else hex(place)


# ---- the comparison


def first_difference(one, two):
    for k in range(max(len(one), len(two))):
        a, b = (part[k] if k < len(part) else None for part in (one, two))
        if a is None or b is None or (a.kind, a.size) != (b.kind, b.size):
            return k, a, b
    return None


def bag(growths):
    return collections.Counter((growth.kind, growth.size) for growth in growths)


class Walls:
    def __init__(self, program, keep):
        self.program, self.keep = program, keep
        self.table = collections.defaultdict(collections.Counter)
        self.causes = collections.defaultdict(list)

    def pair(self, kind, command, words, rows):
        runs = [self.program.after_load(each, words) for each in rows]
        told = runs[0][2]
        if told != runs[1][2] or told[0] != 0:
            sys.exit(f"walls.py: two matters that agree aren't told alike by {command}: {told[:2]}, {runs[1][2][:2]}")
        counts = self.table[kind, command]
        counts["pairs"] += 1
        counts["growths"] += len(runs[0][0])
        counts["of these beside the freeze"] += len(self.beside(command, runs[0][0]))
        found, rest = self.compared(command, [run[0] for run in runs])
        counts["lists differ"] += found is not None
        counts["lists differ beside it"] += rest is not None
        if found:
            self.cause(kind, command, *(rest or found)[1:], rows, "beside the freeze" if rest else "")
        together = [self.program.growths(each, words, False)[0][run[1] :] for each, run in zip(rows, runs)]
        if bag(together[0]) != bag(together[1]):
            counts["bags differ, with threads"] += 1
            if bag(self.beside(command, together[0])) != bag(self.beside(command, together[1])):
                again = self.program.growths(rows[0], words, False)[0][runs[0][1] :]
                is_own = bag(self.beside(command, together[0])) != bag(self.beside(command, again))
                counts["bags that differ from run to run" if is_own else "bags differ beside it"] += 1
        return told[2]

    def compared(self, command, lists):
        """The first difference of all, and the first beside what the freeze does."""
        return first_difference(*lists), first_difference(*(self.beside(command, part) for part in lists))

    def beside(self, command, growths):
        return [each for each in growths if command != "produce" or not self.program.is_of_freeze(each)]

    def cause(self, kind, command, one, two, rows, where):
        place = " ".join(word for word in (where, self.program.place(one or two)) if word)
        sizes = (one.size if one else None, two.size if two else None)
        if (command, place) not in self.causes and self.keep:
            folder = os.path.join(self.keep, f"{command}-{len(self.causes)}")
            for name, each in zip("ab", rows):
                os.makedirs(os.path.join(folder, name), exist_ok=True)
                batches.write_folder(os.path.join(folder, name), {path: data for path, data in each.items() if isinstance(path, str)})
                days.write_rows(os.path.join(folder, name), {key: body for key, body in each.items() if not isinstance(key, str)})
        self.causes[command, place].append((kind, sizes))

    def tell(self):
        columns = ("pairs", "growths", "of these beside the freeze", "lists differ", "lists differ beside it", "bags differ, with threads",
                   "bags differ beside it", "bags that differ from run to run")
        print(f"| Difference | Command | {' | '.join(columns)} |\n|---|---{'|---' * len(columns)}|")
        for (kind, command), counts in self.table.items():
            print(f"| {kind} | {command} | {' | '.join(str(counts[column]) for column in columns)} |")
        print()
        for (command, place), found in sorted(self.causes.items(), key=lambda pair: -len(pair[1])):
            kinds = collections.Counter(kind for kind, _ in found)
            print(f"{command}, {len(found)} times ({', '.join(f'{kind} {times}' for kind, times in kinds.items())}): {place}")
            print(f"    sizes {', '.join(f'{a} / {b}' for _, (a, b) in found[:6])}")
        return any(counts["lists differ beside it"] or counts["bags differ beside it"] for counts in self.table.values())


Compared = collections.namedtuple("Compared", "kind command words inputs volume")


def some_pairs(draw, count, room):
    """What is compared of each pair: a command and its two inputs, rows and files; of `press` the volume that is due, too."""
    for k in range(count):
        kind = KINDS[k % len(KINDS)]
        made, asked, frozen, others = a_pair(draw, room, kind)
        production = frozen.productions[0]
        volume = days.volume_of(frozen, production)
        if volume != days.volume_of(others[1], production) or not matters.is_valid(others[1]) or not matters.is_valid(others[0]):
            sys.exit("walls.py: the model's matters don't agree")
        words = ["produce", "R-0", "V0", "AB-", "4", "1", str(asked["to"]), *asked["fields"]]
        kept = [matters.rows_of(matter) for matter in (frozen, others[1])]
        notice = a_notice(draw, production)
        scans, box = two_scans(draw)
        yield [
            Compared(kind, "press", ["press", "R-0"], kept, volume),
            Compared(kind, "produce", words, [matters.rows_of(matter) for matter in (made, others[0])], None),
            *([Compared(kind, "claw", ["claw", "R-0", "V9", NOTICE], [rows | notice for rows in kept], None)] if notice else []),
            Compared("a scan", "burn", ["burn", SCAN, *box, "b.tif", draw.choice(("plain", "g4"))], scans, None),
        ]


def compare(walls, pairs):
    for each in (each for pair in pairs for each in pair):
        files = walls.pair(each.kind, each.command, each.words, each.inputs)
        if each.volume is not None and files != each.volume:
            sys.exit("walls.py: the program's volume isn't the model's")


def main():
    if len(sys.argv) < 2:
        sys.exit(__doc__)
    count, seed = (int(word) if word else default for word, default in zip((sys.argv[2:4] + ["", ""])[:2], (100, 1)))
    keep = os.path.abspath(sys.argv[4]) if len(sys.argv) > 4 else None
    room = tempfile.mkdtemp(dir="/dev/shm" if os.path.isdir("/dev/shm") else None)
    signal.signal(signal.SIGTERM, lambda *_: sys.exit("ended"))
    walls = Walls(None, keep)
    try:
        walls.program = Program(sys.argv[1], room)
        compare(walls, some_pairs(random.Random(f"walls {seed}"), count, room))
    finally:
        failed = walls.tell()
        shutil.rmtree(room)
    sys.exit(1 if failed else 0)


if __name__ == "__main__":
    main()
