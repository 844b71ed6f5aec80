#!/usr/bin/env python3
"""Random finds over random matters: does the program find all that stands there, and none otherwise? finds.py PROGRAM [FINDS] [SEED] [KEEP]

A matter has some documents with fields and pages, of words in many scripts: capitals, the sharp s, the last sigma, the dotted and the
dotless i, marks that combine, digits of other scripts, signs at both ends, empty pages, values with several spaces. Its batches are drawn
and come in, members of the staff decide on documents, and then they look: Find with terms that are mostly pieces of what stands there,
folded, with `*` at an end, `#` for a digit, several in turn, or such as are refused; the other looks now and then, and a Plan before its
Freeze. Some matters have more than 1,000 parts, others pages with more than 1,000 hits, at and about each of these limits. Where a find
stops, another goes on from there until none does, and all of them together have to have each hit of each part, once. What is due comes
from plain models in Python (find_model.py, fuzz_matter.py), written from the papers.

PROGRAM is bp_test_days as built (`rt run` in its crate): it does the lines of the files that it is given. `-` writes them to the folder
KEEP and tries none (then `rt try --cases KEEP -- case` does). FINDS (20,000 where it isn't said) are drawn in parts of 2,000, at as many
processors as there are; the same SEED draws the same. Prints how many finds, hits, stops and refusals were due, and each line that was told
otherwise, whose matter stands in KEEP (`found`); ends with 1 where there is one.

Unicode is Python's, 14.0 in 3.11, and 18.0 in the kit: the characters drawn are Python's. Of these both say the same (read off the kit's
tables once): which fold alike, and which are letters or digits. 500 parts have each of them at both ends of a word, and as a term beside
all that fold as it does.
"""
import collections
import multiprocessing
import os
import random
import subprocess
import sys
import tempfile
import types
import unicodedata

sys.dont_write_bytecode = True
sys.path.insert(0, os.path.dirname(os.path.abspath(__file__)))
import find_model  # noqa: E402
import fuzz_loads as loads  # noqa: E402
import fuzz_matter as matters  # noqa: E402
from fuzz_tools import NAMES, Rule, said  # noqa: E402

IN_A_PART = 2000  # finds
PARTS = 500  # that have each character
SECONDS = 600  # of the program, for a part
LARGEST = 4294967295
LEAD, SECOND, REVIEWER, CLERK, RECEIVER, STRANGER = range(1, 7)
ROLES = {SECOND: "second", REVIEWER: "reviewer", CLERK: "clerk", RECEIVER: "receiver"}
LOOKERS = (LEAD, SECOND, REVIEWER, CLERK)
FIELDS = ("AUTHOR", "TO", "SUBJECT", "\u65e5\u4ed8", "Stra\u00dfe", "PAGECOUNT", "NOTE 1", "caf\u00e9")
BASES = ("AC", "WP", "PI", "TS")


# ---- what a call tells, as a line says it


def told_of(name, reply):
    if name in ("Freeze", "Plan"):
        return " ".join(["produced", *(f"{item['doc']}:{item['first']}-{item['last']}" for item in reply["items"])])
    if name == "Find":
        hits = (f"{hit['doc']}:{hit['page']}:{hit['field']}:{hit['place']}:{hit['count']}" for hit in reply["hits"])
        return " ".join(["found", *hits, f"next {reply['next']} {reply['next_page']}"])
    if name in ROWS:
        return " | ".join([name.removeprefix("See").replace("Staff", "People").lower(), *map(ROWS[name], reply)])
    return f"staff {reply['staff']}" if name == "AddStaff" else "done"


def state(row):
    editor, confirmer, treatment = row["editor"], row["confirmer"], row["treatment"]
    called = f"confirmed {editor} {confirmer}" if confirmer else f"first {editor}" if editor else "uncalled"
    treatment = treatment.removeprefix("Withhold-") if "-" in treatment else treatment.lower()
    stands = quoted(row["production"]) if row["production"] else "-"
    return (f"{row['doc']} {row['parent']} {row['pages']} {called} {yes(row['responsive'])} {treatment} {quoted(row['designation'])}"
            f" {row['boxes']} {row['held']} {yes(row['entry'])} {stands}")


def value(row):
    return f"{row['field']} {quoted(row['name'])} {quoted(row['value'])} {row['held'] or '-'}"


def person(row):
    return f"{row['staff']} {quoted(row['name'])} {row['role'].lower()}"


def production(row):
    texts = " ".join(quoted(row[key]) for key in ("id", "volume", "prefix"))
    return f"{texts} {row['width']} {row['first']}-{row['last']} {row['items']} {row['from']} {row['to']}"


ROWS = {"SeeStates": state, "SeeValues": value, "SeeStaff": person, "SeeProductions": production}


def quoted(text):
    return f'"{text}"'


def yes(truth):
    return "yes" if truth else "no"


def digest_of(key):
    return bytes([key]) * 32


# ---- a day: lines, and what is due


class Day:
    def __init__(self, draw):
        self.draw, self.lines, self.count = draw, [], collections.Counter()
        self.matter = matters.begun(digest_of(LEAD))
        self.lines += ["files", f"begin {LEAD}"]
        for key, role in ROLES.items():
            self.call(LEAD, "AddStaff", f"{role} {role} {key}", name=role, role=role.capitalize(), digest=digest_of(key))

    def call(self, by, call, operands, **members):
        """A line of a call, by its operands and its members; what it gives, or None where a rule is broken."""
        try:
            reply = matters.step(self.matter, digest_of(by), call, members)
            told = told_of(call, reply)
        except Rule as rule:
            reply, told = None, rule.told()
            self.count[f"refused {rule.number} {NAMES[rule.number]}"] += 1
        asked = f"call {by} {call} {operands}".rstrip()
        if "\n" in told:  # a line says how long it is
            asked, told = "long " + asked, f"{len(told.encode())} bytes"
        self.lines.append(f"{asked} = {told}")
        self.count[call] += 1
        return reply

    def find(self, key, terms, doc, page):
        """A find, and those that go on where it stops."""
        first, hits, stops = (doc, page), [], -1
        while doc or stops < 0:
            operands = " ".join([str(doc), str(page), *map(word, terms)])
            found = self.call(key, "Find", operands, **{"terms": terms, "from": doc, "page": page})
            if found is None:
                return
            doc, page = found["next"], found["next_page"]
            hits, stops = hits + found["hits"], stops + 1
        self.count["stops"] += stops
        self.count["hits"] += len(hits)
        if stops and [tuple(hit.values()) for hit in hits] != find_model.all_hits(self.docs, terms, *first):
            raise AssertionError(f"the finds for {terms} from {first} on haven't all hits once")

    # ---- batches

    def import_batch(self, name, fields, docs):
        """`docs` are (parent from 1, values by field, pages as lists of words)."""
        size = width, height = 200, 64
        image = types.SimpleNamespace(width=width, height=height, strip=b"")
        columns = ["BEGDOC", *fields, "BEGATTACH"]
        rows, opt, csv, batch = [dat_line(columns)], [], [], []
        for k, (parent, has, pages) in enumerate(docs, 1):
            rows.append(dat_line([f"{name}-{k}", *has, f"{name}-{parent}" if parent != k else self.draw.choice(("", f"{name}-{k}"))]))
            taken = []
            for p, texts in enumerate(pages):
                id_ = f"{name}-{k}" + (f".{p}" if p else "")
                opt.append(f"{id_},V,P.TIF,{'' if p else 'Y'},,,\n")
                csv += [f'{id_},1,0,0,8,8,"{quotes_doubled(text)}"\n' for text in texts]
                taken.append((image, [(1, 0, 0, 8, 8, text) for text in texts]))
            batch.append({"id": f"{name}-{k}", "parent": parent, "values": has, "pages": taken})
        self.lines.append("image %s/P.TIF g4 200 %d %d 0 0 1 1" % (name, *size))
        for file, parts in (("load.dat", rows), ("load.opt", opt), ("words.csv", csv)):
            self.lines.append(f"file {name}/{file} " + (" ".join(said(part.encode()) for part in parts) or "-"))
        made = {"name": name, "digest": b"", "fields": fields, "docs": batch}
        self.lines.append("import %s = %d %d" % (name, *matters.batch_in(self.matter, made)))

    def ready(self):
        """The documents as find_model takes them."""
        m = self.matter
        self.docs = [(doc["values"], [[text for *_, text in m.words[k, p]] for p in range(1, doc["pages"] + 1)])
                     for k, doc in enumerate(m.docs, 1)]


def word(text):
    return said(text.encode())


def dat_line(cells):
    return loads.dat_of(cells, []).decode()


def quotes_doubled(text):
    return text.replace('"', '""')


# ---- characters and words

ALPHABETS = (
    "abcdexyz", "ABCDabcd", "sS\u017f\u00df\u1e9etT", "iI\u0130\u0131jJ", "kK\u212aaA\u00c5\u00e5\u212b", "\u03c3\u03c2\u03a3\u03b1\u0391",
    "\u03c9\u03a9\u2126\u03bc\u00b5\u039c", "\u0390\u1fd3\u03b0\u1fe3\u03b9\u0345\u1fbe", "\u1fb3\u1fbc\u1f80\u1f88\u03b1\u03b9",
    "\ufb05\ufb06\ufb01st", "\u0436\u0416\u0434\u0414\u1c80\u0432\u0412", "\uab70\u13a0\u13f0\u13f8\u13a1\uab71",
    "\u10d0\u1c90\u10d1\u1c91", "\u0587\u0565\u0535\u0582\u0552", "\u01c4\u01c5\u01c6\u01f0jd", "\U00010400\U00010428\U00010401\U00010429",
    "\u4e2d\u6587\u5b57", "\u3042\u30a2\u30a4", "\u05d0\u05d1\u05e9\u05c1", "\u0627\u0628\u062c\u0640", "\u0915\u0916\u093f\u094d",
    "e\u0301\u00e9\u00c9E", "\u2167\u2177\u24b6\u24d0v", "\u03b2\u03d0\u03b8\u03d1\u03f4\u0398\u03f5\u03b5", "\u1e61\u1e60\u1e9b",
    "\ua64a\ua64b\u1c88", "\u00ff\u0178\u00e6\u00c6", "a_b%=-",
)
NUMBERS = (
    "0123456789", "0123456789", "555-0188", "\u0660\u0661\u0669", "\u0966\u0967", "\uff10\uff11", "\U0001d7d8\U0001d7e1",
    "\u00b2\u00bd\u2460\u3007",
)
MARKS = "\u0301\u0308\u0345\u20dd\u200d\ufe0f"
SIGNS = (
    *".,;:!?\"'()[]-*#/\\&@$%_=+~|<>", "**", "\u00ab", "\u00bb", "\u201c", "\u201d", "\u2019", "\u2013", "\u2026", "\u00a7", "\u20ac",
    "\u00bf", "\u3002", "\u300c", "\U0001f600", "\u00a0", "\u200b", "\ufeff", "\u0085", "\u2028", "\ue000", "\ufffd", "\U0010ffff",
    "\u00bd", "\u0301", "\u2167",
)
ODD_TERMS = (
    "*", "**", "***", "#", "*#", "#*", "*#*", "##*", "*a*", "a*b", "-", "*-", "\u0080*", "\u0345", "*\u0301*", "\u00df", "ss", "\u0130",
    "i\u0307",
)
# How many words the pages of a document have, whose hits come to the limit, are below it or above.
SIZES = (
    (1000,), (999, 1), (999, 0, 2), (1001, 1), (400, 600), (500, 499, 3), (1,) * 9, (2500,), (0, 0, 1500, 0), (333, 333, 334, 1),
)
# By category, without those that a word of a page can't have; and those that fold alike.
OF_ALL, ALIKE = collections.defaultdict(list), collections.defaultdict(list)
for character in map(chr, (*range(0x20, 0x7F), *range(0x80, 0x110000))):
    if unicodedata.category(character) not in ("Cn", "Co", "Cs"):
        OF_ALL[unicodedata.category(character)].append(character)
        ALIKE[find_model.fold(character)].append(character)
CATEGORIES = sorted(OF_ALL)


def some_characters(draw, count):
    alphabet = draw.choice(ALPHABETS) if draw.random() < 0.9 else [draw.choice(OF_ALL[draw.choice(CATEGORIES)]) for _ in range(4)]
    return "".join(draw.choice(alphabet) for _ in range(count))


def some_stem(draw):
    kind = draw.random()
    if kind < 0.65:
        return some_characters(draw, draw.choice((1, 2, 3, 3, 4, 5, 8)))
    if kind < 0.8:
        numbers = draw.choice(NUMBERS)
        return "".join(draw.choice(numbers) for _ in range(draw.choice((1, 2, 4, 8))))
    if kind < 0.9:
        return some_stem(draw) + draw.choice(SIGNS) + some_stem(draw)
    if kind < 0.98:
        return "".join(draw.choice(SIGNS) for _ in range(draw.choice((1, 1, 2, 4))))
    return some_characters(draw, 1) * draw.choice((49, 50, 66, 67, 100, 199, 200, 201))


def varied(draw, text):
    """The same with other characters of the same folding, or in capitals or small letters as whole texts have them."""
    kind = draw.random()
    if kind < 0.3:
        return text
    if kind < 0.5:
        return draw.choice((text.upper(), text.lower(), text.title(), text.swapcase()))
    return "".join(draw.choice(ALIKE.get(find_model.fold(c)) or c) for c in text)


def some_word(draw, stems):
    text = varied(draw, draw.choice(stems))
    if draw.random() < 0.1:
        text += draw.choice(MARKS)
    for _ in range(draw.choice((0, 0, 0, 1, 1, 2))):
        text = draw.choice(SIGNS) + text if draw.random() < 0.4 else text + draw.choice(SIGNS)
    return text + " " + text if draw.random() < 0.01 else text


def some_value(draw, stems):
    """Words with spaces between them, and about them; newlines now and then. No value has a thorn."""
    text = draw.choice(("", "", " ", "  "))
    for _ in range(draw.choice((0, 1, 1, 2, 3, 5))):
        text += some_word(draw, stems) + draw.choice((" ", " ", " ", "  ", "   ", "\u00a0", "\t"))
    if draw.random() < 0.7:
        text = text.rstrip(" ")
    if draw.random() < 0.03:
        text = text.replace(" ", "\n", 1)
    return "".join(c for c in text if c not in "\u00fe\u00ae")


# ---- matters


def small(day):
    draw = day.draw
    stems = [some_stem(draw) for _ in range(draw.choice((1, 2, 4, 8, 16)))]
    for k in range(draw.choice((1, 1, 1, 2, 3))):
        fields, docs, parent = draw.sample(FIELDS, draw.choice((0, 1, 2, 3, 5))), [], 1
        for doc in range(1, draw.choice((1, 2, 3, 5, 8)) + 1):
            parent = doc if draw.random() < 0.6 else parent
            pages = [[some_word(draw, stems) for _ in range(draw.choice((0, 1, 2, 4, 8, 12)))] for _ in range(draw.choice((1, 1, 2, 4)))]
            docs.append((parent, [some_value(draw, stems) for _ in fields], pages))
        day.import_batch(f"B{k}", fields, docs)
    day.ready()
    decisions(day)
    looks(day)
    if draw.random() < 0.2:
        day.lines.append("load = loaded")
    for _ in range(draw.choice((20, 60, 120))):
        some_find(day, stems)
    day.lines.append("same = yes")


def many_parts(day):
    """So many parts in all, or from some part on."""
    draw = day.draw
    stems = [some_stem(draw) for _ in range(draw.choice((2, 6)))]
    many, few = draw.choice((998, 999, 1000, 1001, 1002, 1400, 2003)), draw.choice((1, 1, 2, 7, 400, 2000))
    fields = draw.sample(FIELDS, draw.choice((0, 0, 1, 2)))
    docs, parts = [], 0
    while parts < many:
        count = min(few, max(1, many - parts - 1))
        pages = [[some_word(draw, stems) for _ in range(draw.choice((0, 1, 1, 2)))] for _ in range(count)]
        docs.append((len(docs) + 1, [some_value(draw, stems) for _ in fields], pages))
        parts += count + 1
    day.import_batch("MANY", fields, docs)
    day.ready()
    day.call(CLERK, "SeeStates", "1", **{"from": 1})
    for _ in range(40):
        some_find(day, stems)
    for _ in range(5):
        doc = draw.randrange(1, len(docs) + 1)
        day.call(CLERK, "SeeStates", str(doc), **{"from": doc})


def many_hits(day):
    """Pages and values whose hits come to the limit, are one below it or above."""
    draw = day.draw
    stems = [some_stem(draw) for _ in range(draw.choice((1, 2)))]
    docs = []
    while len(docs) < draw.choice((2, 4)):
        sizes = draw.choice(SIZES)
        value = " ".join(some_word(draw, stems) for _ in range(draw.choice((0, 1, 500, 1000)))).translate({0xfe: "x", 0xae: "x"})
        docs.append((len(docs) + 1, [value], [[some_word(draw, stems) for _ in range(size)] for size in sizes]))
    day.import_batch("HITS", ["NOTE"], docs)
    day.ready()
    for _ in range(10):
        some_find(day, stems)
    for terms in (["*"], ["*"] * 2, [varied(draw, stems[0]) + "*"]):
        day.find(CLERK, terms, *draw.choice(((1, 0), (1, 1), (2, 0))))


def each_character(day, number):
    """The characters of a part, at both ends of a word, and as terms beside those that fold alike."""
    some = [c for name in CATEGORIES for c in OF_ALL[name]][number % PARTS :: PARTS]
    folding = [c for c in some if len(ALIKE[find_model.fold(c)]) > 1]
    day.import_batch("EACH", [], [(1, [], [[f"{c}x{c}" for c in some], [other for c in folding for other in ALIKE[find_model.fold(c)]]])])
    day.ready()
    for term in ("x", "*x", "x*", *folding):
        day.find(CLERK, [term], 1, 1)


# ---- finds


def some_find(day, stems):
    draw, docs = day.draw, day.docs
    doc = draw.choice((1, 1, 1, 1, len(docs), draw.randrange(1, len(docs) + 1), draw.randrange(1, len(docs) + 1)))
    page = draw.choice((0, 0, 0, 1, len(docs[doc - 1][1]), draw.randrange(len(docs[doc - 1][1]) + 1)))
    if draw.random() < 0.04:
        doc = draw.choice((0, len(docs) + 1, LARGEST))
    elif draw.random() < 0.03:
        page = draw.choice((len(docs[doc - 1][1]) + 1, LARGEST))
    key = draw.choice(LOOKERS) if draw.random() < 0.98 else draw.choice((RECEIVER, STRANGER))
    day.find(key, some_terms(draw, docs, stems), doc, page)


def some_terms(draw, docs, stems):
    if draw.random() < 0.05:
        return refused_terms(draw)
    if draw.random() < 0.05:
        return [draw.choice(ODD_TERMS)]
    return [some_term(draw, text) for text in some_texts(draw, docs, stems)]


def some_texts(draw, docs, stems):
    """Texts that stand in turn somewhere, or a word that may stand nowhere."""
    values, pages = draw.choice(docs)
    rows = [row for row in [*([text for text in value.split(" ") if text] for value in values), *pages] if row]
    if not rows or draw.random() < 0.1:
        return [some_word(draw, stems)]
    row = draw.choice(rows)
    at = draw.randrange(len(row))
    return row[at : at + draw.choice((1, 1, 1, 1, 1, 2, 2, 3, 8))]


def some_term(draw, text):
    """A term that mostly matches the text."""
    if draw.random() < 0.5:
        text = find_model.core(text)
    if draw.random() < 0.3:
        text = "".join("#" if unicodedata.category(c)[0] == "N" and draw.random() < 0.6 else c for c in text)
    if draw.random() < 0.6:
        text = varied(draw, text)
    at, to = sorted((draw.randrange(len(text) + 1), draw.randrange(len(text) + 1)))
    kind = draw.random()
    if kind < 0.5:
        return text or "*"
    if kind < 0.65:
        return text[:to] + "*"
    if kind < 0.8:
        return "*" + text[at:]
    if kind < 0.88:
        return "*" + text[at:to] + "*"
    if kind < 0.92:
        return text[at:to] or "#"
    if kind < 0.96:
        return text[:at] + draw.choice((*SIGNS, "x", "*", "#", "\u0345")) + text[to:]
    return draw.choice(SIGNS) + text


def refused_terms(draw):
    """Mostly such as are refused, and some that just aren't."""
    few = draw.choice((["a"], ["*"], ["a", "b"]))
    long = draw.choice(("a" * 200, "\u00e9" * 100, "\U0001f600" * 50))
    return draw.choice((
        [], [""], [*few, ""], [long], [long + "*"], [*few, long + "a"], ["*"] * 8, ["*"] * 9, ["a\t"], ["\n"], ["\0"], ["a\x1fb"], ["\x7f"],
        [*few, "*\x7f*"], ["\x80"], ["\x9f*"], [" "], ["a b"]))


# ---- decisions and looks


def decisions(day):
    """Some calls on each document; in half of the matters they settle all of them, for the most part."""
    draw, m = day.draw, day.matter
    settled = draw.random() < 0.5
    for doc in range(1, len(m.docs) + 1):
        if not settled and draw.random() < 0.3:
            continue
        treatment = draw.choice(("Produce", "Produce", "Redact", "Redact", "Withhold-AC", "Withhold-WP"))
        responsive, designation = draw.random() < 0.8, draw.choice(("", "CONFIDENTIAL", "A-1. B_2"))
        told = treatment.lower() if treatment in ("Produce", "Redact") else treatment[-2:]
        day.call(REVIEWER, "SetCall", f"{doc} {yes(responsive)} {told} {word(designation)}",
                 doc=doc, responsive=responsive, treatment=treatment, designation=designation)
        for number in draw.sample(range(1, 5), draw.choice((1, 2) if settled else (0, 1, 3))):
            page, basis = draw.randrange(1, m.page_count(doc) + (1 if settled else 2)), draw.choice(BASES)
            day.call(REVIEWER, "PutBox", f"{doc} {number} {page} 3 4 50 30 {basis}",
                     doc=doc, num=number, page=page, left=3, top=4, width=50, height=30, basis=basis)
        if draw.random() < 0.1:
            day.call(REVIEWER, "DropBox", f"{doc} 1", doc=doc, num=1)
        for field in draw.sample([*m.fields, "x"], draw.choice((0, 1)) if settled else 1):
            basis = draw.choice(BASES)
            day.call(REVIEWER, "HoldField", f"{doc} {word(field)} {basis}", doc=doc, field=field, basis=basis)
            if draw.random() < 0.2:
                day.call(REVIEWER, "FreeField", f"{doc} {word(field)}", doc=doc, field=field)
        if settled or draw.random() < 0.7:
            day.call(REVIEWER, "PutEntry", f"{doc} 2019 Ng Ortiz Advice",
                     doc=doc, date="2019", author="Ng", recipients="Ortiz", description="Advice")
        if settled or draw.random() < 0.8:
            day.call(SECOND, "Confirm", f"{doc}", doc=doc)
        if draw.random() < 0.03:
            day.call(SECOND, "SendBack", f"{doc}", doc=doc)


def looks(day):
    draw, m = day.draw, day.matter

    def who():
        return draw.choice(LOOKERS) if draw.random() < 0.9 else draw.choice((RECEIVER, STRANGER))

    def some_doc():
        return draw.randrange(1, len(m.docs) + 1) if draw.random() < 0.9 else draw.choice((0, len(m.docs) + 1, LARGEST))

    for _ in range(draw.choice((0, 1, 3))):
        some_plan(day, who)
    for _ in range(4):
        first, doc = some_doc(), some_doc()
        day.call(who(), "SeeStates", str(first), **{"from": first})
        day.call(who(), "SeeValues", str(doc), doc=doc)
    day.call(who(), "SeeStaff", "")
    day.call(who(), "SeeProductions", "")
    day.lines.append("mark")
    for _ in range(3):
        some_plan(day, who, False)


def some_plan(day, who, frozen=True):
    """A plan, and the freeze of the same request."""
    draw, m = day.draw, day.matter
    asked = some_request(draw, m)
    texts, numbers = ([asked[key] for key in keys] for keys in (("id", "volume", "prefix"), ("width", "from", "to")))
    operands = " ".join([*map(word, texts), *map(str, numbers), *map(word, asked["fields"])])
    planned = day.call(who(), "Plan", operands, **asked)
    if frozen:
        made = day.call(draw.choice((LEAD, CLERK)), "Freeze", operands, **asked)
        if planned is not None and made != planned:
            raise AssertionError(f"{operands} was planned as {planned} and made as {made}")


def some_request(draw, m):
    if m.productions and draw.random() < 0.2:
        made = draw.choice(m.productions)
        asked = {key: made[key] for key in ("id", "volume", "prefix", "width", "from", "to", "fields")}
    else:
        parents, made = sorted({doc["parent"] for doc in m.docs}), len(m.productions)
        first = draw.choice(parents)
        to = draw.choice([parent - 1 for parent in parents if parent > first] + [len(m.docs)])
        asked = {"id": f"R-{made}", "volume": f"V{made}", "prefix": draw.choice(("AB-", "C_")), "width": 4, "from": first, "to": to,
                 "fields": draw.choice(([], [name for name in m.fields if name != "PAGECOUNT"][:2]))}
    if draw.random() < 0.2:
        other = {"id": ("", "a b", "R-9"), "volume": ("vol", "V0", "V9"), "prefix": ("AB1", "", "-A", "Z"), "width": (3, 11, 0, 255, 5),
                 "from": (0, 1, LARGEST), "to": (0, 1, len(m.docs) + 1), "fields": (["TO", "TO"], ["x"], ["PAGECOUNT"])}
        key = draw.choice(list(asked))
        asked[key] = draw.choice(other[key])
    return asked


# ---- parts


def part_of(words):
    """Draws a part and tries it: what was due, how many lines, and what was told otherwise."""
    program, seed, number, finds, keep = words
    draw, count, days = random.Random(f"{seed} {number}"), collections.Counter(), []
    while count["Find"] < finds:
        day = Day(draw)
        if not days:
            each_character(day, number)
        else:
            {1: many_parts, 2: many_hits, 3: many_parts}.get(len(days), small)(day)
        days.append(day.lines)
        count += day.count
        count["matters"] += 1
    count["lines"] = sum(map(len, days))
    with tempfile.TemporaryDirectory() as scratch:
        room = keep if program == "-" else scratch
        files = [f"{seed}-{number}-{k}.txt" for k in range(len(days))]
        for file, lines in zip(files, days):
            write(room, file, lines)
        told = [] if program == "-" else otherwise(program, room, dict(zip(files, days)), keep)
    return count, told


def otherwise(program, room, days, keep):
    """What the program tells otherwise over these files; those are kept."""
    try:
        done = subprocess.run([program, *days], cwd=room, capture_output=True, timeout=SECONDS)
        status, out = done.returncode, done.stdout.decode("utf-8", "replace").rstrip("\n").split("\n")
    except subprocess.TimeoutExpired:
        status, out = "no end", [""]
    told, kept = [], set()
    for file, number, what in (line.split(":", 2) for line in out[:-1]):
        told.append(f"{keep}/{file}:{number}: {shortened(days[file][int(number) - 1])}\n    told: {shortened(what.lstrip())}")
        kept.add(file)
    lines = sum(map(len, days.values()))
    if (status, out[-1]) != (0, f"{lines} lines, {len(told)} of them told otherwise"):
        told.append(f"{keep}/{min(days)} and the {len(days) - 1} other files: ended with {status}: {shortened(out[-1])}")
        kept.update(days)
    for file in kept:
        os.makedirs(keep, exist_ok=True)
        write(keep, file, days[file])
    return told


def write(room, file, lines):
    with open(os.path.join(room, file), "w", encoding="utf-8", newline="") as out:
        out.writelines(f"{line}\n" for line in lines)


def shortened(text):
    return text if len(text) <= 400 else text[:400] + " .."


def main(program, finds="20000", seed="1", keep="found"):
    if program == "-":
        os.makedirs(keep, exist_ok=True)
    else:
        program = os.path.abspath(program)
    left, jobs = int(finds), []
    while left > 0:
        jobs.append((program, seed, len(jobs), min(left, IN_A_PART), os.path.abspath(keep)))
        left -= IN_A_PART
    count, told = collections.Counter(), 0
    with multiprocessing.Pool(len(os.sched_getaffinity(0))) as pool:
        for more, differing in pool.imap_unordered(part_of, jobs):
            count += more
            told += len(differing)
            for line in differing:
                print(line)
    names = ["Find", "hits", "stops", "matters", "lines"]
    print(", ".join(f"{count[name]:,} {name}" for name in names))
    print(", ".join(f"{count[name]:,} {name}" for name in sorted(count) if name not in names))
    print(f"{told} lines told otherwise")
    return told != 0


if __name__ == "__main__":
    if not 2 <= len(sys.argv) <= 5:
        sys.exit("usage: finds.py PROGRAM [FINDS] [SEED] [KEEP]")
    sys.exit(main(*sys.argv[1:]))
