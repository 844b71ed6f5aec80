"""What looks.py asks for by chance: finds of words that stand in the batch, plans and decisions."""
import csv
import os

from stand_in_matter import read_dat

DOCUMENTS = 12
FIRST = {1: 3, 4: 6, 7: 8, 9: 12}  # the families: first and last document
BASES = ("AC", "WP", "PI", "TS")
FIELDS = ("AUTHOR", "TITLE", "PGCOUNT", "DOCDATE")


def texts_of_batch(folder):
    """The words of each page, and of each value."""
    pages = {}
    with open(os.path.join(folder, "words.csv"), encoding="utf-8-sig", newline="") as file:
        for image, *_, text in csv.reader(file):
            pages.setdefault(image, []).append(text)
    _, rows = read_dat(os.path.join(folder, "load.dat"))
    return [*pages.values(), *([text for text in value.split(" ") if text] for row in rows for value in row if value.strip(" "))]


# ---- a find


def find_body(draw, texts):
    number = draw.choice((1, 1, 1, draw.randint(1, DOCUMENTS), draw.randint(0, DOCUMENTS + 1)))
    return {"terms": terms(draw, texts), "from": number, "page": draw.choice((0, 0, 0, 1, draw.randint(0, 6)))}


REFUSED = ([], ["a"] * 9, [""], ["a", ""], ["tab\there"], ["x" * 201], ["\u00e4" * 101], ["\x7f"], ["*"] * 9)
ODD = (["*"], ["**"], ["#"], ["*", "*"], ["*"] * 8, ["\u00e4" * 100], ["x" * 200], ["#*"], ["*#"], ["$*"], ["*.*"], ["\U0001f600"], [" "])


def terms(draw, texts):
    chance = draw.random()
    if chance < 0.06:
        return draw.choice(REFUSED)
    if chance < 0.14:
        return draw.choice(ODD)
    text = draw.choice(texts)
    count = min(draw.choice((1, 1, 1, 2, 2, 3, 8)), len(text))
    at = draw.randint(0, len(text) - count)
    return [term(draw, word) for word in text[at : at + count]]


def term(draw, word):
    """A word, or what stands for it: without the signs at its ends, a piece and a star, digits, other capitals."""
    chance = draw.random()
    if chance < 0.3:
        return word
    if chance < 0.5:
        word = word.strip(".,;:!?()\"'") or word
    elif chance < 0.7:
        at = draw.randint(0, len(word))
        word = draw.choice((word[:at] + "*", "*" + word[at:], "*" + word[at // 2 : at] + "*"))
    elif chance < 0.8:
        word = "".join("#" if "0" <= c <= "9" else c for c in word)
    elif chance < 0.85:
        word += draw.choice(("s", "*", "#", "."))
    return draw.choice((word, word, word.upper(), word.lower()))


# ---- a plan


class Plans:
    """Requests. Most are in order: a range of whole families, and a name that isn't taken."""

    def __init__(self, draw):
        self.draw, self.frozen, self.made = draw, [], 0

    def next(self, number):
        draw = self.draw
        first = draw.choice(list(FIRST))
        last = draw.choice([last for last in FIRST.values() if last >= first])
        body = dict(id=f"P-{number}-{draw.randint(1, 9)}", volume=f"V{number}_{draw.randint(1, 9)}", to=last, width=8,
                    prefix=draw.choice(("ABC", "ABC", "X-", "Y_")), fields=draw.sample(FIELDS, draw.randint(0, 3))) | {"from": first}
        if self.frozen and draw.random() < 0.15:
            body = dict(draw.choice(self.frozen))
        if draw.random() < 0.4:
            body.update(draw.choice(SPOILED)(draw))
        return body

    def is_due(self, body):
        """Whether a plan that is answered is to be frozen: three of them, each some while after the one before."""
        if body in self.frozen:
            return False
        self.made += 1
        if self.made % 8 or len(self.frozen) == 3:
            return False
        self.frozen.append(body)
        return True


SPOILED = (
    lambda draw: {"from": draw.randint(0, 13), "to": draw.randint(0, 13)},
    lambda draw: {"from": draw.randint(1, 12)},
    lambda draw: {"to": 4294967295},
    lambda draw: {"id": draw.choice(("", "a b", "\u00e4", "x" * 33, "x" * 32, "a_b-C9"))},
    lambda draw: {"volume": draw.choice(("", "vol", "A B", "V" * 33, "V" * 32, "-", "_"))},
    lambda draw: {"prefix": draw.choice(("", "abc", "A1", "1", "A-", "-A", "A" * 12, "A" * 13, "A B", "1A", "_"))},
    lambda draw: {"width": draw.choice((0, 3, 4, 10, 11, 255, 7))},
    lambda draw: {"fields": draw.choice((["AUTHOR", "AUTHOR"], ["BEGDOC"], ["PAGECOUNT"], ["NOTHING"], ["author"], [""], ["TITLE", "TEXTPATH"]))},
)


# ---- decisions


class Calls:
    """Calls of a review, as (key, method, path, body); most of them are allowed."""

    def __init__(self, draw, key_of):
        self.draw, self.key_of = draw, key_of

    def by(self, *names):
        return self.key_of(self.draw.choice(names))

    def next(self):
        draw, doc = self.draw, self.draw.randint(1, DOCUMENTS)
        kind = draw.choice(("call", "call", "call", "box", "box", "unbox", "hold", "free", "entry", "entry", "confirm", "confirm", "back"))
        reviewer, second = self.by("Ellis", "Ellis", "Marlow", "the lead"), self.by("Marlow", "Marlow", "the lead", "Ellis")
        key = second if kind in ("confirm", "back") else reviewer
        return self.key(key), "POST", f"/docs/{doc}/{kind}", getattr(self, kind)()

    def key(self, key):
        return "the key of the lead" if key == self.key_of("the lead") else key

    def settled(self):
        """What settles some families, but now and then the last document of one."""
        chosen = [first for first in FIRST if self.draw.random() < 0.6]
        for doc in (doc for first in chosen for doc in range(first, FIRST[first] + (self.draw.random() < 0.85))):
            treatment = self.draw.choice(("Produce", "Produce", "Redact", "Withhold-AC"))
            responsive = self.draw.random() < 0.6
            ellis, marlow = self.key_of("Ellis"), self.key_of("Marlow")
            yield ellis, "POST", f"/docs/{doc}/call", dict(responsive=responsive, treatment=treatment, designation="")
            if treatment == "Redact":
                yield ellis, "POST", f"/docs/{doc}/box", dict(num=1, page=1, left=10, top=10, width=200, height=100, basis="PI")
            if treatment != "Produce":
                yield ellis, "POST", f"/docs/{doc}/entry", dict(date="", author="Ng", recipients="", description="A note")
                yield marlow, "POST", f"/docs/{doc}/confirm", {}

    def call(self):
        draw = self.draw
        treatment = draw.choice(("Produce", "Produce", "Redact", "Redact", "Withhold-AC", "Withhold-WP", "Withhold-PI"))
        return dict(responsive=draw.random() < 0.7, treatment=treatment, designation=draw.choice(("", "", "CONFIDENTIAL", "low")))

    def box(self):
        draw = self.draw
        return dict(num=draw.choice((1, 2, 3, 0, 1001)), page=draw.choice((1, 1, 2, 9)), left=draw.randint(0, 2600), top=draw.randint(0, 3300),
                    width=draw.randint(0, 200), height=draw.randint(1, 200), basis=draw.choice(BASES))

    def unbox(self):
        return dict(num=self.draw.choice((1, 2, 3)))

    def hold(self):
        return dict(field=self.draw.choice((*FIELDS, "NOTHING")), basis=self.draw.choice(BASES))

    def free(self):
        return dict(field=self.draw.choice((*FIELDS, "NOTHING")))

    def entry(self):
        draw = self.draw
        return dict(date=draw.choice(("2019-03-04", "")), author=draw.choice(("Ng", "\u00d8deg\u00e5rd", "a\tb")), recipients="Berg",
                    description=draw.choice(("A note", "", "x" * 1000, "x" * 1001, "Say \"so\"\\")))

    def confirm(self):
        return {}

    back = confirm
