"""The stand-in's matter: the documents of a batch with their values and words, what was decided of them, and its staff."""
import csv
import hashlib
import os

from stand_in_freeze import Productions
from stand_in_rules import Refused

COLUMNS_APART = {"BEGDOC", "ENDDOC", "BEGATTACH", "ENDATTACH"}


def read_dat(path):
    with open(path, encoding="utf-8-sig") as file:
        lines = [line.rstrip("\r\n") for line in file if line.strip()]
    rows = [[value.strip("þ").replace("®", "\n") for value in line.split("\x14")] for line in lines]
    return rows[0], rows[1:]


class Doc:
    def __init__(self, number, parent, values):
        self.number, self.parent, self.values = number, parent, values
        self.files, self.words = [], []
        self.call = self.entry = None
        self.editor = self.confirmer = 0
        self.boxes, self.held = {}, {}

    def edited(self, caller):
        if self.call:
            self.editor, self.confirmer = caller, 0

    def view(self):
        responsive, treatment, designation = self.call or (False, "Produce", "")
        return dict(
            boxes=[dict(box, num=num) for num, box in sorted(self.boxes.items())], confirmer=self.confirmer,
            designation=designation, doc=self.number, editor=self.editor, entry=self.entry,
            held=[dict(basis=basis, field=field) for field, basis in sorted(self.held.items())], pages=len(self.files),
            parent=self.parent, responsive=responsive, treatment=treatment)


class Matter:
    def __init__(self, lead, folder, copies):
        self.staff = [("lead", "Lead", digest_of(lead))]
        columns, records = read_dat(os.path.join(folder, "load.dat"))
        self.fields = [column for column in columns if column not in COLUMNS_APART]
        words = read_words(os.path.join(folder, "words.csv"))
        with open(os.path.join(folder, "load.opt"), encoding="utf-8-sig") as file:
            lines = [line.rstrip("\r\n").split(",") for line in file if line.strip()]
        self.docs = []
        self.productions = Productions(self)
        values = [[record[columns.index(field)] for field in self.fields] for record in records]
        for _ in range(copies):
            self.add(columns, list(zip(records, values)), lines, words, folder)

    def add(self, columns, rows, lines, words, folder):
        begins, attach = columns.index("BEGDOC"), columns.index("BEGATTACH")
        rows, first = iter(rows), {}
        for image, _, path, is_break, *_ in lines:
            if is_break == "Y":
                record, values = next(rows)
                number = len(self.docs) + 1
                first[record[begins]] = number
                self.docs.append(Doc(number, first[record[attach] or record[begins]], values))
            self.docs[-1].files.append(os.path.join(folder, path.replace("\\", "/")))
            self.docs[-1].words.append(words.get(image, []))

    def doc(self, number):
        if not 1 <= number <= len(self.docs):
            raise Refused("NoDocument", number)
        return self.docs[number - 1]

    def who(self, key):
        for number, (_, role, digest) in enumerate(self.staff, 1):
            if digest == digest_of(key):
                return number, role
        raise Refused("KeyUnknown")


def digest_of(key):
    return hashlib.sha256(key.encode("latin-1")).hexdigest()


def read_words(path):
    words = {}
    with open(path, encoding="utf-8-sig", newline="") as file:
        for image, line, left, top, width, height, text in csv.reader(file):
            words.setdefault(image, []).append(dict(
                height=int(height), left=int(left), line=int(line), text=text, top=int(top), width=int(width)))
    return words


def sides_of(path):
    """Width and height of a page file."""
    with open(path, "rb") as file:
        data = file.read()
    order = "little" if data[:2] == b"II" else "big"
    number = lambda at, size: int.from_bytes(data[at : at + size], order)
    at = number(4, 4)
    entries = [at + 2 + 12 * k for k in range(number(at, 2))]
    value = {number(entry, 2): number(entry + 8, 2 if number(entry + 2, 2) == 3 else 4) for entry in entries}
    return value[256], value[257]
