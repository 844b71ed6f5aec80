"""The kept rows of a matter, from its database, read only. docs/FORMATS.md has their form."""
import sqlite3
from dataclasses import dataclass, field

from .files import NoMatter, opened

ROLES = ("Reviewer", "Second", "Lead", "Clerk", "Receiver")
BASES = ("AC", "WP", "PI", "TS")
STATES = ("uncalled", "called", "confirmed")
TREATMENTS = ("Produce", "Redact", "Withhold AC", "Withhold WP")
VERSION = 1
PRODUCTION, LETTERED = 10, 2  # the kind of a production, and its version where its boxes are lettered
COLUMNS = ["kind", "k1", "k2", "body"]


class Reader:
    """Reads the numbers and texts of a row's body, one behind another."""

    def __init__(self, kind, body):
        self.body, self.at = body, 0
        version = self.u8()
        if version != VERSION and (kind, version) != (PRODUCTION, LETTERED):
            raise ValueError("another version")

    def take(self, count):
        taken = self.body[self.at : self.at + count]
        if len(taken) != count:
            raise ValueError("cut off")
        self.at += count
        return taken

    def number(self, size):
        return int.from_bytes(self.take(size), "little")

    def u8(self):
        return self.number(1)

    def u32(self):
        return self.number(4)

    def u64(self):
        return self.number(8)

    def text(self):
        return self.take(self.u32()).decode()

    def many(self, read):
        return [read() for _ in range(self.u32())]

    def end(self):
        if self.at != len(self.body):
            raise ValueError("bytes are left")


@dataclass
class Call:
    """What was decided of a document: its state, who edited it last, who confirmed it (0: nobody), what and whether."""

    state: int
    editor: int
    confirmer: int
    responsive: bool
    treatment: int


@dataclass
class Production:
    """A frozen production: its names, its labels, and of each item the document, its treatment, first and last number."""

    id: str
    volume: str
    prefix: str
    width: int
    items: list


@dataclass
class Matter:
    """What the rows of a matter say of who decided what; pixels, words and fields' values are not read."""

    staff: dict = field(default_factory=dict)  # number: (role, name)
    documents: dict = field(default_factory=dict)  # number: (pages, batch)
    calls: dict = field(default_factory=dict)  # document: Call
    boxes: list = field(default_factory=list)  # (document, basis)
    held: list = field(default_factory=list)  # (document, basis)
    entries: set = field(default_factory=set)  # documents
    batches: dict = field(default_factory=dict)  # number: (name, documents, pages)
    productions: list = field(default_factory=list)


def read_matter(path):
    """The matter in the file; refused with `NoMatter` where it is locked, missing, or no matter."""
    try:
        with opened(path) as connection:
            return matter_of(rows_of(connection, path), path)
    except sqlite3.Error as error:
        raise NoMatter(f"{path}: it is no database that can be read: {error}") from None


def rows_of(connection, path):
    """The rows that a report needs, in the order of their keys."""
    found = connection.execute("SELECT name FROM pragma_table_info('kept')").fetchall()
    if [name for name, in found] != COLUMNS:
        raise NoMatter(f"{path}: it is a database, but no matter of tivrenan: it has no table of kept rows")
    # names of fields and prefixes, pixels and words are not needed, and the last two are large
    return connection.execute("SELECT kind, k1, k2, body FROM kept WHERE kind NOT IN (2, 4, 9, 12) ORDER BY kind, k1, k2")


def matter_of(rows, path):
    matter, count = Matter(), 0
    for kind, k1, k2, body in rows:
        count += 1
        try:
            take_row(matter, kind, k1, body)
        except (ValueError, UnicodeDecodeError, IndexError, KeyError) as error:
            raise NoMatter(f"{path}: the row of kind {kind} with the numbers {k1} and {k2} is not of its form: {error}") from None
    if not count:
        raise NoMatter(f"{path}: no matter was begun in it; tivrenan init makes one")
    return matter


def take_row(matter, kind, number, body):
    reader = Reader(kind, body)
    takes = {1: take_staff, 3: take_document, 5: take_call, 6: take_box, 7: take_held, 8: take_entry, PRODUCTION: take_production, 11: take_batch}
    takes[kind](matter, number, reader)
    reader.end()


def take_staff(matter, number, reader):
    role = ROLES[reader.u8()]
    reader.take(32)
    matter.staff[number] = (role, reader.text())


def take_document(matter, number, reader):
    reader.u32()
    pages, batch = reader.u32(), reader.u32()
    reader.text()
    reader.many(reader.text)
    matter.documents[number] = (pages, batch)


def take_call(matter, number, reader):
    state, editor, confirmer, responsive, treatment = reader.u8(), reader.u32(), reader.u32(), reader.u8(), reader.u8()
    reader.text()
    STATES[state], TREATMENTS[treatment]  # noqa: B018 - a number without a name is refused
    matter.calls[number] = Call(state, editor, confirmer, bool(responsive), treatment)


def box_basis(reader):
    for _ in range(5):
        reader.u32()
    return BASES[reader.u8()]


def take_box(matter, number, reader):
    matter.boxes.append((number, box_basis(reader)))


def take_held(matter, number, reader):
    matter.held.append((number, BASES[reader.u8()]))


def take_texts(reader):
    for _ in range(4):
        reader.text()


def take_entry(matter, number, reader):
    take_texts(reader)
    matter.entries.add(number)


def take_batch(matter, number, reader):
    reader.take(32)
    documents, pages = reader.u32(), reader.u32()
    matter.batches[number] = (reader.text(), documents, pages)


def take_production(matter, _number, reader):
    name, volume, prefix, width = reader.text(), reader.text(), reader.text(), reader.u8()
    reader.u32(), reader.u32()
    reader.many(reader.text)
    items = reader.many(lambda: item_of(reader))
    matter.productions.append(Production(name, volume, prefix, width, items))


def item_of(reader):
    document, _parent, treatment = reader.u32(), reader.u32(), reader.u8()
    reader.many(lambda: (reader.u32(), box_basis(reader)))
    reader.many(lambda: (reader.u32(), reader.u8()))
    if reader.u8():
        take_texts(reader)
    reader.text()
    return document, treatment, reader.u64(), reader.u64()
