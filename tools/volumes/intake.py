"""Documents of a producer's volume on their way into a batch: their pages over several files, their words, their fields."""
import os
import re
from dataclasses import dataclass

from batch.documents import Document
from batch.limits import LONGEST_COLUMN, MOST_FIELDS
from batch.load_files import MARK, dat_line, opt_lines, write, write_words
from batch.pool import in_threads
from batch.refused import Gathered, Refused
from batch.sources import Source
from batch.words import Word, plain

from . import readers as page_readers
from .letters import decoded
from .vendor import next_id, once, safe_id

READ, TEXT, NONE = "read", "text", "none"
OURS = "BEGDOC ENDDOC BEGATTACH ENDATTACH PAGECOUNT DESIGNATION WITHHELD TEXTPATH".split()
SIGNS = {"\u00fe": "th", "\u0014": " ", "\u00ae": "(R)"}


@dataclass(frozen=True)
class Place:
    """A page of a reader, from 1."""

    reader: object
    page: int


class Taken:
    """The pages of a document, as make_batch asks for those of one file."""

    def __init__(self, places):
        self.places = places
        self.sizes = [place.reader.sizes[place.page - 1] for place in places]
        self.words = [[] for _ in places]

    def picture(self, page):
        place = self.places[page - 1]
        return place.reader.picture(place.page)

    def own_words(self):
        """Takes the words that the pages' files have, with their boxes."""
        self.words = [place.reader.words[place.page - 1] if place.reader.words else [] for place in self.places]


# ---- files


def open_readers(vendor, papers, options, room):
    """A reader of each file that has pages; all that can't be read are refused together."""
    gathered, readers = Gathered(), {}
    for paper in papers:
        for page in paper.pages:
            if page.file is None:
                gathered.reasons.append((page.told or page.id, "there is no such file in the volume"))
            readers.setdefault(page.file, None)
    files = [file for file in readers if file is not None]

    def look(numbered):
        number, file = numbered
        with gathered:
            return page_readers.open_file(vendor.files.full(file), file, options, os.path.join(room, str(number)))

    for file, reader in zip(files, in_threads(options.jobs, look, enumerate(files))):
        readers[file] = reader
    gathered.end()
    for file in files:
        for what in filter(None, [page_readers.changed(readers[file], options), *readers[file].notes()]):
            vendor.changes.say(file, what)
    return readers


def places_of(vendor, papers, readers):
    """For each document its pages, as (id, place): a file that one line names gives all its pages, one that several name a page to each."""
    lines = {}
    for paper in papers:
        for page in paper.pages:
            lines.setdefault(page.file, []).append(page)
    gathered, found = Gathered(), []
    for paper in papers:
        pages = []
        for page in paper.pages:
            with gathered:
                pages += pages_of_line(vendor, page, lines[page.file], readers[page.file])
        found.append(pages)
    gathered.end()
    return found


def pages_of_line(vendor, page, lines, reader):
    count = len(reader.sizes)
    if page.page > count:
        raise Refused(page.file, f"{page.id} is page {page.page} of it, and it has {count}")
    if page.page:
        return [(page.id, Place(reader, page.page))]
    if len(lines) == 1:
        if count > 1:
            vendor.changes.say(page.file, "its pages after the first got the numbers that follow")
        return [(page.id if at == 0 else next_id(page.id, at), Place(reader, at + 1)) for at in range(count)]
    at = next(at for at, line in enumerate(lines) if line is page)
    if count == 1:
        vendor.changes.say(page.file, "several lines name it, and each has its page")
        return [(page.id, Place(reader, 1))]
    if at >= count:
        raise Refused(page.file, f"{len(lines)} lines name it, and it has {count} pages")
    return [(page.id, Place(reader, at + 1))]


def documents_of(vendor, papers, options, room):
    """The documents of a batch, their images named, and the names of their fields."""
    readers = open_readers(vendor, papers, options, room)
    found, taken = [], set()
    told = {page.id.casefold() for paper in papers for page in paper.pages}
    fields, names = fields_of(vendor)
    for paper, pages in zip(papers, places_of(vendor, papers, readers)):
        source = Source("", pages[0][0], paper.family, "volume")
        document = Document(source, Taken([place for _, place in pages]), values_of(vendor, paper, fields))
        for at, (id_, _) in enumerate(pages):
            is_new = id_ not in {page.id for page in paper.pages}
            safe = once(id_, taken | told) if is_new and id_.casefold() in taken | told else safe_id(id_, taken)
            taken.add(safe.casefold())
            if safe != id_:
                vendor.changes.say(id_, "the id became another, as a batch has each once and without separators")
            document.images.append(safe)
        give_words(vendor, paper, document, options)
        found.append(document)
    return found, names


# ---- words


def give_words(vendor, paper, document, options):
    """The words that stand in the files; where the volume's own text is asked for those, each over the whole page."""
    if options.words == NONE:
        return
    document.file.own_words()
    if options.words != TEXT:
        return
    texts = texts_of(vendor, paper, len(document.file.sizes))
    for at, (text, size) in enumerate(zip(texts, document.file.sizes)):
        if text.strip() and not document.file.words[at]:
            document.file.words[at] = list(words_over(text, size))


def words_over(text, size):
    """The words of a text without boxes: each stands over the whole page, so that any box on it takes all of them out."""
    line = 0
    for told in text.splitlines():
        found = [word for word in map(plain, told.split()) if word]
        line += bool(found)
        for word in found:
            yield Word(line, (0, 0, *size), word)


def texts_of(vendor, paper, count):
    """The volume's text of each page: a file of each page, or one with a form feed behind each, or else all on the first page."""
    told = vendor.value(paper.values, "TEXTPATH") if paper.values else ""
    whole = vendor.find(told, vendor.dat) if told else None
    whole = whole or vendor.files.find(f"{paper.pages[0].id}.txt")
    single = [vendor.files.find(f"{page.id}.txt") for page in paper.pages]
    if len(single) == count and count > 1 and all(single[1:]):
        return [read_text(vendor, file) for file in single]
    if whole is None:
        return [""] * count
    pages = read_text(vendor, whole).split("\f")
    if len(pages) in (count, count + 1) and not "".join(pages[count:]).strip():
        return pages[:count]
    if count > 1:
        vendor.changes.say(whole, "no sign tells its pages apart, and all its words came onto the first")
    return [" \n".join(pages)] + [""] * (count - 1)


def read_text(vendor, file):
    text, letters = decoded(vendor.read(file))
    if letters != "UTF-8":
        vendor.changes.say(file, f"{letters} became UTF-8")
    return text


# ---- fields


def fields_of(vendor):
    """The columns that are fields, and their names in the batch."""
    places = vendor.fields()
    for at in places[MOST_FIELDS:]:
        vendor.changes.say(vendor.dat, f"a matter takes {MOST_FIELDS} fields: the column {vendor.table.columns[at]} was dropped")
    places, taken, names = places[:MOST_FIELDS], {name.casefold() for name in OURS}, []
    for at in places:
        told = vendor.table.columns[at]
        short = re.sub(r"[\x00-\x1f\u00fe\u00ae]", " ", told).encode()[: LONGEST_COLUMN - 6].decode(errors="ignore").strip()
        name = once(f"THEIR {short}" if short.upper() in OURS else short or "COLUMN", taken)
        if name != told:
            vendor.changes.say(vendor.dat, f"the column {told} became the field {name}")
        names.append(name)
    return places, names


def values_of(vendor, paper, fields):
    if paper.values is None:
        return [""] * len(fields)
    values = []
    for at in fields:
        value = paper.values[at]
        for sign, other in SIGNS.items():
            if sign in value:
                vendor.changes.say(vendor.dat, f"a sign of load files in {vendor.table.columns[at]} became {other!r}")
                value = value.replace(sign, other)
        values.append(value)
    return values


# ---- load files


def write_batch(folder, name, documents, fields):
    """The three load files of a batch whose images stand there already."""
    first, last = {}, {}
    for document in documents:
        first.setdefault(document.source.family, document.images[0])
        last[document.source.family] = document.images[-1]
    lines = [MARK, dat_line(["BEGDOC", "ENDDOC", "BEGATTACH", "ENDATTACH", *fields])]
    for document in documents:
        family = document.source.family
        lines.append(dat_line([document.images[0], document.images[-1], first[family], last[family], *document.values]))
    write(folder, "load.dat", lines)
    write(folder, "load.opt", opt_lines(name, documents))
    write_words(os.path.join(folder, "words.csv"), documents)
