"""A producer's volume as it is meant: its load files, its documents with their images, their families, and what was changed."""
import os
import re
from collections import Counter
from dataclasses import dataclass, field

from batch.refused import Refused

from . import columns as names
from .image_lists import OPT, ImageList, read_images
from .places import Files, changes_of
from .tables import CONCORDANCE, Table, read_table

TABLES, LISTS = (".dat", ".csv", ".tsv", ".txt"), (".opt", ".lfp", ".log")
A_HEAD = 65536  # bytes by which a table is known
FEW = 20  # files of one ending in a folder, of which one may be a load file
STRANGE = re.compile(r"[^\w .()&+=@#~'!-]")


@dataclass
class PageOf:
    """A page of a document: its image's id, the file below the volume, the page of that file from 1 (0: each), and the line that
    names it, as it stands."""

    id: str
    file: str | None
    page: int
    told: str = ""
    begins: bool = False
    count: str = ""


@dataclass
class Paper:
    """A document: its record (None where the DAT has none), its number there, its pages, and its family."""

    values: dict | None
    number: int
    pages: list = field(default_factory=list)
    family: str = ""


class Changes:
    """What was changed or dropped, file by file, in the order in which it came."""

    def __init__(self):
        self.rows = []

    def say(self, file, what):
        self.rows.append((file, what))

    def summed(self):
        """Each thing that was done once, how often, and the first file of it."""
        counts = Counter(what for _, what in self.rows)
        first = {what: file for file, what in reversed(self.rows)}
        return [(what, count, first[what]) for what, count in counts.items()]


class Vendor:
    """The load files of the volume in a folder, read as far as they can be."""

    def __init__(self, folder, dat=None, images=None, told=None):
        if not os.path.isdir(folder):
            raise Refused(folder, "there is no such folder")
        self.folder, self.files, self.changes, self.told = folder, Files(folder), Changes(), told
        self.dat = self.named(dat) if dat else self.only(TABLES, "DAT", "--dat", self.is_dat)
        self.list = self.named(images) if images else self.only(LISTS, "list of images", "--images", self.is_list, True)
        self.table = self.read_table()
        self.columns = names.map_columns(self.table.columns, told)
        self.images = self.read_list()
        if names.BEGDOC not in self.columns:
            has = ", ".join(self.table.columns)
            raise Refused(self.dat, f"no column is one with the first number of a document; it has {has}: say which by --map")

    # ---- the load files

    def named(self, told):
        """A load file that was named, by its path below the volume or from here."""
        for path in (told, os.path.relpath(told, self.folder)):
            if os.path.isfile(os.path.join(self.folder, path)):
                return path
        raise Refused(told, "there is no such file in the volume")

    def only(self, endings, what, option, is_one, may_lack=False):
        """The one file that is such a load file."""
        for ending in endings:
            found = [path for path in self.of_few(ending) if is_one(self.head(path))]
            if len(found) == 1:
                return found[0]
            if found:
                raise Refused(self.folder, f"several files may be the {what}: {', '.join(found[:5])}: say which by {option}")
        if may_lack:
            return None
        raise Refused(self.folder, f"no file is a {what} with a column of the first numbers: name it by {option}, and its columns by --map")

    def of_few(self, ending):
        """The files of this ending, but those of folders that have many: these are texts."""
        paths = [path for path in self.files.paths if path.lower().endswith(ending)]
        counts = Counter(os.path.dirname(path) for path in paths)
        return [path for path in paths if counts[os.path.dirname(path)] <= FEW]

    def head(self, path):
        with open(self.files.full(path), "rb") as file:
            return file.read(A_HEAD)

    def is_dat(self, data):
        columns = read_table(data).columns
        return len(columns) > 1 and names.BEGDOC in names.map_columns(columns, self.told)

    def is_list(self, data):
        read = read_images(data)
        return len(read.images) > len(read.passed_over)

    def read(self, path):
        with open(self.files.full(path), "rb") as file:
            return file.read()

    def read_table(self):
        table = read_table(self.read(self.dat))
        if table.letters != "UTF-8":
            self.changes.say(self.dat, f"{table.letters} became UTF-8")
        if table.signs != CONCORDANCE:
            self.changes.say(self.dat, f"{table.signs} became {CONCORDANCE}")
        return Table([column or f"COLUMN {at}" for at, column in enumerate(table.columns, 1)], table.rows, table.letters, table.signs)

    def read_list(self):
        if self.list is None:
            self.changes.say(self.dat, "no list of images: a document's image is the file of its number, or the one that the DAT names")
            return ImageList([], "UTF-8", OPT, [])
        images = read_images(self.read(self.list))
        if images.letters != "UTF-8":
            self.changes.say(self.list, f"{images.letters} became UTF-8")
        if images.form != OPT:
            self.changes.say(self.list, f"{images.form} became OPT")
        for number, line in images.passed_over:
            self.changes.say(self.list, f"line {number} names no image, and was dropped: {line[:80]!r}")
        return images

    # ---- records

    def value(self, row, name):
        return row[self.columns[name]].strip() if name in self.columns else ""

    def fields(self):
        """The places of the columns that are fields: those that aren't ours, and the first numbers where these have another name."""
        own = {at for name, at in self.columns.items() if name not in (names.NATIVE, names.RANGE, names.PARENT)
               and (name not in (names.BEGDOC, names.ENDDOC) or self.table.columns[at].upper() == name)}
        return [at for at in range(len(self.table.columns)) if at not in own]

    # ---- files

    def find(self, told, file):
        """The file that a path means; what was changed of the path is said."""
        found = self.files.find(told) if told else None
        if found is None:
            return None
        changed = changes_of(told, self.beneath(found))
        if changed:
            self.changes.say(file, f"paths were read {' and '.join(changed)}")
        return found

    def beneath(self, found):
        """A path below the volume as its load files are to say it: with the volume's own folder."""
        return f"{os.path.basename(os.path.abspath(self.folder))}/{found}"

    # ---- documents

    def papers(self):
        """The documents in the order of the list of images; those of the DAT alone behind them, as far as a file is theirs."""
        records = {}
        for number, (_, row) in enumerate(self.table.rows, 1):
            begins = self.value(row, names.BEGDOC)
            if begins in records:
                self.changes.say(self.dat, f"record {number}: {begins} stands there before, and this one was dropped")
            else:
                records[begins] = (number, row)
        papers = self.listed(records)
        seen = {paper.number for paper in papers}
        for number, row in records.values():
            if number not in seen:
                self.add_alone(papers, number, row)
        if all(paper.number for paper in papers):
            papers.sort(key=lambda paper: paper.number)
        self.join_families(papers)
        return papers

    def listed(self, records):
        papers, before = [], None
        for image in self.images.images:
            known = records.get(image.id)
            is_behind = papers and papers[-1].values is not None and before != self.value(papers[-1].values, names.ENDDOC)
            if known or not papers or image.begins and not (is_behind and names.ENDDOC in self.columns):
                papers.append(Paper(known[1] if known else None, known[0] if known else 0))
                if not known:
                    self.changes.say(self.list, f"line {image.line}: {image.id} begins a document without a record, whose fields are empty")
                elif not image.begins:
                    self.changes.say(self.list, f"line {image.line}: {image.id} begins a document by the DAT alone")
            elif image.begins:
                self.changes.say(self.list, f"line {image.line}: {image.id} begins none by the DAT, and was joined to the one before")
            found = self.find(image.path, self.list)
            if found is None:
                self.changes.say(self.list, f"line {image.line}: there is no file {image.path}")
            papers[-1].pages.append(PageOf(image.id, found, image.page, image.path, image.begins, image.told))
            before = image.id
        return papers

    def add_alone(self, papers, number, row):
        """A document that the list of images doesn't have: its file is the one that the DAT names, or the one of its number."""
        begins = self.value(row, names.BEGDOC)
        told = [self.value(row, names.NATIVE), *(f"{begins}{ending}" for ending in (".pdf", ".tif", ".tiff", ".jpg", ".png"))]
        found = next((file for each in told if each and (file := self.find(each, self.dat))), None)
        if found is None:
            self.changes.say(self.dat, f"record {number}: {begins} has no image, and was dropped")
            return
        papers.append(Paper(row, number, [PageOf(begins, found, 0, found, True)]))

    # ---- families

    def join_families(self, papers):
        """Names each document's family by the id of its first; a member that doesn't follow the others is a family of its own."""
        before = None
        for paper in papers:
            first = paper.pages[0].id
            told = self.family_told(paper)
            if before and told and told == before[0]:
                paper.family = before[1]
                continue
            if told and told != first and any(each.family == told for each in papers):
                self.changes.say(self.dat, f"record {paper.number}: {first} lies apart from its family {told}, and became one of its own")
            paper.family, before = first, (told or first, first)

    def family_told(self, paper):
        """What the DAT says of a document's family: the first number of it, or a name that its members share."""
        if paper.values is None:
            return ""
        begins = self.value(paper.values, names.BEGDOC)
        told = self.value(paper.values, names.BEGATTACH) or first_of_range(self.value(paper.values, names.RANGE))
        return told or self.value(paper.values, names.PARENT) or begins


def first_of_range(told):
    """The first number of `A - B`, `A;B` or the like."""
    return re.split(r"\s+[-–—]\s+|\s*[;|~]\s*|\s+to\s+", told)[0].strip() if told else ""


def safe_id(id_, taken):
    """The id as a batch can have it, once: without commas, separators of paths, and signs of load files."""
    plain = STRANGE.sub("_", id_).strip() or "PAGE"
    return once(plain, taken)


def once(id_, taken):
    found, number = id_, 1
    while found.casefold() in taken:
        number += 1
        found = f"{id_}.{number:04}"
    taken.add(found.casefold())
    return found


def next_id(id_, step):
    """The id of a later page of the same file: its number and so many more, in as many digits."""
    digits = re.search(r"\d*$", id_)[0]
    return f"{id_[: len(id_) - len(digits)]}{int(digits) + step:0{len(digits)}}" if digits else f"{id_}.{step + 1:04}"
