"""A producer's volume once more, in the profile: what it claims stays, and how it is written becomes what a check reads."""
import hashlib
import os

from batch.bitmap import Bitmap
from batch.load_files import dat_line
from batch.pictures import write_tiff
from batch.refused import Refused

from . import columns as names
from . import readers
from .checks import page_rule
from .intake import fields_of, pages_of_line, read_text, values_of
from .vendor import once

FIXED = (names.BEGDOC, names.ENDDOC, names.BEGATTACH, names.ENDATTACH, names.PAGECOUNT, names.TEXTPATH)
WRITTEN_OTHERWISE = (80, 82, 83, 84, 85, 86)  # rules of pages that are whole, in another form


class Volume:
    """The folder that is written: a file each page, a file each text, DAT, OPT, manifest."""

    def __init__(self, vendor, options, folder, room):
        self.vendor, self.options, self.folder, self.room = vendor, options, folder, room
        self.name = os.path.basename(folder)
        self.readers, self.written, self.taken, self.rules = {}, [], set(), {}

    def put(self, path, data):
        """Writes a file below the volume, once each path, and gives the path as load files say it."""
        full = os.path.join(self.folder, path)
        os.makedirs(os.path.dirname(full), exist_ok=True)
        with open(full, "wb") as out:
            out.write(data)
        self.written.append((f"{self.name}/{path}", hashlib.sha256(data).hexdigest()))
        return f"{self.name}\\" + path.replace("/", "\\")

    def write(self, papers):
        lines = {}
        for paper in papers:
            for page in paper.pages:
                lines.setdefault(page.file, []).append(page)
        opt = [line for paper in papers for page in paper.pages for line in self.opt_lines(page, lines[page.file])]
        dat = self.dat_lines(papers)
        self.put(f"DATA/{self.name}.DAT", "".join(dat).encode())
        self.put(f"DATA/{self.name}.OPT", "".join(opt).encode())
        listed = "".join(f"{digest}  {path}\n" for path, digest in self.written)
        with open(os.path.join(self.folder, "MANIFEST.TXT"), "wb") as out:
            out.write(listed.encode())

    # ---- images

    def opt_lines(self, page, lines):
        """The lines of a page, or of all pages of its file; of one that isn't there the path as the producer has it."""
        id_, begins = page.id.replace(",", "_"), "Y" if page.begins else ""
        count = page.count if page.count.isdigit() and len(page.count) <= 9 else ""
        if page.file is None:
            told = page.told.replace("/", "\\").replace(",", "_").lstrip("\\")
            path = told.partition(":")[2].lstrip("\\") if ":" in told else told
            return [f"{id_},{self.name},{path or id_},{begins},,,{count}\r\n"]
        made = self.images(page, lines)
        return [f"{each.replace(',', '_')},{self.name},{path},{begins if at == 0 else ''},,,{count if at == 0 else ''}\r\n"
                for at, (each, path) in enumerate(made)]

    def images(self, page, lines):
        """Of each page that a line means its id and path: a page file as it stands, another one made by the steps of make_batch."""
        data = self.vendor.read(page.file)
        if page.file not in self.rules:
            self.rules[page.file] = page_rule(data)
        rule = self.rules[page.file]
        if rule is None and not page.page > 1:
            return [(page.id, self.put(self.path_of(page.id), data))]
        full = self.vendor.files.full(page.file)
        if rule is not None and rule.number not in WRITTEN_OTHERWISE or not readers.kind_or_none(full, page.file):
            return [(page.id, self.put(self.path_of(page.id), data))]
        try:
            return [(id_, self.made(id_, place)) for id_, place in pages_of_line(self.vendor, page, lines, self.reader(page.file))]
        except Refused as refused:
            self.vendor.changes.say(page.file, f"it can't be read, and stays as it is: {refused.reasons[0][1]}")
            return [(page.id, self.put(self.path_of(page.id), data))]

    def path_of(self, id_):
        safe = "".join(letter if letter.isalnum() or letter in "._- " else "_" for letter in id_)
        return f"IMAGES/{len(self.taken) // 1000 + 1:04}/{once(safe, self.taken)}.TIF"

    def reader(self, file):
        if file not in self.readers:
            reader = readers.open_file(self.vendor.files.full(file), file, self.options, os.path.join(self.room, str(len(self.readers))))
            what = readers.changed(reader, self.options)
            if what:
                self.vendor.changes.say(file, what)
            self.readers[file] = reader
        return self.readers[file]

    def made(self, id_, place):
        picture = place.reader.picture(place.page)
        path = os.path.join(self.room, "page.tif")
        write_tiff(place.reader.source.name, picture, Bitmap(picture.pbm).height, path)
        with open(path, "rb") as file:
            return self.put(self.path_of(id_), file.read())

    # ---- the DAT

    def dat_lines(self, papers):
        """All records as the DAT has them, those without an image too; where there is none, the documents' own numbers."""
        fixed = [name for name in FIXED if name in self.vendor.columns or name in (names.BEGDOC, names.ENDDOC)]
        fields, titles = fields_of(self.vendor)
        yield dat_line([*fixed, *titles])
        ends = {paper.pages[0].id: paper.pages[-1].id for paper in papers}
        for number, (_, row) in enumerate(self.vendor.table.rows, 1):
            paper = type("Row", (), {"values": row})
            own = [self.fixed(name, row, ends) for name in fixed]
            yield dat_line([*(clean(value) for value in own), *(value.replace("\r", " ") for value in values_of(self.vendor, paper, fields))])

    def fixed(self, name, row, ends):
        value = self.vendor.value(row, name)
        if name == names.ENDDOC and name not in self.vendor.columns:
            return ends.get(self.vendor.value(row, names.BEGDOC), "")
        return self.text(value) if name == names.TEXTPATH and value else value

    def text(self, told):
        found = self.vendor.find(told, self.vendor.dat)
        if found is None:
            return "\\".join(part for part in told.replace("/", "\\").partition(":")[2 if ":" in told else 0].split("\\") if part)
        return self.put(f"TEXT/{found.replace(':', '_')}", read_text(self.vendor, found).encode())


def clean(value):
    return value.replace("\u00fe", "").replace("\u0014", "").replace("\u00ae", "\n").replace("\r", "")
