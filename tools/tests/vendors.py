"""Volumes as other producers make them, each with habits of its own, written here by ghostscript, libtiff, ImageMagick, img2pdf and
Python. Each class is a volume of six pages in four documents; it says what is to come out of it: ids, fields, families, pixels."""
import csv
import functools
import io
import os
import subprocess
import tempfile

WIDTH, HEIGHT, INCH = 800, 400, 150
COUNTS = [2, 1, 2, 1]
LINES = [
    "The roof of building four leaks since the winter.",
    "Der Vermieter wurde am Montag davon unterrichtet.",
    "Invoice of the roofer for slates and copper nails.",
    "A second letter went out by registered mail.",
    "The tenant withholds a third of the rent from May.",
    "Counsel was asked for advice on the lease.",
]
WORDS = [line.split() for line in LINES]
THORN, UNIT = "\u00fe", "\u0014"


def sh(words, data=None, folder=None):
    return subprocess.run(words, input=data, cwd=folder, stdout=subprocess.PIPE, stderr=subprocess.DEVNULL, check=True).stdout


def post_script(number):
    """A page with a line of text and a frame, so that each page is another."""
    return (f"%!PS\n/Helvetica findfont 11 scalefont setfont 40 {110 - 6 * number} moveto ({LINES[number]}) show\n"
            f"2 setlinewidth 20 20 {340 - 10 * number} 60 rectstroke showpage\n").encode()


@functools.lru_cache(maxsize=None)
def page(number, *how):
    """The page file by ghostscript in Group 4, or in the form that tiffcp makes of it."""
    with tempfile.TemporaryDirectory() as room:
        sh(["gs", "-q", "-dNOPAUSE", "-dBATCH", "-sDEVICE=tiffg4", f"-r{INCH}", f"-g{WIDTH}x{HEIGHT}", "-sOutputFile=page.tif", "-"],
           post_script(number), room)
        if how:
            sh(["tiffcp", *how, "page.tif", "other.tif"], None, room)
        with open(os.path.join(room, "other.tif" if how else "page.tif"), "rb") as file:
            return file.read()


@functools.lru_cache(maxsize=None)
def pixels(number):
    """The page as a raw PBM."""
    return pixels_of(page(number))


def pixels_of(data):
    with tempfile.NamedTemporaryFile(suffix=".tif") as file:
        file.write(data)
        file.flush()
        return sh(["tifftopnm", "-quiet", file.name])


def many(numbers, *how):
    """A TIFF of several pages."""
    with tempfile.TemporaryDirectory() as room:
        for number in numbers:
            with open(os.path.join(room, f"{number}.tif"), "wb") as file:
                file.write(page(number))
        sh(["tiffcp", *how, *(f"{number}.tif" for number in numbers), "all.tif"], None, room)
        with open(os.path.join(room, "all.tif"), "rb") as file:
            return file.read()


def converted(number, *words):
    """The page by ImageMagick."""
    return sh(["convert", "tif:-", *words], page(number))


def pdf_of(numbers):
    """A PDF of the pages as scans, by img2pdf."""
    with tempfile.TemporaryDirectory() as room:
        for number in numbers:
            with open(os.path.join(room, f"{number}.tif"), "wb") as file:
                file.write(page(number))
        return sh(["img2pdf", *(f"{number}.tif" for number in numbers)], None, room)


def concordance(rows, between=UNIT, around=THORN, newline="\u00ae"):
    lines = [between.join(around + value.replace("\n", newline) + around for value in row) for row in rows]
    return "".join(f"{line}\r\n" for line in lines)


def comma_separated(rows, delimiter=","):
    out = io.StringIO()
    csv.writer(out, delimiter=delimiter, lineterminator="\r\n").writerows(rows)
    return out.getvalue()


class Volume:
    """Right in all of the profile but, perhaps, names and forms that a subclass gives."""

    root, words, options, is_exact = "ACME001", "text", (), True
    as_volume = "checked documents 4 images 6 files 12"  # what a check says of its copy in the profile
    titles = {"BEGDOC": "BEGDOC", "ENDDOC": "ENDDOC", "BEGATTACH": "BEGATTACH", "ENDATTACH": "ENDATTACH", "TEXTPATH": "TEXTPATH"}
    fields = {"CUSTODIAN": ["Müller, Jürgen", "Ng", "Ortiz", ""], "NOTE": ["one\ntwo", "a, \"b\"", "c;d", "e|f"]}
    families = [(0, 1), (2, 3)]  # the first and the last document
    paths = "ACME001\\IMAGES\\001\\{}"
    text_paths = "ACME001\\TEXT\\001\\{}.txt"
    ending, opt_name, dat_name = ".tif", "DATA/acme.opt", "DATA/acme.dat"

    def __init__(self):
        self.documents, number = [], 0
        for count in COUNTS:
            self.documents.append(list(range(number, number + count)))
            number += count
        self.images = {number: page(number) for number in range(6)}

    # ---- what is there

    def label(self, number):
        return f"ACME{number + 1:06}"

    def image_files(self):
        return {f"IMAGES/001/{self.label(number)}{self.ending}": data for number, data in self.images.items()}

    def text_files(self):
        return {f"TEXT/001/{self.label(pages[0])}.txt": self.text_of(pages) for pages in self.documents}

    def text_of(self, pages):
        return "".join(f"{LINES[number]}\r\n\f" for number in pages).encode("utf-8")

    def attached(self, at):
        first, last = next(pair for pair in self.families if pair[0] <= at <= pair[1])
        return self.label(self.documents[first][0]), self.label(self.documents[last][-1])

    def record(self, at):
        pages = self.documents[at]
        begins, ends = self.attached(at)
        return {"BEGDOC": self.label(pages[0]), "ENDDOC": self.label(pages[-1]), "BEGATTACH": begins, "ENDATTACH": ends,
                "TEXTPATH": self.text_paths.format(self.label(pages[0])), **{name: values[at] for name, values in self.fields.items()}}

    def columns(self):
        return [*self.titles, *self.fields]

    def rows(self):
        head = [self.titles.get(name, name) for name in self.columns()]
        return [head, *([self.record(at)[name] for name in self.columns()] for at in range(len(self.documents)))]

    def dat(self):
        return concordance(self.rows()).encode("utf-8")

    def opt_lines(self):
        for pages in self.documents:
            for number in pages:
                path = self.paths.format(self.label(number) + self.ending)
                yield [self.label(number), "ACME001", path, "Y" if number == pages[0] else "", "", "", str(len(pages)) if number == pages[0] else ""]

    def opt(self):
        return "".join(",".join(line) + "\r\n" for line in self.opt_lines()).encode("utf-8")

    def files(self):
        found = {**self.image_files(), **self.text_files(), self.dat_name: self.dat()}
        listed = self.opt()
        return found if listed is None else {**found, self.opt_name: listed}

    def write(self, folder):
        for path, data in self.files().items():
            full = os.path.join(folder, self.root, path)
            os.makedirs(os.path.dirname(full), exist_ok=True)
            with open(full, "wb") as file:
                file.write(data)
        return os.path.join(folder, self.root)

    # ---- what is due

    def ids(self):
        return [self.label(number) for pages in self.documents for number in pages]

    def due_pixels(self, number):
        return pixels(number)


class Plain(Volume):
    """Concordance in UTF-8 with a mark."""

    def dat(self):
        return b"\xef\xbb\xbf" + super().dat()


class Utf16(Volume):
    """DAT and OPT in UTF-16 with marks."""

    def dat(self):
        return concordance(self.rows()).encode("utf-16")

    def opt(self):
        return super().opt().decode().encode("utf-16")


class Utf16Bare(Volume):
    """A DAT in UTF-16, high byte first, without a mark."""

    def dat(self):
        return concordance(self.rows()).encode("utf-16-be")


class Windows(Volume):
    """A DAT in the code page of Windows, texts too."""

    def dat(self):
        return concordance(self.rows()).encode("cp1252")

    def text_of(self, pages):
        return super().text_of(pages).decode().replace("Montag", "Märztag").encode("cp1252")


class Carets(Volume):
    """Carets and pipes, ~ for nothing; BegBates and the like."""
    titles = {"BEGDOC": "BegBates", "ENDDOC": "EndBates", "BEGATTACH": "BegAttach", "ENDATTACH": "EndAttach", "TEXTPATH": "ExtractedText"}
    fields = {"CUSTODIAN": ["Müller", "Ng", "Ortiz", ""]}
    kept = ("BegBates", "EndBates")

    def dat(self):
        return concordance(self.rows(), "|", "^").encode("utf-8")


class Tabs(Volume):
    """Tabs; Prod Beg, Prod End."""
    dat_name = "DATA/acme.txt"
    titles = {"BEGDOC": "Prod Beg", "ENDDOC": "Prod End", "BEGATTACH": "Prod Beg Attach", "ENDATTACH": "Prod End Attach", "TEXTPATH": "Text Path"}
    fields = {"CUSTODIAN": ["Müller", "Ng", "Ortiz", ""]}
    kept = ("Prod Beg", "Prod End")

    def dat(self):
        return comma_separated(self.rows(), "\t").encode("utf-8")


class Commas(Volume):
    """CSV with newlines and quotes in values; Begin Bates, Ending Bates."""
    dat_name = "DATA/acme.csv"
    titles = {"BEGDOC": "Begin Bates", "ENDDOC": "Ending Bates", "BEGATTACH": "Begin Attachment", "ENDATTACH": "End Attachment", "TEXTPATH": "Text File Path"}
    titles = {**titles, "BEGATTACH": "Beg Attachment"}
    kept = ("Begin Bates", "Ending Bates")

    def dat(self):
        return comma_separated(self.rows()).encode("utf-8")


class Semicolons(Volume):
    """CSV with semicolons in the code page of Windows."""
    dat_name = "DATA/acme.csv"
    fields = {"CUSTODIAN": ["Müller", "Ng", "Ortiz", ""]}

    def dat(self):
        return comma_separated(self.rows(), ";").encode("cp1252")


class Lfp(Volume):
    """An LFP in place of an OPT."""
    opt_name = "DATA/acme.lfp"

    def opt(self):
        return "".join(f"IM,{line[0]},{'D' if line[3] else ''},0,@ACME001;IMAGES\\001;{line[0]}{self.ending};2,0\r\n"
                       for line in self.opt_lines()).encode()


class LfpOfPages(Lfp):
    """An LFP that names pages of files with several."""

    def image_files(self):
        return {f"IMAGES/001/{self.label(pages[0])}.tif": many(pages, "-c", "g4") for pages in self.documents}

    def opt(self):
        lines = []
        for pages in self.documents:
            for at, number in enumerate(pages):
                lines.append(f"IM,{self.label(number)},{'D' if at == 0 else 'C'},{at + 1},@ACME001;IMAGES\\001;{self.label(pages[0])}.tif;2\r\n")
        return "".join(lines).encode()


class OneLine(Volume):
    """Files of several pages, each with one line."""
    as_volume = "refused 114 CheckCount 1 0 0"

    def image_files(self):
        return {f"IMAGES/001/{self.label(pages[0])}.tif": many(pages, "-c", "lzw") for pages in self.documents}

    def opt_lines(self):
        for line in super().opt_lines():
            if line[3]:
                yield [*line[:6], "1"]


class SeveralLines(Volume):
    """Files of several pages, each with a line for every page."""

    def image_files(self):
        return {f"IMAGES/001/{self.label(pages[0])}.tif": many(pages, "-c", "g3") for pages in self.documents}

    def opt_lines(self):
        first = None
        for line in super().opt_lines():
            first = line[0] if line[3] else first
            yield [*line[:2], f"ACME001\\IMAGES\\001\\{first}.tif", *line[3:]]


class Drive(Volume):
    """Paths with a drive and folders of another machine."""
    paths, text_paths = "D:\\PROD\\OUT\\ACME001\\IMAGES\\001\\{}", "D:\\PROD\\OUT\\ACME001\\TEXT\\001\\{}.txt"


class Share(Volume):
    """Paths of a network's share."""
    paths, text_paths = "\\\\server\\share\\ACME001\\IMAGES\\001\\{}", "\\\\server\\share\\ACME001\\TEXT\\001\\{}.txt"


class Capitals(Volume):
    """Paths in other capitals than the files."""
    paths, text_paths = "acme001\\images\\001\\{}", "Acme001\\Text\\001\\{}.TXT"


class OtherRoot(Volume):
    """Paths below a folder that isn't there; the volume lies in a folder of another name."""
    root, paths, text_paths = "from the other side", "PROD_2019\\ACME001\\IMAGES\\001\\{}", "./TEXT/001/{}.txt"


class Lzw(Volume):
    """LZW."""
    how = ("-c", "lzw")

    def __init__(self):
        super().__init__()
        self.images = {number: page(number, *self.how) for number in range(6)}


class Group3(Lzw):
    """Group 3 in one dimension."""
    how = ("-c", "g3:1d")


class Group3Of2(Lzw):
    """Group 3 in two dimensions."""
    how = ("-c", "g3:2d")


class PackBits(Lzw):
    """PackBits, high byte first, bits from the low end."""
    how = ("-B", "-f", "lsb2msb", "-c", "packbits")


class Tiles(Lzw):
    """Deflate in tiles."""
    how = ("-t", "-w", "128", "-l", "128", "-c", "zip")


class Strips(Lzw):
    """Group 4 in strips of sixteen rows, which is a page file as it stands."""
    how = ("-r", "16", "-c", "g4")


class Grey(Volume):
    """TIFF in grey, by ImageMagick."""

    def __init__(self):
        super().__init__()
        self.images = {number: converted(number, "-colorspace", "Gray", "-depth", "8", "-type", "Grayscale", "-compress", "LZW", "tif:-") for number in range(6)}


class Jpeg(Volume):
    """JPEG files, by ImageMagick."""
    ending = ".jpg"

    def __init__(self):
        super().__init__()
        self.images = {number: converted(number, "-colorspace", "Gray", "-quality", "98", "jpg:-") for number in range(6)}


class Png(Volume):
    """PNG files, by ImageMagick."""
    ending = ".png"

    def __init__(self):
        super().__init__()
        self.images = {number: converted(number, "png:-") for number in range(6)}


class Pdf(Volume):
    """A PDF a document, which the DAT names as its native file; no list of images."""
    options = ("--dpi", str(INCH))
    titles = {**Volume.titles, "NATIVEPATH": "Native Link"}
    kept = ("Native Link",)
    as_volume = "checked documents 4 images 6 files 12"

    def image_files(self):
        return {f"NATIVES/{self.label(pages[0])}.pdf": pdf_of(pages) for pages in self.documents}

    def record(self, at):
        return {**super().record(at), "NATIVEPATH": f"ACME001\\NATIVES\\{self.label(self.documents[at][0])}.pdf"}

    def opt(self):
        return None


class PdfByNumber(Pdf):
    """A PDF a document, found by its number."""
    titles, kept = Volume.titles, ()

    def record(self, at):
        return Volume.record(self, at)


class PdfOfText(Pdf):
    """PDFs with a text, by ghostscript: words come from it, where they stand. Another program paints their pages than read them."""
    words, is_exact = "read", False

    def image_files(self):
        return {f"NATIVES/{self.label(pages[0])}.pdf": printed(pages) for pages in self.documents}


def printed(numbers):
    points = (f"-dDEVICEWIDTHPOINTS={WIDTH * 72 // INCH}", f"-dDEVICEHEIGHTPOINTS={HEIGHT * 72 // INCH}", "-dFIXEDMEDIA")
    return sh(["gs", "-q", "-dNOPAUSE", "-dBATCH", "-sDEVICE=pdfwrite", *points, "-sOutputFile=-", "-"], b"\n".join(map(post_script, numbers)))


class Range(Volume):
    """Families by a range in one column."""
    titles = {"BEGDOC": "BEGDOC", "ENDDOC": "ENDDOC", "ATTACHRANGE": "Attachment Range", "TEXTPATH": "TEXTPATH"}
    kept = ("Attachment Range",)

    def record(self, at):
        begins, ends = self.attached(at)
        return {**super().record(at), "ATTACHRANGE": f"{begins} - {ends}"}


class Parent(Volume):
    """Families by the parent's number, empty for a parent."""
    titles = {"BEGDOC": "BEGDOC", "ENDDOC": "ENDDOC", "PARENT": "Parent ID", "TEXTPATH": "TEXTPATH"}
    kept = ("Parent ID",)

    def record(self, at):
        begins, _ = self.attached(at)
        record = super().record(at)
        return {**record, "PARENT": "" if begins == record["BEGDOC"] else begins}


class Group(Volume):
    """Families by an identifier that is no number."""
    titles = {"BEGDOC": "BEGDOC", "ENDDOC": "ENDDOC", "BEGATTACH": "Group Identifier", "TEXTPATH": "TEXTPATH"}

    def record(self, at):
        family = next(place for place, pair in enumerate(self.families) if pair[0] <= at <= pair[1])
        return {**super().record(at), "BEGATTACH": f"f81d4fae-{family}"}


class NoBreaks(Volume):
    """An OPT with a line of names and no breaks: documents by the DAT alone."""
    as_volume = "refused 113 CheckBreaks 1 0 0"

    def opt(self):
        lines = [["ImageKey", "Volume", "FullPath", "DocBreak", "BoxBreak", "FolderBreak", "PageCount"],
                 *([*line[:3], "", "", "", ""] for line in self.opt_lines())]
        return "".join(",".join(line) + "\r\n" for line in lines).encode()


class Suffixes(Volume):
    """Numbers of documents, with the page behind a point."""
    as_volume = "refused 112 CheckGap 3 3 1"

    def label(self, number):
        at = next(at for at, pages in enumerate(self.documents_by_count()) if number in pages)
        return f"DOC-{at + 1:03}.{number - self.documents_by_count()[at][0] + 1:04}"

    def documents_by_count(self):
        starts = [sum(COUNTS[:at]) for at in range(len(COUNTS))]
        return [range(start, start + count) for start, count in zip(starts, COUNTS)]


class NativesAlone(Volume):
    """A record without an image, which is dropped."""
    as_volume = "refused 113 CheckBreaks 7 0 0"

    def rows(self):
        rows = super().rows()
        return [*rows, ["ACME000007", "ACME000007", "ACME000007", "ACME000007", "", "", "a spreadsheet"]]


class Mapped(Volume):
    """Columns of names that nobody knows, which a file maps."""
    titles = {"BEGDOC": "Anfang", "ENDDOC": "Ende", "BEGATTACH": "Familie", "ENDATTACH": "Familienende", "TEXTPATH": "Wortlaut"}
    kept = ("Anfang", "Ende")
    mapped = "Anfang,BEGDOC\nEnde,ENDDOC\nFamilie,BEGATTACH\nFamilienende,ENDATTACH\nWortlaut,TEXTPATH\n"
    options = ("--map", "map.csv")


class PageTexts(Volume):
    """A text of each page, in UTF-16, and no column for it."""
    titles = {"BEGDOC": "BEGDOC", "ENDDOC": "ENDDOC", "BEGATTACH": "BEGATTACH", "ENDATTACH": "ENDATTACH"}
    as_volume = "checked documents 4 images 6 files 8"

    def text_files(self):
        return {f"TEXT/{self.label(number)}.txt": LINES[number].encode("utf-16") for number in range(6)}


class Read(Volume):
    """Words by tesseract."""
    words = "read"


class Turned(Volume):
    """Pages that lie on their side by their Orientation."""

    def __init__(self):
        super().__init__()
        self.images = {number: turned(page(number)) for number in range(6)}


def turned(data):
    """The page with its rows as columns, and an Orientation that says so: row 0 at the left, column 0 at the top."""
    flipped = sh(["pamflip", "-transpose"], pixels_of(data))
    with tempfile.NamedTemporaryFile(suffix=".tif") as file:
        file.write(sh(["pamtotiff", "-g4", f"-xresolution={INCH}", f"-yresolution={INCH}"], flipped))
        file.flush()
        sh(["tiffset", "-s", "274", "5", file.name])
        file.seek(0)
        with open(file.name, "rb") as again:
            return again.read()


ALL = [Plain, Utf16, Utf16Bare, Windows, Carets, Tabs, Commas, Semicolons, Lfp, LfpOfPages, OneLine, SeveralLines, Drive, Share, Capitals,
       OtherRoot, Lzw, Group3, Group3Of2, PackBits, Tiles, Strips, Grey, Jpeg, Png, Pdf, PdfByNumber, PdfOfText, Range, Parent, Group, NoBreaks,
       Suffixes, NativesAlone, Mapped, PageTexts, Read, Turned]
