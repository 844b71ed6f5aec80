"""PDF files: how many pages, their pixels and their words, by poppler."""
import html
import math
import os
import re

from .pictures import Picture, black_and_white, check_size
from .programs import first_line, run
from .refused import Refused
from .sheets import LONGEST_PAPER, SCREEN, inch_on_a_sheet, resolution_of
from .words import Word, plain

POINTS = 72  # to the inch
# A picture that fills its page would be stretched by one pixel each way at the full resolution: by so much less it keeps
# its pixels, where it was scanned at that resolution.
LESS = 0.001
SIZE = re.compile(r"^Page +(\d+) size: +(\S+) x (\S+) pts", re.MULTILINE)
LINE = re.compile(r"<line |<word xMin=\"(\S+)\" yMin=\"(\S+)\" xMax=\"(\S+)\" yMax=\"(\S+)\">(.*)</word>")
IMAGE = re.compile(r"^ *(\d+) +\d+ image +(\d+) +(\d+) ", re.MULTILINE)
TOOLS = ("pdfinfo", "pdftoppm", "pdftotext", "pdfdetach", "pdfimages")


class PdfFile:
    """A PDF that its reader takes without a complaint, or, `as_shown`, as far as its reader shows it."""

    def __init__(self, source, options):
        self.source, self.options, self.key = source, options, []
        told = self.unlocked()
        self.sizes, self.inches = self.look(told)
        self.words = []

    def run(self, words):
        """What a program of poppler writes; refused where it complains of the file."""
        words = [words[0], *self.key, *words[1:]]
        told, said = run(self.source.name, words, what=self.damage(), hint=REPAIR)
        faults = [line for line in said.splitlines() if b"Error" in line]
        if faults and not self.options.as_shown:
            raise Refused(self.source.name, f"{self.damage()}, {words[0]} {first_line(faults[0])}; {REPAIR}")
        return told

    def damage(self):
        """What is the matter with a file that a program can't read."""
        with open(self.source.path, "rb") as file:
            file.seek(max(0, os.path.getsize(self.source.path) - TAIL))
            return "the PDF is damaged" if END in file.read() else "the PDF was cut off: it has no end"

    def unlocked(self):
        """What pdfinfo tells of the file, by the password that opens it, if it wants one."""
        words = ["pdfinfo", "-f", "1", "-l", "999999", self.source.path]
        for password in (None, *self.options.password):
            self.key = [] if password is None else ["-opw", password, "-upw", password]
            try:
                return self.run(words).decode(errors="replace")
            except Refused as refused:
                if "Incorrect password" not in refused.reasons[0][1]:
                    raise
        given = "none of the passwords opens it" if self.options.password else "it wants a password: give it by --password"
        raise Refused(self.source.name, f"the PDF is encrypted, and {given}; or take a copy without: {DECRYPT}")

    def look(self, told):
        """The sides of each page in pixels, and its pixels to the inch: as it is drawn, and as its sheet has them."""
        found = [(float(width), float(height)) for _, width, height in SIZE.findall(told)]
        if not found:
            raise Refused(self.source.name, "the PDF has no page")
        inches = [(self.options.dpi, self.options.dpi)] * len(found)
        if any(max(sides) / POINTS > LONGEST_PAPER for sides in found):
            inches = self.inches_of(found)
        sizes = [tuple(math.ceil(side * (drawn - LESS) / POINTS) for side in sides) for sides, (drawn, _) in zip(found, inches)]
        for page, (width, height) in enumerate(sizes, 1):
            check_size(self.source.name, page, width, height)
        return sizes, inches

    def inches_of(self, found):
        """A page longer than paper that is one picture of a screen's resolution was never measured: it is a sheet of letter or A4, and
        is drawn no larger than its picture is."""
        pictures = {}
        for page, width, height in IMAGE.findall(self.run(["pdfimages", "-list", self.source.path]).decode(errors="replace")):
            pictures.setdefault(int(page), []).append((int(width), int(height)))
        inches = []
        for page, sides in enumerate(found, 1):
            own = pictures.get(page, [])
            inch = max(own[0]) / max(sides) * POINTS if len(own) == 1 else SCREEN
            if inch < SCREEN and max(sides) / POINTS > LONGEST_PAPER:
                sheet = inch_on_a_sheet(*own[0])
                inches.append((inch * min(1, self.options.dpi / sheet), min(sheet, self.options.dpi)))
            else:
                inches.append((self.options.dpi, self.options.dpi))
        return inches

    def notes(self):
        """What the user should know of the file, though it is taken."""
        told = self.run(["pdfdetach", "-list", self.source.path]).decode(errors="replace")
        count = re.match(r"(\d+) embedded file", told)
        if count and int(count[1]):
            yield f"{count[1]} files lie in it, and stay out: pdfdetach -saveall takes them out"

    def picture(self, page):
        """The page's pixels as a viewer shows them: the crop box, turned, with annotations."""
        drawn, sheet = self.inches[page - 1]
        number = str(page)
        words = ["pdftoppm", "-cropbox", "-gray", "-r", str(drawn - LESS), "-f", number, "-l", number, self.source.path]
        original = self.run(words)
        pbm, has_dots = black_and_white(self.source.name, original, self.options)
        return Picture(pbm, original, resolution_of(sheet), has_dots)

    def prepare(self):
        """Finds the words of all pages, in the order and the lines in which pdftotext finds them."""
        told = self.run(["pdftotext", "-cropbox", "-bbox-layout", self.source.path, "-"])
        pages = told.decode(errors="replace").split("<page ")[1:]
        if len(pages) != len(self.sizes):
            raise Refused(self.source.name, f"pdftotext finds {len(pages)} pages of {len(self.sizes)}")
        self.words = [list(words_in(page, drawn / POINTS)) for page, (drawn, _) in zip(pages, self.inches)]


REPAIR = "have it sent once more, or repair it (ghostscript's: ps2pdf in.pdf out.pdf) and look at it; or say --as-shown"
DECRYPT = "qpdf --decrypt --password=WORD in.pdf out.pdf"
TAIL, END = 2048, b"%%EOF"


def words_in(told, scale):
    """Each word of a page, its box rounded outwards."""
    line = 0
    for found in LINE.finditer(told):
        if found[1] is None:
            line += 1
            continue
        left, top, right, bottom = (float(found[at]) * scale for at in range(1, 5))
        text = plain(html.unescape(found[5]))
        if text:
            yield Word(line, (math.floor(left), math.floor(top), math.ceil(right), math.ceil(bottom)), text)
