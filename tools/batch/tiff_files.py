"""TIFF scans: the pages of a file, and their pixels, by libtiff and netpbm."""
import os
import re

from .pictures import Picture, Resolution, black_and_white, check_size, sides_of
from .programs import first_line, run
from .refused import Refused

TOOLS = ("tiffinfo", "tiffsplit", "tifftopnm", "pamflip")
DIRECTORY = re.compile(r"^TIFF Directory at offset .*$", re.MULTILINE)
SIDES = re.compile(r"Image Width: (\d+) Image Length: (\d+)")
RESOLUTION = re.compile(r"Resolution: ([0-9.]+), ([0-9.]+)(?: (pixels/inch|pixels/cm))?")
# what tifftopnm reads as well row by row, in half the time: other forms take libtiff's own reading of the whole
GREY_OR_BLACK = re.compile(r"Bits/Sample: [18]\n(?s:.*)Photometric Interpretation: min-is-(black|white)\n")
OTHER_FORM = re.compile(r"Tile Width:|Samples/Pixel: (?!1\n)|Sample Format: (?!unsigned)|Planar Configuration: separate")
UNITS = {"pixels/inch": "inch", "pixels/cm": "centimeter", None: "none"}
# by how tiffinfo tells Orientation: how the page is turned upright. tifftopnm's own turning by a quarter mirrors pages.
ORIENTATION = re.compile(r"Orientation: row 0 (\w+), col 0 (\w+)")
TURNS = {
    ("top", "lhs"): None,
    ("top", "rhs"): "leftright",
    ("bottom", "rhs"): "leftright,topbottom",
    ("bottom", "lhs"): "topbottom",
    ("lhs", "top"): "transpose",
    ("rhs", "top"): "transpose,leftright",
    ("rhs", "bottom"): "transpose,topbottom,leftright",
    ("lhs", "bottom"): "transpose,topbottom",
}
# what libtiff says of tags that it doesn't know or finds in another order; the pixels are whole
HARMLESS = re.compile(rb"Warning, .*(Unknown field|tags are not sorted|wrong data type|incorrect count|ASCII value|legacy Deflate)")


class TiffFile:
    """A TIFF file with all its pages but small pictures of pages; split into files of a page below `room`."""

    def __init__(self, source, options, room):
        self.source, self.options, self.room = source, options, room
        told = self.run(["tiffinfo", source.path]).decode(errors="replace")
        self.directories = [text for text in DIRECTORY.split(told)[1:]]
        self.places = [at for at, text in enumerate(self.directories) if "reduced-resolution image" not in text]
        self.sizes = self.look()
        self.words = [[] for _ in self.sizes]  # a scan has no text
        self.split = []

    def run(self, words):
        """What a program writes; refused where libtiff complains of the file."""
        told, said = run(self.source.name, words, what="the TIFF is damaged", hint=REPAIR)
        faults = [line for line in said.splitlines() if line.strip() and not HARMLESS.search(line)]
        if faults and not self.options.as_shown:
            raise Refused(self.source.name, f"the TIFF is damaged, {words[0]} {first_line(faults[0])}; {REPAIR}")
        return told

    def look(self):
        """The sides of each page in pixels."""
        sizes = []
        for page, place in enumerate(self.places, 1):
            found = SIDES.search(self.directories[place])
            width, height = (int(found[1]), int(found[2])) if found else (0, 0)
            check_size(self.source.name, page, width, height)
            sizes.append((width, height))
        if not sizes:
            raise Refused(self.source.name, "the TIFF has no page")
        return sizes

    def notes(self):
        """What the user should know of the file, though it is taken."""
        small = len(self.directories) - len(self.places)
        if small:
            yield f"{small} small pictures of pages lie in it, and stay out"

    def picture(self, page):
        """The page's pixels, turned upright as its Orientation says."""
        name, turn = self.source.name, self.turn(page)
        by_row = ["-byrow"] if self.is_plain(page) else []
        original = self.run(["tifftopnm", "-quiet", "-orientraw", *by_row, self.file_of(page)])
        if sides_of(original) != self.sizes[page - 1]:
            raise Refused(name, f"page {page}: tifftopnm finds other sides than tiffinfo")
        upright = run(name, ["pamflip", f"-xform={turn}"], original)[0] if turn else original
        is_aside = turn is not None and turn.startswith("transpose")
        pbm, has_dots = black_and_white(name, upright, self.options)
        return Picture(pbm, upright, self.resolution(page, is_aside), has_dots)

    def is_plain(self, page):
        """Whether it is read row by row; a page that may be damaged isn't, as then all ends at its first fault."""
        told = self.directories[self.places[page - 1]]
        return bool(not self.options.as_shown and GREY_OR_BLACK.search(told) and not OTHER_FORM.search(told))

    def turn(self, page):
        found = ORIENTATION.search(self.directories[self.places[page - 1]])
        return TURNS[found.groups()] if found else None

    def prepare(self):
        """Makes a file of each page below `room`; libtiff names them in their order."""
        os.makedirs(self.room)
        self.run(["tiffsplit", self.source.path, os.path.join(self.room, "page-")])
        self.split = sorted(os.listdir(self.room))
        if len(self.split) != len(self.directories):
            raise Refused(self.source.name, f"tiffsplit finds {len(self.split)} pages of {len(self.directories)}")

    def file_of(self, page):
        return os.path.join(self.room, self.split[self.places[page - 1]])

    def resolution(self, page, is_aside):
        found = RESOLUTION.search(self.directories[self.places[page - 1]])
        if not found or not float(found[1]) or not float(found[2]):
            return None
        across, down = (found[2], found[1]) if is_aside else (found[1], found[2])
        return Resolution(across, down, UNITS[found[3]])


REPAIR = "have it sent or scanned once more; or say --as-shown"
