"""A page as it goes into a batch: its pixels, its resolution, and how pixels of grey become black and white."""
import re
from dataclasses import dataclass

from . import greys
from .bitmap import Bitmap
from .limits import LONGEST_FILE, LONGEST_SIDE, MOST_PIXELS
from .programs import first_line, run
from .refused import Refused

TOOLS = ("ppmtopgm", "pgmtopbm", "ppm2tiff", "pamtotiff", "pamdepth", "numpy")


@dataclass(frozen=True)
class Resolution:
    """Pixels across and down to a unit, which is inch, centimeter or none, as pamtotiff calls them."""

    across: str
    down: str
    unit: str

    def to_the_inch(self):
        """How many pixels down an inch has, where the file tells it."""
        factor = {"inch": 1, "centimeter": 2.54}.get(self.unit)
        return round(float(self.down) * factor) if factor else None


@dataclass(frozen=True)
class Picture:
    """A bilevel page as a raw PBM, the grey or coloured picture that it was made of, and whether greys became dots: then words are
    read better in the grey."""

    pbm: bytes
    original: bytes
    resolution: Resolution | None
    has_dots: bool = False

    def to_read(self):
        return self.original if self.has_dots else self.pbm

    def turned(self, turn, is_aside):
        """The same picture, each of its two forms turned; a page that then lies on its side has its resolutions changed."""
        told = self.resolution
        if told and is_aside:
            told = Resolution(told.down, told.across, told.unit)
        return Picture(turn(self.pbm), turn(self.original) if self.has_dots else self.pbm, told, self.has_dots)


def check_size(file, page, width, height):
    """Refuses a page with more pixels than an import takes."""
    if not (0 < width <= LONGEST_SIDE and 0 < height <= LONGEST_SIDE and width * height <= MOST_PIXELS):
        most = f"{LONGEST_SIDE} a side and {MOST_PIXELS} in all come in"
        raise Refused(file, f"page {page} would have {width} by {height} pixels, and at most {most}: take a lower --dpi")


def grey_of(file, pnm):
    """A raw PBM as it is, any other raw PNM as a raw PGM of 255."""
    if pnm.startswith(b"P4"):
        return pnm
    grey = run(file, ["ppmtopgm"], pnm)[0] if pnm.startswith(b"P6") else pnm
    return grey if greys.GREY_HEAD.match(grey)[3] == b"255" else run(file, ["pamdepth", "255"], grey)[0]


def black_and_white(file, pnm, options):
    """A raw PBM of any raw PNM, and whether it has dots: by a local threshold, with dots for pictures alone; or by one threshold for
    the whole page (percent of white); or greys as dots all over."""
    if pnm.startswith(b"P4"):
        return pnm, False
    grey = grey_of(file, pnm)
    if options.threshold is not None:
        return run(file, ["pgmtopbm", "-threshold", f"-value={options.threshold / 100}"], grey)[0], False
    if options.dots:
        return run(file, ["pgmtopbm", "-fs", "-randomseed=1"], grey)[0], True
    return greys.black_and_white(file, grey)


def bitmap_of(file, page, pbm):
    try:
        return Bitmap(pbm)
    except ValueError as error:
        raise Refused(file, f"page {page}: the picture was cut off: {error}") from None


def write_tiff(file, picture, height, path):
    """Writes the page as a TIFF file in Group 4, in one strip."""
    words = words_to_write(picture.resolution, height)
    data, said = run(file, words, picture.pbm)
    if not data or said:  # the status of ppm2tiff is 0 also where it failed
        raise Refused(file, f"its page can't be written, {words[0]} {first_line(said) or 'wrote nothing'}")
    if len(data) > LONGEST_FILE:
        raise Refused(file, f"a page's file has {len(data)} bytes, and at most {LONGEST_FILE} come in")
    with open(path, "wb") as out:
        out.write(data)


def words_to_write(told, height):
    """What makes a TIFF file of a raw PBM: libtiff's program, which can tell as many pixels to the inch both ways, or none; for all else
    netpbm's, which takes five times as long."""
    if not told or told.unit == "inch" and told.across == told.down:
        return ["ppm2tiff", "-c", "g4", "-r", str(height), *(["-R", told.across] if told else []), "/dev/stdout"]
    resolution = [f"-xresolution={told.across}", f"-yresolution={told.down}", f"-resolutionunit={told.unit}"]
    return ["pamtotiff", "-quiet", "-g4", "-miniswhite", f"-rowsperstrip={height}", *resolution]


def sides_of(pnm):
    """Width and height of a raw PNM."""
    found = re.match(rb"P[456]\s(?:#.*\n)*(\d+)\s+(\d+)", pnm)
    return (int(found[1]), int(found[2])) if found else (0, 0)
