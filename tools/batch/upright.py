"""Which way up a scanned page stands, by tesseract."""
import re

from .programs import run
from .recognized import dpi_words
from .refused import Refused

TOOLS = ("tesseract", "pamflip")
LEAST_SURE = 2.0  # tesseract's own figure for its finding; below it a page stays as it is
TURNS = {90: "-r270", 180: "-r180", 270: "-r90"}  # by how far it is to be turned clockwise; pamflip turns the other way
FOUND = re.compile(r"^Rotate: (\d+)\nOrientation confidence: ([0-9.]+)", re.MULTILINE)


def turn_of(file, pnm, resolution):
    """How far the page is to be turned clockwise: 0, 90, 180 or 270; 0 where it has too few letters to tell."""
    try:
        told, _ = run(file, ["tesseract", "stdin", "stdout", "--psm", "0", "-l", "osd", *dpi_words(resolution)], pnm)
    except Refused:
        return 0  # it ends with 1 where it finds too few letters
    found = FOUND.search(told.decode(errors="replace"))
    return int(found[1]) if found and float(found[2]) >= LEAST_SURE else 0


def turned(file, pnm, degrees):
    return run(file, ["pamflip", TURNS[degrees]], pnm)[0]
