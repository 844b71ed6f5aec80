"""PNG and JPEG pictures, as scanners and telephones make them: a page each, by netpbm."""
import re
import struct

from .pictures import Picture, black_and_white, check_size, grey_of, sides_of
from .programs import first_line, run
from .refused import Refused
from .sheets import inch_on_a_sheet, is_measured, resolution_of

TOOLS = ("jpegtopnm", "pngtopam", "pamflip", "pamscale", "pamdepth")
REPAIR = "have it sent once more; or say --as-shown"
REPAIRED = 2  # jpegtopnm's status
A_METRE = 39.3701  # inches
# by Exif's Orientation: how the picture is turned upright
TURNS = {2: "leftright", 3: "leftright,topbottom", 4: "topbottom", 5: "transpose", 6: "transpose,leftright",
         7: "transpose,topbottom,leftright", 8: "transpose,topbottom"}


class PictureFile:
    """A PNG or JPEG file: one page. A picture that doesn't tell the size of its paper is one of a sheet of letter or A4; one that is
    finer than --dpi is made as fine as that."""

    def __init__(self, source, options):
        self.source, self.options = source, options
        with open(source.path, "rb") as file:
            self.data = file.read()
        self.inch, self.turn = told_by_png(self.data) if source.kind == "PNG" else told_by_jpeg(self.data)
        width, height = sides_of_file(source, self.data)
        if self.turn and self.turn.startswith("transpose"):
            width, height = height, width
        if not is_measured(width, height, self.inch):
            self.inch = inch_on_a_sheet(width, height)
        scale = min(1, options.dpi / self.inch)
        self.sizes = [(max(1, round(width * scale)), max(1, round(height * scale)))]
        check_size(source.name, 1, width, height)
        self.words = [[]]
        self.data = b""

    def notes(self):
        return ()

    def prepare(self):
        """A picture is read page by page, and this is its one."""

    def decoded(self):
        """Its pixels as a raw PGM or PBM of at most 255; refused where its reader complains."""
        words, fine = ["pngtopam", "-mix", "-background=white", self.source.path], (0,)
        if self.source.kind == "JPEG":
            words = ["jpegtopnm", *(["-repair"] if self.options.as_shown else []), self.source.path]
            fine = (0, REPAIRED) if self.options.as_shown else (0,)
        pnm, said = run(self.source.name, words, what="the picture is damaged", hint=REPAIR, fine=fine)
        faults = [line for line in said.splitlines() if re.search(rb"[Pp]remature|[Cc]orrupt|[Ee]rror|invalid|bad ", line)]
        if faults and not self.options.as_shown:
            raise Refused(self.source.name, f"the picture is damaged, {words[0]} {first_line(faults[0])}; {REPAIR}")
        return grey_of(self.source.name, pnm)

    def picture(self, page):
        """The page's pixels, upright as its Exif says, and not finer than --dpi."""
        name, pnm = self.source.name, self.decoded()
        if self.turn:
            pnm, _ = run(name, ["pamflip", f"-xform={self.turn}"], pnm)
        inch = self.inch
        if sides_of(pnm) != self.sizes[page - 1]:
            width, height = self.sizes[page - 1]
            pnm, _ = run(name, ["pamscale", f"-width={width}", f"-height={height}"], pnm)
            inch = min(inch, self.options.dpi)
        pbm, has_dots = black_and_white(name, pnm, self.options)
        return Picture(pbm, pnm, resolution_of(inch), has_dots)


def sides_of_file(source, data):
    """Width and height by the file's own head."""
    if source.kind == "PNG":
        found = struct.unpack(">II", data[16:24]) if len(data) >= 24 else (0, 0)
    else:
        found = next((struct.unpack(">HH", body[1:5])[::-1] for mark, body in segments(data) if is_frame(mark) and len(body) > 5), (0, 0))
    if not all(found):
        raise Refused(source.name, f"the picture is damaged, its head tells no sides; {REPAIR}")
    return found


def is_frame(mark):
    return 0xC0 <= mark <= 0xCF and mark not in (0xC4, 0xC8, 0xCC)


def told_by_png(data):
    """Pixels to the inch by pHYs, or None; a PNG is never turned."""
    at = 8
    while at + 12 <= len(data):
        length, kind = struct.unpack(">I4s", data[at : at + 8])
        if kind == b"pHYs" and length == 9 and at + 17 <= len(data):
            across, _, unit = struct.unpack(">IIB", data[at + 8 : at + 17])
            return (round(across / A_METRE) if unit == 1 else None), None
        if kind == b"IDAT":
            break
        at += 12 + length
    return None, None


def segments(data):
    """The marker segments of a JPEG before its first scan: marker, content."""
    at = 2
    while at + 4 <= len(data) and data[at] == 0xFF:
        mark = data[at + 1]
        if mark == 0xFF:
            at += 1
            continue
        if mark == 0xDA:
            return
        length = int.from_bytes(data[at + 2 : at + 4], "big")
        yield mark, data[at + 4 : at + 2 + length]
        at += 2 + length


def told_by_jpeg(data):
    """Pixels to the inch by JFIF or Exif, or None, and how it is turned upright, or None."""
    inch = turn = None
    for mark, body in segments(data):
        if mark == 0xE0 and body[:5] == b"JFIF\0" and len(body) >= 12:
            unit, across = body[7], int.from_bytes(body[8:10], "big")
            inch = inch or {1: across, 2: round(across * 2.54)}.get(unit)
        if mark == 0xE1 and body[:6] == b"Exif\0\0":
            try:
                told = exif_of(body[6:])
            except (struct.error, IndexError, ZeroDivisionError):
                continue  # it is told nothing, then
            turn = TURNS.get(told.get(274))
            factor = {2: 1, 3: 2.54}.get(told.get(296, 2))
            inch = inch or (round(told[282] * factor) if factor and 282 in told else None)
    return inch, turn


def exif_of(data):
    """The short and rational values of its first directory, by tag."""
    order = "<" if data[:2] == b"II" else ">"
    start = struct.unpack(order + "I", data[4:8])[0]
    told = {}
    for number in range(struct.unpack(order + "H", data[start : start + 2])[0]):
        entry = data[start + 2 + 12 * number : start + 14 + 12 * number]
        tag, kind, count = struct.unpack(order + "HHI", entry[:8])
        if count == 1 and kind == 3:
            told[tag] = struct.unpack(order + "H", entry[8:10])[0]
        elif count == 1 and kind == 5:
            place = struct.unpack(order + "I", entry[8:12])[0]
            above, below = struct.unpack(order + "II", data[place : place + 8])
            told[tag] = above / below
    return told
