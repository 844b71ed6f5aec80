"""The picture that tesseract is given of a page. One of print alone is cut to its ink, and where all its letters are large it is given
at half its sides: then the same words are read in less time. Any other is given whole, as it is to tesseract's program."""
import ctypes
from dataclasses import dataclass

from .library import EIGHT_WAYS, HANDLE, boxes_in, four_ints
from .marks import Mark, are_large, is_print, letters_of
from .pictures import sides_of

MARGIN = 32  # pixels around the ink
MOST_MARKS = 20_000  # on a page of print there are fewer


@dataclass(frozen=True)
class Part:
    """A picture of leptonica's, where on the page its first pixel lies, how many of the page's pixels a side of its pixels has, and
    whether it is less than the page."""

    picture: int
    left: int = 0
    top: int = 0
    scale: int = 1
    is_less: bool = False

    def on_page(self, box):
        """The box on the page; of a smaller picture it is wider by a pixel each way, as one with little ink is white to tesseract."""
        more = 0 if self.scale == 1 else 1
        left, top, right, bottom = box[0] - more, box[1] - more, box[2] + more, box[3] + more
        scale = self.scale
        return (self.left + left * scale, self.top + top * scale, self.left + right * scale, self.top + bottom * scale)


def whole(library, pnm):
    return Part(picture_of(library, pnm) if is_bilevel(pnm) else library.pixReadMemPnm(pnm, len(pnm)))


def part_of(library, pnm):
    """The part of a raw PBM that is enough to read it; the whole where it may have more than print, as any other raw PNM has: a
    photograph."""
    page = whole(library, pnm)
    if not is_bilevel(pnm):
        return page
    marks = marks_of(library, page.picture)
    if marks is None or not is_print(marks):
        return page
    part = cut(library, page.picture)
    if not are_large(marks):
        return part
    return Part(library.pixScaleToGray2(part.picture), part.left, part.top, 2, True)


def is_bilevel(pnm):
    return pnm.startswith(b"P4")


def cut(library, picture):
    """The ink of a page and what is around it."""
    ink = HANDLE()
    library.pixClipToForeground(picture, None, ctypes.byref(ink))
    left, top, width, height = four_ints(library.boxGetGeometry, ink)
    around = library.boxCreate(left - MARGIN, top - MARGIN, width + 2 * MARGIN, height + 2 * MARGIN)
    return Part(library.pixClipRectangle(picture, around, None), max(0, left - MARGIN), max(0, top - MARGIN), 1, True)


def picture_of(library, pbm):
    """The raw PBM as leptonica has it: rows of whole words of 32 bits. Its own reader takes a twentieth of a second, byte by byte."""
    width, height = sides_of(pbm)
    size = (width + 7) // 8
    spare = bytes(-size % 4)
    body = pbm[len(pbm) - size * height :]
    rows = [body[at : at + size] for at in range(0, len(body), size)]
    picture = library.pixCreate(width, height, 1)
    ctypes.memmove(library.pixGetData(picture), b"".join([row + spare for row in rows]), (size + len(spare)) * height)
    library.pixEndianByteSwap(picture)
    return picture


def marks_of(library, picture):
    """The black marks; None where they are more than on a page of print, as in a picture of dots."""
    boxes = library.pixConnCompBB(picture, EIGHT_WAYS)
    return [Mark(*box) for box in boxes_in(library, boxes)] if library.boxaGetCount(boxes) <= MOST_MARKS else None


def are_all_in(library, pbm, boxes):
    """Whether every letter of the page lies in one of these boxes."""
    rest = picture_of(library, pbm)
    for left, top, right, bottom in boxes:
        library.pixClearInRect(rest, library.boxCreate(left, top, right - left, bottom - top))
    marks = marks_of(library, rest)
    return marks is not None and not letters_of(marks)
