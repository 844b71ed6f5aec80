"""tesseract's library with its model of a language, which reads pages."""
import atexit
import ctypes
import os

from . import library
from .inked import are_all_in, part_of, whole
from .library import Unusable
from .words import plain

SMALLEST_INCH, LARGEST_INCH = 70, 2400  # what tesseract takes for a resolution


class Reader:
    """It reads in one thread, as other pages are read beside it."""

    def __init__(self, language):
        os.environ["OMP_THREAD_LIMIT"] = "1"  # the library looks at it when it is loaded
        self.library = library.load()
        self.handle = self.library.TessBaseAPICreate()
        atexit.register(self.library.TessBaseAPIDelete, self.handle)
        if self.library.TessBaseAPIInit3(self.handle, None, language.encode()):
            raise Unusable(f"its library {library.NAME} can't read its data of {language}")
        self.library.TessBaseAPISetPageSegMode(self.handle, library.AUTOMATIC)

    def set(self, name, number):
        if not self.library.TessBaseAPISetVariable(self.handle, name.encode(), str(number).encode()):
            raise Unusable(f"its library {library.NAME} knows no {name}")

    def read(self, pnm, inch, is_whole):
        """Each word's line, box and text: of the whole page, as tesseract's program finds them; or of the part of it that is enough, and
        None where it wasn't. What this leaves in memory ends with the process."""
        part = whole(self.library, pnm) if is_whole else part_of(self.library, pnm)
        words = self.words_in(part, inch)
        return None if part.is_less and not are_all_in(self.library, pnm, [box for _, box, _ in words]) else words

    def words_in(self, part, inch):
        if is_taken(inch):
            self.set("user_defined_dpi", max(SMALLEST_INCH, inch // part.scale))
        self.library.TessBaseAPISetImage2(self.handle, part.picture)
        if self.library.TessBaseAPIRecognize(self.handle, None):
            raise ValueError("tesseract failed")
        return [(line, part.on_page(box), text) for line, box, text in self.found()]

    def found(self):
        results = self.library.TessBaseAPIGetIterator(self.handle)
        if not results:
            return
        page, line = self.library.TessResultIteratorGetPageIterator(results), 0
        while True:
            line += self.library.TessPageIteratorIsAtBeginningOf(page, library.LINE)
            text = plain(self.text_at(results))
            if text:
                yield line, library.four_ints(self.library.TessPageIteratorBoundingBox, page, library.WORD), text
            if not self.library.TessResultIteratorNext(results, library.WORD):
                break

    def text_at(self, results):
        text = self.library.TessResultIteratorGetUTF8Text(results, library.WORD)
        return ctypes.string_at(text).decode(errors="replace") if text else ""


def is_taken(inch):
    """Whether tesseract takes it for a resolution."""
    return inch is not None and SMALLEST_INCH <= inch <= LARGEST_INCH
