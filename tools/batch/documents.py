"""Documents and their pages, from the files that come in to what stands in the batch."""
import os
from dataclasses import dataclass, field

from . import pdf_files, picture_files, pictures, recognized, tiff_files, upright
from .limits import MOST_DOCUMENTS, MOST_PAGES, MOST_PIXELS_IN_ALL
from .load_files import image_path
from .pdf_files import PdfFile
from .picture_files import PictureFile
from .pictures import bitmap_of, write_tiff
from .refused import Refused
from .sources import Source
from .tiff_files import TiffFile
from .words import inked_words, shown_words

TOOLS = {"PDF": pdf_files.TOOLS, "TIFF": tiff_files.TOOLS, "PNG": picture_files.TOOLS, "JPEG": picture_files.TOOLS}


@dataclass
class Document:
    """A document: its source, its file's reader, the values of its fields, its images' ids, its pages once made, and what its user
    should know of its file."""

    source: Source
    file: object
    values: list
    images: list = field(default_factory=list)
    pages: list = field(default_factory=list)
    notes: list = field(default_factory=list)


@dataclass(frozen=True)
class Page:
    """A page that was made: its words, where they come from ("text", "read" or "none"), how many it doesn't show, and how far it was
    turned, clockwise."""

    words: list
    origin: str
    unseen: int
    turned: int = 0


def open_file(source, options, room):
    """The reader of a file, which has looked at it."""
    if source.kind == "PDF":
        return PdfFile(source, options)
    return TiffFile(source, options, room) if source.kind == "TIFF" else PictureFile(source, options)


def tools_for(kinds, options):
    """What is needed to make pages of files of these kinds."""
    return [*pictures.TOOLS, *(tool for kind in kinds for tool in TOOLS[kind]), *(upright.TOOLS if options.upright else ())]


def check_limits(documents):
    """Refuses what no matter takes."""
    pages = sum(len(document.file.sizes) for document in documents)
    pixels = sum(width * height for document in documents for width, height in document.file.sizes)
    for what, count, most in (("documents", len(documents), MOST_DOCUMENTS), ("pages", pages, MOST_PAGES)):
        if count > most:
            raise Refused("the batch", f"{count} {what}, and a matter takes {most}: make a matter of each part")
    if pixels > MOST_PIXELS_IN_ALL:
        told = f"{pages} pages have {pixels} pixels, and a matter takes {MOST_PIXELS_IN_ALL}"
        raise Refused("the batch", f"{told}: take a lower --dpi, or make a matter of each part")


def name_images(documents, prefix, first):
    """Gives each page its id, counted through the batch."""
    number = first
    for document in documents:
        document.images = [f"{prefix}{number + at:07}" for at, _ in enumerate(document.file.sizes)]
        number += len(document.images)


def need_reading(documents, how):
    """Whether there are pages whose words have to be read from their picture."""
    return how == "all" or how == "needed" and any(not words for document in documents for words in document.file.words)


def cost_of(document, page, options):
    """What tells which of two pages takes longer to make: one to be read does, and a larger one."""
    width, height = document.file.sizes[page - 1]
    is_read = options.ocr == "all" or options.ocr == "needed" and not document.file.words[page - 1]
    return is_read, width * height


def make_page(document, page, number, folder, options):
    """Writes the page's image into the batch, and finds its words; `number` counts pages from 0 through the batch."""
    name = document.source.name
    picture = document.file.picture(page)
    told = [] if options.ocr == "all" else document.file.words[page - 1]
    turn = upright.turn_of(name, picture.to_read(), picture.resolution) if options.upright and not told else 0
    if turn:
        picture = picture.turned(lambda pnm: upright.turned(name, pnm, turn), is_aside=turn != 180)
    bitmap = bitmap_of(name, page, picture.pbm)
    path = os.path.join(folder, image_path(number, document.images[page - 1]))
    os.makedirs(os.path.dirname(path), exist_ok=True)
    write_tiff(name, picture, bitmap.height, path)
    if told:
        words, unseen = shown_words(told, bitmap)
        return Page(words, "text", unseen)
    if options.ocr == "none" or bitmap.is_white():
        return Page([], "none", 0, turn)
    read = recognized.read_words(name, picture.to_read(), picture.resolution, options.language)
    return Page(inked_words(read, bitmap), "read", 0, turn)
