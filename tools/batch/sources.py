"""The folder that comes in: which files it has, and in which order."""
import os
import re
import unicodedata
from dataclasses import dataclass

from .refused import Refused

LITTER = re.compile(r"\.|~\$|(thumbs\.db|desktop\.ini)$", re.IGNORECASE)
PDF_HEAD, TIFF_HEADS = b"%PDF-", (b"II*\0", b"MM\0*", b"II+\0", b"MM\0+")
PNG_HEAD, JPEG_HEAD = b"\x89PNG\r\n\x1a\n", b"\xff\xd8\xff"
HEAD = 1024  # within so many bytes a PDF begins
HINTS = {
    rb"PK\x03\x04": "a ZIP file or an office document: unpack it, or print it to a PDF",
    rb"\xd0\xcf\x11\xe0": "an older office document or a message of Outlook: print it to a PDF",
    rb"%!PS": "PostScript: ps2pdf makes a PDF of it",
    rb"....ftyp(hei[cfsx]|mif1|msf1)": "an HEIC picture of a telephone: heif-convert makes a JPEG of it",
    rb"GIF8|BM.{4}\0\0\0\0|RIFF....WEBP": "a GIF, BMP or WebP picture: convert in out.png makes a PNG of it",
    rb"(From|Received|Return-Path|Subject|Date|MIME-Version|X-\S+): ?": "a message of a mail program: print it to a PDF",
}


@dataclass(frozen=True)
class Source:
    """A file that becomes a document: its path, its name below the folder (in NFC, as fields.csv may have it from another system), its
    family's, and PDF, TIFF, PNG or JPEG."""

    path: str
    name: str
    family: str
    kind: str


def sources_of(folder, left_out, gathered):
    """The documents in their order, and the names of all files, also of those that are refused."""
    if not os.path.isdir(folder):
        raise Refused(folder, "there is no such folder")
    found, names = [], set()
    for name in names_in(folder, ""):
        for file in files_below(folder, name, gathered):
            if composed(file) == composed(left_out):
                continue
            with gathered:
                path, told = os.path.join(folder, file), printable(file)
                if told in names:
                    raise Refused(told, "two files have this name, once with letters and accents apart: give one another name")
                names.add(told)
                found.append(Source(path, told, told, kind_of(path, told)))
    if not names and not gathered.reasons:
        raise Refused(folder, "there is no PDF, TIFF, PNG or JPEG file in it")
    return found, names


def composed(name):
    """The name with each letter and its accents as one, as most systems write it; a Mac writes them apart."""
    return unicodedata.normalize("NFC", name)


def names_in(folder, below):
    """What the folder has, without the litter of desktops; 2 stands before 10."""
    path = os.path.join(folder, below)
    try:
        names = os.listdir(path)
    except OSError as error:
        raise Refused(below or folder, error.strerror) from None
    return sorted((name for name in names if not LITTER.match(name)), key=lambda name: by_numbers(composed(name)))


def by_numbers(name):
    return [(int(part), "") if part.isdigit() else (-1, part.lower()) for part in re.split("([0-9]+)", name)], name


def files_below(folder, name, gathered):
    """The files of a subfolder, those of its own subfolders last; of a file the file itself."""
    path = os.path.join(folder, name)
    if not os.path.isdir(path):
        return [name]
    if os.path.islink(path):
        gathered.reasons.append((name, "a link to another folder: put the files themselves here"))
        return []
    files, folders = [], []
    with gathered:
        for each in names_in(folder, name):
            below = os.path.join(name, each)
            (folders if os.path.isdir(os.path.join(folder, below)) else files).append(below)
    return files + [file for below in folders for file in files_below(folder, below, gathered)]


def printable(name):
    """The name as a value of load.dat, which a name that isn't UTF-8 or has its signs can't be."""
    if any("\ud800" <= letter <= "\udfff" for letter in name):
        raise Refused(name.encode("utf-8", "backslashreplace").decode(), "its name isn't UTF-8: give it another")
    if any(letter in "\u00fe\u00ae" or letter < " " for letter in name):
        raise Refused(repr(name), "its name has a control character, þ or ®: give it another")
    return composed(name)


def kind_of(path, name):
    """PDF, TIFF, PNG or JPEG, by how the file begins: names lie."""
    try:
        with open(path, "rb") as file:
            head = file.read(HEAD)
    except OSError as error:
        raise Refused(name, error.strerror) from None
    if not head:
        raise Refused(name, "the file is empty")
    if PDF_HEAD in head:
        return "PDF"
    if head.startswith(TIFF_HEADS):
        return "TIFF"
    if head.startswith(PNG_HEAD):
        return "PNG"
    if head.startswith(JPEG_HEAD):
        return "JPEG"
    hint = next((hint for start, hint in HINTS.items() if re.match(start, head, re.DOTALL)), "neither a PDF nor a TIFF, PNG or JPEG picture")
    raise Refused(name, hint)
