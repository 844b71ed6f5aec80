"""The readers of a volume's page files, which are those of make_batch; and what becomes of a file's pages."""
import argparse
import re

from batch import documents
from batch.refused import Refused
from batch.sources import Source, kind_of

AS_FINE = 1_000_000  # pixels to the inch: a picture keeps its pixels


def kind_or_none(path, name):
    """PDF, TIFF, PNG or JPEG, by how the file begins; None where it is no page."""
    try:
        return kind_of(path, name)
    except Refused:
        return None


def open_file(path, name, options, room):
    """The reader of a file, which has looked at it, and found its pages and words."""
    kind = kind_of(path, name)
    if kind in ("PNG", "JPEG"):
        options = argparse.Namespace(**{**vars(options), "dpi": AS_FINE})
    reader = documents.open_file(Source(path, name, name, kind), options, room)
    reader.prepare()
    return reader


def changed(reader, options):
    """What becomes of the pages of a file, in words; None where they stay as they are."""
    count, kind = len(reader.sizes), reader.source.kind
    pages = "" if count == 1 else "a file of several pages became a file of each; "
    if kind == "PDF":
        return f"{pages}PDF became Group 4 at {options.dpi} to the inch"
    if kind != "TIFF":
        return f"{kind} became black and white in Group 4"
    told = " ".join(reader.directories)
    if re.search(r"Bits/Sample: (?!1\b)\d", told) or re.search(r"Samples/Pixel: (?!1\b)\d", told):
        return f"{pages}grey or colour became black and white in Group 4"
    schemes = sorted(set(re.findall(r"Compression Scheme: (.*)", told)) - {"CCITT Group 4"})
    if schemes:
        return f"{pages}compression {', '.join(schemes)} became Group 4"
    return pages.removesuffix("; ") or None
