"""The words that tesseract reads in a picture: by its library, in a copy of this process, or by its program where that fails."""
import csv
import functools
import json
import os
import re

from .forked import answer_of
from .library import Unusable
from .pictures import sides_of
from .programs import run
from .reader import Reader, is_taken
from .refused import Refused
from .words import Word, plain

TOOLS = ("tesseract",)
SMALLEST_SIDE = 8  # pixels; it fails on less, where no word can stand
BLANK = b"P4\n64 64\n" + bytes(512)


def load(language):
    """Refuses a language that tesseract has no data of. Loads its model, once for all processes that read; where the library can't be
    called, gives why."""
    told, said = run("tesseract", ["tesseract", "--list-langs"])
    known = set((told + said).decode(errors="replace").split("\n")[1:])
    for each in language.split("+"):
        if each not in known:
            package = each.replace("_", "-").lower()
            raise Refused("tesseract", f"it can't read the language {each}: apt install tesseract-ocr-{package}")
    _, why = reader_of(language)
    return why and f"{why}; its program reads the pages, which takes longer"


@functools.lru_cache
def reader_of(language):
    """The library with its model, or why it can't be called."""
    why = fault_of(language)
    return (None, why) if why else (Reader(language), "")


def fault_of(language):
    """What is the matter with the library: it is tried in a copy, since one that doesn't fit may end the process that calls it."""

    def try_it():
        try:
            Reader(language).read(BLANK, None, False)
        except Unusable as why:
            return str(why).encode()
        return b""

    try:
        return answer_of("tesseract", "its library", try_it).decode()
    except Refused as refused:
        return refused.reasons[0][1]


def read_words(file, pnm, resolution, language):
    """The words of a picture."""
    if min(sides_of(pnm)) < SMALLEST_SIDE:
        return []
    inch = resolution and resolution.to_the_inch()
    reader, _ = reader_of(language)
    found = reader and by_library(file, reader, pnm, inch)
    return by_program(file, pnm, resolution, language) if found is None else found


def by_library(file, reader, pnm, inch):
    """The words by a copy of this process for each reading, so that none depends on those before; None where a copy fails or hangs."""
    try:
        for is_whole in (False, True):
            told = json.loads(answer_of(file, "tesseract", lambda: json.dumps(reader.read(pnm, inch, is_whole)).encode()))
            if told is not None:
                break
    except Refused:
        return None
    return [Word(line, tuple(box), text) for line, box, text in told]


def by_program(file, pnm, resolution, language):
    """The words by tesseract's program, in one thread, as other pages are read beside it."""
    os.environ["OMP_THREAD_LIMIT"] = "1"
    words = ["tesseract", "stdin", "stdout", "-l", language, *dpi_words(resolution)]
    told, _ = run(file, [*words, "tsv"], pnm)
    return list(words_in(told.decode(errors="replace")))


def dpi_words(resolution):
    """The resolution as tesseract's program takes it, where it is one."""
    inch = resolution and resolution.to_the_inch()
    return ["--dpi", str(inch)] if is_taken(inch) else []


def words_in(told):
    rows = csv.DictReader(told.split("\n"), delimiter="\t", quoting=csv.QUOTE_NONE)
    lines = {}
    for row in rows:
        text = plain(row["text"] or "")
        if row["level"] != "5" or not text or re.match("-", row["conf"]):
            continue
        line = lines.setdefault((row["block_num"], row["par_num"], row["line_num"]), len(lines) + 1)
        left, top, width, height = (int(row[side]) for side in ("left", "top", "width", "height"))
        yield Word(line, (left, top, left + width, top + height), text)
