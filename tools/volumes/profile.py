"""Load files and paths of the profile, read by its rules (docs/FORMATS.md: bp_load, bp_tiff)."""
import re

from .rule import Rule

MARK, QUOTE, BETWEEN, NEWLINE = b"\xef\xbb\xbf", "\u00fe", "\x14", "\u00ae"
DIGITS = re.compile(r"[0-9]{1,9}")


def lines_in(data):
    """Lines as they count: without the mark, without their ends, and without empty ones."""
    data = data.removeprefix(MARK)
    pieces = data.split(b"\n")
    ended = [piece.removesuffix(b"\r") for piece in pieces[:-1]]
    return [line for line in [*ended, pieces[-1]] if line]


def as_text(data, rule):
    try:
        return data.decode("utf-8")
    except UnicodeDecodeError:
        raise rule from None


# ---- DAT


def read_dat_lines(data):
    """The lines of a DAT file, each read by `dat_line`, which may refuse it; none is looked at before it is due."""
    as_text(data, Rule(51))
    return [line.decode("utf-8") for line in lines_in(data)]


def dat_line(text, number, columns=None):
    values = text.split(BETWEEN)
    for value in values:
        if not re.fullmatch(f"{QUOTE}[^{QUOTE}\r]*{QUOTE}", value):
            raise Rule(50, line=number)
    if columns is not None and len(values) != columns:
        raise Rule(50, line=number)
    return [value[1:-1].replace(NEWLINE, "\n") for value in values]


def dat_columns(lines):
    if not lines:
        raise Rule(50, line=1)
    return dat_line(lines[0], 1)


def dat_records(lines, columns):
    return [dat_line(line, k + 2, len(columns)) for k, line in enumerate(lines[1:])]


def read_dat(data):
    lines = read_dat_lines(data)
    columns = dat_columns(lines)
    return columns, dat_records(lines, columns)


# ---- OPT


def read_opt(data):
    """Of each line: image, volume, path, the three breaks, pages."""
    return [opt_line(line, number) for number, line in enumerate(lines_in(data), 1)]


def opt_line(line, number):
    rule = Rule(53, line=number)
    fields = as_text(line, rule).split(",")
    if not 3 <= len(fields) <= 7 or b"\r" in line:
        raise rule
    fields += [""] * (7 - len(fields))
    image, volume, path, *breaks, pages = fields
    if not image or not path or any(b not in ("", "Y") for b in breaks):
        raise rule
    if pages and not DIGITS.fullmatch(pages):
        raise rule
    return (image, volume, path, *(b == "Y" for b in breaks), pages)


# ---- paths


def path_of(text):
    parts = [part for part in text.replace("\\", "/").split("/") if part != "."]
    if not parts or ":" in text or any(part in ("", "..") for part in parts):
        raise Rule(63)
    return "/".join(parts)
