"""The forms in which others want the load files of a volume: a DAT of other letters, signs and names, CSV, LFP, the log to print."""
import csv
import io
from html import escape

LETTERS = {"utf-8": "utf-8", "utf-8-mark": "utf-8-sig", "utf-16": "utf-16-le", "windows-1252": "cp1252"}
# between values, around one, for a newline in one
SIGNS = {
    "concordance": ("\u0014", "\u00fe", "\u00ae"),
    "carets": ("|", "^", "~"),
    "tabs": ("\t", '"', " "),
    "commas": (",", '"', "\n"),
}
GROUP_4 = 2  # how LFP numbers TIFF
STYLE = """body { font: 14px/1.4 serif; margin: 2rem; color: #000; background: #fff; } h1 { font-size: 1.2rem; }
table { border-collapse: collapse; width: 100%; } th { background: #eee; }
th, td { border: 1px solid #555; padding: .25rem .4rem; text-align: left; vertical-align: top; overflow-wrap: anywhere; }
@page { size: landscape; margin: 1.5cm; }
@media print { body { margin: 0; } thead { display: table-header-group; } tr { break-inside: avoid; } }"""


class NotWritable(Exception):
    """A value that the form can't have; says which."""


def dat_of(columns, rows, letters, signs):
    """The DAT: each value between signs of its own, lines with CR LF."""
    between, around, newline = SIGNS[signs]
    lines = []
    for number, row in enumerate([columns, *rows]):
        lines.append(between.join(around + held(value, number, columns[at], signs).replace("\n", newline) + around
                                  for at, value in enumerate(row)) + "\r\n")
    return encoded("".join(lines), letters)


def held(value, number, column, signs):
    """The value as its form can have it; where it can't, that is said."""
    between, around, newline = SIGNS[signs]
    if around == '"':
        return value.replace('"', '""')
    taken = [sign for sign in (between, around, newline) if sign in value]
    if taken:
        raise NotWritable(f"record {number}, {column}: it has {taken[0]!r}, which has another meaning with the signs {signs}")
    return value


def encoded(text, letters):
    codec = LETTERS[letters]
    try:
        return (b"\xff\xfe" if codec == "utf-16-le" else b"") + text.encode(codec)
    except UnicodeEncodeError as error:
        line = text.count("\n", 0, error.start)
        raise NotWritable(f"record {line}: {text[error.start]!r} isn't one of the letters of {letters}: take another --letters") from None


def csv_of(columns, rows):
    """CSV (RFC 4180) in UTF-8 with a mark, which spreadsheets want."""
    out = io.StringIO()
    csv.writer(out, lineterminator="\r\n").writerows([columns, *rows])
    return b"\xef\xbb\xbf" + out.getvalue().encode("utf-8")


def lfp_of(name, lines):
    """LFP (IPRO): IM, label, D where a document begins, 0 as each file has one page, @volume;folder;file;kind,turned."""
    out = []
    for line in lines:
        folder, _, file = line[3].replace("/", "\\").rpartition("\\")
        folder = folder.removeprefix(f"{name}\\")
        if any(sign in part for part in (line[1], folder, file) for sign in ",;@"):
            raise NotWritable(f"line {line[0]}: its path has a sign that parts an LFP")
        out.append(f"IM,{line[1]},{'D' if line[4] else ''},0,@{name};{folder};{file};{GROUP_4},0\r\n")
    return "".join(out).encode("utf-8")


def log_of(name, data):
    """The privilege log as a page to print."""
    rows = list(csv.reader(io.StringIO(data.decode("utf-8"), newline="")))
    head = "".join(f"<th>{escape(value)}</th>" for value in rows[0])
    body = "\n".join("<tr>" + "".join(f"<td>{escape(value)}</td>" for value in row) + "</tr>" for row in rows[1:])
    title = f"Privilege log of {escape(name)}"
    table = f"<table>\n<thead><tr>{head}</tr></thead>\n<tbody>\n{body}\n</tbody>\n</table>"
    page = f"<title>{title}</title>\n<style>{STYLE}</style></head><body>\n<h1>{title}</h1>\n{table}\n</body></html>\n"
    return f'<!DOCTYPE html>\n<html lang="en"><head><meta charset="utf-8">{page}'.encode("utf-8")
