"""A DAT or another table of a producer, whatever its signs: Concordance's, carets and pipes, tabs, commas, semicolons."""
import csv
import io
import re
from dataclasses import dataclass

from .letters import decoded
from .profile import BETWEEN, NEWLINE, QUOTE

CONCORDANCE = "Concordance's signs"
# what stands between values, what around one, and how it is called
SIGNS = (
    (BETWEEN, QUOTE, CONCORDANCE),
    ("|", "^", "pipes and carets"),
    ("\t", '"', "tabs"),
    ("\t", QUOTE, "tabs and þ"),
    (",", QUOTE, "commas and þ"),
    (";", '"', "semicolons"),
    ("|", '"', "pipes"),
    (",", '"', "commas"),
)


@dataclass(frozen=True)
class Table:
    """The names of the columns, the rows with the line that each begins at, and how the file was written."""

    columns: list
    rows: list
    letters: str
    signs: str


def read_table(data):
    """The table of these bytes; a row with too few values has empty ones, and one with too many keeps the first."""
    text, letters = decoded(data)
    between, around, name = signs_of(text)
    csv.field_size_limit(max(len(text) + 1, 131072))
    reader = csv.reader(io.StringIO(text, newline=""), delimiter=between, quotechar=around, doublequote=True)
    rows = [(line, [plain(value, around) for value in row]) for line, row in numbered(reader) if any(row)]
    columns = [column.strip() for column in rows[0][1]] if rows else []
    while columns and not columns[-1]:
        columns.pop()
    return Table(columns, [(line, (row + [""] * len(columns))[: len(columns)]) for line, row in rows[1:]], letters, name)


def numbered(reader):
    """The rows with the line that each begins at, as far as they can be read."""
    begins = 1
    try:
        for row in reader:
            yield begins, row
            begins = reader.line_num + 1
    except csv.Error:
        return


def plain(value, around):
    """The value with newlines as LF, for which ® stands where values aren't quoted as in CSV."""
    value = value.replace("\r\n", "\n").replace("\r", "\n")
    return value if around == '"' else value.replace(NEWLINE, "\n")


def signs_of(text):
    """The signs by which the first line has the most values."""
    head = next((line for line in re.split("\r?\n|\r", text) if line.strip()), "")
    return max(SIGNS, key=lambda signs: how_well(head, *signs[:2]))


def how_well(head, between, around):
    is_quoted = head.startswith(around) and head.rstrip().endswith(around)
    return head.count(between), is_quoted, around == '"'
