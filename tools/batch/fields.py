"""The CSV file that says the fields of documents: a line of names, whose first column names the file, and a line a file."""
import csv
import io
import os

from .limits import LONGEST_COLUMN, MOST_FIELDS
from .refused import Gathered, Refused
from .sources import composed

OWN_COLUMNS = ("BEGDOC", "ENDDOC", "BEGATTACH", "ENDATTACH", "FILENAME")
SIGNS = {"\u00fe": "þ, which quotes values", "\u00ae": "®, which stands for a newline", "\u0014": "a separator (14 hex)"}


def read_fields(path, name, known):
    """The fields' names, and for each file of `known` that has a line its values; refuses what load.dat can't hold."""
    rows = rows_of(path, name)
    columns = rows[0][1][1:]
    check_columns(name, columns)
    capitals = {file.casefold(): file for file in known}
    values, gathered = {}, Gathered()
    for line, row in rows[1:]:
        with gathered:
            file = file_of(name, line, row, columns)
            if file not in known:
                other = capitals.get(file.casefold())
                hint = f"; it has {other}: capitals and small letters differ" if other else ""
                raise Refused(name, f"line {line}: the folder has no file {file}{hint}")
            if file in values:
                raise Refused(name, f"line {line}: {file} had a line before")
            values[file] = [value_of(name, line, column, value) for column, value in zip(columns, row[1:])]
    gathered.end()
    return columns, values


def rows_of(path, name):
    """The rows that aren't empty, each with the line that it ends in; by comma, semicolon or tab, as the first line has it."""
    try:
        with open(path, "rb") as file:
            text = file.read().decode("utf-8-sig")
    except OSError as error:
        raise Refused(name, error.strerror) from None
    except UnicodeDecodeError:
        raise Refused(name, "it isn't UTF-8: save it as CSV in UTF-8") from None
    csv.field_size_limit(len(text) + 1)
    reader = csv.reader(io.StringIO(text, newline=""), delimiter=separator_of(text), strict=True)
    try:
        rows = [(reader.line_num, row) for row in reader if any(row)]
    except csv.Error as error:
        raise Refused(name, f"line {reader.line_num}: {error}") from None
    if not rows:
        raise Refused(name, "it has no line of names")
    return rows


def separator_of(text):
    head = text.split("\n", 1)[0]
    return max(",;\t", key=head.count)


def check_columns(name, columns):
    if len(columns) + 1 > MOST_FIELDS:
        raise Refused(name, f"it has {len(columns)} fields, and a matter takes {MOST_FIELDS} with the name of the file")
    for at, column in enumerate(columns, 2):
        if not column or len(column.encode()) > LONGEST_COLUMN or "\n" in column or "\r" in column:
            raise Refused(name, f"the name of column {at} is empty, has a newline, or more than {LONGEST_COLUMN} bytes")
        if column in OWN_COLUMNS:
            raise Refused(name, f"column {at}: {column} is a column that the batch has of itself; give it another name")
        if column in columns[: at - 2]:
            raise Refused(name, f"column {at}: {column} is there before")
        value_of(name, 1, "the names", column)


def file_of(name, line, row, columns):
    if len(row) != len(columns) + 1:
        raise Refused(name, f"line {line}: {len(row)} values under {len(columns) + 1} columns")
    return composed(os.path.normpath(row[0].strip().replace("\\", "/"))) if row[0].strip() else ""


def value_of(name, line, column, value):
    """The value with newlines as LF; refuses a sign that load.dat gives another meaning."""
    value = value.replace("\r\n", "\n").replace("\r", "\n")
    for sign, what in SIGNS.items():
        if sign in value:
            raise Refused(name, f"line {line}, {column}: it has {what} in load.dat; write it in another way")
    return value
