"""What a check doesn't look at, looked at: attachments' ranges, the letters of texts, files that nobody lists, names in other capitals."""
import os
from collections import Counter
from dataclasses import dataclass

from . import columns as names
from .checks import allowed
from .folder import Unreadable
from .letters import UTF_8, decoded
from .rule import Rule

NOT_LOOKED = (
    "whether texts are the words of their images",
    "whether images can be read by a person, and whether what was to be covered is covered",
    "native files, but that they are there",
    "values of other columns: dates, names, designations",
)
IS_TEXT = 4


@dataclass(frozen=True)
class Look:
    """Something that a check takes, and a person should know of: what, where it was found, and how to mend it."""

    what: str
    places: list
    mend: str


def looks_of(check, folder):
    """All that was seen of a volume that `check` has read, of the files below `folder`."""
    columns = names.map_columns(check.volume.columns)
    found = [*attachments(check, columns), *letters(check, columns), *twice(check)]
    found += [*natives(check, columns, folder), *unlisted(check, columns, folder)]
    return [look for look in found if look.places]


# ---- attachments


def attachments(check, columns):
    """Families: a range begins at a BEGDOC and ends at an ENDDOC, has its own document in it, and all in it have it."""
    own = [name for name in (names.BEGATTACH, names.ENDATTACH) if name in columns]
    if len(own) < 2:
        return
    theirs = {name: check.volume.columns[columns[name]] for name in (names.BEGDOC, names.ENDDOC, *own) if name in columns}
    if len(theirs) < 4:
        return
    rows = [{name: values.get(column, "") for name, column in theirs.items()} for _, values, _ in check.volume.rows]
    begins = {row[names.BEGDOC]: at for at, row in reversed(list(enumerate(rows)))}
    ends = {row[names.ENDDOC]: at for at, row in enumerate(rows)}
    wrong = []
    for at, row in enumerate(rows):
        why = attachment_fault(at, row, rows, begins, ends)
        if why:
            wrong.append(f"record {at + 1}, {row[names.BEGDOC]}: {why}")
    both = f"{theirs[names.BEGATTACH]} and {theirs[names.ENDATTACH]}"
    yield Look("ranges of attachments that don't hold together", wrong,
               f"Write in {both} of each member of a family the first and the last number of the family.")


def attachment_fault(at, row, rows, begins, ends):
    first, last = row[names.BEGATTACH], row[names.ENDATTACH]
    if not first and not last:
        return ""
    if first not in begins:
        return f"its family begins at {first or 'nothing'}, where no document does"
    if last not in ends:
        return f"its family ends at {last or 'nothing'}, where no document does"
    if not begins[first] <= at <= ends[last]:
        return f"it lies outside its own range, {first} to {last}"
    others = [each for each in rows[begins[first] : ends[last] + 1] if each[names.BEGATTACH] != first or each[names.ENDATTACH] != last]
    return f"{others[0][names.BEGDOC]} lies in its range, {first} to {last}, and has another" if others else ""


# ---- texts


def letters(check, columns):
    """Texts that aren't UTF-8, and empty ones."""
    strange, empty = [], []
    for number, values, _ in check.volume.rows:
        path = allowed(values.get("TEXTPATH") or "")
        if path is None:
            continue
        try:
            data = check.read_file(path, IS_TEXT)
        except (Rule, Unreadable):
            continue
        name = decoded(data)[1]
        if name != UTF_8:
            strange.append(f"{path}: {name}")
        if not data.strip():
            empty.append(path)
    yield Look("texts that aren't UTF-8", strange, "Write texts as UTF-8: iconv -f UTF-16 -t UTF-8, or -f CP1252.")
    yield Look("texts without a word", empty, "Where the pages have words, have them read (OCR).")
    if "TEXTPATH" not in check.volume.columns and names.TEXTPATH in columns:
        column = check.volume.columns[columns[names.TEXTPATH]]
        yield Look("texts are named in another column than TEXTPATH, where a check doesn't look", [column], "Name that column TEXTPATH.")


# ---- files


def twice(check):
    """Image ids and image files that stand twice."""
    ids = Counter(line[1] for line in check.volume.lines)
    paths = Counter(path for line in check.volume.lines if (path := allowed(line[3])))
    yield Look("image ids that stand twice", [each for each, count in ids.items() if count > 1], "Give each page a number of its own.")
    yield Look("files that are the image of several lines", [f"{each}: {count} lines" for each, count in paths.items() if count > 1],
               "Write each page as a file of its own.")


def natives(check, columns, folder):
    """Native files that are named and aren't there."""
    if names.NATIVE not in columns:
        return
    column = check.volume.columns[columns[names.NATIVE]]
    told = [(number, values.get(column)) for number, values, _ in check.volume.rows if values.get(column)]
    missing = [f"record {number}: {path}" for number, path in told if not is_file(folder, path)]
    yield Look("native files that aren't there", missing, "Send them, or leave their paths empty.")


def is_file(folder, told):
    path = allowed(told)
    return path is not None and os.path.isfile(os.path.join(folder, path))


def unlisted(check, columns, folder):
    """Files in the volume's folders that no load file and no manifest has, and names that differ in capitals alone."""
    told = {path for path in check.paths if path}
    told |= {path for line in check.volume.lines if (path := allowed(line[3]))}
    for name in ("TEXTPATH", *(check.volume.columns[columns[each]] for each in (names.NATIVE,) if each in columns)):
        told |= {path for _, values, _ in check.volume.rows if (path := allowed(values.get(name) or ""))}
    told |= {each.path for each in check.volume.listed or [] if each.path}
    tops = sorted({path.split("/")[0] for path in told if "/" in path and "\0" not in path})
    there = [path for top in tops for path in files_below(folder, top)]
    yield Look("files that lie there, and neither load files nor manifest name them", [path for path in there if path not in told],
               "Leave them out, or list them: nobody can tell what they are.")
    known = Counter(path.casefold() for path in there)
    yield Look("files whose names differ in capitals alone", [path for path in there if known[path.casefold()] > 1],
               "Give them other names: on Windows one takes the other's place.")


def files_below(folder, top):
    for at, folders, files in os.walk(os.path.join(folder, top)):
        folders.sort()
        for name in sorted(files):
            yield os.path.relpath(os.path.join(at, name), folder)
