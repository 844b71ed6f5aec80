"""Which documents are one family: by their folders, or by a column of fields.csv."""
import os
from dataclasses import replace

from .refused import Refused

BY_FOLDER = ("none", "leaf", "top")
LARGE = 10  # a family with more documents is told


def with_families(how, sources, columns, values, name):
    """The sources, each with its family's name, and those of one family beside each other. By `none` each is one of its own; by `leaf`
    the files of a folder are one, by `top` all below a folder of the first level; a file right in the folder is one of its own. By a
    column all with one value are one, wherever they lie; one without a value is one of its own."""
    if how in BY_FOLDER:
        return [replace(source, family=FOLDERS[how](source.name)) for source in sources]
    if how not in columns:
        told = f"its columns are {', '.join(columns)}" if columns else "there is no such file"
        raise Refused(name, f"--families {how} wants a column of this name; {told}; or say none, leaf or top")
    found = {}
    for source in sources:
        value = values[source.name][columns.index(how)].strip()
        key = f"{how} {value}" if value else source.name
        found.setdefault((bool(value), key), []).append(replace(source, family=key))
    return [source for family in found.values() for source in family]


FOLDERS = {
    "none": lambda name: name,
    "leaf": lambda name: os.path.dirname(name) or name,
    "top": lambda name: name.split("/", 1)[0],
}


def large_families(documents):
    """Each family of more than LARGE documents: its name, and how many they are."""
    counts = {}
    for document in documents:
        counts[document.source.family] = counts.get(document.source.family, 0) + 1
    return [(family, count) for family, count in counts.items() if count > LARGE]
