#!/usr/bin/env python3
"""A plain model of the check of a volume, apart from the proved crates (docs/FORMATS.md: bp_check; docs/STATUSES.md: the order).
It is the first fault of those that tools/volumes/checks.py finds; fuzz_check.py has the cases.

    check_model.py check FOLDER DAT OPT [MANIFEST]    says what a check of the files below FOLDER is to print
"""
import sys

import fuzz_batch as batches
from fuzz_tools import Rule, answer
from volumes import checks


def read_of(files):
    """A reader of files in memory, as `fuzz_batch.read_below` is one of the files below a folder."""

    def read(path, which):
        if path not in files:
            raise Rule(54, which)
        if len(files[path]) > batches.MOST:
            raise Rule(55, which)
        return files[path]

    return read


def check(read, *words):
    """How many documents, images and listed files there are, or the first rule that is broken."""
    looked = checks.Check(read, *words)
    for fault in looked.faults():
        if fault.rule is None:
            raise batches.Fault
        raise fault.rule
    volume = looked.volume
    return f"documents {volume.records} images {len(volume.lines)} files {len(volume.listed or [])}"


def told(read, *words):
    """The line that a check prints."""
    line = answer(check, read, *words)
    return line if line.startswith("refused") else "checked " + line


def main():
    words = sys.argv[1:]
    if len(words) not in (4, 5) or words[0] != "check":
        sys.exit(__doc__)
    try:
        print(told(batches.read_below(words[1])[0], *words[2:]))
    except batches.Fault:
        print("source fault")


if __name__ == "__main__":
    main()
