#!/usr/bin/env python3
"""The sums of the pages of a matter.db, for trials: page_sums.py look|seal|drop FILE

sqlite3 leaves the sum at the end of a page as it is, so that of a page that it writes is wrong, and the program refuses the file. A trial
that has sqlite3 write into one seals it, or makes a file without sums of it.

    look    ends with 1 where a sum is wrong, and names the pages
    seal    writes the right sums
    drop    makes it a file without sums that has the same rows
"""
import contextlib
import os
import sqlite3
import sys

sys.path.insert(0, os.path.join(os.path.dirname(os.path.abspath(__file__)), ".."))
from keep.pages import SUM, has_sums, pages_of, sum_of, wrong_pages  # noqa: E402


def seal(path):
    """Of a file without sums nothing. A log has to be copied in before, as sqlite3 does where it closes the file last."""
    if has_sums(path):
        sealed = [page[:-SUM] + sum_of(page[:-SUM]) for page in pages_of(path)]
        with open(path, "r+b") as file:
            file.writelines(sealed)


def drop(path):
    plain = f"{path}-plain"
    with contextlib.closing(sqlite3.connect(path)) as summed, contextlib.closing(sqlite3.connect(plain)) as other:
        other.execute(f"PRAGMA journal_mode = {summed.execute('PRAGMA journal_mode').fetchone()[0]}")
        other.executescript("\n".join(summed.iterdump()))
    for ending in ("-wal", "-shm"):
        with contextlib.suppress(FileNotFoundError):
            os.remove(path + ending)
    os.replace(plain, path)


def blank(path):
    """A new file without a table, whose pages have room for sums."""
    with contextlib.closing(sqlite3.connect(path)) as database:
        database.execute("PRAGMA page_size = 4096")
        database.execute("PRAGMA user_version = 0")
    with open(path, "r+b") as file:
        page = bytearray(file.read())
        page[20] = SUM
        page[105:107] = (len(page) - SUM).to_bytes(2, "big")  # where the cells of the first page begin
        file.seek(0)
        file.write(page)


def look(path):
    wrong = list(wrong_pages(path))
    if wrong:
        sys.exit(f"{path}: the sum is wrong of {len(wrong)} pages: {wrong[:20]}")


if __name__ == "__main__":
    jobs = {"look": look, "seal": seal, "drop": drop}
    if len(sys.argv) != 3 or sys.argv[1] not in jobs:
        sys.exit(__doc__)
    jobs[sys.argv[1]](sys.argv[2])
