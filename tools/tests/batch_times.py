#!/usr/bin/env python3
"""Compares tools/make_batch with another one, as an older commit has it, on pages of mixed_scans.py: bytes of the images, how many of the
words that were written are found in order, seconds, and seconds of processors. Says whether that is what is wanted: at most half of
the bytes, a third of the seconds, and no fewer words. The status is 1 where it isn't.

    batch_times.py PAGES [JOBS] [OLD_MAKE_BATCH] [--drawn FOLDER] [--draw]

The other one is given the same pages, but PNG and JPEG in PDFs by img2pdf, as an older one takes neither and says so. For that:
    mkdir old && git archive COMMIT tools | tar -x -C old     and then     batch_times.py 60 4 old/tools/make_batch

--drawn keeps the pages in a folder, and takes the first PAGES of those that are there. With --draw they are drawn, both for this one
and for the other, and nothing is measured: done before, the measuring takes the two programs' time alone.
"""
import argparse
import contextlib
import csv
import difflib
import os
import resource
import subprocess
import sys
import tempfile
import time
from typing import NamedTuple

HERE = os.path.dirname(os.path.abspath(__file__))
NEW = os.path.join(HERE, "..", "make_batch")
MOST_BYTES, MOST_SECONDS = 0.5, 1 / 3  # of the other's


class Measured(NamedTuple):
    size: int
    seconds: float
    right: set  # of the words that were written those that are found: the page's number, and the word's on it


def words_of(batch):
    """By the name of its file what was found on each page: the file is one of one page."""
    with open(os.path.join(batch, "load.dat"), encoding="utf-8-sig", newline="") as file:
        names = {row["BEGDOC"]: row["FILENAME"] for row in csv.DictReader(file, delimiter="\x14", quotechar="þ")}
    found = {name: [] for name in names.values()}
    with open(os.path.join(batch, "words.csv"), encoding="utf-8", newline="") as file:
        for image, *_, text in csv.reader(file):
            found[names[image]].append(text)
    return found


def truth_of(top):
    with open(os.path.join(top, "truth.txt"), encoding="utf-8") as file:
        return {name: words.split() for name, words in (line.rstrip("\n").split("\t") for line in file)}


def blocks(written, found):
    return difflib.SequenceMatcher(None, written, found, autojunk=False).get_matching_blocks()


def same(written, found):
    """How many words stand in both, in one order."""
    return sum(block.size for block in blocks(written, found))


def places(written, found):
    """Which of the words that were written stand in both."""
    return [block.a + at for block in blocks(written, found) for at in range(block.size)]


def bytes_of(batch):
    return sum(os.path.getsize(os.path.join(at, name)) for at, _, names in os.walk(os.path.join(batch, "IMAGES")) for name in names)


def measure(what, tool, folder, truth, jobs):
    """Makes a batch of the folder, and tells of it."""
    with tempfile.TemporaryDirectory() as room:
        batch = os.path.join(room, "OUT")
        before, began = resource.getrusage(resource.RUSAGE_CHILDREN), time.monotonic()
        ran = subprocess.run([tool, folder, batch, "--jobs", jobs], capture_output=True, text=True, check=False)
        seconds, after = time.monotonic() - began, resource.getrusage(resource.RUSAGE_CHILDREN)
        if ran.returncode:
            sys.exit(f"batch_times.py: {tool}: {ran.stderr}")
        found, size = words_of(batch), bytes_of(batch)
    told = sum(len(words) for words in truth.values())
    right = {(page, at) for page, (name, words) in enumerate(truth.items()) for at in places(words, found[name])}
    cpu = after.ru_utime + after.ru_stime - before.ru_utime - before.ru_stime
    print(f"{what}: {len(truth)} pages, {size} bytes, {len(right)} of {told} words, {sum(map(len, found.values()))} found, "
          f"{seconds:.1f} s, {cpu:.0f} s of processors", flush=True)
    return Measured(size, seconds, right)


def is_wanted(new, old):
    """Whether the new one is as it is to be, which is told."""
    size, seconds = new.size / old.size, new.seconds / old.seconds
    lost, won = len(old.right - new.right), len(new.right - old.right)
    told = [(size <= MOST_BYTES, f"bytes {size:.3f} of the old one's, at most {MOST_BYTES}"),
            (seconds <= MOST_SECONDS, f"seconds {seconds:.3f} of the old one's, at most {MOST_SECONDS:.3f}"),
            (won >= lost, f"words {len(new.right)}, the old one {len(old.right)}: {won} by the new one alone, {lost} by the old one alone")]
    for is_so, line in told:
        print(f"{'as is wanted' if is_so else 'NOT as is wanted'}: {line}", flush=True)
    return all(is_so for is_so, _ in told)


def draw(top, pages):
    """What is written on the first pages of a folder of mixed_scans.py, by their files; what isn't there is drawn."""
    truth = os.path.join(top, "truth.txt")
    if not os.path.exists(truth) or len(truth_of(top)) < pages:
        subprocess.run([os.path.join(HERE, "mixed_scans.py"), top, str(pages)], check=True)
    return dict(sorted(truth_of(top).items())[:pages])


def wrapped(top, name):
    """The page of this name for one that takes neither PNG nor JPEG, which is kept beside: where it is, and its name."""
    page = os.path.join(top, "in", name)
    if not name.endswith((".jpg", ".png")):
        return page, name
    path, part = os.path.join(top, "wrapped", f"{name}.pdf"), os.path.join(top, "part")
    if not os.path.exists(path):
        os.makedirs(os.path.dirname(path), exist_ok=True)
        subprocess.run(["img2pdf", page, "-o", part], check=True)
        os.replace(part, path)
    return path, f"{name}.pdf"


@contextlib.contextmanager
def folder_of(top, pages):
    """A folder of these pages alone: where each is, and its name."""
    with tempfile.TemporaryDirectory(dir=top) as room:
        for path, name in pages:
            os.link(path, os.path.join(room, name))
        yield room


def main(options, top):
    truth = draw(top, options.pages)
    ways = {"new": (NEW, [(os.path.join(top, "in", name), name) for name in truth])}
    if options.old or options.draw:
        ways["old"] = (os.path.abspath(options.old), [wrapped(top, name) for name in truth])
    if options.draw:
        return True
    measured = []
    for what, (tool, pages) in ways.items():
        with folder_of(top, pages) as folder:
            told = {name: words for (_, name), words in zip(pages, truth.values())}
            measured.append(measure(what, tool, folder, told, options.jobs))
    return len(measured) < 2 or is_wanted(*measured)


def words_of_command():
    parser = argparse.ArgumentParser(usage="batch_times.py PAGES [JOBS] [OLD_MAKE_BATCH] [--drawn FOLDER] [--draw]")
    parser.add_argument("pages", type=int)
    parser.add_argument("jobs", nargs="?", default="4")
    parser.add_argument("old", nargs="?", default="")
    parser.add_argument("--drawn")
    parser.add_argument("--draw", action="store_true")
    return parser.parse_args()


if __name__ == "__main__":
    told = words_of_command()
    with contextlib.nullcontext(told.drawn) if told.drawn else tempfile.TemporaryDirectory() as place:
        is_so = main(told, place)
    sys.exit(not is_so)
