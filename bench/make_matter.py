#!/usr/bin/env python3
"""Makes a matter by the built program, and presses it: make_matter.py PROGRAM FOLDER DOCUMENTS EACH WORDS IMAGE

Each document has EACH pages, all of the letter page IMAGE at 300 dots an inch, with WORDS words; it is called Redact, with a box over a
paragraph of its first page, and confirmed at a desk at port 48201. The production R-1 of all of them stands in out/VOL001. The batch goes."""
import os
import shutil
import subprocess
import sys

HERE = os.path.dirname(os.path.abspath(__file__))
sys.path.insert(0, os.path.join(os.path.dirname(HERE), "tools", "tests"))
from matter_day import Matter  # noqa: E402

PARAGRAPH = (320, 1755, 1910, 370)  # left, top, width, height


def main():
    program, folder = (os.path.abspath(word) for word in sys.argv[1:3])
    documents, each, words = (int(word) for word in sys.argv[3:6])
    batch = os.path.join(folder, "B")
    make = [sys.executable, os.path.join(HERE, "make_import.py"), batch, documents * each, sys.argv[6], words, each]
    subprocess.run([str(word) for word in make], check=True)
    matter = Matter(folder)
    matter.program = program
    matter.begin(batch)
    matter.settle(documents, [(doc, 1, *PARAGRAPH) for doc in range(1, documents + 1)])
    matter.produce(documents)
    shutil.rmtree(batch)


main()
