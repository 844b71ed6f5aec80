#!/usr/bin/env python3
"""Makes a batch of so many pages, all of one file, three a document, with words on each: a folder with load.dat, load.opt,
words.csv and the images. Words: the folder, how many pages, the file of a page, how many words on each page, and how many
pages a document."""
import os
import shutil
import sys

folder, pages, image, words, each = sys.argv[1], int(sys.argv[2]), sys.argv[3], int(sys.argv[4]), int(sys.argv[5])
os.makedirs(f"{folder}/I", exist_ok=True)
dat = ["þBEGDOCþ\x14þBEGATTACHþ\x14þAUTHORþ"]
opt, rows = [], []
for page in range(1, pages + 1):
    name = f"P{page:07}"
    begins = (page - 1) % each == 0
    if begins:
        dat.append(f"þ{name}þ\x14þþ\x14þAuthor {page}þ")
    opt.append(f"{name},V,I/{name}.tif,{'Y' if begins else ''},,,")
    for word in range(words):
        rows.append(f"{name},{word // 10 + 1},{word % 10 * 5},{word // 10},4,1,word{word}")
    shutil.copyfile(image, f"{folder}/I/{name}.tif")
for name, lines in (("load.dat", dat), ("load.opt", opt), ("words.csv", rows)):
    with open(f"{folder}/{name}", "w", encoding="utf-8", newline="") as out:
        out.write("".join(line + "\n" for line in lines))
