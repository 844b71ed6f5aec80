#!/usr/bin/env python3
"""Makes a volume of so many pages, all of one file, three a document, with a text for each document: a folder with load.dat,
load.opt, MANIFEST.TXT, the images and the texts. Words: the folder, how many pages, the file of a page."""
import hashlib
import os
import sys

DOCUMENT = 3
folder, pages, image = sys.argv[1], int(sys.argv[2]), open(sys.argv[3], "rb").read()
listed = []


def put(path, content):
    os.makedirs(os.path.dirname(f"{folder}/{path}"), exist_ok=True)
    with open(f"{folder}/{path}", "wb") as out:
        out.write(content)
    listed.append(f"{hashlib.sha256(content).hexdigest()}  {path}\n")


dat, opt = ["þBEGDOCþ\x14þENDDOCþ\x14þPAGECOUNTþ\x14þTEXTPATHþ\n"], []
for page in range(1, pages + 1):
    name = f"P{page:07}"
    begins = (page - 1) % DOCUMENT == 0
    count = min(DOCUMENT, pages - page + 1)
    if begins:
        dat.append(f"þ{name}þ\x14þP{page + count - 1:07}þ\x14þ{count}þ\x14þT\\{name}.txtþ\n")
        put(f"T/{name}.txt", f"A word of {name}.\n".encode() * 200)
    opt.append(f"{name},V,I\\{name}.tif,{'Y' if begins else ''},,,{count if begins else ''}\n")
    put(f"I/{name}.tif", image)
put("load.dat", "".join(dat).encode())
put("load.opt", "".join(opt).encode())
with open(f"{folder}/MANIFEST.TXT", "w", encoding="utf-8", newline="") as out:
    out.writelines(listed)
