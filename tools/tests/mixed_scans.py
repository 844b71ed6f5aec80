#!/usr/bin/env python3
"""Makes a folder of pages as an office has them, by other tools, with what is written on each: for tests and times of
tools/make_batch.

Of each 20 pages 6 are grey scans with noise in PDFs of 300 pixels to the inch, 3 of 200 in PDFs that don't tell it, 2 grey
TIFF scans, 2 PNG scans, 2 pictures by a telephone with a shadow, 2 black and white TIFF scans, 2 pages of PDFs with a
text, and 1 is a letter with a photograph. FOLDER/truth.txt, beside the folder `in`, has a line a page: file, page, words.
The same words make the same folder. Pages that are there aren't drawn again: what was ended goes on where it was.

Needs Debian's groff, ghostscript, netpbm, libtiff-tools, imagemagick and img2pdf. Words: FOLDER PAGES
"""
import functools
import os
import random
import shutil
import subprocess
import sys
import tempfile

WORDS = """the roof of building four leaks since winter and landlord was told by registered letter that tenants withhold rent until repair has
been made under contract clause seven which counsel drafted before notice arrived at office procurement director who answered within
days invoice amount balance account payment harbour custodian minutes meeting chairman privilege advice draft agreement""".split()
KINDS = "scan scan bare tiff phone text scan scan bare png black photo scan scan bare tiff phone png black text".split()
ENDINGS = {"phone": "jpg", "png": "png", "tiff": "tif", "black": "tif"}  # all others are PDFs
NEEDED = ("groff", "gs", "pamarith", "pamtotiff", "tiffcp", "convert", "img2pdf", "pnmtojpeg", "pnmtopng")


def sh(words, data=None):
    return subprocess.run(words, input=data, check=True, capture_output=True).stdout


def text_of(chance):
    return [[chance.choice(WORDS) for _ in range(chance.randint(40, 75))] for _ in range(chance.randint(3, 7))]


def roff_of(text):
    head = ".pl 11i\n.po 1i\n.ll 6.4i\n.ps 11\n.vs 14\n.hy 0\n.na\n.sp 0.8i\n"
    return head + "".join(f".sp\n{' '.join(part)}\n" for part in text)


class Scanner:
    """Makes pictures of papers: 300 pixels to the inch, a paper of some grey, and noise."""

    def __init__(self, room):
        self.room = room

    @functools.cached_property
    def noise(self):
        blank = sh(["pgmmake", "0.5", "2600", "3400"])
        return sh(["convert", "pgm:-", "-seed", "7", "-attenuate", "0.5", "+noise", "Gaussian", "-evaluate", "multiply", "0.25", "pgm:-"], blank)

    def path(self, name):
        return os.path.join(self.room, name)

    def put(self, name, data):
        with open(self.path(name), "wb") as file:
            file.write(data)
        return self.path(name)

    def pdf_of(self, roff):
        return sh(["ps2pdf", "-sPAPERSIZE=letter", "-", "-"], sh(["groff", "-Tps", "-P-pletter"], roff.encode()))

    def plain(self, roff, inch=300):
        printed = self.put("page.ps", sh(["groff", "-Tps", "-P-pletter"], roff.encode()))
        how = ["-q", "-dSAFER", "-dBATCH", "-dNOPAUSE", "-dTextAlphaBits=4", "-sPAPERSIZE=letter", f"-r{inch}", "-sDEVICE=pgmraw"]
        return sh(["gs", *how, "-sOutputFile=-", printed])

    def scan(self, roff, chance, inch=300):
        """The page as a flatbed shows it."""
        page = self.put("page.pgm", self.plain(roff, inch))
        sides = ["-width", str(inch * 17 // 2), "-height", str(inch * 11)]
        cut = ["pamcut", "-left", str(chance.randrange(50)), "-top", str(chance.randrange(100)), *sides]
        noise = self.put("part.pgm", sh(cut, self.noise))
        return sh(["pamarith", "-subtract", page, noise])

    def phone(self, roff, chance):
        """A page by a telephone: 9 million pixels, a shadow from one side, a little out of focus, as a JPEG without resolution."""
        scanned = self.put("scan.pgm", self.scan(roff, chance))
        dark = chance.choice(("0.45", "0.55"))
        ramp = self.put("ramp.pgm", sh(["pgmramp", chance.choice(("-lr", "-diagonal")), "2550", "3300"]))
        light = self.put("light.pgm", sh(["pamfunc", f"-multiplier={1 - float(dark)}", ramp]))
        base = self.put("base.pgm", sh(["pgmmake", dark, "2550", "3300"]))
        lit = self.put("lit.pgm", sh(["pamarith", "-add", light, base]))
        return sh(["pnmtojpeg", "--quality=85"], sh(["pgmtoppm", "white"], sh(["pamarith", "-multiply", scanned, lit])))

    def photo(self, roff, chance):
        """A letter with a photograph below its text."""
        page = self.put("page.pgm", self.plain(roff))
        seed = str(chance.randrange(1000))
        picture = self.put("photo.pgm", sh(["convert", "-size", "1500x1100", "-seed", seed, "plasma:grey30-grey80", "-blur", "0x2", "pgm:-"]))
        return sh(["pnmpaste", picture, "500", "2000", page])


class Folder:
    """The folder that is made, and what is written on its pages."""

    def __init__(self, top):
        self.top, self.folder, self.truth = top, os.path.join(top, "in"), []
        os.makedirs(self.folder, exist_ok=True)

    def put(self, name, text, draw):
        """The page of this name, which is drawn where it isn't there."""
        path, part = os.path.join(self.folder, name), os.path.join(self.top, "part")
        if not os.path.exists(path):
            data = draw()
            with open(part, "wb") as file:
                file.write(data)
            os.replace(part, path)
        self.truth.append((name, " ".join(word for part in text for word in part)))

    def end(self):
        with open(os.path.join(self.top, "truth.txt"), "w", encoding="utf-8") as file:
            file.writelines(f"{name}\t{words}\n" for name, words in sorted(self.truth))


def add_page(folder, scanner, number, chance):
    kind = KINDS[number % len(KINDS)]
    text = text_of(chance)[: 2 if kind == "photo" else None]
    folder.put(f"{number + 1:04} {kind}.{ENDINGS.get(kind, 'pdf')}", text, lambda: drawn(kind, scanner, roff_of(text), chance))


def drawn(kind, scanner, roff, chance):
    """The page's file."""
    if kind == "text":
        return scanner.pdf_of(roff)
    if kind == "phone":
        return scanner.phone(roff, chance)
    if kind == "black":
        return sh(["pamtotiff", "-g4", "-xresolution=300", "-yresolution=300"], sh(["pgmtopbm", "-threshold"], scanner.plain(roff)))
    if kind == "photo":
        return sh(["img2pdf"], sh(["pnmtojpeg", "--quality=80", "-density=300x300dpi"], scanner.photo(roff, chance)))
    if kind == "tiff":
        return sh(["pamtotiff", "-lzw", "-xresolution=300", "-yresolution=300"], scanner.scan(roff, chance))
    if kind == "png":
        return sh(["pnmtopng", "-compression=1", "-size=11811 11811 1"], scanner.scan(roff, chance))
    inch, told = (300, ["-density=300x300dpi"]) if kind == "scan" else (200, [])
    return sh(["img2pdf"], sh(["pnmtojpeg", "--quality=80", *told], scanner.scan(roff, chance, inch)))


def main(top, pages):
    missing = [tool for tool in NEEDED if not shutil.which(tool)]
    if missing:
        sys.exit(f"mixed_scans.py: not here: {', '.join(missing)}")
    folder = Folder(top)
    with tempfile.TemporaryDirectory() as room:
        scanner = Scanner(room)
        for number in range(int(pages)):
            add_page(folder, scanner, number, random.Random(number))
    folder.end()


if __name__ == "__main__":
    main(*sys.argv[1:])
