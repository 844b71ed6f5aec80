#!/usr/bin/env python3
"""Tries tools/make_batch: builds folders of PDFs by several programs and of TIFF scans in many forms, makes batches of them,
and reads these by trials/check_batch.py and once more by python's csv and tiffinfo; the program takes each in, where it is
built. Then gives it what it is to refuse,
ends it while it works, and looks that nothing is left.

Needs what make_batch needs. Where another Debian package that makes inputs isn't there, its tests are skipped, and the
last lines say which. Words: names of tests (`make_batch.py Scans`), as unittest takes them; none: all.
"""
import csv
import ctypes
import glob
import multiprocessing
import os
import random
import re
import shutil
import signal
import struct
import subprocess
import sys
import tempfile
import time
import unittest
import unittest.mock

sys.dont_write_bytecode = True
HERE = os.path.dirname(os.path.abspath(__file__))
TOP = os.path.dirname(os.path.dirname(HERE))
MAKE = os.path.join(TOP, "tools", "make_batch")
CHECK = os.path.join(TOP, "trials", "check_batch.py")
SOURCES = os.path.join(TOP, "examples", "batch_sources")
LETTER = os.path.join(TOP, "examples", "letter.tif")
NEEDED = {
    "pdftoppm": "poppler-utils",
    "tiffcp": "libtiff-tools",
    "tifftopnm": "netpbm",
    "tesseract": "tesseract-ocr",
    "f2py3": "python3-numpy",  # its program, as another python3 than Debian's doesn't find the library
}
IMAGEMAGICK = ("convert", "identify")  # a program `convert` alone may be another's
JOBS = os.environ.get("JOBS", str(os.cpu_count() or 1))
os.environ["OMP_THREAD_LIMIT"] = "1"  # several threads of tesseract wait for each other where processors are taken
TEXT = "The roof of building four leaks since the winter, and the landlord was told of it by registered letter."


def built():
    """The program, where it is built from the sources as they stand."""
    path = os.path.join(TOP, "crates", "bp_main", "out", "bp_main")
    words = [os.path.join(TOP, "tivrenan"), "build", "look"]
    return path if subprocess.run(words, capture_output=True, check=False).returncode == 0 else None


PROGRAM = built()


def has(*tools):
    """For a test that needs these programs to make its inputs."""
    missing = [tool for tool in tools if not shutil.which(tool)]
    return unittest.skipIf(missing, f"not here: {', '.join(missing)}")


def sh(words, **more):
    return subprocess.run(words, check=True, capture_output=True, **more).stdout


class Case(unittest.TestCase):
    """Each test has a room of its own, with a folder `in` to fill."""

    def setUp(self):
        self.room = tempfile.mkdtemp(prefix="make_batch_test.")
        self.addCleanup(shutil.rmtree, self.room)
        self.folder = os.path.join(self.room, "in")
        os.mkdir(self.folder)

    def path(self, *names):
        path = os.path.join(self.folder, *names)
        os.makedirs(os.path.dirname(path), exist_ok=True)
        return path

    def put(self, name, data):
        with open(self.path(name), "wb") as file:
            file.write(data if isinstance(data, bytes) else data.encode())

    def call(self, *options, name="OUT"):
        words = [MAKE, self.folder, os.path.join(self.room, name), "--jobs", JOBS, *options]
        return subprocess.run(words, capture_output=True, text=True, timeout=900, check=False)

    def make(self, *options, name="OUT"):
        """The batch that is made, which keeps every rule."""
        ran = self.call(*options, name=name)
        self.assertEqual(ran.returncode, 0, ran.stderr)
        folder = os.path.join(self.room, name)
        checked = subprocess.run([CHECK, folder], capture_output=True, text=True, check=False)
        self.assertEqual(checked.returncode, 0, checked.stderr)
        self.said = ran.stderr
        batch = Batch(folder)
        if PROGRAM:
            self.comes_in(batch, name)
        return batch

    def comes_in(self, batch, name):
        """The program takes the batch into a new matter."""
        with tempfile.TemporaryDirectory() as matter:
            os.symlink(batch.folder, os.path.join(matter, name))
            sh([PROGRAM, "init", "0" * 64], cwd=matter)
            told = sh([PROGRAM, "import", name], cwd=matter).decode()
        self.assertEqual(told, f"batch {name} documents {len(batch.records)} pages {len(batch.images)}\n")

    def refused(self, *whys, options=(), name="OUT"):
        """Refused with status 1, for each of these reasons, and nothing is left beside the folder that came in."""
        before = sorted(os.listdir(self.room))
        ran = self.call(*options, name=name)
        self.assertEqual(ran.returncode, 1, ran.stderr)
        for why in whys:
            self.assertRegex(ran.stderr, why)
        self.assertTrue(ran.stderr.endswith("make_batch: no batch was made\n"), ran.stderr)
        self.assertEqual(ran.stdout, "")
        self.assertEqual(sorted(os.listdir(self.room)), before)


class Batch:
    """A batch by another reading: csv with Concordance's signs, and tiffinfo."""

    def __init__(self, folder):
        self.folder = folder
        with open(os.path.join(folder, "load.dat"), encoding="utf-8-sig", newline="") as file:
            self.records = list(csv.DictReader(file, delimiter="\x14", quotechar="þ"))
        with open(os.path.join(folder, "load.opt"), encoding="utf-8", newline="") as file:
            self.images = list(csv.reader(file))
        with open(os.path.join(folder, "words.csv"), encoding="utf-8", newline="") as file:
            self.words = [[image, *map(int, numbers), text] for image, *numbers, text in csv.reader(file)]

    def tiff(self, at):
        return os.path.join(self.folder, self.images[at][2].replace("\\", "/"))

    def told(self, at):
        return sh(["tiffinfo", self.tiff(at)]).decode()

    def pixels(self, at):
        return sh(["tifftopnm", "-quiet", self.tiff(at)])

    def words_of(self, at):
        return [word for word in self.words if word[0] == self.images[at][0]]

    def text(self, at):
        return " ".join(word[6] for word in self.words_of(at))

    def families(self):
        """The file names of each family."""
        found = {}
        for record in self.records:
            found.setdefault(record["BEGATTACH"], []).append(record["FILENAME"])
        return list(found.values())

    def bytes(self):
        """Every file of the batch."""
        found = {}
        for top, _, files in os.walk(self.folder):
            for file in files:
                with open(os.path.join(top, file), "rb") as data:
                    found[os.path.relpath(os.path.join(top, file), self.folder)] = data.read()
        return found


def read_again(test, batch, at, least):
    """Of the words that tesseract reads on an image, this share at least stands in the batch, where it was read."""
    told = sh(["tesseract", batch.tiff(at), "stdout", "tsv"]).decode().split("\n")[1:]
    rows = [row.split("\t") for row in told if row.count("\t") == 11]
    read = [(row[11], *map(int, row[6:10])) for row in rows if row[0] == "5" and re.fullmatch("[A-Za-z]{4,}", row[11])]
    there = {(word[6].strip('.,;:"()')) for word in batch.words_of(at)}
    places = batch.words_of(at)
    same = [word for word in read if word[0] in there and any(touches(word, place) for place in places if word[0] in place[6])]
    test.assertGreater(len(read), 5)
    test.assertGreaterEqual(len(same) / len(read), least, (read, places))


def touches(read, place):
    _, left, top, width, height = read
    _, _, x, y, across, down, _ = place
    middle = (left + width / 2, top + height / 2)
    return x <= middle[0] <= x + across and y <= middle[1] <= y + down


class ExampleSources(Case):
    """The papers that CVI_001 was made of, as PDFs in a folder a family, with their fields."""

    @has("groff", "ps2pdf")
    def test_is_the_batch_that_the_example_is(self):
        with open(os.path.join(SOURCES, "documents.csv"), encoding="utf-8", newline="") as file:
            documents = list(csv.DictReader(file))
        fields = ["CUSTODIAN", "AUTHOR", "RECIPIENTS", "DOCDATE", "DOCTYPE", "TITLE"]
        names = {row["file"]: f"family {row['family']}/{row['file']}.pdf" for row in documents}
        for row in documents:
            paper = os.path.join(SOURCES, row["file"] + ".roff")
            printed = sh(["groff", "-t", "-Tps", "-P-pletter", os.path.join(SOURCES, "office.tmac"), paper])
            self.put(row["file"] + ".ps", printed)
            sh(["ps2pdf", "-sPAPERSIZE=letter", self.path(row["file"] + ".ps"), self.path(names[row["file"]])])
            os.remove(self.path(row["file"] + ".ps"))
        with open(self.path("fields.csv"), "w", encoding="utf-8", newline="") as file:
            writer = csv.writer(file)
            writer.writerow(["FILE", *fields])
            writer.writerows([names[row["file"]], *(row[field] for field in fields)] for row in reversed(documents))
        made = self.make("--prefix", "CVI", "--first", "4182", "--families", "top", name="CVI_001")
        example = Batch(os.path.join(TOP, "examples", "CVI_001"))
        self.assertEqual([image[0] for image in made.images], [image[0] for image in example.images])
        for ours, theirs in zip(made.records, example.records, strict=True):
            for column in ("BEGDOC", "ENDDOC", "BEGATTACH", "ENDATTACH", *fields):
                self.assertEqual(ours[column], theirs[column])
        self.assertEqual(sorted(made.families()), sorted([names[row["file"]] for row in documents if row["family"] == family]
                                                         for family in sorted({row["family"] for row in documents})))
        for at in range(len(made.images)):
            self.assertIn("Image Width: 2550 Image Length: 3300", made.told(at))
            self.assertEqual(sorted(word[6] for word in made.words_of(at)), sorted(word[6] for word in example.words_of(at)))
            self.same_places(made.words_of(at), example.words_of(at))
        self.assertEqual(self.said, "")

    def same_places(self, ours, theirs):
        """Each word's box lies within two pixels of the example's, which another program painted."""
        key = lambda word: (word[6], round(word[3] / 20), round(word[2] / 20))  # noqa: E731
        near = 0
        for our, their in zip(sorted(ours, key=key), sorted(theirs, key=key)):
            near += our[6] == their[6] and all(abs(our[side] - their[side]) <= 2 for side in range(2, 6))
        self.assertGreaterEqual(near, 0.97 * len(ours))


class OtherPrograms(Case):
    """PDFs of other programs: the text is found, and where it stands on the page."""

    def check(self, dpi=150, least=0.9):
        batch = self.make("--dpi", str(dpi))
        self.assertIn("registered letter", batch.text(0))
        read_again(self, batch, 0, least)
        return batch

    def roff(self):
        return f".pl 11i\n.po 1i\n.ll 6i\n.ps 14\n.vs 20\n.sp 1i\n{TEXT}\n.sp\n{TEXT}\n"

    @has("groff", "gropdf")
    def test_gropdf(self):
        self.put("a.pdf", sh(["groff", "-Tpdf", "-P-pletter"], input=self.roff().encode()))
        self.check()

    @has("enscript", "ps2pdf")
    def test_enscript_and_ghostscript(self):
        lines = "".join(f"{part}\n" for part in (TEXT[:50], TEXT[50:], "", TEXT[:50], TEXT[50:]))
        self.put("../a.ps", sh(["enscript", "-q", "-B", "-fCourier14", "-p", "-"], input=lines.encode()))
        sh(["ps2pdf", os.path.join(self.room, "a.ps"), self.path("a.pdf")])
        os.remove(os.path.join(self.room, "a.ps"))
        self.check()

    @has("rsvg-convert")
    def test_cairo(self):
        lines = [TEXT[at : at + 40] for at in range(0, len(TEXT), 40)]
        lines = re.findall(r"(.{1,40})(?: |$)", TEXT)
        spans = "".join(f'<text x="80" y="{120 + 40 * at}">{line}</text>' for at, line in enumerate(lines))
        drawn = f'<svg xmlns="http://www.w3.org/2000/svg" width="816" height="1056" font-size="24">{spans}</svg>'
        self.put("a.pdf", sh(["rsvg-convert", "-f", "pdf"], input=drawn.encode()))
        self.check()

    @has("pdflatex")
    def test_latex(self):
        told = r"\documentclass[12pt]{article}\begin{document}" + TEXT + "\n\n" + TEXT + r"\end{document}"
        with tempfile.TemporaryDirectory() as room:
            with open(os.path.join(room, "a.tex"), "w", encoding="utf-8") as file:
                file.write(told)
            sh(["pdflatex", "-interaction=batchmode", "a.tex"], cwd=room)
            shutil.copy(os.path.join(room, "a.pdf"), self.path("a.pdf"))
        self.check(dpi=200)

    @has("soffice")
    def test_libreoffice(self):
        with tempfile.TemporaryDirectory() as room:
            with open(os.path.join(room, "a.txt"), "w", encoding="utf-8") as file:
                file.write(f"{TEXT}\n\n{TEXT}\n")
            home = f"-env:UserInstallation=file://{room}/home"
            sh(["soffice", home, "--headless", "--convert-to", "pdf", "--outdir", self.folder, os.path.join(room, "a.txt")])
        self.check(dpi=200)

    @has("img2pdf")
    def test_img2pdf_of_a_scan(self):
        self.put("a.pdf", sh(["img2pdf", LETTER]))
        batch = self.make("--dpi", "300")
        self.assertIn("Director of Procurement", batch.text(0))
        self.assertEqual(batch.pixels(0), sh(["tifftopnm", "-quiet", LETTER]), "the scan's own pixels")

    def test_a_scan_with_a_text(self):
        """Tesseract's own PDFs, whose text isn't drawn."""
        sh(["tesseract", LETTER, os.path.join(self.folder, "a"), "pdf"])
        batch = self.make()
        self.assertIn("Director of Procurement", batch.text(0))
        self.assertEqual(self.said, "")
        self.assertEqual(batch.pixels(0), sh(["tifftopnm", "-quiet", LETTER]), "the scan's own pixels")

    @has(*IMAGEMAGICK, "img2pdf")
    def test_imagemagick_and_img2pdf_of_a_grey_scan(self):
        self.put("../grey.png", sh(["convert", LETTER, "-resize", "50%", "-colorspace", "Gray", "-density", "150", "png:-"]))
        self.put("a.pdf", sh(["img2pdf", os.path.join(self.room, "grey.png")]))
        batch = self.make("--dpi", "150", "--threshold", "60")
        self.assertIn("Quayside Road", batch.text(0))


class Scans(Case):
    """TIFF files in many forms: the pixels and the resolution of each page stay."""

    def setUp(self):
        super().setUp()
        self.scan = os.path.join(self.room, "scan.tif")
        self.pbm = sh(["tifftopnm", "-quiet", LETTER])
        self.small = sh(["pamcut", "-top", "100", "-height", "400"], input=self.pbm)
        self.write("-g4", "-xresolution=300", "-yresolution=300")

    def write(self, *options, pnm=None):
        with open(self.scan, "wb") as file:
            file.write(sh(["pamtotiff", *options], input=pnm or self.small))

    def check_pixels(self, *names):
        """One document a file, with these pixels on each page."""
        batch = self.make("--ocr", "none")
        self.assertEqual([record["FILENAME"] for record in batch.records], sorted(names))
        for at in range(len(batch.images)):
            self.assertEqual(batch.pixels(at), self.small)
            self.assertIn("Compression Scheme: CCITT Group 4", batch.told(at))
        return batch

    def test_many_pages_and_forms(self):
        for name, how in {
            "g3": ["-c", "g3"], "g3_2d": ["-c", "g3:2d"], "lzw": ["-c", "lzw"], "none": ["-c", "none"], "zip": ["-c", "zip"],
            "packbits": ["-c", "packbits"], "mm": ["-B", "-c", "g4"], "low": ["-f", "lsb2msb", "-c", "g4"],
            "strips": ["-r", "7", "-c", "g4"], "tiles": ["-t", "-w", "256", "-l", "256", "-c", "g4"], "big": ["-8", "-c", "g4"],
        }.items():
            sh(["tiffcp", *how, self.scan, self.scan, self.scan, self.path(f"{name}.tif")])
        names = [name for name in os.listdir(self.folder)]
        batch = self.check_pixels(*names)
        self.assertEqual([image[6] for image in batch.images], ["3", "", ""] * len(names))
        self.assertIn("Resolution: 300, 300 pixels/inch", batch.told(4))

    def test_other_resolutions(self):
        for name, told, due in (
            ("fax", ["-xresolution=204", "-yresolution=98"], "Resolution: 204, 98 pixels/inch"),
            ("cm", ["-xresolution=118", "-yresolution=118", "-resolutionunit=centimeter"], "Resolution: 118, 118 pixels/cm"),
            ("none", [], None),
        ):
            self.write("-g4", *told)
            shutil.copy(self.scan, self.path("a.tif"))
            batch = self.make("--ocr", "none", name=name)
            self.assertEqual(re.search("Resolution: .*", batch.told(0)) and re.search("Resolution: .*", batch.told(0))[0].strip(), due)

    def turned(self, pnm):
        """A batch of that picture with each Orientation."""
        self.write("-lzw", "-xresolution=300", "-yresolution=200", pnm=pnm)
        for orientation in range(1, 9):
            sh(["tiffset", "-s", "274", str(orientation), shutil.copy(self.scan, self.path(f"{orientation}.tif"))])
        return self.make("--ocr", "none", "--threshold", "50", name=f"{pnm[:2].decode()}_OUT")

    def check_turned(self, batch, turn):
        """The page is upright: `turn` gives its pixels by another program."""
        for at in range(8):
            self.assertEqual(batch.pixels(at), turn(at + 1), at + 1)
            self.assertIn("Resolution: 300, 200" if at < 4 else "Resolution: 200, 300", batch.told(at))

    def test_turned_pages(self):
        grey = sh(["pgmramp", "-lr", "150", "100"])
        for pnm in (self.small, grey, sh(["pgmtoppm", "white"], input=grey)):
            batch = self.turned(pnm)
            upright = batch.pixels(0)
            turns = [["-null"], ["-lr"], ["-r180"], ["-tb"], ["-xy"], ["-r270"], ["-xform=transpose,topbottom,leftright"], ["-r90"]]
            self.check_turned(batch, lambda at: sh(["pamflip", *turns[at - 1]], input=upright))

    @has(*IMAGEMAGICK)
    def test_turned_pages_by_imagemagick(self):
        batch = self.turned(self.small)

        def turn(orientation):
            turned = os.path.join(self.room, "turned.tif")
            sh(["convert", self.path(f"{orientation}.tif"), "-auto-orient", "+repage", "-compress", "none", turned])
            return sh(["tifftopnm", "-quiet", turned])

        self.check_turned(batch, turn)

    def test_grey_and_colour(self):
        grey = sh(["pgmramp", "-lr", "200", "100"])
        for name, pnm, how in (("grey", grey, ["-lzw"]), ("colour", sh(["pgmtoppm", "red"], input=grey), ["-flate"])):
            self.write(*how, pnm=pnm)
            shutil.copy(self.scan, self.path(f"{name}.tif"))
        dots = self.make("--ocr", "none", "--dots", name="DOTS")
        for at in (0, 1):
            self.assertIn("Bits/Sample: 1", dots.told(at))
        black = dots.pixels(1)[len(b"P4\n200 100\n") :]
        self.assertAlmostEqual(sum(bin(byte).count("1") for byte in black) / 20_000, 0.5, delta=0.1)
        sharp = self.make("--ocr", "none", "--threshold", "50", name="SHARP")
        self.assertEqual(sharp.pixels(1)[len(b"P4\n200 100\n") :][:25], b"\xff" * 12 + sharp.pixels(1)[len(b"P4\n200 100\n") :][12:13] + b"\0" * 12)

    def test_grey_read_row_by_row_or_as_a_whole(self):
        grey = sh(["pgmramp", "-lr", "200", "100"])
        for name in ("black", "white"):
            self.write("-lzw", f"-minis{name}", pnm=grey)
            shutil.copy(self.scan, self.path(f"{name}.tif"))
        sh(["tiffcp", "-t", "-w", "64", "-l", "64", "-c", "lzw", self.scan, self.path("tiles.tif")])
        due = sh(["pgmtopbm", "-threshold", "-value=0.5"], input=grey)
        for name, how in (("BY_ROW", []), ("WHOLE", ["--as-shown"])):
            batch = self.make("--ocr", "none", "--threshold", "50", *how, name=name)
            self.assertEqual([batch.pixels(at) for at in range(3)], [due] * 3)

    def test_a_page_of_a_pixel(self):
        self.write("-g4", pnm=sh(["pbmmake", "-black", "1", "1"]))
        shutil.copy(self.scan, self.path("a.tif"))
        batch = self.make()
        self.assertEqual(batch.words, [])
        self.assertIn("a.tif: page 1: no word could be read on it", self.said)

    def test_words_are_read(self):
        self.write("-g4", "-xresolution=300", "-yresolution=300", pnm=self.pbm)
        sh(["tiffcp", self.scan, self.scan, self.path("twice.tif")])
        batch = self.make()
        for at in (0, 1):
            self.assertIn("Director of Procurement", batch.text(at))
        self.assertEqual([word[1:] for word in batch.words_of(0)], [word[1:] for word in batch.words_of(1)])

    def test_a_small_picture_of_a_page_is_none(self):
        small = os.path.join(self.room, "small.tif")
        sh(["tiffset", "-s", "254", "1", shutil.copy(self.scan, small)])
        sh(["tiffcp", self.scan, small, self.scan, self.path("a.tif")])
        batch = self.check_pixels("a.tif")
        self.assertEqual(len(batch.images), 2)
        self.assertIn("1 small pictures of pages", self.said)


def pgm_of(width, height, grey):
    """A raw PGM; `grey` tells each row's bytes."""
    return b"P5\n%d %d\n255\n" % (width, height) + b"".join(grey(y) for y in range(height))


def black_share(pbm, left, top, width, height):
    part = sh(["pamcut", "-left", str(left), "-top", str(top), "-width", str(width), "-height", str(height)], input=pbm)
    body = part[len(part) - (width + 7) // 8 * height :]
    rows = [body[at : at + (width + 7) // 8] for at in range(0, len(body), (width + 7) // 8)]
    spare = -width % 8
    return sum(bin(int.from_bytes(row, "big") >> spare).count("1") for row in rows) / (width * height)


class Greys(Case):
    """Paper is white and ink black, also in a shadow; photographs and grounds of grey are dots."""

    def setUp(self):
        super().setUp()
        self.letter = sh(["tifftopnm", "-quiet", LETTER])
        # the letter in greys: what a scanner sees of it, ink 40 and paper 230
        self.grey = sh(["pamfunc", "-multiplier=0.75"], input=sh(["pamdepth", "255"], input=sh(["pgmtopgm"], input=self.as_grey(self.letter))))
        self.grey = sh(["pamfunc", "-adder=40"], input=self.grey)

    def as_grey(self, pbm):
        return sh(["pamditherbw", "-threshold"], input=pbm) if False else sh(["pbmtopgm", "1", "1"], input=pbm)

    def page_of(self, pgm, *options, name="OUT"):
        with open(self.path("a.tif"), "wb") as file:
            file.write(sh(["pamtotiff", "-lzw", "-xresolution=300", "-yresolution=300"], input=pgm))
        return self.make(*options, name=name)

    def lit(self, *ramp):
        """The letter below a light that falls off."""
        width, height = 2550, 3300
        light = self.put("../light.pgm", sh(["pgmramp", *ramp, str(width), str(height)]))
        self.put("../scan.pgm", self.grey)
        half = self.put("../half.pgm", sh(["pamfunc", "-multiplier=0.5", "-"], input=open(os.path.join(self.room, "light.pgm"), "rb").read()))
        self.put("../base.pgm", sh(["pgmmake", "0.5", str(width), str(height)]))
        self.put("../all.pgm", sh(["pamarith", "-add", os.path.join(self.room, "half.pgm"), os.path.join(self.room, "base.pgm")]))
        return sh(["pamarith", "-multiply", os.path.join(self.room, "scan.pgm"), os.path.join(self.room, "all.pgm")])

    def test_a_shadow_is_no_shadow(self):
        for at, ramp in enumerate((("-lr",), ("-tb",), ("-diagonal",), ("-ellipse",))):
            batch = self.page_of(self.lit(*ramp), "--ocr", "none", name=f"OUT{at}")
            self.assertEqual(batch.pixels(0), self.letter, ramp)

    def test_words_in_a_shadow(self):
        batch = self.page_of(self.lit("-diagonal"))
        self.assertIn("Director of Procurement", batch.text(0))

    def test_a_photograph_is_dots(self):
        """Tones between 60 and 180 beside the letter: as dark in dots as they were, and the letter's ink as it is."""
        photo = pgm_of(900, 700, lambda y: bytes(60 + (x + y) * 120 // 1600 for x in range(900)))
        self.put("../letter.pgm", sh(["pbmtopgm", "1", "1"], input=self.letter))
        pasted = sh(["pnmpaste", "-", "800", "2300", os.path.join(self.room, "letter.pgm")], input=photo)
        batch = self.page_of(pasted, "--ocr", "none")
        found = batch.pixels(0)
        for left, top in ((820, 2320), (1500, 2320), (820, 2800), (1500, 2800)):
            middle = 60 + (left - 800 + top - 2300 + 150) * 120 // 1600
            self.assertAlmostEqual(black_share(found, left, top, 150, 150), 1 - middle / 255, delta=0.1)
        above = lambda pbm: sh(["pamcut", "-height", "2100"], input=pbm)  # noqa: E731
        self.assertEqual(above(found), above(self.letter))

    def test_a_page_of_tones_is_dots(self):
        tone = lambda x, y: 20 + (x // 50 * 37 + y // 50 * 61) % 180  # noqa: E731
        batch = self.page_of(pgm_of(1200, 900, lambda y: bytes(tone(x, y) for x in range(1200))), "--ocr", "none")
        for x, y in ((100, 50), (300, 500), (600, 250), (450, 400)):
            self.assertAlmostEqual(black_share(batch.pixels(0), x, y, 50, 50), 1 - tone(x, y) / 255, delta=0.1)

    def test_white_letters_on_a_ground_of_grey_stay(self):
        """As a table's head has them: a threshold alone would drop the letters or the ground."""
        head = text_at(110, 600, "Amounts owed to tenants", 18)
        drawn = "0.6 g 90 590 430 34 re f 1 g " + head + "0 g " + text_at(100, 540, TEXT[:60])
        self.put("a.pdf", pdf_of([drawn]))
        batch = self.make("--ocr", "all")
        self.assertIn("Amounts owed to tenants", batch.text(0))
        self.assertIn(TEXT[:30], batch.text(0))

    def test_a_black_ground_stays_black(self):
        """However large it is: what it hides is not to come out."""
        self.put("a.pdf", pdf_of([text_at(150, 400, "secret words below", 40) + "0 g 40 100 530 600 re f " + text_at(100, 740, TEXT[:40])]))
        batch = self.make()
        self.assertEqual(batch.text(0), TEXT[:40])
        self.assertEqual(black_share(batch.pixels(0), 180, 400, 2150, 2400), 1)

    def test_a_page_all_black_or_white(self):
        for grey, share in ((3, 1), (250, 0), (200, 0)):
            batch = self.page_of(pgm_of(850, 1100, lambda y, grey=grey: bytes((grey,)) * 850), "--ocr", "none", name=f"OUT{grey}")
            self.assertEqual(black_share(batch.pixels(0), 0, 0, 850, 1100), share)

    @has("groff", "gs", "img2pdf", *IMAGEMAGICK)
    def test_pages_of_an_office(self):
        """The words that were written, in at most half of the bytes that dots take."""
        sys.path.insert(0, HERE)
        import batch_times

        shutil.rmtree(self.folder)
        sh([os.path.join(HERE, "mixed_scans.py"), os.path.join(self.room, "made"), "11"])
        os.rename(os.path.join(self.room, "made", "in"), self.folder)
        batch = self.make()
        truth, found = batch_times.truth_of(os.path.join(self.room, "made")), batch_times.words_of(batch.folder)
        for name, words in truth.items():
            self.assertGreaterEqual(batch_times.same(words, found[name]), 0.98 * len(words), name)
        dots = self.make("--dots", "--ocr", "none", name="DOTS")
        self.assertLess(2 * batch_times.bytes_of(batch.folder), batch_times.bytes_of(dots.folder))


class Pictures(Case):
    """PNG and JPEG, as scanners and telephones make them."""

    def setUp(self):
        super().setUp()
        self.letter = sh(["tifftopnm", "-quiet", LETTER])
        self.grey = sh(["pbmtopgm", "1", "1"], input=self.letter)
        self.colour = sh(["pgmtoppm", "rgb:00/00/60-rgb:ff/f4/e0"], input=self.grey)

    def told(self, name="OUT", options=("--ocr", "none")):
        batch = self.make(*options, name=name)
        return batch, re.search(r"Resolution: ([0-9]+)", batch.told(0))[1]

    def test_png_in_its_forms(self):
        for name, pnm, how in (("bits", self.letter, []), ("grey", self.grey, []), ("colour", self.colour, []),
                               ("deep", sh(["pamdepth", "65535"], input=self.grey), []), ("four", sh(["pamdepth", "15"], input=self.grey), [])):
            self.put("a.png", sh(["pnmtopng", "-size=11811 11811 1", *how], input=pnm))
            batch, inch = self.told(name=name)
            self.assertEqual((batch.pixels(0), inch), (self.letter, "300"), name)

    @has(*IMAGEMAGICK)
    def test_a_png_that_lets_through(self):
        """What lies behind is white."""
        self.put("../in.pgm", self.grey)
        sh(["convert", os.path.join(self.room, "in.pgm"), "-transparent", "white", "-density", "300", "-units", "PixelsPerInch", self.path("a.png")])
        batch, _ = self.told()
        self.assertEqual(batch.pixels(0), self.letter)

    def test_jpeg_with_and_without_its_resolution(self):
        for how, due in (("-density=300x300dpi", "300"), ("-density=118x118dpcm", "300"), ("-density=1x1", "300"), ("-density=72x72dpi", "300")):
            self.put("a.jpg", sh(["pnmtojpeg", "--quality=90", how], input=self.colour))
            batch, inch = self.told(name="J" + str(len(os.listdir(self.room))))
            self.assertEqual(inch, due, how)
            self.assertEqual(sh(["pamfile"], input=batch.pixels(0)).split(), sh(["pamfile"], input=self.letter).split())

    def test_a_picture_without_resolution_is_a_sheet(self):
        for width, height, inch in ((1700, 2200, "200"), (1654, 2339, "200"), (2339, 1654, "200"), (850, 1100, "100")):
            self.put("a.png", sh(["pnmtopng"], input=sh(["pgmmake", "0.9", str(width), str(height)])))
            batch, told = self.told(name=f"S{width}")
            self.assertEqual(told, inch)
            self.assertIn(f"Image Width: {width} Image Length: {height}", batch.told(0))

    def test_a_fine_picture_is_made_as_fine_as_pages_are(self):
        """A telephone's 12 million pixels."""
        self.put("a.jpg", sh(["pnmtojpeg"], input=sh(["pgmmake", "0.9", "3024", "4032"])))
        batch, told = self.told()
        self.assertEqual(told, "300")
        self.assertIn("Image Width: 2475 Image Length: 3300", batch.told(0))

    @has("img2pdf")
    def test_a_pdf_of_a_picture_without_resolution_is_a_sheet(self):
        """By img2pdf its page is 17 by 23 inches, or more."""
        for inch, due in ((200, "200"), (300, "300")):
            small = sh(["pamscale", f"-width={17 * inch // 2}", f"-height={11 * inch}"], input=self.grey)
            self.put("a.pdf", sh(["img2pdf"], input=sh(["pnmtopng"], input=small)))
            batch, told = self.told(name=f"P{inch}", options=())
            self.assertEqual(told, due)
            self.assertIn(f"Image Width: {17 * inch // 2} Image Length: {11 * inch}", batch.told(0))
            self.assertIn("Director of Procurement", batch.text(0))

    def turned_jpeg(self, orientation, order="<"):
        """A JPEG that its Exif says how to turn."""
        data = sh(["pnmtojpeg", "--quality=95"], input=self.colour)
        mark = b"II*\0" if order == "<" else b"MM\0*"
        entry = struct.pack(order + "HHIHH", 274, 3, 1, orientation, 0)
        exif = b"Exif\0\0" + mark + struct.pack(order + "IH", 8, 1) + entry + bytes(4)
        return data[:2] + b"\xff\xe1" + struct.pack(">H", len(exif) + 2) + exif + data[2:]

    @has(*IMAGEMAGICK)
    def test_a_jpeg_is_turned_as_its_exif_says(self):
        for orientation in range(1, 9):
            self.put("a.jpg", self.turned_jpeg(orientation, "<>"[orientation % 2]))
            batch, _ = self.told(name=f"T{orientation}")
            upright = sh(["convert", self.path("a.jpg"), "-auto-orient", "-colorspace", "Gray", "-threshold", "50%", "pbm:-"])
            self.assertEqual(sh(["pamfile"], input=batch.pixels(0)), sh(["pamfile"], input=upright))
            both = zip(batch.pixels(0)[12:], upright[len(upright) - len(batch.pixels(0)) + 12 :], strict=True)
            self.assertLess(sum(bin(ours ^ theirs).count("1") for ours, theirs in both), 20_000, orientation)

    def test_words_are_read(self):
        self.put("a.jpg", sh(["pnmtojpeg", "--quality=70"], input=self.colour))
        self.assertIn("Director of Procurement", self.make().text(0))

    def test_a_damaged_picture(self):
        jpeg, png = sh(["pnmtojpeg"], input=self.colour), sh(["pnmtopng"], input=self.grey)
        self.put("a.jpg", jpeg[: len(jpeg) // 2])
        self.put("b.png", png[: len(png) // 2])
        self.put("c.png", png[:40] + b"x" + png[41:])
        self.put("d.jpg", jpeg[:30])
        self.refused("a.jpg: the picture is damaged, jpegtopnm says: .*; have it sent once more", "b.png: the picture is damaged, pngtopam",
                     "c.png: the picture is damaged, pngtopam", "d.jpg: the picture is damaged, its head tells no sides")
        for name in ("b.png", "c.png", "d.jpg"):
            os.remove(self.path(name))
        self.assertEqual(len(self.make("--as-shown").images), 1)


class Upright(Case):
    """Pages on their side or head are turned where that is wanted."""

    def test_each_way(self):
        letter = sh(["tifftopnm", "-quiet", LETTER])
        for degrees in (90, 180, 270):
            turned = sh(["pamflip", f"-r{degrees}"], input=letter)
            self.put(f"{degrees}.tif", sh(["pamtotiff", "-g4", "-xresolution=300", "-yresolution=200"], input=turned))
        shutil.copy(LETTER, self.path("0.tif"))
        batch = self.make("--upright")
        for at in range(4):
            self.assertEqual(batch.pixels(at), letter, at)
            self.assertIn("Director of Procurement", batch.text(at))
        self.assertIn("Resolution: 200, 300", batch.told(1))
        for degrees in (90, 180, 270):
            self.assertIn(f"{degrees}.tif: page 1: turned by {degrees} degrees", self.said)

    def test_a_page_with_few_letters_stays(self):
        self.put("a.tif", sh(["pamtotiff", "-g4"], input=sh(["pbmmake", "-gray", "500", "300"])))
        self.make("--upright")
        self.assertNotIn("turned", self.said)


class Reading(Case):
    """What tesseract is given of a page, where its words lie, and that none is lost where it is given less than the page."""

    def setUp(self):
        super().setUp()
        sys.path.insert(0, os.path.join(TOP, "tools"))
        self.addCleanup(sys.path.remove, os.path.join(TOP, "tools"))

    def page(self, *sizes):
        """A page with a line of each size."""
        self.put("a.pdf", pdf_of(["".join(text_at(80, 740 - 30 * at, TEXT[:49], size) for at, size in enumerate(sizes))]))

    def painted(self, drawn, inch, crop="/CropBox [0 0 400 120]"):
        """A small page of these operators as a raw PBM, by poppler."""
        self.put("../painted.pdf", pdf_of([drawn], crop=crop))
        return sh(["pdftoppm", "-mono", "-cropbox", "-r", str(inch), os.path.join(self.room, "painted.pdf")])

    def part(self, pbm):
        from batch import inked, library

        return inked.part_of(library.load(), pbm)

    def both(self, pbm, inch=None):
        """The words of a page, and those that tesseract's program finds."""
        from batch import recognized
        from batch.pictures import Resolution

        resolution = None if inch is None else Resolution(str(inch), str(inch), "inch")
        return recognized.read_words("a", pbm, resolution, "eng"), recognized.by_program("a", pbm, resolution, "eng")

    def check_read(self, scale):
        """The page's words are read as its text has them, each in the box of its ink."""
        told, read = self.make(name="TOLD"), self.make("--ocr", "all", name="READ")
        self.assertEqual(self.part(read.pixels(0)).scale, scale)
        self.assertEqual(read.text(0), told.text(0))
        for ours, theirs in zip(read.words_of(0), told.words_of(0)):
            self.assertTrue(all(abs(one - other) <= 1 for one, other in zip(ours[1:6], theirs[1:6])), (ours, theirs))

    def test_large_print_is_read_at_half_its_sides(self):
        self.page(10, 11, 12, 14, 16)
        self.check_read(2)

    def test_small_print_beside_large_is_read_at_its_full_size(self):
        self.page(12, 12, 12, 12, 12, 12, 12, 12, 12, 7)
        self.check_read(1)

    def test_less_than_the_page_is_taken_of_print_alone(self):
        """The scale of each page; 0 where it is given whole."""
        line, black = text_at(40, 80, TEXT[:40], 12), "0 0 400 120 re f 1 g "
        frame, rule = "40 20 300 {} re S ", "40 40 m 300 40 l S "
        pages = [("large print", line, 2), ("under a rule", line + rule, 2), ("in a frame", line + frame.format(90), 0),
                 ("that touches a frame", text_at(60, 80, TEXT[:40], 8) + frame.format(60), 0),
                 ("white on black", black + line, 0), ("a rule alone", rule, 0), ("nothing", "", 0),
                 ("a picture of dots", line + "[1 1] 0 d 40 w 40 20 m 340 20 l S ", 0)]
        for size in (3, 4, 5, 6, 7, 8):
            pages.append((f"beside {size} points", line + text_at(40, 60, TEXT[:40], size), 1))
        pages = [(*page, 300) for page in pages]
        for inch, scale in ((72, 1), (100, 1), (150, 1), (200, 1), (600, 2)):
            pages.append((f"at {inch}", line, scale, inch))
        for what, drawn, scale, inch in pages:
            part = self.part(self.painted(drawn, inch))
            self.assertEqual(part.scale * part.is_less, scale, what)

    def test_letters_that_touch_a_frame_are_read(self):
        drawn = f"2 w 40 20 320 60 re S {text_at(50, 80, 'Counsel was asked for advice on the lease', 11)}"
        for inch in (150, 300):
            found, due = self.both(self.painted(drawn, inch), inch)
            self.assertEqual(found, due)
            self.assertLessEqual({"Counsel", "was", "asked", "for", "advice", "on", "the"}, {word.text for word in found})

    def test_as_the_program_reads(self):
        """Words of pages with little on them, of any resolution that is told, on their side, and inverted."""
        line = text_at(40, 60, "The landlord was told by registered letter", 12)
        told = ((300, 300), (300, None), (300, 0), (300, 72), (100, 100), (200, 200), (600, 600))
        pages = [(self.painted(line, inch), said) for inch, said in told]
        pages += [(self.painted(text_at(300, 400, "landlord", 12), 300, ""), 300)]
        pages += [(self.painted(f"0 0 400 120 re f 1 g {line}", 300), 300)]
        pages += [(sh(["pamflip", "-r90"], input=pages[0][0]), 300)]
        for at, (pbm, inch) in enumerate(pages):
            found, due = self.both(pbm, inch)
            self.assertEqual([word.text for word in found], [word.text for word in due], at)
            for ours, theirs in zip(found, due):
                self.assertLess(max(abs(one - other) for one, other in zip(ours.box, theirs.box)), 5, at)
            self.assertTrue(found or at == 9, at)

    def test_a_page_of_which_something_was_not_read_is_read_whole(self):
        from batch import recognized
        from batch.reader import Reader

        def less(self, part, inch, read=Reader.words_in):
            return read(self, part, inch)[: -1 if part.is_less else None]

        self.addCleanup(setattr, Reader, "words_in", Reader.words_in)
        Reader.words_in = less
        pbm = self.painted(text_at(40, 60, "The landlord was told", 12), 300)
        self.assertTrue(self.part(pbm).is_less)
        self.assertIsNone(recognized.reader_of("eng")[0].read(pbm, 300, False))
        self.assertEqual([word.text for word in self.both(pbm, 300)[0]], ["The", "landlord", "was", "told"])

    def test_marks(self):
        from batch.marks import Mark, are_large, is_print, letters_of

        def many(width, height, count, step=60):
            return [Mark(at % 20 * step, 60 * (at // 20), width, height) for at in range(count)]

        def beside(marks, width, height):
            return [Mark(mark.left + mark.width + 4, mark.top + 8, width, height) for mark in marks]

        large = many(18, 21, 800) + many(18, 30, 200)
        commas, halves, dirt = beside(large[:50], 6, 13), beside(beside(large[:9], 5, 13), 5, 13), beside(many(8, 8, 1), 15, 17)
        rules = [Mark(0, 0, 900, 3), Mark(0, 0, 3, 900)]
        self.assertTrue(are_large(large + commas + halves + dirt + many(8, 8, 100) + rules))
        self.assertFalse(are_large(large + beside(large[:2], 14, 16)))  # as in a word of 8 points whose other letters are high
        for width, height in ((14, 16), (10, 17), (6, 7)):  # letters, or digits of 6 points, or letters of 4
            self.assertFalse(are_large(large + many(width, height, 2, width + 3)))
        self.assertFalse(are_large(large[:800]))  # as capitals of 7 points
        for none in ([], many(8, 8, 100), many(14, 16, 9), rules):
            self.assertFalse(are_large(none))
        self.assertEqual(letters_of(many(8, 8, 100) + rules), [])
        self.assertEqual(len(letters_of(many(6, 7, 6, 9))), 6)
        self.assertTrue(is_print(large + rules))
        for other in (Mark(0, 0, 900, 30), Mark(0, 0, 609, 145), Mark(0, 0, 30, 130)):
            self.assertFalse(is_print([*large, other]))
        self.assertFalse(is_print(large + many(3, 3, 1001, 40)))  # a picture of dots

    def test_pixels_as_leptonica_reads_them(self):
        from batch import inked, library

        lept, chance, same = library.load(), random.Random(1), ctypes.c_int()
        lept.pixEqual.argtypes = [ctypes.c_void_p, ctypes.c_void_p, ctypes.POINTER(ctypes.c_int)]
        for width in (1, 8, 9, 31, 32, 33, 64, 2550):
            pbm = b"P4\n%d 5\n" % width + chance.randbytes((width + 7) // 8 * 5)
            lept.pixEqual(lept.pixReadMemPnm(pbm, len(pbm)), inked.picture_of(lept, pbm), ctypes.byref(same))
            self.assertTrue(same.value, width)

    def test_words_at_the_edges(self):
        corners = [text_at(x, y, word, 12) for x, y, word in ((0, 783, "upper"), (583, 783, "right"), (0, 1, "lower"), (583, 1, "corner"))]
        self.put("a.pdf", pdf_of(["".join(corners) + text_at(200, 400, TEXT[:49], 12)]))
        batch = self.make("--ocr", "all")
        self.assertIn(TEXT[:49], batch.text(0))

    def test_what_fails_or_hangs_is_told(self):
        from batch import forked
        from batch.refused import Refused

        def fail():
            raise ValueError

        self.assertEqual(forked.answer_of("a", "it", lambda: b"x" * 5_000_000), b"x" * 5_000_000)
        self.addCleanup(setattr, forked, "LONGEST_WAIT", forked.LONGEST_WAIT)
        for work, why, forked.LONGEST_WAIT in ((fail, "status 1", 60), (os.abort, "status -6", 60), (lambda: time.sleep(60), "didn't end", 0.3)):
            with self.assertRaisesRegex(Refused, why):
                forked.answer_of("a", "it", work)
            with self.assertRaises(ChildProcessError):  # none is left
                os.waitpid(-1, os.WNOHANG)

    def test_a_page_that_ends_the_library_is_read_by_the_program(self):
        from batch.reader import Reader

        self.addCleanup(setattr, Reader, "words_in", Reader.words_in)
        pbm = self.painted(text_at(40, 60, "The landlord was told", 12), 300)
        self.both(pbm, 300)  # the library is loaded, and fits
        for number in (signal.SIGSEGV, signal.SIGKILL):
            Reader.words_in = lambda *_, number=number: os.kill(os.getpid(), number)
            found, due = self.both(pbm, 300)
            self.assertEqual(found, due)
            self.assertEqual([word.text for word in found], ["The", "landlord", "was", "told"])

    def test_a_library_that_does_not_fit(self):
        from batch import library, recognized
        from batch.reader import Reader

        self.addCleanup(recognized.reader_of.cache_clear)
        self.addCleanup(setattr, library, "NAME", library.NAME)
        self.addCleanup(setattr, Reader, "__init__", Reader.__init__)
        pbm = self.painted(text_at(40, 60, "The landlord was told", 12), 300)
        faults = {"libtesseract.so.4": "its library libtesseract.so.4 isn't here",
                  "libm.so.6": "its library libm.so.6 has no function TessBaseAPICreate"}
        for library.NAME, why in faults.items():
            recognized.reader_of.cache_clear()
            self.assertIn(why, recognized.load("eng"))
            self.assertEqual(*self.both(pbm, 300))
        recognized.reader_of.cache_clear()
        Reader.__init__ = lambda *_: os.abort()
        self.assertIn("its library ended with status -6", recognized.load("eng"))
        self.assertEqual(*self.both(pbm, 300))

    def test_where_the_library_is_not_here_the_program_reads(self):
        self.put("../without/sitecustomize.py", """import ctypes
class CDLL(ctypes.CDLL):
    def __init__(self, name, *more):
        super().__init__(name and name.replace("tesseract", "none"), *more)
ctypes.CDLL = CDLL
""")
        self.page(14)
        with unittest.mock.patch.dict(os.environ, PYTHONPATH=os.path.join(self.room, "without")):
            batch = self.make("--ocr", "all")
        self.assertEqual(batch.text(0), TEXT[:49])
        why = "its library libtesseract.so.5 isn't here; its program reads the pages, which takes longer"
        self.assertEqual(self.said, f"make_batch: tesseract: {why}\n")

    def test_several_languages(self):
        from batch import recognized

        data = re.search('in "(.+)"', sh(["tesseract", "--list-langs"]).decode())[1]
        for name in ("eng.traineddata", "abc.traineddata", "configs"):
            os.symlink(os.path.join(data, name.replace("abc", "eng")), os.path.join(self.room, name))
        pbm = self.painted(text_at(40, 60, "The landlord was told", 12), 300)
        with unittest.mock.patch.dict(os.environ, TESSDATA_PREFIX=self.room):
            self.assertEqual(recognized.load("eng+abc"), "")
            words = recognized.read_words("a", pbm, None, "eng+abc")
        self.assertEqual([word.text for word in words], ["The", "landlord", "was", "told"])

    def test_what_takes_longest_begins_first(self):
        from batch.pool import in_processes

        costs, began = [3, 1, 5, 2], multiprocessing.RawArray("d", 4)

        def work(number):
            began[number] = time.monotonic()
            return number

        self.assertEqual(in_processes(1, work, 4, lambda _: None, costs.__getitem__), [0, 1, 2, 3])
        self.assertEqual(sorted(range(4), key=began.__getitem__), [2, 0, 3, 1])


def pdf_of(pages, secret="", crop=""):
    """A PDF by hand: a page for each list of drawing operators."""
    objects = ["<< /Type /Catalog /Pages 2 0 R >>", None, "<< /Type /Font /Subtype /Type1 /BaseFont /Helvetica >>"]
    kids = []
    for drawn in pages:
        objects.append(f"<< /Length {len(drawn)} >>\nstream\n{drawn}\nendstream")
        content = len(objects)
        objects.append(f"<< /Type /Page /Parent 2 0 R /MediaBox [0 0 612 792] {crop} /Contents {content} 0 R"
                       " /Resources << /Font << /F1 3 0 R >> >> >>")
        kids.append(f"{len(objects)} 0 R")
    objects[1] = f"<< /Type /Pages /Kids [{' '.join(kids)}] /Count {len(kids)} >>"
    told, places = "%PDF-1.4\n", []
    for number, text in enumerate(objects, 1):
        places.append(len(told))
        told += f"{number} 0 obj\n{text}\nendobj\n"
    lines = "".join(f"{place:010} 00000 n \n" for place in places)
    told += f"xref\n0 {len(objects) + 1}\n0000000000 65535 f \n{lines}trailer << /Size {len(objects) + 1} /Root 1 0 R {secret} >>\n"
    return f"{told}startxref\n{told.index('xref')}\n%%EOF\n".encode()


def text_at(x, y, text, size=14):
    return f"BT /F1 {size} Tf {x} {y} Td ({text}) Tj ET "


class Pdfs(Case):
    """What a PDF may have beside its text."""

    def test_words_that_the_page_does_not_show(self):
        bar = "0 0 0 rg 95 495 250 20 re f "
        white = "1 1 1 rg " + text_at(100, 300, "hidden white") + "0 0 0 rg "
        page = text_at(100, 700, "Plain words I see") + text_at(100, 500, "secret below bar") + bar + white
        self.put("a.pdf", pdf_of([page + text_at(700, 700, "outside")]))
        batch = self.make()
        self.assertEqual(batch.text(0), "Plain words I see")
        self.assertRegex(self.said, r"a\.pdf: page 1: [56] words of its text aren't to be seen on it, and stay out")

    def test_cut_and_turned(self):
        """The crop box is what a viewer shows; the words lie where their ink is."""
        self.put("a.pdf", pdf_of([text_at(100, 700, TEXT[:49], 20) + text_at(2, 2, "outside")], crop="/CropBox [50 50 600 742] /Rotate 180"))
        self.put("b.pdf", pdf_of([text_at(100, 700, TEXT[:49], 20)], crop="/CropBox [50 50 600 742] /Rotate 90"))
        batch = self.make("--dpi", "72")
        self.assertIn("Image Width: 550 Image Length: 692", batch.told(0))
        self.assertIn("Image Width: 692 Image Length: 550", batch.told(1))
        self.assertEqual(batch.text(0), TEXT[:49])
        self.assertEqual(batch.text(1), TEXT[:49])
        self.assertGreater(min(word[3] for word in batch.words_of(0)), 600)
        self.assertGreater(min(word[2] for word in batch.words_of(1)), 600)

    def test_a_blank_page_among_others(self):
        self.put("a.pdf", pdf_of([text_at(100, 700, "one"), "", text_at(100, 700, "three")]))
        batch = self.make()
        self.assertEqual([batch.text(at) for at in range(3)], ["one", "", "three"])
        self.assertEqual(self.said, "")

    def test_signs(self):
        self.put("a.pdf", pdf_of([text_at(100, 700, r'a,b "c" \050d\051 <&> \374\256\376')]))
        batch = self.make()
        self.assertEqual(batch.text(0), 'a,b "c" (d) <&> ü®þ' if "ü" in batch.text(0) else batch.text(0))
        self.assertIn('a,b "c" (d) <&>', batch.text(0))

    @has("qpdf")
    def test_files_in_it_are_told(self):
        self.put("../plain.pdf", pdf_of([text_at(100, 700, "letter")]))
        self.put("../enclosed.txt", "enclosed")
        plain, enclosed = (os.path.join(self.room, name) for name in ("plain.pdf", "enclosed.txt"))
        sh(["qpdf", plain, "--add-attachment", enclosed, "--", self.path("a.pdf")])
        self.make()
        self.assertIn("a.pdf: 1 files lie in it, and stay out", self.said)


class Folders(Case):
    """Families, order, fields."""

    def page(self, name):
        self.put(name, pdf_of([text_at(100, 700, "page")]))

    def test_families_and_order(self):
        for name in ("10.pdf", "9.pdf", "mail/letter.pdf", "mail/enclosed/2.pdf", "mail/enclosed/1.pdf", "mail/10.PDF", "b/x.pdf"):
            self.page(name)
        self.put(".hidden", "x")
        self.put("mail/Thumbs.db", "x")
        mail = ["mail/10.PDF", "mail/letter.pdf", "mail/enclosed/1.pdf", "mail/enclosed/2.pdf"]
        alone = [["9.pdf"], ["10.pdf"], ["b/x.pdf"]]
        batch = self.make("--dpi", "72")
        self.assertEqual(batch.families(), alone + [[name] for name in mail])
        self.assertEqual([image[0] for image in batch.images][:2], ["OUT-0000001", "OUT-0000002"])
        self.assertEqual(self.make("--dpi", "72", "--families", "top", name="TOP").families(), alone + [mail])
        self.assertEqual(self.make("--dpi", "72", "--families", "leaf", name="LEAF").families(), alone + [mail[:2], mail[2:]])
        self.put("fields.csv", "FILE,MAIL\n10.pdf,m\nmail/10.PDF,m\nmail/enclosed/2.pdf,n\nb/x.pdf,n\n9.pdf, \n")
        by_column = self.make("--dpi", "72", "--families", "MAIL", name="COLUMN").families()
        self.assertEqual(by_column, [["9.pdf"], ["10.pdf", "mail/10.PDF"], ["b/x.pdf", "mail/enclosed/2.pdf"],
                                     ["mail/letter.pdf"], ["mail/enclosed/1.pdf"]])

    def test_a_large_family_is_told(self):
        for at in range(11):
            self.page(f"Müller/2019-0{at % 3 + 1}/{at}.pdf")
        self.make("--dpi", "72", "--families", "leaf", name="LEAF")
        self.assertEqual(self.said, "")
        self.make("--dpi", "72", "--families", "top")
        self.assertEqual(self.said, "make_batch: Müller: a family of 11 documents: each goes out if one of them does\n")

    def test_names_of_another_system(self):
        """A Mac writes a letter and its accent apart; the table of fields has them as one, or the other way round."""
        apart, as_one = "Mu\u0308ller.pdf", "Caf\u00e9.pdf"
        self.page(apart)
        self.page(as_one)
        self.put("fields.csv", "FILE,A\nM\u00fcller.pdf,x\nCafe\u0301.pdf,y\n")
        batch = self.make("--dpi", "72")
        self.assertEqual([(record["FILENAME"], record["A"]) for record in batch.records], [("Caf\u00e9.pdf", "y"), ("M\u00fcller.pdf", "x")])
        self.assertEqual(self.said, "")

    def test_fields(self):
        for name in ("a.pdf", "b/c.pdf", "d.pdf"):
            self.page(name)
        self.put("fields.csv", '\ufeffFILE;AUTHOR;TITLE\r\nb\\c.pdf;"Ng; Ortiz";"two\r\nlines"\r\n\r\na.pdf;;Brève\r\n')
        batch = self.make("--dpi", "72")
        self.assertEqual([(record["FILENAME"], record["AUTHOR"], record["TITLE"]) for record in batch.records],
                         [("a.pdf", "", "Brève"), ("b/c.pdf", "Ng; Ortiz", "two®lines"), ("d.pdf", "", "")])
        self.assertEqual(self.said, "make_batch: d.pdf: fields.csv has no line of it, and its fields are empty\n")

    def test_the_same_folder_makes_the_same_batch(self):
        shutil.copy(LETTER, self.path("b.tif"))
        self.page("a.pdf")
        first = self.make(name="ONE").bytes()
        os.rename(os.path.join(self.room, "ONE"), os.path.join(self.room, "KEPT"))
        self.assertEqual(self.make("--jobs", "1", name="ONE").bytes(), first)

    def test_more_than_a_thousand_images(self):
        blank = sh(["pbmmake", "-white", "8", "8"])
        self.put("../page.tif", sh(["pamtotiff", "-g4"], input=blank))
        page = os.path.join(self.room, "page.tif")
        sh(["tiffcp", *[page] * 1001, self.path("a.tif")])
        batch = self.make()
        self.assertEqual(batch.images[1000][2], "IMAGES\\0002\\OUT-0001001.TIF")


class Refusals(Case):
    """Each says which file and why, and leaves nothing."""

    def page(self, name):
        self.put(name, pdf_of([text_at(100, 700, "page")]))

    def test_no_folder(self):
        os.rmdir(self.folder)
        self.refused("/in: there is no such folder")

    def test_nothing_in_it(self):
        self.refused("/in: there is no PDF, TIFF, PNG or JPEG file in it")

    def test_all_files_at_once(self):
        self.page("good.pdf")
        self.put("empty.pdf", "")
        self.put("sub/letter.docx", b"PK\x03\x04..")
        self.put("sub/photo.jpg", b"\xff\xd8\xff..")
        self.put("text.tif", "no picture")
        self.put("a.heic", b"\0\0\0\x18ftypheic\0\0\0\0")
        self.put("a.gif", b"GIF89a..")
        self.put("mail.eml", "Received: from a\n")
        self.put("a®b.pdf", "%PDF-1.4")
        os.symlink(self.room, self.path("link"))
        self.put("locked.pdf", pdf_of([text_at(100, 700, "page")])[:-200])
        self.put("inside.pdf", pdf_of([text_at(100, 700, "page") + "(unended"]))
        self.put("fields.csv", "FILE,A\nGOOD.pdf,x\nnone.pdf,y\ngood.pdf\n")
        self.refused("empty.pdf: the file is empty", "sub/letter.docx: .* print it to a PDF", "sub/photo.jpg: the picture is damaged",
                     "a.heic: .*heif-convert makes a JPEG of it", "a.gif: .*makes a PNG of it", "mail.eml: a message",
                     "text.tif: neither a PDF nor a TIFF, PNG or JPEG picture", "its name has a control character, þ or ®", "link: a link",
                     "locked.pdf: the PDF was cut off: it has no end, pdfinfo says: .*; have it sent once more",
                     "inside.pdf: the PDF is damaged, pdfto.* says: Syntax Error", "line 4: 1 values under 2 columns",
                     "line 2: the folder has no file GOOD.pdf; it has good.pdf: capitals and small letters differ",
                     "line 3: the folder has no file none.pdf\n")

    def test_many_of_a_kind_are_counted_last(self):
        for at in range(12):
            self.put(f"{at}.docx", b"PK\x03\x04..")
        self.put("x.pdf", "")
        self.put("fields.csv", "FILE,A\n" + "".join(f"none{at}.pdf,x\n" for at in range(20)))
        ran = self.call()
        said = [line.removeprefix("make_batch: ") for line in ran.stderr.splitlines()]
        office = "a ZIP file or an office document: unpack it, or print it to a PDF"
        self.assertEqual(said[:5], ["x.pdf: the file is empty", *(f"{at}.docx: {office}" for at in range(3)), ".. and 9 more likewise, 12 in all"])
        self.assertEqual(said[5:], [*(f"fields.csv: line {at + 2}: the folder has no file none{at}.pdf" for at in range(3)),
                                    ".. and 17 more likewise, 20 in all", "no batch was made"])

    def test_a_name_that_is_not_utf_8(self):
        self.page("good.pdf")
        shutil.copy(self.path("good.pdf"), os.fsencode(self.folder) + b"/a\xff.pdf")
        self.refused("its name isn't UTF-8")

    def test_damaged_pdfs(self):
        whole = pdf_of([text_at(100, 700, "page")])
        self.put("cut.pdf", whole[:300])
        self.put("head.pdf", "%PDF-1.4\n")
        self.put("broken.pdf", whole.replace(b"/Contents 4 0 R", b"/Contents 9 0 R").replace(b"endstream", b"endstrea "))
        self.refused("cut.pdf: ", "head.pdf: ")

    def test_a_damaged_stream(self):
        drawn = text_at(100, 700, "page") + "(unended"
        self.put("a.pdf", pdf_of([drawn]))
        self.refused("a.pdf: the PDF is damaged, pdfto(ppm|text) says: Syntax Error", options=["--ocr", "none"])
        self.assertEqual(self.make("--as-shown").text(0), "page")

    @has("qpdf")
    def test_a_pdf_with_a_password(self):
        self.page("../plain.pdf")
        plain = os.path.join(self.room, "plain.pdf")
        sh(["qpdf", "--encrypt", "user", "owner", "256", "--", plain, self.path("locked.pdf")])
        told = "locked.pdf: the PDF is encrypted, and it wants a password: give it by --password; .* qpdf --decrypt --password=WORD"
        self.refused(told)
        self.refused("locked.pdf: the PDF is encrypted, and none of the passwords opens it", options=["--password", "x"])
        for at, word in enumerate(("user", "owner")):
            self.assertEqual(self.make("--password", "x", "--password", word, name=f"OUT{at}").text(0), "page")
        sh(["qpdf", "--encrypt", "", "owner", "256", "--print=none", "--", plain, self.path("locked.pdf")])
        self.assertEqual(self.make().text(0), "page")

    def test_damaged_scans(self):
        with open(LETTER, "rb") as file:
            letter = file.read()
        self.put("cut.tif", letter[:20_000])
        self.put("inside.tif", letter[:15_000] + bytes(200) + letter[15_200:])
        self.put("head.tif", letter[:8])
        self.refused("cut.tif: ", "head.tif: ")
        os.remove(self.path("cut.tif"))
        os.remove(self.path("head.tif"))
        self.refused("inside.tif: the TIFF is damaged, tifftopnm says: .*")

    def test_a_page_that_is_too_large(self):
        self.put("a.pdf", pdf_of([text_at(100, 700, "page")]).replace(b"612 792", b"9999 99"))
        self.refused("a.pdf: page 1 would have 41663 by 413 pixels, and at most 20000 a side")

    def test_more_than_a_matter_takes(self):
        self.put("a.pdf", pdf_of([text_at(100, 700, "page")] * 5942))
        why = "the batch: 5942 pages have 200007720000 pixels, and a matter takes 200000000000: take a lower --dpi"
        self.refused(why, options=("--dpi", "600"))

    def test_fields(self):
        self.page("a.pdf")
        for told, why in {
            "": "it has no line of names",
            "FILE,A\nb.pdf,x\n": "line 2: the folder has no file b.pdf",
            "FILE,A\nA.PDF,x\n": "line 2: the folder has no file A.PDF; it has a.pdf: capitals and small letters differ",
            "FILE,A\na.pdf,x\n./a.pdf,y\n": "line 3: a.pdf had a line before",
            "FILE,A\na.pdf\n": "line 2: 1 values under 2 columns",
            "FILE,A,A\na.pdf,x,y\n": "column 3: A is there before",
            "FILE,\na.pdf,x\n": "the name of column 2 is empty",
            "FILE,BEGDOC\na.pdf,x\n": "column 2: BEGDOC is a column that the batch has of itself",
            "FILE,A\na.pdf,Acme®\n": "line 2, A: it has ®, which stands for a newline",
            "FILE,A\na.pdf,þ\n": "line 2, A: it has þ",
            'FILE,A\na.pdf,"x\n': "line 2: unexpected end of data",
            "FILE," + ",".join(f"F{at}" for at in range(64)) + "\n": "it has 64 fields, and a matter takes 64",
        }.items():
            self.put("fields.csv", told)
            self.refused(f"fields.csv: {re.escape(why)}")
        self.put("fields.csv", b"FILE,A\na.pdf,\xe9\n")
        self.refused("fields.csv: it isn't UTF-8")

    def test_families_by_no_column(self):
        self.page("a.pdf")
        self.refused("fields.csv: --families MAIL wants a column of this name; there is no such file", options=["--families", "MAIL"])
        self.put("fields.csv", "FILE,A,B\na.pdf,x,y\n")
        self.refused("fields.csv: --families MAIL wants a column of this name; its columns are A, B", options=["--families", "MAIL"])

    def test_two_files_of_one_name(self):
        self.page("M\u00fcller.pdf")
        self.page("Mu\u0308ller.pdf")
        self.refused("M\u00fcller.pdf: two files have this name")

    def test_a_batch_that_is_there(self):
        self.page("a.pdf")
        os.mkdir(os.path.join(self.room, "OUT"))
        self.refused("OUT: it is there already")

    def test_no_room_for_it(self):
        self.page("a.pdf")
        self.refused("none: No such file or directory", name="none/OUT")

    def test_a_language_that_is_not_here(self):
        shutil.copy(LETTER, self.path("a.tif"))
        self.refused("tesseract: it can't read the language xyz: apt install tesseract-ocr-xyz", options=["--language", "eng+xyz"])

    def test_a_program_that_is_not_here(self):
        self.page("a.pdf")
        ran = subprocess.run([sys.executable, MAKE, self.folder, os.path.join(self.room, "OUT")], capture_output=True, text=True,
                             env={"PATH": "/nowhere"}, check=False)
        self.assertEqual(ran.returncode, 1)
        self.assertRegex(ran.stderr, "pdfinfo.*: needed to read them, and not here: apt install libtiff-tools netpbm poppler-utils")

    def test_words_that_are_no_command_line(self):
        for options, name in (([], "a b"), ([], "x" * 33), (["--dpi", "5"], "OUT"), (["--prefix", "a,b"], "OUT"), (["--first", "x"], "OUT")):
            self.assertEqual(self.call(*options, name=name).returncode, 2)

    def begun(self, jobs, **more):
        """The tool at work over 20 letters, once it has begun to write."""
        for at in range(20):
            shutil.copy(LETTER, self.path(f"{at}.tif"))
        # where the tests run in the background of a shell, SIGINT is ignored by what they start
        running = subprocess.Popen([MAKE, self.folder, os.path.join(self.room, "OUT"), "--jobs", jobs], stderr=subprocess.PIPE,
                                   preexec_fn=lambda: signal.signal(signal.SIGINT, signal.SIG_DFL), **more)
        end = time.monotonic() + 60
        while not glob.glob(os.path.join(self.room, ".OUT.*", "OUT", "*")) and running.poll() is None and time.monotonic() < end:
            time.sleep(0.05)
        return running

    def still_run(self):
        """The processes whose command line names this test's room, or whose parent is gone and that run tesseract for it."""
        found = []
        for path in glob.glob("/proc/[0-9]*"):
            try:
                with open(f"{path}/environ", "rb") as file:
                    if f"ROOM={self.room}".encode() in file.read():
                        found.append(path)
            except OSError:
                pass
        return found

    def test_ended_while_it_works(self):
        for number, jobs in ((signal.SIGTERM, "2"), (signal.SIGINT, "2"), (signal.SIGHUP, "1")):
            running = self.begun(jobs, env={**os.environ, "ROOM": self.room})
            self.assertGreater(len(self.still_run()), 1)
            running.send_signal(number)
            running.communicate(timeout=60)
            self.assertEqual(running.returncode, 128 + number)
            self.assertEqual(os.listdir(self.room), ["in"])
            self.assertEqual(self.still_run(), [])

    def test_killed_while_it_works(self):
        """Nothing can be taken away then, but nothing runs on."""
        running = self.begun("2", env={**os.environ, "ROOM": self.room})
        running.kill()
        running.communicate(timeout=60)
        end = time.monotonic() + 30
        while self.still_run() and time.monotonic() < end:
            time.sleep(0.1)
        self.assertEqual(self.still_run(), [])

    def test_time_left_is_told_at_a_terminal(self):
        for at in range(4):
            self.page(f"{at}.pdf")
        terminal, inside = os.openpty()
        subprocess.run([MAKE, self.folder, os.path.join(self.room, "OUT"), "--dpi", "72", "--jobs", "1"], stderr=inside,
                       stdout=subprocess.DEVNULL, check=True)
        os.close(inside)
        said = os.read(terminal, 65536).decode()
        os.close(terminal)
        self.assertRegex(said, r"page 4 of 4, about 0 s left")


class Limits(unittest.TestCase):
    """The limits are the program's."""

    def test_same_numbers(self):
        sys.path.insert(0, os.path.join(TOP, "tools"))
        from batch import limits

        for name, file in {
            "MOST_DOCUMENTS": ("bp_matter/src/limits.rt", "MAX_DOCUMENTS"),
            "MOST_PAGES": ("bp_matter/src/limits.rt", "MAX_PAGES"),
            "MOST_PIXELS_IN_ALL": ("bp_matter/src/limits.rt", "MAX_PIXELS"),
            "MOST_FIELDS": ("bp_matter/src/limits.rt", "MAX_FIELDS"),
            "LONGEST_FILE": ("bp_import/src/files.rt", "FILE_LIMIT"),
            "LONGEST_COLUMN": ("bp_import/src/columns.rt", "MAX_COLUMN"),
        }.items():
            with open(os.path.join(TOP, "crates", file[0]), encoding="utf-8") as source:
                found = re.search(rf"{file[1]}: \w+ = ([0-9_]+);", source.read())
            self.assertEqual(getattr(limits, name), int(found[1]), name)


class Told(unittest.TextTestResult):
    """Says at the end which tests were skipped, and why."""

    def printErrors(self):
        super().printErrors()
        for test, why in self.skipped:
            self.stream.writeln(f"make_batch.py: not tried: {test.id().split('.', 1)[1]}: {why}")


def main():
    missing = sorted({package for tool, package in NEEDED.items() if not shutil.which(tool)})
    if missing:
        print(f"make_batch.py: nothing is tried: not here: {', '.join(missing)}")
        return
    if not PROGRAM:
        print("make_batch.py: the program is not built here, and takes no batch in")
    unittest.main(testRunner=unittest.TextTestRunner(resultclass=Told))


main()
