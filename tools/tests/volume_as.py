#!/usr/bin/env python3
"""Tries tools/volume_as over a volume with redactions, a withheld document and texts of many letters: forms are read again by python's
csv, poppler, qpdf and sha256sum. No word that a box touches is in a PDF: not by pdftotext, and in no stream, as it stands, in hex, or
once a stream is read as its filter says. A volume that breaks a rule gives nothing.

Needs the built program, which makes the volume, and Debian's netpbm, libtiff-tools, poppler-utils and qpdf; says which isn't there.
"""
import csv
import os
import re
import shutil
import subprocess
import sys
import tempfile
import unittest
import zlib

sys.dont_write_bytecode = True
HERE = os.path.dirname(os.path.abspath(__file__))
TOP = os.path.dirname(os.path.dirname(HERE))
sys.path.insert(0, HERE)
sys.path.insert(0, os.path.join(TOP, "tools"))
import matter_day  # noqa: E402
from take_volume import rows_of, same_as_pdf  # noqa: E402
from volumes import page_files, pdf_pages  # noqa: E402

AS = os.path.join(TOP, "tools", "volume_as")
BATCH = os.path.join(TOP, "examples", "CVI_001")
NEEDED = {"tifftopnm": "netpbm", "tiffcp": "libtiff-tools", "pdfimages": "poppler-utils", "pdftotext": "poppler-utils", "qpdf": "qpdf"}
# document, page, left, top, width, height
BOXES = [(5, 1, 1420, 460, 680, 60), (5, 1, 325, 950, 1900, 180), (10, 2, 430, 662, 1690, 670)]


def sh(words, folder=None):
    return subprocess.run(words, cwd=folder, stdout=subprocess.PIPE, stderr=subprocess.PIPE, check=True).stdout


def words_of_batch():
    """Image id, box and text of each word."""
    with open(os.path.join(BATCH, "words.csv"), encoding="utf-8", newline="") as file:
        return [(row[0], tuple(map(int, row[2:6])), row[6]) for row in csv.reader(file)]


def touched():
    """The words that a box touches, and those that stand elsewhere; pages of the example are numbered through."""
    with open(os.path.join(BATCH, "load.opt"), encoding="utf-8", newline="") as file:
        rows = list(csv.reader(file))
    starts = [at for at, row in enumerate(rows) if row[3] == "Y"]
    boxes = {}
    for doc, page, *box in BOXES:
        boxes.setdefault(rows[starts[doc - 1] + page - 1][0], []).append(box)
    under, over = set(), set()
    for image, (left, top, width, height), text in words_of_batch():
        hit = any(left < box[0] + box[2] and box[0] < left + width and top < box[1] + box[3] and box[1] < top + height for box in boxes.get(image, []))
        (under if hit else over).update(re.findall(r"\w+", text))
    return under, over


class Out(unittest.TestCase):
    """One volume for all tests: the example batch, with boxes on two documents."""

    @classmethod
    def setUpClass(cls):
        cls.room = tempfile.mkdtemp(prefix="volume_as_test.")
        cls.addClassCleanup(shutil.rmtree, cls.room)
        matter = matter_day.Matter(os.path.join(cls.room, "matter"))
        documents = matter.begin(BATCH)
        matter.settle(documents, BOXES)
        cls.volume = matter.produce(documents, fields=("AUTHOR", "TITLE"))
        cls.out = os.path.dirname(cls.volume)
        cls.forms = os.path.join(cls.out, "FORMS")
        sh([AS, "VOL001", "FORMS", "dat", "csv", "lfp", "pdf", "log"], cls.out)

    def records(self):
        with open(os.path.join(self.volume, "DATA", "VOL001.DAT"), encoding="utf-8", newline="") as file:
            return list(csv.DictReader(file, delimiter="\x14", quotechar="þ"))

    def images(self):
        with open(os.path.join(self.volume, "DATA", "VOL001.OPT"), encoding="utf-8", newline="") as file:
            return list(csv.reader(file))

    def pdfs(self):
        for record in self.records():
            yield record, os.path.join(self.forms, "PDF", "0001", record["BEGDOC"] + ".PDF")

    def again(self, *words, status=0):
        """Another run into a folder of its own, which stands there with status 0 alone."""
        shutil.rmtree(os.path.join(self.out, "AGAIN"), ignore_errors=True)
        ran = subprocess.run([AS, "VOL001", "AGAIN", *words], cwd=self.out, capture_output=True, text=True, check=False)
        self.assertEqual(ran.returncode, status, ran.stderr)
        self.assertEqual(os.path.isdir(os.path.join(self.out, "AGAIN")), status == 0)
        return ran.stderr

    def made(self, path):
        with open(os.path.join(self.out, "AGAIN", path), "rb") as file:
            return file.read()

    # ---- PDFs

    def test_a_pdf_has_the_images_and_the_text(self):
        images = self.images()
        for record, _ in self.pdfs():
            same_as_pdf(self, self.out, record, images)

    def test_group_4_codes_stand_there_as_they_are(self):
        images, at = self.images(), 0
        for record, path in self.pdfs():
            with open(path, "rb") as file:
                pdf = file.read()
            for image in images[at : at + int(record["PAGECOUNT"])]:
                with open(os.path.join(self.out, image[2].replace("\\", "/")), "rb") as file:
                    strip = file.read()[198:]
                self.assertIn(strip, pdf)
            at += int(record["PAGECOUNT"])

    def test_no_word_of_a_box_is_in_a_pdf(self):
        under, over = touched()
        alone = {word for word in under - over if len(word) > 3}
        self.assertGreater(len(alone), 10)
        for _, path in self.pdfs():
            told = sh(["pdftotext", path, "-"]).decode()
            with open(path, "rb") as file:
                pdf = file.read()
            self.assertEqual(alone & set(re.findall(r"\w+", f"{told} {drawn(pdf)}")), set())
            read = b"\n".join([pdf, *streams(pdf), sh(["qpdf", "--qdf", "--object-streams=disable", path, "-"])])
            for word in filter(str.isalpha, alone):  # digits stand in a PDF of themselves
                letters = word.encode("utf-16-be")
                self.assertIsNone(re.search(rb"(?<![A-Za-z])" + re.escape(word.encode()) + rb"(?![A-Za-z])", read), word)
                self.assertNotIn(letters, read)
                self.assertNotIn(letters.hex().encode(), read.lower())

    def test_words_that_no_box_touches_are_found(self):
        _, over = touched()
        told = " ".join(sh(["pdftotext", path, "-"]).decode() for _, path in self.pdfs())
        self.assertGreater(len(over & set(re.findall(r"\w+", told))), 0.99 * len(over))

    def test_the_same_volume_makes_the_same_files(self):
        self.again("pdf", "lfp")
        for record, path in self.pdfs():
            with open(path, "rb") as file:
                self.assertEqual(file.read(), self.made(f"PDF/0001/{record['BEGDOC']}.PDF"))

    # ---- load files, log, manifest

    def test_a_dat_of_other_letters_signs_and_names(self):
        with open(os.path.join(self.out, "names.csv"), "w", encoding="utf-8") as file:
            file.write("BEGDOC,Begin Bates\nENDDOC,End Bates\nTEXTPATH,Text Path\n")
        for letters, codec in (("utf-16", "utf-16"), ("windows-1252", "cp1252"), ("utf-8-mark", "utf-8-sig")):
            self.again("dat", "--columns", "names.csv", "--letters", letters, "--signs", "tabs")
            rows = list(csv.DictReader(self.made("DATA/VOL001.DAT").decode(codec).splitlines(), delimiter="\t"))
            self.assertEqual([row["Begin Bates"] for row in rows], [record["BEGDOC"] for record in self.records()])
            self.assertEqual([row["TITLE"] for row in rows], [record["TITLE"].replace("®", " ") for record in self.records()])

    def test_a_name_that_the_dat_hasnt(self):
        with open(os.path.join(self.out, "names.csv"), "w", encoding="utf-8") as file:
            file.write("BEGDOCS,Begin Bates\n")
        self.assertIn("line 1 is to be OUR NAME,THEIR NAME", self.again("dat", "--columns", "names.csv", status=1))

    def test_an_lfp_that_take_volume_reads(self):
        with open(os.path.join(self.forms, "DATA", "VOL001.LFP"), encoding="utf-8") as file:
            lines = file.read().splitlines()
        for line, image in zip(lines, self.images(), strict=True):
            folder, name = image[2].split("\\", 1)[1].rsplit("\\", 1)
            self.assertEqual(line, f"IM,{image[0]},{'D' if image[3] else ''},0,@VOL001;{folder};{name};2,0")

    def test_the_log_to_print(self):
        with open(os.path.join(self.volume, "DATA", "VOL001-LOG.CSV"), encoding="utf-8", newline="") as file:
            rows = list(csv.reader(file))
        with open(os.path.join(self.forms, "DATA", "VOL001-LOG.HTML"), encoding="utf-8") as file:
            page = file.read()
        self.assertEqual(re.findall("<td>(.*?)</td>", page), [value for row in rows[1:] for value in row])
        self.assertEqual(len(rows), 3)

    def test_the_manifest(self):
        sh(["sha256sum", "--quiet", "--strict", "-c", "FORMS/MANIFEST.TXT"], self.out)
        there = sum(len(files) for _, _, files in os.walk(self.forms))
        with open(os.path.join(self.forms, "MANIFEST.TXT"), encoding="utf-8") as file:
            self.assertEqual(len(file.readlines()), there - 1)

    # ---- what gives nothing

    def test_a_volume_that_breaks_a_rule(self):
        broken = os.path.join(self.room, "broken", "VOL001")
        shutil.copytree(self.volume, broken)
        with open(os.path.join(broken, "TEXT", "0001", "P-000001.TXT"), "ab") as file:
            file.write(b"x")
        ran = subprocess.run([AS, broken, "OUT", "pdf"], cwd=self.room, capture_output=True, text=True, check=False)
        self.assertEqual(ran.returncode, 1)
        self.assertIn("check says `refused 116 DigestDiffers", ran.stderr)
        self.assertFalse(os.path.exists(os.path.join(self.room, "OUT")))


class Letters(unittest.TestCase):
    """A PDF's text of letters of many scripts, and pages in the other forms that a check takes."""

    PAGE = page_files.Page(400, 200, [[10, 90]] * 100 + [[k, k + 50] for k in range(100)])

    def pdf(self, data, text, room):
        path = os.path.join(room, "a.pdf")
        with open(path, "wb") as file:
            file.write(pdf_pages.pdf_of("A", [(data, text)]))
        sh(["qpdf", "--check", path])
        return path

    def test_letters(self):
        text = "Straße ÆØÅ\nпривет мир\n日本語 テキスト\nna\u0301ive \U0001f600 ok\n" + "long " * 300
        text += "".join(f"{chr(0x4e00 + k)}{' ' if k % 9 == 8 else ''}" for k in range(600))
        with tempfile.TemporaryDirectory() as room:
            told = sh(["pdftotext", "-raw", self.pdf(self.tiff(), text, room), "-"]).decode()
        self.assertEqual(told.split(), text.split())

    def test_readers_show_the_page_as_it_is(self):
        """ghostscript and mutool paint at the page's own resolution the pixels that libtiff reads."""
        with tempfile.TemporaryDirectory() as room:
            path = self.pdf(self.tiff(), "some words", room)
            with open(os.path.join(room, "in.tif"), "wb") as file:
                file.write(self.tiff())
            due = rows_of(sh(["tifftopnm", "-quiet", "in.tif"], room))
            for words in (["gs", "-q", "-dNOPAUSE", "-dBATCH", "-sDEVICE=pbmraw", "-r200", "-sOutputFile=-", path],
                          ["mutool", "draw", "-q", "-r", "200", "-c", "mono", "-F", "pbm", "-o", "-", path]):
                if shutil.which(words[0]):
                    self.assertTrue(rows_of(sh(words)) == due, words[0])

    def tiff(self):
        import fuzz_pages
        return fuzz_pages.tiff_of(self.PAGE, "g4")

    def test_other_forms_of_pages(self):
        with tempfile.TemporaryDirectory() as room:
            with open(os.path.join(room, "in.tif"), "wb") as file:
                file.write(self.tiff())
            due = sh(["tifftopnm", "-quiet", "in.tif"], room)
            for how in (["-c", "none"], ["-r", "16", "-c", "g4"], ["-f", "lsb2msb", "-c", "g4"], ["-B", "-c", "g4"]):
                sh(["tiffcp", *how, "in.tif", "other.tif"], room)
                with open(os.path.join(room, "other.tif"), "rb") as file:
                    self.pdf(file.read(), "", room)
                sh(["pdfimages", "a.pdf", "page"], room)
                with open(os.path.join(room, "page-000.pbm"), "rb") as file:
                    self.assertEqual(file.read(), due, how)


def streams(pdf):
    """Each stream that zlib reads."""
    for found in re.finditer(rb"stream\r?\n(.*?)endstream", pdf, re.DOTALL):
        try:
            yield zlib.decompress(found[1])
        except zlib.error:
            pass


def drawn(pdf):
    """The text that is drawn, by the codes' own table in the file, which has one font."""
    told = {code: bytes.fromhex(letter.decode()).decode("utf-16-be") for code, letter in re.findall(rb"<([0-9a-f]{2})> <([0-9a-f]{4,})>", pdf)}
    lines = re.findall(rb"<([0-9a-f]+)> Tj", pdf)
    assert pdf.count(b"/Subtype /Type3") == 1
    return "\n".join("".join(told[line[at : at + 2]] for at in range(0, len(line), 2)) for line in lines)


def setUpModule():
    sys.path.insert(0, os.path.join(TOP, "trials"))
    missing = sorted({package for tool, package in NEEDED.items() if not shutil.which(tool)})
    why = f"{', '.join(missing)} isn't installed (Debian's packages of these names)" if missing else matter_day.why_not()
    if why:
        print(f"volume_as.py: NOT TRIED: {why}")
        raise unittest.SkipTest(why)


if __name__ == "__main__":
    unittest.main()
