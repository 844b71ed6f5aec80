#!/usr/bin/env python3
"""Tries tools/take_volume and tools/volume_as over volumes with the habits of other producers (vendors.py): each becomes a batch, which
is read by python's csv and netpbm and compared with what was put in; and a copy in the profile, of which a check is to say what is due.
Where the program is built each goes the whole round: in, import, produce, check, out as DAT, LFP, CSV and PDF, which are opened by
tiffinfo, pdfimages and pdftotext: texts are equal, and images pixel by pixel.

Needs Debian's ghostscript, imagemagick, img2pdf, libtiff-tools, netpbm, poppler-utils, python3-numpy and tesseract-ocr, and says which
isn't there.
Words: names of tests (`take_volume.py Rounds.test_lzw`), as unittest takes them; none: all.
"""
import csv
import os
import re
import shutil
import subprocess
import sys
import tempfile
import unittest

sys.dont_write_bytecode = True
HERE = os.path.dirname(os.path.abspath(__file__))
TOP = os.path.dirname(os.path.dirname(HERE))
sys.path.insert(0, HERE)
import matter_day  # noqa: E402
import vendors  # noqa: E402
from vendors import sh  # noqa: E402

TAKE, AS = (os.path.join(TOP, "tools", name) for name in ("take_volume", "volume_as"))
MODEL = [sys.executable, os.path.join(TOP, "trials", "check_model.py"), "check", "."]
NEEDED = {"gs": "ghostscript", "identify": "imagemagick", "img2pdf": "img2pdf", "tiffset": "libtiff-tools", "pamtotiff": "netpbm",
          "pdfimages": "poppler-utils", "tesseract": "tesseract-ocr", "f2py3": "python3-numpy"}
BAND = 32
os.environ["OMP_THREAD_LIMIT"] = "1"
WHY_NOT = matter_day.why_not()


def read_dat(path):
    with open(path, encoding="utf-8-sig", newline="") as file:
        return list(csv.DictReader(file, delimiter="\x14", quotechar="þ"))


def read_opt(path):
    with open(path, encoding="utf-8", newline="") as file:
        return list(csv.reader(file))


def rows_of(pbm, count=None):
    """The first rows of a raw PBM, or all, each a number, without the bits past its width."""
    head = re.match(rb"P4\s+(?:#.*\n)*(\d+)\s+(\d+)\s", pbm)
    width, height = int(head[1]), int(head[2])
    size = (width + 7) // 8
    return [int.from_bytes(pbm[at : at + size], "big") >> -width % 8 for at in range(head.end(), head.end() + size * (count or height), size)]


class Rounds(unittest.TestCase):
    """A test for each habit is put in below."""

    def setUp(self):
        self.room = tempfile.mkdtemp(prefix="take_volume_test.")
        self.addCleanup(shutil.rmtree, self.room)

    def around(self, kind):
        volume = kind()
        folder = volume.write(self.room)
        if hasattr(volume, "mapped"):
            with open(os.path.join(self.room, "map.csv"), "w", encoding="utf-8") as file:
                file.write(volume.mapped)
        batch = self.batch_of(volume, folder)
        self.copy_of(volume, folder)
        if WHY_NOT is None:
            self.goes_out(volume, batch)

    # ---- in

    def take(self, folder, name, *options):
        return subprocess.run([TAKE, folder, name, "--jobs", "4", *options], cwd=self.room, capture_output=True, text=True, timeout=900, check=False)

    def batch_of(self, volume, folder):
        ran = self.take(folder, "IN", "--words", volume.words, *volume.options)
        self.assertEqual(ran.returncode, 0, ran.stderr)
        batch = os.path.join(self.room, "IN")
        records, images = read_dat(os.path.join(batch, "load.dat")), read_opt(os.path.join(batch, "load.opt"))
        self.assertEqual([image[0] for image in images], volume.ids())
        self.assertEqual([record["BEGDOC"] for record in records], [volume.label(pages[0]) for pages in volume.documents])
        for name in volume.fields:
            self.assertEqual([record[name].replace("®", "\n") for record in records], volume.fields[name][: len(records)])
        for name in getattr(volume, "kept", ()):
            self.assertIn(name, records[0])
        self.assertEqual([record["BEGATTACH"] for record in records], [volume.label(volume.documents[first][0]) for first, last in volume.families
                                                                       for _ in range(first, last + 1)])
        for number, image in enumerate(images):
            path = os.path.join(batch, image[2].replace("\\", "/"))
            if volume.is_exact:
                self.assertEqual(sh(["tifftopnm", "-quiet", path]), volume.due_pixels(number), image)
            self.assertIn("CCITT Group 4", sh(["tiffinfo", path]).decode())
        self.words_of(volume, batch)
        return batch

    def words_of(self, volume, batch):
        """The words of each page; those of a text without boxes lie over all of its ink."""
        with open(os.path.join(batch, "words.csv"), encoding="utf-8", newline="") as file:
            words = list(csv.reader(file))
        for number, label in enumerate(volume.ids()):
            found = [word[6] for word in words if word[0] == label]
            due = volume.text_of([number]).decode("cp1252" if isinstance(volume, vendors.Windows) else "utf-8").replace("\f", "").split()
            if volume.words == "read":
                self.assertGreaterEqual(len(set(found) & set(due)), len(due) - 2, found)
            else:
                self.assertEqual(found, due)

    def copy_of(self, volume, folder):
        """The copy in the profile: what a check says of it."""
        ran = self.take(folder, "COPY", "--as-volume", *volume.options)
        self.assertEqual(ran.returncode, 0, ran.stderr)
        program = matter_day.built()
        words = [program, "check"] if program else MODEL
        told = subprocess.run([*words, "COPY/DATA/COPY.DAT", "COPY/DATA/COPY.OPT", "COPY/MANIFEST.TXT"], cwd=self.room, capture_output=True, text=True, check=False)
        self.assertEqual(told.stdout.strip(), volume.as_volume)
        sh(["sha256sum", "--quiet", "--strict", "-c", "COPY/MANIFEST.TXT"], folder=self.room)

    # ---- out

    def goes_out(self, volume, batch):
        matter = matter_day.Matter(os.path.join(self.room, "matter"))
        documents = matter.begin(batch)
        matter.settle(documents)
        written = matter.produce(documents, fields=("CUSTODIAN",))
        out = os.path.dirname(written)
        sh([AS, "VOL001", "FORMS", "dat", "csv", "lfp", "pdf", "log", "--letters", "utf-16", "--jobs", "4"], folder=out)
        sh(["sha256sum", "--quiet", "--strict", "-c", "FORMS/MANIFEST.TXT"], folder=out)
        came = [sh(["tifftopnm", "-quiet", os.path.join(batch, image[2].replace("\\", "/"))]) for image in read_opt(os.path.join(batch, "load.opt"))]
        records = read_dat(os.path.join(written, "DATA", "VOL001.DAT"))
        self.assertEqual([record["CUSTODIAN"] for record in records], volume.fields["CUSTODIAN"][: len(records)])
        with open(os.path.join(out, "FORMS", "DATA", "VOL001.CSV"), encoding="utf-8-sig", newline="") as file:
            self.assertEqual(list(csv.DictReader(file)), records)
        images = read_opt(os.path.join(written, "DATA", "VOL001.OPT"))
        for number, image in enumerate(images):
            path = os.path.join(out, image[2].replace("\\", "/"))
            due = rows_of(volume.due_pixels(number) if volume.is_exact else came[number])
            self.assertEqual(rows_of(sh(["tifftopnm", "-quiet", path]), len(due)), due)
        for record in records:
            same_as_pdf(self, out, record, images)


def same_as_pdf(test, out, record, images):
    """The PDF of a document has its images, pixel by pixel, and its text, word by word."""
    pdf = os.path.join(out, "FORMS", "PDF", "0001", record["BEGDOC"] + ".PDF")
    with open(os.path.join(out, record["TEXTPATH"].replace("\\", "/")), encoding="utf-8") as file:
        due = file.read()
    told = sh(["pdftotext", "-raw", pdf, "-"]).decode()
    test.assertEqual([page.split() for page in told.split("\f")], [page.split() for page in due.split("\f")])
    with tempfile.TemporaryDirectory() as room:
        sh(["pdfimages", pdf, "page"], folder=room)
        made = sorted(os.listdir(room))
        first = next(at for at, image in enumerate(images) if image[0] == record["BEGDOC"])
        test.assertEqual(len(made), int(record["PAGECOUNT"]))
        for name, image in zip(made, images[first:]):
            with open(os.path.join(room, name), "rb") as file:
                due = sh(["tifftopnm", "-quiet", os.path.join(out, image[2].replace("\\", "/"))])
                test.assertTrue(rows_of(file.read()) == rows_of(due), image[0])
        sh(["pdftoppm", "-mono", "-r", "50", pdf, "shown"], folder=room)
    if shutil.which("qpdf"):
        sh(["qpdf", "--check", pdf])


def put_in(kind):
    def test(self):
        self.around(kind)

    test.__doc__ = kind.__doc__
    name = re.sub("(?<!^)(?=[A-Z])", "_", kind.__name__).lower()
    setattr(Rounds, f"test_{name}", test)


for _kind in vendors.ALL:
    put_in(_kind)


class Refused(unittest.TestCase):
    """What isn't taken is named with why, and nothing is written."""

    def setUp(self):
        self.room = tempfile.mkdtemp(prefix="take_volume_test.")
        self.addCleanup(shutil.rmtree, self.room)

    def refused(self, why, change, *options):
        volume = vendors.Plain()
        folder = volume.write(self.room)
        change(folder)
        before = sorted(os.listdir(self.room))
        ran = subprocess.run([TAKE, folder, "IN", "--words", "none", *options], cwd=self.room, capture_output=True, text=True, check=False)
        self.assertEqual(ran.returncode, 1, ran.stdout)
        self.assertRegex(ran.stderr, why)
        self.assertEqual(sorted(os.listdir(self.room)), before)

    def test_an_image_is_missing(self):
        self.refused("ACME000002.tif: there is no such file", lambda folder: os.remove(os.path.join(folder, "IMAGES", "001", "ACME000002.tif")))

    def test_an_image_is_cut(self):
        def cut(folder):
            os.truncate(os.path.join(folder, "IMAGES", "001", "ACME000002.tif"), 200)

        self.refused("ACME000002.tif: ", cut)

    def test_no_dat(self):
        self.refused("no file is a DAT", lambda folder: os.remove(os.path.join(folder, "DATA", "acme.dat")))

    def test_two_dats(self):
        self.refused("several files may be the DAT", lambda folder: shutil.copy(os.path.join(folder, "DATA", "acme.dat"), os.path.join(folder, "b.dat")))

    def test_a_bad_map(self):
        with open(os.path.join(self.room, "map.csv"), "w", encoding="utf-8") as file:
            file.write("A,B\n")
        self.refused("line 1: it is to be THEIR NAME,OUR NAME", lambda folder: None, "--map", "map.csv")


def setUpModule():
    missing = sorted({package for tool, package in NEEDED.items() if not shutil.which(tool)})
    if missing:
        print(f"take_volume.py: NOT TRIED: {', '.join(missing)} isn't installed (Debian's packages of these names)")
        raise unittest.SkipTest("programs are missing")
    if WHY_NOT:
        print(f"take_volume.py: the way through the program NOT TRIED: {WHY_NOT}")


if __name__ == "__main__":
    unittest.main()
