#!/usr/bin/env python3
"""Tries tools/check_report. Its first fault is what `tivrenan check` prints, over damaged volumes that trials/fuzz_check.py makes by a seed,
with the built program, or, where it isn't built, with what the model there says; all faults are read, and none of the reports fails. Over
the habits of trials/checked_volumes.py it says what is wrong and how to mend it. What no rule forbids is seen, and what nobody looks at
is said. The page is HTML without a script, whose tags are closed.

    check_report.py [COUNT SEED]     so many damaged volumes, 100 where none is said, behind the other tests
"""
import collections
import html.parser
import os
import random
import shutil
import subprocess
import sys
import tempfile
import unittest

sys.dont_write_bytecode = True
HERE = os.path.dirname(os.path.abspath(__file__))
TOP = os.path.dirname(os.path.dirname(HERE))
for _folder in (HERE, os.path.join(TOP, "trials"), os.path.join(TOP, "tools")):
    sys.path.insert(0, _folder)
import check_model  # noqa: E402
import checked_volumes  # noqa: E402
import fuzz_batch  # noqa: E402
import fuzz_check  # noqa: E402
import matter_day  # noqa: E402
from volumes import checks, looks, report  # noqa: E402
from volumes.folder import read_file  # noqa: E402

REPORT = os.path.join(TOP, "tools", "check_report")
PROGRAM = matter_day.built()
COUNT, SEED = (int(word) for word in (sys.argv[1:3] if len(sys.argv) == 3 else (100, 1)))


class Closed(html.parser.HTMLParser):
    """A page whose tags are closed in turn."""

    def __init__(self):
        super().__init__()
        self.open, self.tags = [], set()

    def handle_starttag(self, tag, attrs):
        self.tags.add(tag)
        if tag != "meta":
            self.open.append(tag)

    def handle_endtag(self, tag):
        assert self.open.pop() == tag, tag


def is_closed(page):
    parser = Closed()
    parser.feed(page)
    assert not parser.open and "script" not in parser.tags, parser.open


class Case(unittest.TestCase):
    def setUp(self):
        self.room = tempfile.mkdtemp(prefix="check_report_test.")
        self.addCleanup(shutil.rmtree, self.room)

    def put(self, files):
        fuzz_check.write_files(self.room, files)

    def report(self, words, status):
        ran = subprocess.run([REPORT, *words, "--page", "page.html"], cwd=self.room, capture_output=True, text=True, timeout=300, check=False)
        self.assertEqual((ran.returncode, ran.stderr), (status, ""))
        with open(os.path.join(self.room, "page.html"), encoding="utf-8") as file:
            is_closed(file.read())
        return ran.stdout


class Damaged(Case):
    def test_the_first_fault_is_that_of_a_check(self):
        draw, outcomes, faults = random.Random(SEED), collections.Counter(), 0
        while sum(outcomes.values()) < COUNT:
            volume, right = fuzz_check.a_right_one(draw)
            for made in (right, *(fuzz_check.some_case(draw, volume, True) for _ in range(fuzz_check.CHANGES))):
                words = [word.replace("\0", "") for word in made.words]
                if all(word and not word.startswith("-") for word in words):  # else it is a faulty command line
                    due, told = self.compared(made.files, words)
                    outcomes[" ".join(due.split(" ")[:2]) if due.startswith("refused") else due.split(" ")[0]] += 1
                    faults += len(told.faults)
        print(f"{sum(outcomes.values())} volumes: the first fault is {'the program' if PROGRAM else 'the model'}'s; {faults} faults in all;",
              ", ".join(f"{what} {count}" for what, count in sorted(outcomes.items())))

    def compared(self, files, words):
        """What a check says of these files, and the report, which says the same of its first fault."""
        shutil.rmtree(self.room)
        os.mkdir(self.room)
        self.put(files)
        due, told = self.checked(words), self.reported(words)
        self.assertEqual(told.says(), due, words)
        return due, told

    def checked(self, words):
        if PROGRAM is None:
            try:
                return check_model.told(fuzz_batch.read_below(self.room)[0], *words)
            except fuzz_batch.Fault:
                return "source fault"
        ran = subprocess.run([PROGRAM, "check", *words], cwd=self.room, capture_output=True, timeout=60, check=False)
        return ran.stdout.decode().rstrip("\n")

    def reported(self, words):
        """The report as the program makes it, text and page made too."""
        read = lambda path, which: read_file(self.room, path, which)  # noqa: E731
        check = checks.Check(read, *words)
        faults, volume = list(check.faults()), check.volume
        counts = (volume.records, len(volume.lines), len(volume.listed or []))
        told = report.Report(words, faults, looks.looks_of(check, self.room), counts)
        report.text_of(told)
        is_closed(report.page_of(told, "now"))
        return told


HABITS = {
    "WindowsPage": "in the code page of Windows",
    "PipesAndCarets": "written with pipes and carets",
    "NewlineInValue": "a value of the DAT has a line's end in it",
    "OtherNames": "BEGDOC and ENDDOC have other names",
    "HeadedOpt": "the OPT has a line of names",
    "Lfp": r"an LFP \(IPRO\)",
    "Drives": "a path has a drive",
    "FromTheRoot": r"a path begins with / or \\",
    "FromTheVolume": "a path begins at another folder",
    "Suffixes": "the text before the number changes",
    "Letters": "an image id has no number at its end",
    "Skips": "numbers are left out",
    "Grows": "the number has another count of digits",
    "Natives": "records of the DAT have no document in the OPT",
    "OnePageCounts": "a line that begins no document has a count of pages",
    "PaddedPageCount": "PAGECOUNT isn't the document's count of pages",
    "Jpeg": "an image is a JPEG",
    "Lzw": "compressed in another way than Group 4",
    "MultiPage": "an image's file has several pages",
    "Capitals": r"digests stand in capitals.*\n.*ToLower",
    "Md5": "the manifest's digests are MD5",
    "Binary": r"a \* stands before the path",
    "Unended": "the manifest's last line has no end",
    "CarriageReturns": r"the manifest's lines end with CR LF.*\n.*sed -i",
    "ListedInside": "the manifest's paths begin at another folder",
    "ImagesAlone": "a file isn't in the manifest",
}


class Habits(Case):
    def test_each_is_told_with_what_to_do(self):
        kinds = [*checked_volumes.RIGHT, *checked_volumes.REFUSED]
        self.assertLessEqual(set(HABITS), {kind.__name__ for kind in kinds})
        for kind in kinds:
            with self.subTest(kind.__name__):
                shutil.rmtree(self.room)
                os.mkdir(self.room)
                volume = kind()
                self.put(volume.files())
                told = self.report(volume.words(), int(kind.due.startswith("refused")))
                self.assertIn(f"tivrenan check: {kind.due}\n", told)
                self.assertRegex(told, "(?i)" + HABITS.get(kind.__name__, "No rule is broken|to be|one|Keep"))

    def test_all_faults_of_a_volume_stand_in_one_report(self):
        """A DAT in UTF-16 with other names, a drive in each path, LZW, digests in capitals, a file that isn't there: all at once."""
        volume = checked_volumes.Lzw()
        volume.named = lambda path: "D:\\" + path.replace("/", "\\")
        files = volume.files()
        dat, opt, manifest = volume.words()
        files[dat] = files[dat].decode().replace("BEGDOC", "BegBates").encode("utf-16")
        files[opt] = files[opt].replace(b"D:\\PROD01\\IMAGES\\001\\XYZ_000101.tif", b"PROD01\\images\\001\\xyz_000101.tif")
        files[manifest] = b"".join(line[:64].upper() + line[64:] for line in files[manifest].splitlines(keepends=True))
        del files["PROD01/IMAGES/001/XYZ_000104.tif"]
        self.put(files)
        told = self.report(volume.words(), 1)
        self.assertIn("tivrenan check: refused 51 DatEncoding 0 0 0\n", told)
        for why in ("The DAT is UTF-16", "Digests stand in capitals", "BEGDOC and ENDDOC have other names", "A path has a drive",
                    "A path has other capitals than the file", "compressed in another way than Group 4", "A file that the manifest lists isn't there", "A file has another digest"):
            self.assertIn(why, told)
        self.assertIn("due:   BEGDOC in place of BegBates", told)

    def test_lists_in_utf_16(self):
        """An OPT and a manifest as PowerShell writes them."""
        volume = checked_volumes.ByCsv()
        files = volume.files()
        _, opt, manifest = volume.words()
        files[manifest] = files[manifest].decode().encode("utf-16")
        self.put(files)
        told = self.report(volume.words(), 1)
        self.assertIn("tivrenan check: refused 115 ManifestShape 1 0 0\n1 fault of 1 kind;", told)
        self.assertIn("UTF-16, as PowerShell's > writes it", told)
        files[opt] = files[opt].decode().encode("utf-16")
        self.put(files)
        told = self.report(volume.words()[:2], 1)
        self.assertIn("tivrenan check: refused 53 OptShape 1 0 0\n1 fault of 1 kind; 3 records, 6 images", told)
        self.assertIn("The OPT is UTF-16", told)

    def test_control_characters_stay_in_the_file(self):
        volume = checked_volumes.ByCsv()
        files = volume.files()
        _, opt, _ = volume.words()
        files[opt] = files[opt].replace(b"XYZ_000101,", b"XYZ_\x1b[31m\xc2\x9b101,")
        self.put(files)
        told = self.report(volume.words(), 1)
        self.assertIn("XYZ_\u241b[31m\ufffd101", told)
        self.assertNotIn("\x1b", told)


class Families(checked_volumes.Volume):
    """The second document's range ends nowhere."""
    columns = ["BEGDOC", "ENDDOC", "BEGATTACH", "ENDATTACH", "PAGECOUNT", "TEXTPATH"]

    def record(self, first, count):
        record = super().record(first, count)
        return {**record, "BEGATTACH": record["BEGDOC"], "ENDATTACH": "XYZ_000999" if first == 2 else record["ENDDOC"]}


class Looked(Case):
    """What no rule forbids."""

    def test_attachments_texts_and_unlisted_files(self):
        volume = Families()
        files = volume.files()
        files["PROD01/TEXT/001/XYZ_000102.txt"] = "words".encode("utf-16")
        files["PROD01/TEXT/001/XYZ_000103.txt"] = b""
        files["PROD01/IMAGES/old.tif"] = b"x"
        files["PROD01/images/OLD.tif"] = b"x"
        self.put(files)
        told = self.report(volume.words()[:2], 0)
        for line in ("record 2, XYZ_000102: its family ends at XYZ_000999, where no document does", "PROD01/TEXT/001/XYZ_000102.txt: UTF-16",
                     "texts without a word: 1", "   - PROD01/IMAGES/old.tif", "names differ in capitals alone: 2", "no manifest was named"):
            self.assertIn(line, told)

    def test_what_is_not_looked_at_is_said(self):
        volume = checked_volumes.ByCsv()
        self.put(volume.files())
        told = self.report(volume.words(), 0)
        self.assertIn("Not looked at:\n- whether texts are the words of their images\n", told)
        self.assertNotIn("Also seen", told)


def setUpModule():
    missing = [tool for tool in ("pnmtotiff", "tiffcp") if not shutil.which(tool)]
    if missing:
        print(f"check_report.py: NOT TRIED: {', '.join(missing)} isn't here (Debian's netpbm and libtiff-tools)")
        raise unittest.SkipTest("programs are missing")
    if PROGRAM is None:
        print("check_report.py: the program isn't built: the first fault NOT TRIED against it, but against the model")


if __name__ == "__main__":
    unittest.main(argv=sys.argv[:1])
