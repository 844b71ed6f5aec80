#!/usr/bin/env python3
"""Tries tools/matter_report over matters whose rows are made here by docs/FORMATS.md, and over files that it is to refuse; and
where the program is built, over a matter that examples/office.sh left. Looks that nothing beside the page is written.
"""
import os
import re
import shutil
import sqlite3
import struct
import subprocess
import tempfile
import unittest
from html.parser import HTMLParser

HERE = os.path.dirname(os.path.abspath(__file__))
TOP = os.path.dirname(os.path.dirname(HERE))
REPORT = os.path.join(TOP, "tools", "matter_report")
OFFICE = os.path.join(TOP, "examples", "out", "office", "matter.db")
TABLE = "CREATE TABLE kept (kind INTEGER NOT NULL, k1 INTEGER NOT NULL, k2 INTEGER NOT NULL, body BLOB NOT NULL, PRIMARY KEY (kind, k1, k2)) STRICT"

os.umask(0o022)  # others have to read what is made here
AS_NOBODY = ["setpriv", "--reuid=65534", "--regid=65534", "--clear-groups"]


def can_be_nobody():
    """Whether nobody can run Debian's python3 here: root may have it so, but for one that is root in a room of its own alone."""
    words = [*AS_NOBODY, "/usr/bin/python3", "-c", ""]
    return shutil.which("setpriv") is not None and subprocess.run(words, capture_output=True, check=False).returncode == 0


def u8(value):
    return bytes([value])


def u32(*values):
    return b"".join(struct.pack("<I", value) for value in values)


def u64(*values):
    return b"".join(struct.pack("<Q", value) for value in values)


def text(value):
    return u32(len(value.encode())) + value.encode()


def staff(role, name):
    return b"\1" + u8(role) + bytes(32) + text(name)


def document(parent, pages, batch):
    return b"\1" + u32(parent, pages, batch) + text("ID") + u32(1) + text("value")


def call(state, editor, confirmer, responsive, treatment):
    return b"\1" + u8(state) + u32(editor, confirmer) + u8(responsive) + u8(treatment) + text("")


def box(basis):
    return u32(1, 2, 3, 4, 5) + u8(basis)


ENTRY = text("2024-01-01") + text("A") + text("B") + text("C, <d> & e")


def item(number, treatment, first, last):
    boxes = u32(1) + u32(1) + box(0) if treatment == 1 else u32(0)
    entry = u8(1) + ENTRY if treatment else u8(0)
    return u32(number, number) + u8(treatment) + boxes + u32(1) + u32(1) + u8(2) + entry + text("") + u64(first, last)


ITEMS = [item(1, 0, 1, 2), item(2, 2, 3, 3), item(3, 1, 4, 4)]


def production(items, version=2):
    told = text("R-1") + text("VOL001") + text("ABC") + u8(8) + u32(1, 4) + u32(1) + text("AUTHOR")
    return u8(version) + told + u32(len(items)) + b"".join(items)


ROWS = {
    (1, 1, 0): staff(2, "Ng <lead>"), (1, 2, 0): staff(0, "Ellis"), (1, 3, 0): staff(1, "Marlow"),
    (2, 1, 0): b"\1" + text("AUTHOR"), (11, 1, 0): b"\1" + bytes(32) + u32(6, 9) + text("CVI_001"),
    (3, 1, 0): document(1, 2, 1), (3, 2, 0): document(1, 1, 1), (3, 3, 0): document(3, 1, 1),
    (3, 4, 0): document(4, 2, 1), (3, 5, 0): document(5, 1, 1), (3, 6, 0): document(6, 2, 1),
    (4, 1, 1): b"\1pixels", (12, 1, 1): b"\1words",
    (5, 1, 0): call(1, 2, 0, 1, 0), (5, 2, 0): call(2, 2, 3, 1, 2), (5, 3, 0): call(2, 3, 1, 1, 1),
    (5, 4, 0): call(1, 2, 0, 1, 3), (5, 5, 0): call(1, 2, 0, 0, 0),
    (6, 3, 1): b"\1" + box(2), (6, 3, 2): b"\1" + box(0), (7, 3, 1): b"\1" + u8(2), (8, 2, 0): b"\1" + ENTRY,
    (9, 1, 0): b"\1" + u8(8) + u64(5) + text("ABC"),
    (10, 1, 0): production(ITEMS),
}


class Parts(HTMLParser):
    """The cells of each table, the texts of the plots, and what the page asks for or runs."""

    def __init__(self, page):
        super().__init__()
        self.open, self.rows, self.texts, self.outside = [], [], [], []
        self.feed(page)
        self.close()
        assert not self.open, self.open

    def handle_starttag(self, tag, attributes):
        if tag not in ("meta", "rect", "circle"):
            self.open.append(tag)
        if tag == "tr":
            self.rows.append([])
        if tag in ("script", "link", "img", "iframe") or any(name in ("src", "href") for name, _ in attributes):
            self.outside.append(tag)

    def handle_startendtag(self, tag, attributes):
        pass

    def handle_endtag(self, tag):
        assert self.open.pop() == tag, tag

    def handle_data(self, data):
        if self.open and self.open[-1] in ("td", "th"):
            self.rows[-1].append(data)
        if self.open and self.open[-1] == "text":
            self.texts.append(data)


class Case(unittest.TestCase):
    def setUp(self):
        self.room = tempfile.mkdtemp(prefix="matter_report_test.")
        self.addCleanup(shutil.rmtree, self.room)
        self.matter = os.path.join(self.room, "matter.db")

    def make(self, rows, mode="delete"):
        """Makes the matter; its connection."""
        connection = sqlite3.connect(self.matter, isolation_level=None)
        connection.execute(f"PRAGMA journal_mode={mode}")
        connection.execute(TABLE)
        connection.executemany("INSERT INTO kept VALUES (?, ?, ?, ?)", [(*key, body) for key, body in rows.items()])
        return connection

    def files(self):
        """The files beside the page, by other processes: a process that closes a file loses its locks of it."""
        told = subprocess.run("sha256sum *", shell=True, cwd=self.room, capture_output=True, text=True, check=False).stdout
        return {line[66:]: line[:64] for line in told.splitlines()}

    def call(self, *words):
        before = self.files()
        ran = subprocess.run([REPORT, *words], cwd=self.room, capture_output=True, text=True, check=False)
        after = self.files()
        self.page = self.text_of(after.pop("matter_report.html", None))
        before.pop("matter_report.html", None)
        self.assertEqual(before, after)
        return ran

    def text_of(self, there):
        if not there:
            return ""
        with open(os.path.join(self.room, "matter_report.html"), encoding="utf-8") as file:
            return file.read()

    def report(self):
        ran = self.call()
        self.assertEqual((ran.returncode, ran.stdout, ran.stderr), (0, "matter_report.html\n", ""))
        return Parts(self.page)

    def refused(self, why):
        ran = self.call()
        self.assertEqual((ran.returncode, ran.stdout), (1, ""))
        self.assertRegex(ran.stderr, f"^matter_report: matter.db: {why}.*\n$")
        self.assertEqual(self.page, "")


class Reports(Case):
    def test_counts(self):
        self.make(ROWS).close()
        parts = self.report()
        self.assertEqual(parts.outside, [])
        self.assertIn(["2", "Ellis", "Reviewer", "4", "0", "2", "0"], parts.rows)
        self.assertIn(["3", "Marlow", "Second", "1", "1", "0", "1"], parts.rows)
        self.assertIn(["1", "Ng <lead>", "Lead", "0", "0", "0", "1"], parts.rows)
        self.assertIn(["AC, attorney-client", "1", "1", "0"], parts.rows)
        self.assertIn(["WP, work product", "1", "0", "0"], parts.rows)
        self.assertIn(["PI, personal information", "0", "1", "1"], parts.rows)
        self.assertIn(["CVI_001", "6", "9", "4", "67%"], parts.rows)
        self.assertIn(["R-1", "VOL001", "ABC00000001", "ABC00000004", "3", "1", "4"], parts.rows)
        for told in ("confirmed: 2 (33%)", "called, and settled: 2 (33%)", "waits for a second person: 1 (17%)", "not called: 1 (17%)",
                     "Produce: 1 (20%)", "Redact: 1 (20%)", "Withhold AC: 1 (20%)", "Withhold WP: 1 (20%)", "Not responsive: 1 (20%)"):
            self.assertIn(told, parts.texts)
        self.assertIn("3 documents produced (50%), 1 of them withheld, in 1 production.", self.page)
        self.assertIn("Waits for a second person: 4.", self.page)
        self.assertIn("Not called: 6.", self.page)

    def test_a_production_from_before_letters(self):
        self.make({**ROWS, (10, 1, 0): production(ITEMS, 1)}).close()
        self.assertIn(["R-1", "VOL001", "ABC00000001", "ABC00000004", "3", "1", "4"], self.report().rows)

    def test_says_nothing_of_documents(self):
        self.make(ROWS).close()
        self.report()
        for told in ("value", "&lt;d&gt;", "2024-01-01", "pixels", "words"):
            self.assertNotIn(told, re.sub("<style>.*?</style>|no word", "", self.page, flags=re.DOTALL))

    def test_a_matter_that_begins(self):
        self.make({(1, 1, 0): staff(2, "lead")}).close()
        self.report()
        self.assertIn("0 documents on 0 pages came in, in 0 batches.", self.page)

    def test_a_matter_with_a_log(self):
        self.make(ROWS, "wal").close()
        self.assertEqual(os.listdir(self.room), ["matter.db"])
        self.report()
        self.assertEqual(len(Parts(self.page).rows), 13)

    def test_a_command_was_killed(self):
        """What it kept stands in the log beside the file."""
        self.make({(1, 1, 0): staff(2, "lead")}, "wal").close()
        if os.fork() == 0:
            connection = sqlite3.connect(self.matter, isolation_level=None)
            connection.execute("INSERT INTO kept VALUES (1, 2, 0, ?)", (staff(0, "Ellis"),))
            os._exit(0)
        os.wait()
        self.assertTrue(os.path.getsize(f"{self.matter}-wal"))
        self.assertIn(["2", "Ellis", "Reviewer", "0", "0", "0", "0"], self.report().rows)

    def test_a_log_that_keeps_nothing(self):
        """As the program leaves one."""
        self.make(ROWS, "wal").close()
        with open(f"{self.matter}-wal", "wb") as file:
            file.write(b"x" * 41)
        self.report()

    @unittest.skipUnless(can_be_nobody(), "needs root and setpriv, to be another user")
    def test_a_folder_that_may_not_be_written(self):
        self.make(ROWS, "wal").close()
        os.chmod(self.room, 0o555)
        page = tempfile.mkdtemp()
        self.addCleanup(shutil.rmtree, page)
        os.chmod(page, 0o777)
        # the clone may stand where nobody else may look
        tools = os.path.join(page, "tools")
        shutil.copytree(os.path.dirname(REPORT), tools, ignore=shutil.ignore_patterns("tests", "__pycache__"))
        subprocess.run(["chmod", "-R", "a+rX", tools], check=True)
        ran = subprocess.run([*AS_NOBODY, "/usr/bin/python3", f"{tools}/matter_report", self.matter, f"{page}/x.html"],
                             capture_output=True, text=True, check=False)
        self.assertEqual(ran.returncode, 0, ran.stderr)


class Refusals(Case):
    def put(self, data):
        with open(self.matter, "wb") as file:
            file.write(data)

    def test_missing(self):
        self.refused("there is no such file")

    def test_a_folder(self):
        os.mkdir(os.path.join(self.room, "x"))
        ran = subprocess.run([REPORT, os.path.join(self.room, "x")], capture_output=True, text=True, check=False)
        self.assertRegex(ran.stderr, "x: Is a directory")

    def test_no_database(self):
        self.put(b"")
        self.refused("it is empty, so it is no matter")
        self.put(b"x" * 5000)
        self.refused("it is no SQLite database, so it is no matter")

    def test_another_database(self):
        connection = sqlite3.connect(self.matter)
        connection.execute("CREATE TABLE other (a)")
        connection.close()
        self.refused("it is a database, but no matter of tivrenan")

    def test_no_rows(self):
        self.make({}).close()
        self.refused("no matter was begun in it; tivrenan init makes one")

    def test_cut_off(self):
        self.make({(3, at, 0): document(at, 1, 1) + b"" for at in range(1, 2000)}).close()
        with open(self.matter, "rb") as file:
            data = file.read()
        self.put(data[: len(data) // 2])
        self.refused("it is no database that can be read")

    def test_rows_of_another_form(self):
        good = ROWS[(5, 2, 0)]
        for key, body in {(5, 2, 0): good[:-1], (5, 3, 0): good + b"x", (5, 4, 0): b"\2" + good[1:], (5, 5, 0): call(7, 1, 1, 1, 1),
                          (10, 1, 0): production(ITEMS, 3), (1, 9, 0): b"\1" + u8(9) + bytes(32) + text("x"), (13, 1, 0): b"\1",
                          (1, 8, 0): b"\1\0" + bytes(32) + u32(1) + b"\xff"}.items():
            if os.path.exists(self.matter):
                os.remove(self.matter)
            self.make({**ROWS, key: body}).close()
            self.refused(f"the row of kind {key[0]} with the numbers {key[1]} and 0 is not of its form")

    def test_locked(self):
        """By a process that writes, in both ways in which sqlite keeps a log, or that has the file open with one."""
        for mode, how in (("delete", "BEGIN EXCLUSIVE"), ("delete", "BEGIN IMMEDIATE"), ("wal", "BEGIN IMMEDIATE"), ("wal", "SELECT 1 FROM kept")):
            self.make(ROWS, mode).close()
            connection = sqlite3.connect(self.matter, isolation_level=None)
            connection.execute(how)
            with self.subTest(mode=mode, how=how):
                self.refused(r"it is locked: a desk or another command works with it \(process [0-9]+\); try again")
            connection.close()
            os.remove(self.matter)

    def test_a_page_that_can_not_be_written(self):
        self.make(ROWS).close()
        ran = self.call("matter.db", "none/x.html")
        self.assertEqual(ran.returncode, 1)
        self.assertRegex(ran.stderr, "^matter_report: .*none.*: No such file or directory\n$")


class OfTheProgram(Case):
    @unittest.skipUnless(os.path.exists(OFFICE), "examples/office.sh has left no matter")
    def test_the_office(self):
        shutil.copy(OFFICE, self.matter)
        self.report()
        self.assertIn("12 documents on 31 pages came in, in 1 batch.", self.page)
        self.assertIn("10 documents produced (83%), 1 of them withheld, in 1 production.", self.page)
        self.assertIn(["2", "Ellis", "Reviewer", "12", "2", "1", "0"], Parts(self.page).rows)
        self.assertIn(["3", "Marlow", "Second", "0", "0", "0", "3"], Parts(self.page).rows)


class Told(unittest.TextTestResult):
    """Says at the end which tests were skipped, and why."""

    def printErrors(self):
        super().printErrors()
        for test, why in self.skipped:
            self.stream.writeln(f"matter_report.py: not tried: {test.id().split('.', 1)[1]}: {why}")


unittest.main(testRunner=unittest.TextTestRunner(resultclass=Told))
