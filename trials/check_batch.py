#!/usr/bin/env python3
"""Reads a batch by the rules of an import, written here once more, and prints what it found in each document.

Words: the batch's folder; without it examples/CVI_001. Ends with status 1 and one line at the first rule that
is broken, in the order in which an import is to test them: the name, load.dat, load.opt, the breaks between documents,
the families, words.csv, each image, the words on their pages. A rule stands with its number and name. Then come what a
vendor's files say beside the rules (ENDDOC, ENDATTACH, PGCOUNT, pages in load.opt), and that no other images lie there.
Where no folder is named, also what is so in CVI_001: letter pages in Group 4, and a box of each word that is the one of
its ink.

Needs tiffinfo and tifftopnm (Debian's libtiff-tools and netpbm), which read the images.
"""
import csv
import io
import os
import re
import shutil
import subprocess
import sys

QUOTE, SEPARATOR, NEWLINE, MARK = "\u00fe", "\u0014", "\u00ae", "\ufeff"
LONGEST_FILE = 134_217_728
LONGEST_SIDE, MOST_PIXELS = 20_000, 200_000_000
LONGEST_COLUMN = 64
LETTER = {"width": "2550", "height": "3300", "resolution": "300, 300 pixels/inch", "coding": "CCITT Group 4"}
TIFFINFO = {
    "width": r"Image Width: (\d+)",
    "height": r"Image Length: (\d+)",
    "resolution": r"Resolution: (.*)",
    "bits": r"Bits/Sample: (\d+)",
    "samples": r"Samples/Pixel: (\d+)",
    "coding": r"Compression Scheme: (.*)",
    "white": r"Photometric Interpretation: (.*)",
    "orientation": r"Orientation: (.*)",
}


def refuse(rule, where, why):
    """Ends where a rule of the import is broken: its number and name, the file and line, and what is wrong."""
    sys.exit(f"check_batch.py: {rule}: {where}: {why}")


def read(folder, path, where):
    try:
        with open(os.path.join(folder, path), "rb") as file:
            data = file.read(LONGEST_FILE + 1)
    except (FileNotFoundError, NotADirectoryError):
        refuse("54 FileAbsent", where, f"there is no {path}")
    except OSError as error:
        refuse("source fault", where, f"{path}: {error.strerror}")
    if len(data) > LONGEST_FILE:
        refuse("55 FileTooLong", where, f"{path} has more than {LONGEST_FILE} bytes")
    return data


def lines_of(text):
    """The lines without their ends, CR LF or LF; empty ones aren't counted."""
    *ended, last = text.removeprefix(MARK).split("\n")
    return [line for line in [*(line.removesuffix("\r") for line in ended), last] if line]


# load.dat

def dat_values(line, number, count):
    """The values of a line, as many as the header has where count is given."""
    values = line.split(SEPARATOR)
    for value in values:
        inner = value[1:-1]
        if len(value) < 2 or value[0] != QUOTE or value[-1] != QUOTE or QUOTE in inner or "\r" in inner:
            refuse("50 DatShape", f"load.dat line {number}", "a value isn't quoted, or has a quote or CR in it")
    if count and len(values) != count:
        refuse("50 DatShape", f"load.dat line {number}", f"{len(values)} values under {count} columns")
    return [value[1:-1].replace(NEWLINE, "\n") for value in values]


def read_dat(folder):
    data = read(folder, "load.dat", "load.dat")
    try:
        lines = lines_of(data.decode("utf-8"))
    except UnicodeDecodeError:
        refuse("51 DatEncoding", "load.dat", "it isn't UTF-8")
    if not lines:
        refuse("50 DatShape", "load.dat line 1", "there is no header")
    columns = dat_values(lines[0], 1, None)
    check_columns(columns)
    rows = [dat_values(line, number, len(columns)) for number, line in enumerate(lines[1:], 2)]
    return columns, [dict(zip(columns, row)) for row in rows]


def check_columns(columns):
    for needed in ("BEGDOC", "BEGATTACH"):
        if needed not in columns:
            refuse("52 DatColumns", "load.dat line 1", f"there is no column {needed}")
    for at, name in enumerate(columns):
        if not name or name in columns[:at] or len(name.encode()) > LONGEST_COLUMN or "\n" in name:
            refuse("52 DatColumns", "load.dat line 1", f"column {at + 1} is empty, repeated, too long or has a newline")


# load.opt

def read_opt(folder):
    data = read(folder, "load.opt", "load.opt")
    lines = lines_of(data.decode("utf-8", "surrogateescape"))
    return [opt_fields(line, number) for number, line in enumerate(lines, 1)]


def opt_fields(line, number):
    fields = line.split(",")
    padded = fields + [""] * (7 - len(fields))
    if (
        not 3 <= len(fields) <= 7
        or "\r" in line
        or not is_utf8(line)
        or not padded[0]
        or not padded[2]
        or any(field not in ("", "Y") for field in padded[3:6])
        or not re.fullmatch("[0-9]{0,9}", padded[6])
    ):
        refuse("53 OptShape", f"load.opt line {number}", "it isn't image, volume, path, three breaks and pages")
    return dict(zip(("image", "volume", "path", "document", "folder", "box", "pages"), padded))


def is_utf8(text):
    """Whether no byte had to be carried over as a surrogate."""
    return not any("\ud800" <= character <= "\udfff" for character in text)


# documents

def documents_of(records, images):
    """The documents: each has its record and its images."""
    documents, seen = [], set()
    for number, line in enumerate(images, 1):
        where, image = f"load.opt line {number}", line["image"]
        if number == 1 and not line["document"]:
            refuse("61 DocBreaks", where, "no document begins at the first image")
        if image in seen:
            refuse("61 DocBreaks", where, f"{image} was there before")
        if line["document"]:
            if len(documents) == len(records):
                refuse("61 DocBreaks", where, f"no record is left for the document that begins at {image}")
            record = records[len(documents)]
            if record["BEGDOC"] != image:
                refuse("61 DocBreaks", where, f"{image} begins the document of record {record['BEGDOC']}")
            documents.append({"record": record, "images": []})
        seen.add(image)
        documents[-1]["images"].append(line)
    if len(documents) < len(records):
        left = records[len(documents)]["BEGDOC"]
        refuse("61 DocBreaks", f"load.opt line {len(images) + 1}", f"no image is left for document {left}")
    return documents


def take_families(documents):
    """Each document takes its BEGATTACH, or its BEGDOC where that is empty."""
    before = None
    for number, document in enumerate(documents, 1):
        own = document["record"]["BEGDOC"]
        taken = document["record"]["BEGATTACH"] or own
        if taken not in (own, before):
            why = f"{own} is of the family of {taken}, and the one before it isn't"
            refuse("60 FamilyBroken", f"load.dat record {number}", why)
        document["family"] = before = taken


# words.csv

def read_words(folder, images):
    data = read(folder, "words.csv", "words.csv")
    text = data.decode("utf-8", "surrogateescape").removeprefix(MARK)
    csv.field_size_limit(LONGEST_FILE)
    rows = [row for row in csv.reader(io.StringIO(text, newline="")) if row]
    words = [word_of(row, f"words.csv record {number}") for number, row in enumerate(rows, 1)]
    known = {line["image"] for line in images}
    for number, word in enumerate(words, 1):
        if word["image"] not in known:
            refuse("59 WordsPage", f"words.csv record {number}", f"no line of load.opt has the image {word['image']}")
    return words


def word_of(row, where):
    numbers = row[1:6]
    if (
        len(row) != 7
        or not all(is_utf8(field) for field in row)
        or not all(re.fullmatch("[0-9]{1,9}", number) for number in numbers)
        or 0 in map(int, numbers[3:])
        or not re.fullmatch("[^\x00-\x1f\x7f]+", row[6])
    ):
        refuse("57 WordShape", where, "it isn't image, line, left, top, width, height and text")
    line, left, top, width, height = map(int, numbers)
    box = (left, top, left + width, top + height)
    return {"image": row[0], "line": line, "box": box, "text": row[6], "where": where}


def check_words_inside(words, pages):
    for word in words:
        page = pages[word["image"]]
        _, _, right, bottom = word["box"]
        if right > page["width"] or bottom > page["height"]:
            refuse("58 WordOutside", word["where"], f"'{word['text']}' passes an edge of {word['image']}")


# images

def path_of(path, where):
    parts = [part for part in path.replace("\\", "/").split("/") if part != "."]
    if not path or path[0] in "/\\" or ":" in path or not parts or "" in parts or ".." in parts:
        refuse("63 PathRefused", where, f"{path} doesn't name a file below the batch")
    return "/".join(parts)


def read_page(folder, line, where):
    """What the page's file says of itself, and its rows, each as a number with its first pixel in the highest bit."""
    path = path_of(line["path"], where)
    data = read(folder, path, where)
    if data[:4] not in (b"II*\0", b"MM\0*"):
        refuse("80 TiffHead", where, f"{path} is no TIFF file")
    page = tiff_of(folder, path, where)
    rows = pixels_of(folder, path, where)
    if len(rows) != page["height"]:
        refuse("87 TiffStrips", where, f"{path} has {len(rows)} rows of {page['height']}")
    return {**page, "file": path, "rows": rows}


def tiff_of(folder, path, where):
    told = subprocess.run(["tiffinfo", os.path.join(folder, path)], capture_output=True, text=True)
    if told.returncode or told.stderr:
        refuse("81 to 87", where, f"{path}: tiffinfo says {(told.stderr.strip() or 'no').splitlines()[0]}")
    directories = told.stdout.count("TIFF Directory at offset")
    if directories != 1:
        refuse("86 TiffManyPages", where, f"{path} has {directories} pages")
    found = {name: re.search(pattern, told.stdout) for name, pattern in TIFFINFO.items()}
    page = {name: match[1].strip() for name, match in found.items() if match}
    width, height = int(page.get("width", 0)), int(page.get("height", 0))
    if page.get("coding") not in ("None", "CCITT Group 4"):
        refuse("84 TiffCompression", where, f"{path} is compressed as {page.get('coding')}")
    if page.get("bits", "1") != "1" or page.get("samples", "1") != "1":
        refuse("85 TiffMeaning", where, f"{path} has more than black and white")
    if page.get("white") not in ("min-is-white", "min-is-black"):
        refuse("85 TiffMeaning", where, f"{path} has other colours")
    if page.get("orientation", "row 0 top, col 0 lhs") != "row 0 top, col 0 lhs":
        refuse("85 TiffMeaning", where, f"{path} is turned")
    if not (0 < width <= LONGEST_SIDE and 0 < height <= LONGEST_SIDE and width * height <= MOST_PIXELS):
        refuse("62 PageLimit", where, f"{path} has {width} by {height} pixels")
    return {**page, "width": width, "height": height}


def pixels_of(folder, path, where):
    told = subprocess.run(["tifftopnm", "-quiet", os.path.join(folder, path)], capture_output=True)
    head = re.match(rb"P4\s+(\d+)\s+(\d+)\s", told.stdout)
    if told.returncode or told.stderr or not head:
        said = told.stderr.decode(errors="replace").strip() or "no"
        refuse("70 to 74, 87", where, f"{path}: libtiff says {said.splitlines()[0]}")
    size = (int(head[1]) + 7) // 8
    spare = size * 8 - int(head[1])
    starts = range(head.end(), len(told.stdout) - size + 1, size)
    return [int.from_bytes(told.stdout[start : start + size], "big") >> spare for start in starts]


# what a vendor's files say beside the rules, and what is so in CVI_001

def fail(where, why):
    sys.exit(f"check_batch.py: {where}: {why}")


def check_claims(documents):
    last = {document["family"]: document["images"][-1]["image"] for document in documents}
    for number, document in enumerate(documents, 1):
        record, images = document["record"], document["images"]
        expected = {"ENDDOC": images[-1]["image"], "ENDATTACH": last[document["family"]], "PGCOUNT": str(len(images))}
        for column, value in expected.items():
            if record.get(column, value) != value:
                fail(f"load.dat record {number}", f"{column} is {record[column]}, and should be {value}")
        if images[0]["pages"] not in ("", str(len(images))):
            fail("load.opt", f"{images[0]['image']} begins {images[0]['pages']} pages, and has {len(images)}")


def check_letter(line, page):
    for name, value in LETTER.items():
        if str(page.get(name)) != value:
            fail(page["file"], f"{name} is {page.get(name)}, and should be {value}")


def check_files(folder, pages):
    """Each file below the images' folder is a page of the batch."""
    named = {page["file"] for page in pages.values()}
    for top, _, files in sorted(os.walk(os.path.join(folder, "IMAGES"))):
        for file in sorted(files):
            path = os.path.relpath(os.path.join(top, file), folder)
            if path not in named:
                fail(path, "no line of load.opt names it")


def ink_of(page, words, tight):
    """How many pixels are black, and how many of them are under a word; where `tight`, each word has one at each edge."""
    covered = [0] * page["height"]
    for word in words:
        left, top, right, bottom = word["box"]
        mask = ((1 << right - left) - 1) << page["width"] - right
        seen = 0
        for row in range(top, bottom):
            seen |= page["rows"][row] & mask
            covered[row] |= mask
        ends = seen & (1 << page["width"] - right) and seen >> page["width"] - left - 1
        if tight and not (ends and page["rows"][top] & mask and page["rows"][bottom - 1] & mask):
            fail(word["where"], f"the box of '{word['text']}' isn't the one of the ink below it")
    black = sum(bin(row).count("1") for row in page["rows"])
    under = sum(bin(row & mask).count("1") for row, mask in zip(page["rows"], covered))
    return black, under


def report(documents, pages, words, tight):
    by_image = {image: [] for image in pages}
    for word in words:
        by_image[word["image"]].append(word)
    lines = ["document    family      pages  words  ink under words  author"]
    for document in documents:
        images = [line["image"] for line in document["images"]]
        count = sum(len(by_image[image]) for image in images)
        inks = [ink_of(pages[image], by_image[image], tight) for image in images]
        share = 100 * sum(under for _, under in inks) // max(1, sum(black for black, _ in inks))
        author = document["record"].get("AUTHOR", "").replace("\n", ", ")
        lines.append(f"{images[0]}  {document['family']}  {len(images):5}  {count:5}  {share:14}%  {author}".rstrip())
    families = len({document["family"] for document in documents})
    counts = f"{len(documents)} documents in {families} families, {len(pages)} pages, {len(words)} words"
    print("\n".join([*lines, f"{counts}: no rule is broken"]))


def main():
    for tool, package in (("tiffinfo", "libtiff-tools"), ("tifftopnm", "netpbm")):
        if not shutil.which(tool):
            sys.exit(f"check_batch.py: needs {tool} (Debian: {package})")
    if len(sys.argv) > 2:
        sys.exit("usage: check_batch.py [FOLDER]")
    own = len(sys.argv) == 1
    folder = os.path.join(os.path.dirname(os.path.abspath(__file__)), "..", "examples", "CVI_001") if own else sys.argv[1]
    name = os.path.basename(os.path.abspath(folder))
    if not re.fullmatch("[A-Za-z0-9_-]{1,32}", name):
        refuse("63 PathRefused", name, "a batch's name is 1 to 32 of A-Z, a-z, 0-9, - and _")
    columns, records = read_dat(folder)
    images = read_opt(folder)
    documents = documents_of(records, images)
    take_families(documents)
    words = read_words(folder, images)
    pages = {line["image"]: read_page(folder, line, f"load.opt line {at}") for at, line in enumerate(images, 1)}
    check_words_inside(words, pages)
    check_claims(documents)
    for line in images if own else []:
        check_letter(line, pages[line["image"]])
    check_files(folder, pages)
    report(documents, pages, words, own)


main()
