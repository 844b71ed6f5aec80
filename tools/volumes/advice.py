"""Faults in words for the one who made the volume: what stands there, what was due, how to mend it."""
from .rule import NAMES

CONVERT = "convert IN.tif -colorspace Gray -threshold 60% -compress Group4 PAGE.tif"
A_PAGE = "Write each page as a TIFF file of its own, black and white, in Group 4"
SUMS = "sha256sum on Linux and macOS; with PowerShell write the digest in small letters and each line with LF alone"
BELOW = "Write paths from the folder that has the volume's own folder, as VOL001\\IMAGES\\0001\\ABC00000001.TIF"

# by rule and kind, the kind "" where no other stands here: what is wrong, and how to mend it
SAID = {
    (0, ""): ("a file can't be read", "See whether a folder stands where a file is named, and to its permissions."),
    (50, ""): (
        "a line of the DAT isn't of its form",
        "Write each value between two þ (U+00FE), with the byte 14 hex between one and the next.",
    ),
    (50, "empty"): ("the DAT has no line", "Write a first line with the names of the columns."),
    (50, "count"): (
        "a line of the DAT has another number of values than the first line",
        "Write a value, if an empty one, for each column.",
    ),
    (50, "newline"): ("a value of the DAT has a line's end in it", "Write ® (U+00AE) for each newline in a value."),
    (50, "CR"): (
        "a value of the DAT has a CR in it",
        "Write ® (U+00AE) for each newline in a value, and end lines with CR LF or LF.",
    ),
    (50, "quote"): ("a value of the DAT has a þ in it", "Leave þ (U+00FE) out of values: it stands around each."),
    (51, ""): ("the DAT isn't UTF-8", "Save it as UTF-8."),
    (51, "UTF-16"): ("the DAT is UTF-16", "Export it as UTF-8; or make a copy: iconv -f UTF-16 -t UTF-8 IN > OUT"),
    (51, "Windows-1252"): (
        "the DAT is in the code page of Windows",
        "Export it as UTF-8; or make a copy: iconv -f CP1252 -t UTF-8 IN > OUT",
    ),
    (53, ""): (
        "a line of the OPT isn't of its form",
        "Write image id, volume, path, Y where a document begins, two empty fields, count of pages, with commas between.",
    ),
    (53, "LFP"): ("the list of images is an LFP (IPRO)", "Export it as OPT (Opticon)."),
    (53, "UTF-16"): ("the OPT is UTF-16", "Export it as UTF-8; or make a copy: iconv -f UTF-16 -t UTF-8 IN > OUT"),
    (53, "Windows-1252"): ("a line of the OPT is in the code page of Windows", "Export it as UTF-8."),
    (53, "names"): ("the OPT has a line of names", "Leave that line out: the first line is the first image."),
    (53, "fields"): (
        "a line of the OPT has fewer than three or more than seven fields",
        "Write seven fields, and no comma in a path.",
    ),
    (53, "break"): (
        "a break of the OPT is neither Y nor empty",
        "Write Y where a document begins, and nothing elsewhere.",
    ),
    (53, "pages"): ("the count of pages in the OPT is no number", "Write digits alone, or nothing."),
    (54, "0"): ("there is no DAT at that path", "Paths begin at the folder in which the check is made."),
    (54, "1"): ("there is no OPT at that path", "Paths begin at the folder in which the check is made."),
    (54, "2"): ("there is no manifest at that path", "Paths begin at the folder in which the check is made."),
    (54, "3"): ("an image that the OPT names isn't there", f"Send it. {BELOW}."),
    (54, "4"): ("a text that the DAT names isn't there", f"Send it, or leave its path empty. {BELOW}."),
    (54, "5"): ("a file that the manifest lists isn't there", "Send it, or make the manifest of what is sent."),
    (54, "letter case"): (
        "a path has other capitals than the file",
        "Write it as the file is named: elsewhere than on Windows these are two files.",
    ),
    (54, "root"): ("a path begins at another folder", f"{BELOW}."),
    (54, "CR LF"): (
        "the manifest's lines end with CR LF",
        f"End each line with LF alone: sed -i 's/\\r$//' MANIFEST; or make it by {SUMS}.",
    ),
    (55, ""): ("a file has more than 134,217,728 bytes", "Send several volumes, or a page in fewer bytes."),
    (62, ""): (
        "a page is larger than may be",
        "At most 20,000 by 20,032 pixels, and 200,640,000 in all: scan it at a lower resolution.",
    ),
    (63, ""): ("a path isn't allowed", f"{BELOW}."),
    (63, "drive"): ("a path has a drive", f"Leave the drive out. {BELOW}."),
    (63, "share"): ("a path begins at a network's share", f"{BELOW}."),
    (63, "front"): ("a path begins with / or \\", f"Leave that out. {BELOW}."),
    (63, "up"): ("a path leads upwards (..)", f"{BELOW}."),
    **{(rule, ""): ("an image's Group 4 codes are damaged", "Write or send the page once more.") for rule in (70, 71, 72, 73, 74)},
    (80, ""): ("an image is no TIFF file", f"{A_PAGE}."),
    (80, "empty"): ("an image's file is empty", "Send it once more."),
    (80, "JPEG"): ("an image is a JPEG", f"{A_PAGE}: {CONVERT}"),
    (80, "PNG"): ("an image is a PNG", f"{A_PAGE}: {CONVERT}"),
    (80, "PDF"): ("an image is a PDF", f"{A_PAGE}: pdftoppm -mono -r 300 -tiff IN.pdf page, then tiffcp -c g4"),
    (80, "BigTIFF"): ("an image is a BigTIFF file", f"{A_PAGE}: tiffcp -c g4 IN.tif PAGE.tif"),
    (81, ""): ("an image is cut off or damaged", "Write or send it once more."),
    (82, ""): ("an image lacks a tag", f"{A_PAGE}, in strips: tiffcp -s -c g4 IN.tif PAGE.tif"),
    (83, ""): ("a tag of an image has another type or count", f"{A_PAGE}: {CONVERT}"),
    (84, ""): (
        "an image is compressed in another way than Group 4",
        f"{A_PAGE}: tiffcp -c g4 IN.tif PAGE.tif; of grey or colour {CONVERT}",
    ),
    (85, ""): ("an image isn't plain black and white, or is turned", f"{A_PAGE}, upright: {CONVERT}"),
    (86, ""): ("an image's file has several pages", f"{A_PAGE}: tiffsplit IN.tif page-"),
    (87, ""): (
        "an image's strips are too few, too many or too short",
        "Write it once more: tiffcp -c g4 IN.tif PAGE.tif",
    ),
    (110, ""): (
        "the DAT has no column BEGDOC or ENDDOC",
        "Name the columns with the first and the last number of a document BEGDOC and ENDDOC.",
    ),
    (110, "other names"): (
        "the columns BEGDOC and ENDDOC have other names",
        "Give them these names in the first line of the DAT.",
    ),
    (110, "twice"): ("a column of the DAT stands twice", "Leave one of them out, or give it another name."),
    (111, ""): ("an image id has no number at its end", "Let each image id end in its number, of 1 to 18 digits."),
    (111, "digits"): (
        "the number of an image id has more than 18 digits",
        "Put a letter or a sign before the last 18 digits or fewer.",
    ),
    (112, ""): ("an image id isn't the one that follows", "Number pages without a gap, in the order of the OPT."),
    (112, "missing"): ("numbers are left out", "Send the pages that are missing, or number without a gap."),
    (112, "twice"): ("a number stands twice", "A file of several pages has a number, and a line, for each of them."),
    (112, "back"): ("numbers go back", "Bring the lines into the order of their numbers."),
    (112, "prefix"): (
        "the text before the number changes",
        "Keep one prefix in a volume; send what has another one as a volume of its own.",
    ),
    (112, "width"): (
        "the number has another count of digits",
        "Write all numbers of a volume with the same count of digits.",
    ),
    (113, ""): (
        "the documents of OPT and DAT part",
        "Let a document begin (Y) and end in the OPT where BEGDOC and ENDDOC say.",
    ),
    (113, "no break"): (
        "the first line of the OPT begins no document",
        "Write Y in the fourth field where a document begins.",
    ),
    (113, "ends"): ("a document ends at another page than ENDDOC says", "Correct ENDDOC, or the breaks of the OPT."),
    (113, "begins"): (
        "a document begins at another page than BEGDOC says",
        "Bring DAT and OPT into one order, with a record for each document.",
    ),
    (113, "no record"): ("a document of the OPT has no record in the DAT", "Write a record for each document."),
    (113, "records left"): (
        "records of the DAT have no document in the OPT",
        "List the images of each document; a document without images gets a page that says so.",
    ),
    (114, ""): ("a count of pages is wrong", "Write the number of the document's lines, or nothing."),
    (114, "field 7"): (
        "the last field of the OPT isn't the document's count of pages",
        "Write the number of the document's lines, or nothing.",
    ),
    (114, "field 7 behind"): (
        "a line that begins no document has a count of pages",
        "Write the count at the document's first line alone.",
    ),
    (114, "PAGECOUNT"): (
        "PAGECOUNT isn't the document's count of pages",
        "Write the number of its lines in the OPT in plain digits, or nothing.",
    ),
    (115, ""): ("a line of the manifest isn't of its form", f"Write digest, two blanks, path, LF: {SUMS}."),
    (115, "capitals"): (
        "digests stand in capitals, as Get-FileHash writes them",
        "Write them in small letters: (Get-FileHash PATH).Hash.ToLower()",
    ),
    (115, "star"): ("a * stands before the path", "Write two blanks before it: sha256sum without -b."),
    (115, "mark"): ("the manifest begins with a byte order mark", "Save it as UTF-8 without one."),
    (115, "UTF-16"): (
        "the manifest is UTF-16, as PowerShell's > writes it",
        "Save it as UTF-8: Out-File -Encoding utf8NoBOM",
    ),
    (115, "unended"): ("the manifest's last line has no end", "End each line with LF."),
    (115, "reversed"): ("the path stands before the digest", f"Write the digest first: {SUMS}."),
    (115, "blanks"): ("other signs than two blanks stand before the path", f"Write two blanks: {SUMS}."),
    (115, "path"): ("a path of the manifest isn't allowed", f"{BELOW}."),
    (116, ""): (
        "a file has another digest than the manifest says",
        "It was changed after the manifest was made: send it once more, or make the manifest of what is sent.",
    ),
    (117, ""): ("a file isn't in the manifest", f"List each file that the load files name, and these: {SUMS}."),
    (117, "CR LF"): (
        "the manifest's lines end with CR LF",
        f"End each line with LF alone: sed -i 's/\\r$//' MANIFEST; or make it by {SUMS}.",
    ),
    (117, "letter case"): (
        "the manifest has a path in other capitals",
        "Write it as the load file and the file itself have it.",
    ),
    (117, "root"): ("the manifest's paths begin at another folder", f"{BELOW}."),
}
for _digest in ("MD5", "SHA-1", "SHA-512", "digest"):
    SAID[115, _digest] = (f"the manifest's digests are {'of another kind' if _digest == 'digest' else _digest}", f"Write SHA-256: {SUMS}.")
MOST_LETTERS = 300


def said(fault):
    """What is wrong, and how to mend it."""
    number = fault.rule.number if fault.rule else 0
    kind = fault.kind
    if number == 54:
        kind = kind or str(fault.rule.a)
    if number == 50 and (50, kind) not in SAID:
        return f"the DAT is written with {kind}" if kind else SAID[50, ""][0], SAID[50, ""][1]
    return SAID.get((number, kind)) or SAID[number, ""]


def name_of(fault):
    return f"rule {fault.rule.number}, {NAMES[fault.rule.number]}" if fault.rule else "source fault"


def check_line(fault):
    """What `tivrenan check` prints of it."""
    return fault.rule.told() if fault.rule else "source fault"


def place_of(fault):
    """The file and the line, as far as there is one."""
    rule = fault.rule
    if rule and rule.number == 117:
        return f"{fault.file}, which is to list {fault.due}"
    if not rule or not rule.line:
        return fault.file
    is_record = rule.number == 54 and rule.a == 4 or rule.number == 55 and rule.a == 4
    return f"{fault.file}, {'record' if is_record else 'line'} {rule.line}"


def stands(fault):
    """The producer's own line, as far as it is one."""
    return printable(fault.line)


def found(fault):
    return printable(fault.found)


def due(fault):
    """What was due, as far as it can be said."""
    rule = fault.rule
    if rule and rule.number == 117:
        return ""
    if rule and rule.number in (70, 71, 72, 73, 74):
        return f"the codes break off in row {rule.a}"
    if rule and rule.number in (81, 82, 83, 85) and rule.a:
        return f"the TIFF tag {rule.a}"
    if rule and rule.number == 84:
        return f"compression 1 or 4; here it is {rule.a}"
    if rule and rule.number == 62:
        return f"it has {rule.a} by {rule.b} pixels"
    return printable(fault.due)


def printable(text):
    """The text with signs for its control characters, not longer than a person reads."""
    letters = text[:MOST_LETTERS]
    shown = "".join(chr(0x2400 + ord(c)) if c < " " else "\u2421" if c == "\x7f" else "\ufffd" if is_strange(c) else c for c in letters)
    return shown if len(text) <= MOST_LETTERS else f"{shown} .."


def is_strange(letter):
    """A control character of the second row, one that turns a line's direction, or half of a pair."""
    return "\x80" <= letter <= "\x9f" or letter in "\u202a\u202b\u202c\u202d\u202e\u2066\u2067\u2068\u2069" or "\ud800" <= letter <= "\udfff"


def grouped(faults):
    """The faults of one habit together, in the order of the first of each."""
    groups = {}
    for fault in faults:
        groups.setdefault(said(fault), []).append(fault)
    return list(groups.values())
