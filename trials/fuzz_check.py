"""Volumes of few pages, right ones in many shapes, and changes of one cell, byte, line or file: cases of a check, whose model is
check_model.py, as lines of bp_test_volumes and as folders for the program."""
import copy
import functools
import hashlib
import os
import shutil

import check_model
import fuzz_batch as batches
import fuzz_loads as loads
import fuzz_pages as pages
from fuzz_tools import Rule, damaged, said, told_bytes

ENDS = (b"\r\n", b"\r\n", b"\n")
# changes of a volume between which it is checked as it was
CHANGES = 24


# ---- right volumes

PREFIXES = ("AB-", "ABC", "", "A1-", "ABC0", "\u00e9-", "x y ", "_", "\u4e2d", "\u0661", "7.", "P" * 40)
OTHER_COLUMNS = ("AUTHOR", "BEGATTACH", "", "a,b", "caf\u00e9", '"', "begdoc", "NOTE")
VALUES = ("", "Ng", "Ortiz, Berg", "one\ntwo", "caf\u00e9", '"q"', "AB-0001")
ROOTS = ("V/", "V/", "VOL001/", "", "a b/\u00e9/", "V/x/")


class Volume:
    """A right volume: the cells of its load files, its other files, and what its manifest lists."""

    def __init__(self, draw):
        self.root = draw.choice(ROOTS)
        self.dat, self.opt, self.manifest = (self.root + path for path in draw.choice((
            ("DATA/V.DAT", "DATA/V.OPT", "MANIFEST.TXT"), ("load.dat", "load.opt", "sums"), ("d", "o", "m/m"))))
        self.files, self.rows, self.lines = {self.root + "DATA/V-LOG.CSV": b"BEGLABEL,ENDLABEL\n"}, [], []
        self.columns = ["BEGDOC", "ENDDOC", *draw.sample(("PAGECOUNT", "TEXTPATH"), draw.choice((0, 1, 2, 2, 2)))]
        self.columns += draw.sample(OTHER_COLUMNS, draw.choice((0, 1, 2)))
        draw.shuffle(self.columns)
        self.is_listed = draw.random() < 0.75
        self.add_documents(draw)
        self.dat_form, self.opt_form = some_form(draw), some_form(draw)
        self.list_other = draw.random() < 0.7
        self.is_shuffled = draw.random() < 0.3

    def add_documents(self, draw):
        counts = [draw.choice((1, 1, 2, 3)) for _ in range(draw.choice((1, 2, 2, 3, 3, 4)) if draw.random() < 0.97 else 0)]
        prefix = draw.choice(PREFIXES)
        # a digit at the end of what stands before the number belongs to it
        width = min(draw.choice((1, 2, 4, 8, 18) if sum(counts) <= 10 else (2, 8, 18)), 18 - digits_at_end(prefix))
        last = 10**width - sum(counts)
        number = min(last, draw.choice((0, 1, 1, 7, 8, 95, last, draw.randrange(last + 1))))
        for count in counts:
            self.add_document(draw, [f"{prefix}{number + k:0{width}}" for k in range(count)])
            number += count

    def add_document(self, draw, labels):
        for k, label in enumerate(labels):
            path = self.image_path(draw, label)
            told = draw.choice(("", str(len(labels)), f"{len(labels):03}", f"{len(labels):09}")) if k == 0 else ""
            self.lines.append([label, draw.choice(("", "V")), spelled(draw, path), "" if k else "Y", *some_breaks(draw), told])
        cells = {"BEGDOC": labels[0], "ENDDOC": labels[-1], "PAGECOUNT": draw.choice(("", str(len(labels)))),
                 "TEXTPATH": self.text_path(draw, labels[0])}
        self.rows.append([cells.get(column, draw.choice(VALUES)) for column in self.columns])

    def image_path(self, draw, label):
        """The path of a new image, or now and then of one that is there."""
        images = [loads.path_of(line[2]) for line in self.lines]
        if images and draw.random() < 0.05:
            return draw.choice(images)
        path = self.root + draw.choice(("IMAGES/", "IMAGES/0001/", "")) + f"{label}.TIF"
        page = some_small_page(draw)
        kind = draw.random()
        self.files[path] = pages.stranger(draw, page) if kind < 0.4 else pages.tiff_of(page, "g4" if kind < 0.8 else "plain")
        return path

    def text_path(self, draw, label):
        if draw.random() < 0.2:
            return ""
        path = self.root + f"TEXT/{label}.TXT"
        if draw.random() < 0.05:
            path = draw.choice((self.opt, *self.files))
        else:
            if not self.is_listed and draw.random() < 0.1:
                path = self.root + f"TEXT/one\ntwo\u00fc{len(self.files)}.TXT"
            self.files[path] = draw.choice((b"", b"\x0c", b"words\r\n\x0c", b"\xff\xfe\0"))
        return spelled(draw, path)

    # -- what is written

    def load_files(self):
        dat = loads.dat_of(self.columns, self.rows) if self.columns else b"\r\n" * len(self.rows)
        opt = b"".join(opt_line(line) for line in self.lines)
        return {self.dat: written(dat, self.dat_form), self.opt: written(opt, self.opt_form)}

    def listing(self, draw, files):
        """The parts of each line of the manifest: digest, what stands between, path, end."""
        needed = {self.dat, self.opt, *self.named()}
        paths = [path for path in files if path in needed or self.list_other]
        if self.is_shuffled:
            draw.shuffle(paths)
        return [[digest_of(files[path]), "  ", spelled(draw, path), "\n"] for path in paths]

    def named(self):
        """The paths of images and texts, where they are allowed."""
        at = self.columns.index("TEXTPATH") if "TEXTPATH" in self.columns else None
        texts = [] if at is None else [row[at] for row in self.rows if len(row) > at]
        found = []
        for text in [*(line[2] for line in self.lines if len(line) > 2), *texts]:
            try:
                found.append(loads.path_of(text))
            except Rule:
                pass
        return found


def some_small_page(draw):
    width, height = draw.choice((1, 7, 8, 9, 16, 31, 33, 64, 65, 80)), draw.choice((1, 1, 2, 3, 5, 9))
    return pages.Page(width, height, pages.some_lines(draw, width, height))


def digits_at_end(text):
    return len(text) - len(text.rstrip("0123456789"))


def some_breaks(draw):
    return draw.choice((("", ""), ("", ""), ("", ""), ("Y", ""), ("", "Y")))


def spelled(draw, path):
    """The path in one of its forms."""
    kind = draw.random()
    if kind < 0.1:
        path = "./" + path
    elif kind < 0.15:
        path = path.replace("/", "/./")
    return path.replace("/", "\\") if draw.random() < 0.6 else path


def some_form(draw):
    """How the lines of a load file stand in it: mark, end, behind which of them an empty line comes, whether the last is ended."""
    return {"mark": draw.random() < 0.2, "end": draw.choice(ENDS), "empty": draw.choice((0, 0, 0, 3)), "is_ended": draw.random() < 0.8}


def written(data, form):
    lines = data.split(b"\r\n")[:-1]
    out = loads.MARK if form["mark"] else b""
    for k, line in enumerate(lines):
        out += line + form["end"] + (form["end"] if form["empty"] and k % form["empty"] == 0 else b"")
    return out if form["is_ended"] else out.removesuffix(b"\n").removesuffix(b"\r")


def opt_line(line):
    """A line, whose empty fields at its end are left out where its volume is empty."""
    line = list(line)
    while len(line) > 3 and line[1] == "" and line[-1] == "":
        line.pop()
    return ",".join(line).encode("utf-8") + b"\r\n"


@functools.lru_cache(maxsize=1000)
def digest_of(data):
    return hashlib.sha256(bytes(data or 0)).hexdigest()


# ---- what becomes of one


class Made:
    """A volume on its way to files, so that each change comes at its stage."""

    def __init__(self, draw, volume, stages, with_folders):
        self.draw, self.with_folders = draw, with_folders
        self.volume = copy.deepcopy(volume)
        self.words = [volume.dat, volume.opt, *([volume.manifest] if volume.is_listed else [])]
        self.change(stages, "cells")
        self.files = dict(self.volume.files) | self.volume.load_files()
        self.change(stages, "files")
        self.listed = self.volume.listing(draw, self.files)
        self.change(stages, "listing")
        self.files[volume.manifest] = "".join("".join(parts) for parts in self.listed).encode("utf-8")
        self.change(stages, "late")
        self.change(stages, "words")

    def change(self, stages, stage):
        for _ in range(stages.count(stage)):
            {"cells": self.change_cells, "files": self.change_file, "listing": self.change_listing, "late": self.change_file,
             "words": self.change_operands}[stage]()

    # -- cells

    def change_cells(self):
        draw, volume = self.draw, self.volume
        kind = draw.randrange(12)
        if kind < 4 and volume.lines:
            row = draw.choice(volume.lines)
            at = min(draw.choice((0, 0, 1, 2, 2, 3, 3, 4, 5, 6, 6)), len(row) - 1)
            row[at] = self.other_cell(row[at], at)
        elif kind < 7 and volume.rows and volume.columns:
            row = draw.choice(volume.rows)
            at = draw.randrange(min(len(row), len(volume.columns)))
            row[at] = self.other_cell(row[at], volume.columns[at])
        elif kind == 7 and volume.columns:
            self.change_columns()
        elif kind == 8 and volume.lines:
            self.change_label()
        else:
            table = draw.choice((volume.lines, volume.lines, volume.rows))
            self.change_row(table)

    def other_cell(self, cell, kind):
        """Another cell in place of this one, most often of its kind."""
        draw, volume = self.draw, self.volume
        if draw.random() < 0.15:
            kind = draw.choice((0, 2, 3, 6, "AUTHOR"))
        if kind in (0, "BEGDOC", "ENDDOC"):
            labels = [line[0] for line in volume.lines] or ["A1"]
            return draw.choice((*labels, other_label(draw, cell), other_label(draw, cell), other_label(draw, draw.choice(labels))))
        if kind in (2, "TEXTPATH"):
            return self.other_path(cell)
        if kind in (3, 4, 5):
            return draw.choice(("", "Y", "Y", "", "y", "YY", "N", " ", "Y ", "1", "\u00fe"))
        if kind in (6, "PAGECOUNT"):
            return draw.choice(("", "0", "1", "2", "3", "4", "00", "000000003", "01", "0" + cell, cell + "0", "123456789", "1234567890",
                                "0000000001", "-1", "+1", "1 ", "x", "1\n", "\u0661", "\uff11"))
        return draw.choice((*ODD, *VALUES, cell + "x", cell[:-1], *(volume.columns or ["A"])))

    def other_path(self, cell):
        draw, volume = self.draw, self.volume
        paths = [*volume.files, volume.dat, volume.opt, volume.manifest]
        folder = draw.choice(("none", "V", volume.root + "IMAGES", volume.root + "DATA", "n" * 200))
        if self.with_folders and draw.random() < 0.05:
            folder = draw.choice(("n" * 300, "a\0b"))
        return draw.choice((
            "", ".", "..", "/", "\\", ":", "a//b", "../" + cell, "..\\" + cell, "/" + cell, "\\" + cell, "C:\\" + cell, "./" + cell,
            ".\\.\\" + cell, "..." + cell, ".../" + cell, " " + cell, cell + " ", cell + "/", cell + "\\", cell + "/.", cell + "/..",
            cell + ":", cell + "/x", cell.replace("/", "//", 1), cell.replace("\\", "\\..\\", 1), cell.replace("\\", "/"),
            cell.replace("/", "\\"), cell.lower(), cell + "x", cell[:-1], cell[1:], folder, draw.choice(paths), draw.choice(paths),
            spelled(draw, draw.choice(paths)), cell + draw.choice(ODD)))

    def change_columns(self):
        """A column that is gone, doubled, new, moved or has another name, with its cells or without them."""
        draw, volume = self.draw, self.volume
        with_cells = draw.random() < 0.8
        kind, at, to = draw.randrange(5), draw.randrange(len(volume.columns)), draw.randrange(len(volume.columns))
        rows = [row for row in [volume.columns, *(volume.rows if with_cells else [])] if len(row) > max(at, to)]
        if kind == 0:
            for row in rows:
                row.pop(at)
        elif kind == 1:
            for row in rows:
                row.insert(to, row[at])
        elif kind == 2:
            name = draw.choice(("PAGECOUNT", "TEXTPATH", "BEGDOC", "ENDDOC", "NEW", "", "NOTE"))
            for row in rows:
                row.insert(at, name if row is volume.columns else draw.choice(("", "", "1", "none", volume.dat)))
        elif kind == 3:
            for row in rows:
                row[at], row[to] = row[to], row[at]
        else:
            name = volume.columns[at]
            volume.columns[at] = draw.choice((*volume.columns, name.lower(), name + " ", name[:-1], "BEGDOC", "ENDDOC", "PAGECOUNT",
                                              "TEXTPATH", "X\n", "\ufeff" + name))

    def change_label(self):
        """Another label in both load files; or all labels are other ones."""
        draw, volume = self.draw, self.volume
        old = draw.choice(volume.lines)[0]
        labels = {old: draw.choice((other_label(draw, old), other_label(draw, old), draw.choice(volume.lines)[0]))}
        if draw.random() < 0.3:
            front, end = draw.choice((("", "x"), ("0", ""), ("", "0"), ("\u00e9", ""), ("\u00ae", ""), ("\ufeff", ""), ("", "." + "0" * 16),
                                      ("X", "\u0661"), ("9" * 17, ""), ("", "0" * 18)))
            labels = {line[0]: front + line[0] + end for line in volume.lines}
        for line in volume.lines:
            line[0] = labels.get(line[0], line[0])
        for row in volume.rows:
            for at, column in enumerate(volume.columns[: len(row)]):
                if column in ("BEGDOC", "ENDDOC"):
                    row[at] = labels.get(row[at], row[at])

    def change_row(self, table):
        """A row that is gone, twice, elsewhere, or new."""
        draw = self.draw
        if not table:
            table.append(draw.choice((["A1", "", "a", "Y", "", "", ""], ["A1"] * len(self.volume.columns))))
            return
        at, to, kind = draw.randrange(len(table)), draw.randrange(len(table)), draw.randrange(5)
        if kind == 0:
            table.pop(at)
        elif kind == 1:
            table.insert(to, list(table[at]))
        elif kind == 2:
            table[at], table[to] = table[to], table[at]
        elif kind == 3:
            table.insert(to, table.pop(at))
        elif draw.random() < 0.5:
            table[at] = table[at][: draw.randrange(len(table[at]) + 1)] or [""]
        else:
            table[at] = [*table[at], draw.choice(("", "", "Y", "1"))]

    # -- files

    def change_file(self):
        """A file that has other bytes, is gone, or stands elsewhere."""
        draw, volume = self.draw, self.volume
        read = [path for path in (volume.dat, volume.opt, volume.manifest) if path in self.files]
        path = draw.choice((draw.choice(read or list(self.files)), draw.choice(list(self.files))))
        data = self.files[path]
        if data is None or isinstance(data, int):
            return
        kind = draw.random()
        if kind < 0.06:
            self.files.pop(path)
        elif kind < 0.09:
            other = draw.choice(list(self.files))
            self.files[path], self.files[other] = self.files[other], data
        elif kind < 0.11:
            self.files[draw.choice((path.lower(), path + "x", path + "/x", "x"))] = self.files.pop(path)
        elif kind < 0.12 and self.with_folders:
            self.files[path] = None
        elif kind < 0.13 and self.with_folders:
            self.files[path] = draw.choice((batches.MOST, batches.MOST + 1))
        elif kind < 0.15:
            self.files[path] = draw.choice((b"", draw.choice(list(self.files.values())), data * 2))
        else:
            self.files[path] = self.other_bytes(path, data)

    def other_bytes(self, path, data):
        draw, volume = self.draw, self.volume
        if path in (volume.dat, volume.opt, volume.manifest):
            return draw.choice((other_byte, other_byte, other_line, other_line, other_end, other_coding))(draw, data)
        if path.endswith(".TIF") and draw.random() < 0.7:
            return other_image(draw, data)
        return draw.choice((other_byte, other_byte, other_line))(draw, data)

    # -- the manifest

    def change_listing(self):
        draw, volume = self.draw, self.volume
        kind = draw.randrange(12)
        if not self.listed or kind == 0:
            path = draw.choice(("none", volume.manifest, *self.files))
            digest = draw.choice((digest_of(self.files.get(path)), digest_of(self.files.get(path)), digest_of(b""), "0" * 64))
            self.listed.insert(draw.randrange(len(self.listed) + 1), [digest, "  ", path, "\n"])
            return
        at, to = draw.randrange(len(self.listed)), draw.randrange(len(self.listed))
        parts = self.listed[at]
        if kind < 4:
            parts[0] = other_digest(draw, parts, self.listed[to])
        elif kind < 7:
            parts[2] = draw.choice((self.listed[to][2], self.other_path(parts[2])))
        elif kind == 7:
            other = (" ", " *", "   ", "\t", "", "\r\n", "\n\n", "\n", "  ", "\u00a0 ", "  \ufeff")
            parts[draw.choice((1, 1, 3))] = draw.choice(other)
        elif kind == 8:
            self.listed.pop(at)
        elif kind == 9:
            # the same file twice, in place of another
            self.listed[at] = list(self.listed[to])
        elif kind == 10:
            self.listed.insert(to, list(parts))
        else:
            self.listed[at], self.listed[to] = self.listed[to], parts

    # -- operands

    def change_operands(self):
        draw, volume = self.draw, self.volume
        at, kind = draw.randrange(len(self.words)), draw.randrange(4)
        if kind < 2:
            self.words[at] = self.other_path(self.words[at])
        elif kind == 2:
            to = draw.randrange(len(self.words))
            self.words[at], self.words[to] = self.words[to], self.words[at]
        else:
            third = draw.choice((volume.manifest, volume.manifest, volume.opt, "none"))
            self.words = self.words[:2] if len(self.words) == 3 else [*self.words, third]


ODD = ("", "Y", "\u00ae", "\ufeff", "\u0661", "\u00fe", "\r", "\n", ",", "\x14", "\0", "\u00e9", "0", "BEGDOC", "=", " ")
LONG = ("0" * 17 + "1", "0" * 18 + "1", "9" * 17, "9" * 18, "9" * 19, "1" + "0" * 18, "18446744073709551616")


def other_label(draw, label):
    digits = digits_at_end(label)
    head, tail = label[: len(label) - digits], label[len(label) - digits :]
    number = int(tail or "0")
    nexts = [f"{head}{n:0{max(1, digits)}}" for n in (number + 1, max(0, number - 1), number + 10, 10**digits)]
    return draw.choice((*nexts, head + "0" + tail, head + tail + "0", head + tail[1:], head + tail[:-1], head, "X" + label,
                        head + "X" + tail, label + "x", label + " ", label.lower(), head + draw.choice(LONG), draw.choice(LONG),
                        head + "\uff11" + tail, label + "\u0661", label[1:], ""))


def other_digest(draw, parts, other):
    digest, path = parts[0], parts[2].encode("utf-8")
    at = draw.randrange(len(digest) + 1)
    changed = digest[:at] + draw.choice("0123456789abcdefgG ") + digest[at + 1 :]
    return draw.choice((digest.upper(), digest.capitalize(), changed, changed, changed, other[0], digest_of(path), digest_of(b""),
                        digest[:-1], digest + "0", " " + digest[1:], "\ufeff" + digest, hashlib.md5(path).hexdigest(),
                        "\u0661" + digest[1:]))


def other_byte(draw, data):
    """One byte that is changed, gone, doubled or new; now and then more of them."""
    if draw.random() < 0.1 or not data:
        return damaged(draw, data)
    at = draw.randrange(len(data))
    new = draw.choice((bytes([draw.randrange(256)]), bytes([data[at] ^ 1 << draw.randrange(8)]), b"", data[at : at + 1] * 2, b"\n",
                       b"\r", b",", b"0", b"\0", b"\x14"))
    return data[:at] + new + data[at + 1 :]


def other_line(draw, data):
    lines = data.split(b"\n")
    at, to, kind = draw.randrange(len(lines)), draw.randrange(len(lines)), draw.randrange(7)
    line = lines[at]
    if kind == 0:
        lines.pop(at)
    elif kind == 1:
        lines.insert(to, line)
    elif kind == 2:
        lines[at], lines[to] = lines[to], line
    elif kind == 3:
        lines.insert(to, lines.pop(at))
    elif kind == 4:
        lines.insert(at, draw.choice((b"", b"\r", b" ", b"\0", b"\xc3\xbe\xc3\xbe", b"A1,,a")))
    elif kind == 5:
        lines[at] = line.removesuffix(b"\r") if line.endswith(b"\r") else line + b"\r"
    else:
        lines[at] = draw.choice((line[: draw.randrange(len(line) + 1)], line + line, line + b"\r\r"))
    return b"\n".join(lines)


def other_end(draw, data):
    """Other ends of lines, of all or of the last."""
    plain = data.replace(b"\r\n", b"\n")
    if draw.random() < 0.5:
        return plain.replace(b"\n", draw.choice((b"\n", b"\r\n", b"\r", b"\n\r", b"\n\n", b"\r\r\n")))
    cut = data.removesuffix(b"\n")
    return draw.choice((cut, cut.removesuffix(b"\r"), data + b"\n", data + b"\r", data + b"\r\n"))


def other_coding(draw, data):
    """A byte order mark, UTF-16, a code page."""
    text = data.decode("utf-8", "replace")
    return draw.choice((loads.MARK + data, data.removeprefix(loads.MARK), loads.MARK * 2 + data, text.encode("utf-16"),
                        text.encode("utf-16-le"), text.encode("utf-16-be"), text.encode("cp1252", "replace"), data + b"\x1a", data + b"\0",
                        b"\xff\xfe" + data, data[:1] + loads.MARK + data[1:]))


def other_image(draw, data):
    """An image of another form, most often one that is no page."""
    kind = draw.random()
    if kind < 0.3:
        return pages.stranger(draw, some_small_page(draw), draw.choice((1, 1, 1, 2)))
    if kind < 0.4:
        return pages.stranger(draw, some_small_page(draw))
    if kind < 0.5:
        return damaged(draw, pages.stranger(draw, some_small_page(draw), draw.choice((0, 1))))
    if kind < 0.85:
        return damaged(draw, data)
    return draw.choice((b"", b"II*\0", b"\xff\xd8\xff\xe0\0\x10JFIF\0", b"%PDF-1.4\n", b"P4 8 1\n\0", b"II+\0\x08\0\0\0", *batches.LARGE))


# ---- cases

STAGES = ("cells", "cells", "cells", "cells", "files", "files", "files", "late", "late", "listing", "listing", "words")


def some_case(draw, volume, with_folders):
    """Files and operands after one change; now and then after more, so that the order of rules tells."""
    times = draw.choice((1, 1, 1, 1, 1, 1, 2, 3)) if draw.random() < 0.8 else 1
    stages = [draw.choice(STAGES) for _ in range(times)]
    return Made(draw, volume, stages, with_folders)


def a_right_one(draw, with_folders=False):
    """A volume with its files, of which the model says that no rule is broken."""
    volume = Volume(draw)
    made = Made(draw, volume, [], with_folders)
    told = check_model.told(check_model.read_of(made.files), *made.words)
    if told.startswith("refused"):
        raise AssertionError(f"a right volume is {told}: {made.files}")
    return volume, made


def write_files(folder, files):
    """These files in place of all that were there but the matter; a number is so many zero bytes, None a folder."""
    for name in os.listdir(folder):
        place = os.path.join(folder, name)
        if os.path.isdir(place):
            shutil.rmtree(place)
        elif not name.startswith("matter.db"):
            os.remove(place)
    batches.write_folder(folder, {path: b"" if isinstance(data, int) else data for path, data in files.items()})
    for path, data in files.items():
        if isinstance(data, int):
            os.truncate(os.path.join(folder, path), data)


def change_lines(old, new):
    """The lines that make new files of old ones."""
    lines = []
    for path in sorted(old.keys() | new.keys()):
        name = said(path.encode("utf-8"))
        if path not in new:
            lines.append((f"gone {name}", ""))
        elif old.get(path) != new[path]:
            data = new[path]
            is_text = b"\0" not in data and len(data) < 5000
            lines.append((f"text {name} {said(data)}" if is_text else f"hex {name} {told_bytes(data) or '-'}", ""))
    return lines


def volume_lines(draw):
    """Right volumes, each followed by its changes; before each change it stands as it was."""
    while True:
        volume, right = a_right_one(draw)
        lines = [*change_lines({}, right.files), check_line(right.files, right.words)]
        if volume.is_listed:
            lines.append(check_line(right.files, right.words[:2]))
        for _ in range(CHANGES):
            made = some_case(draw, volume, False)
            lines += [*change_lines(right.files, made.files), check_line(made.files, made.words), *change_lines(made.files, right.files)]
        # nothing was kept, so nothing stands there again
        yield [*lines, ("again", "")]


def check_line(files, words):
    due = check_model.told(check_model.read_of(files), *words)
    return " ".join(["check", *(said(word.encode("utf-8")) for word in words)]), due.removeprefix("checked ")
