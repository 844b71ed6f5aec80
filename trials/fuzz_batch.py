"""A plain model of what an import reads of a folder (docs/FORMATS.md, docs/STATUSES.md), and random batches, whole and
damaged."""
import hashlib
import os
import re

import fuzz_loads as loads
import fuzz_pages as pages
from fuzz_tools import Rule, damaged
from volumes.folder import LONGEST as MOST, Unreadable as Fault, read_file  # noqa: F401


def read_below(folder):
    """A reader of the files below a folder, which also adds what it read to a digest."""
    digest = hashlib.sha256()

    def read(path, which):
        data = read_file(folder, path, which)
        digest.update(len(data).to_bytes(8, "little") + data)
        return data

    return read, digest


def read_batch(folder, name):
    if not re.fullmatch("[A-Za-z0-9_-]{1,32}", name):
        raise Rule(63)
    read, digest = read_below(folder)
    lines = loads.read_dat_lines(read(f"{name}/load.dat", 0))
    columns = loads.dat_columns(lines)
    if "BEGDOC" not in columns or "BEGATTACH" not in columns or len(set(columns)) < len(columns):
        raise Rule(52)
    if any(not column or len(column.encode("utf-8")) > 64 or "\n" in column for column in columns):
        raise Rule(52)
    records = loads.dat_records(lines, columns)
    opt = loads.read_opt(read(f"{name}/load.opt", 1))
    begins = breaks(opt, [record[columns.index("BEGDOC")] for record in records])
    parents = families([(record[columns.index("BEGDOC")], record[columns.index("BEGATTACH")]) for record in records])
    words = loads.read_words(read(f"{name}/words.csv", 2))
    places = {line[0]: k for k, line in enumerate(opt)}
    for k, word in enumerate(words):
        if word[0] not in places:
            raise Rule(59, line=k + 1)
    images = [image_of(line, k + 1, name, read) for k, line in enumerate(opt)]
    found = [[] for _ in opt]
    for k, word in enumerate(words):
        at = places[word[0]]
        if word[2] + word[4] > images[at].width or word[3] + word[5] > images[at].height:
            raise Rule(58, line=k + 1)
        found[at].append(word[1:])
    fields = [k for k, column in enumerate(columns) if column not in ("BEGDOC", "ENDDOC", "BEGATTACH", "ENDATTACH")]
    docs = []
    for k, record in enumerate(records):
        end = begins[k + 1] if k + 1 < len(begins) else len(opt)
        docs.append({"id": record[columns.index("BEGDOC")], "parent": parents[k], "values": [record[f] for f in fields],
                     "pages": [(images[at], found[at]) for at in range(begins[k], end)]})
    return {"name": name, "digest": digest.digest(), "fields": [columns[f] for f in fields], "docs": docs}


def breaks(opt, ids):
    """The OPT lines, from 0, at which the documents begin."""
    begins, seen = [], set()
    for k, line in enumerate(opt):
        if k == 0 and not line[3] or line[0] in seen:
            raise Rule(61, line=k + 1)
        seen.add(line[0])
        if line[3]:
            if len(begins) == len(ids) or line[0] != ids[len(begins)]:
                raise Rule(61, line=k + 1)
            begins.append(k)
    if len(begins) < len(ids):
        raise Rule(61, line=len(opt) + 1)
    return begins


def families(records):
    """Of each record the place, from 1, of its parent."""
    parents, before = [], None
    for k, (id_, attached) in enumerate(records):
        taken = attached or id_
        if taken == id_:
            parents.append(k + 1)
        elif taken == before:
            parents.append(parents[-1])
        else:
            raise Rule(60, line=k + 1)
        before = taken
    return parents


def image_of(line, number, name, read):
    try:
        page = pages.read_tiff(read(f"{name}/{loads.path_of(line[2])}", 3))
        if not pages.can_come_in(page.width, page.height):
            raise Rule(62, page.width, page.height)
        return page
    except Rule as rule:
        raise rule.at(number) from None


# ---- random batches

IDS = ("A1", "A2", "B-1", "caf\u00e9", "x y", "\u4e2d", "a'b", "P", "Q;", "R.R")
COLUMN = ("NOTE", "AUTHOR", "DATE", "ENDDOC", "ENDATTACH", "PAGECOUNT", "caf\u00e9", "a,b", '"', "N" * 64, "TEXTPATH")


def some_batch(draw):
    """The files of a batch by their paths below its folder, and what they are made of."""
    ids = [f"{draw.choice(IDS)}{k}" for k in range(12)]
    draw.shuffle(ids)
    opt, records, images, files, last = [], [], [], {}, None
    columns = ["BEGDOC", "BEGATTACH", *draw.sample(COLUMN, draw.choice((0, 1, 2, 3)))]
    if draw.random() < 0.3:
        draw.shuffle(columns)
    for _ in range(draw.choice((0, 1, 1, 2, 3))):
        count = draw.choice((1, 1, 2, 3))
        if len(opt) + count > len(ids):
            break
        first = ids[len(opt)]
        joins = last if last is not None and draw.random() < 0.4 else None
        attached = joins or draw.choice(("", first))
        last = joins or first
        values = {"BEGDOC": first, "BEGATTACH": attached}
        records.append([values.get(column, draw.choice(("", "Ng", "one\ntwo", "caf\u00e9", "a,b", '"q"'))) for column in columns])
        for k in range(count):
            image = ids[len(opt)]
            path = draw.choice(("", "IMAGES\\", "a/b/", ".\\")) + f"{len(opt)}.tif"
            if images and draw.random() < 0.1:
                path = draw.choice(images)[1]
            else:
                page = pages.some_page(draw)
                files[loads.path_of(path)] = pages.stranger(draw, page)
                images.append((page, path))
            opt.append((image, draw.choice(("", "V")), path, k == 0, False, draw.random() < 0.1, str(count) if k == 0 else ""))
    words = b""
    sides = {path: page for page, path in images}
    for image, _, path, *_ in opt:
        page = sides[path]
        for _ in range(draw.choice((0, 0, 1, 3))):
            width, height = draw.randrange(1, page.width + 1), draw.randrange(1, page.height + 1)
            left, top = draw.randrange(page.width - width + 1), draw.randrange(page.height - height + 1)
            text = draw.choice(("Dear", "John", "x y", "a,b", '"', "caf\u00e9", "w1"))
            fields = [image, str(draw.randrange(3)), *(str(n) for n in (left, top, width, height)), text]
            words += ",".join(loads.quoted(draw, field) for field in fields).encode("utf-8") + draw.choice((b"\n", b"\r\n"))
    return {"columns": columns, "records": records, "opt": opt, "words": words, "files": files}


def dat_with(columns, rows):
    return loads.dat_of(columns, rows) if columns else b""


def some_folder(draw, harm):
    """The files of a batch's folder; None is a folder in place of a file. With harm, something is wrong with them."""
    made = some_batch(draw)
    columns, records, opt = made["columns"], made["records"], made["opt"]
    wrong = draw.choice(WRONGS) if harm else None
    if wrong == "columns":
        kind = draw.randrange(6)
        at = draw.randrange(len(columns))
        if kind == 0:
            columns[at] = draw.choice(("", "BEGDOC", "N" * 65, "a\nb", "BegDoc"))
        elif kind == 1:
            columns, records = columns[:at] + columns[at + 1 :], [row[:at] + row[at + 1 :] for row in records]
        elif kind == 2:
            columns = [*columns, columns[at]]
            records = [[*row, row[at]] for row in records]
        elif kind == 3:
            columns = [*columns, *(f"F{k}" for k in range(draw.choice((60, 64, 65, 70))))]
            records = [row + [""] * (len(columns) - len(row)) for row in records]
        else:
            columns = columns + ["X"] if draw.random() < 0.5 else columns[:-1]
    elif wrong == "records" and records:
        at = draw.randrange(len(records))
        column = columns.index(draw.choice(("BEGDOC", "BEGATTACH", draw.choice(columns))))
        kind = draw.randrange(4)
        if kind == 0:
            records[at][column] = draw.choice(("A1", "", records[0][0], draw.choice(records)[column], "x\ny"))
        elif kind == 1:
            records.pop(at)
        elif kind == 2:
            records.insert(at, list(draw.choice(records)))
        else:
            records.reverse()
    elif wrong == "opt" and opt:
        at = draw.randrange(len(opt))
        line = list(opt[at])
        kind = draw.randrange(7)
        if kind == 0:
            line[0] = draw.choice((draw.choice(opt)[0], "zz"))
        elif kind == 1:
            line[2] = draw.choice(("none.tif", "../0.tif", "/0.tif", "C:\\0.tif", "a//0.tif", ".", "a\\", "load.dat", "IMAGES",
                                   "0.tif/x", "0.tif\\.", "n" * 300, "words.csv"))
        elif kind == 2:
            line[3] = not line[3]
        elif kind == 3:
            line[6] = draw.choice(("0", "99", "123456789"))
        opt[at] = tuple(line)
        if kind == 4:
            opt.pop(at)
        elif kind == 5:
            opt.append(draw.choice(opt))
        elif kind == 6:
            draw.shuffle(opt)
    files = dict(made["files"])
    if wrong == "image" and files:
        path = draw.choice(list(files))
        kind = draw.randrange(4)
        if kind == 0:
            files[path] = pages.some_file(draw)
        elif kind == 1:
            files[path] = damaged(draw, files[path])
        elif kind == 2:
            files[path] = draw.choice((None, b"", b"II*\0", *LARGE))
        else:
            del files[path]
    words = made["words"]
    if wrong == "words":
        kind = draw.randrange(3)
        image = draw.choice(opt)[0] if opt else "zz"
        if kind == 0:
            words += f"{draw.choice((image, 'zz'))},1,{draw.choice((0, 39, 999999999))},0,{draw.choice((1, 999999999, 40))},1,x\n".encode()
        elif kind == 1:
            words = loads.some_words_file(draw, (image, "P1"))
        else:
            words = damaged(draw, words)
    files |= {"load.dat": dat_with(columns, records), "load.opt": loads.opt_of(opt), "words.csv": words}
    if wrong == "damage":
        path = draw.choice(("load.dat", "load.opt", "words.csv"))
        files[path] = damaged(draw, files[path])
    elif wrong == "absent":
        files[draw.choice(("load.dat", "load.opt", "words.csv"))] = None
        for path in draw.sample(list(files), draw.choice((0, 1))):
            del files[path]
    elif wrong == "gone":
        del files[draw.choice(("load.dat", "load.opt", "words.csv"))]
    elif wrong == "random":
        files["load.dat"], files["load.opt"] = loads.some_dat(draw), loads.some_opt(draw)
    return files


WRONGS = ("columns", "records", "records", "opt", "opt", "image", "image", "words", "words", "damage", "damage", "absent", "gone", "random")
LARGE = [
    pages.tiff_around(pages.Page(width, height, []), strip, form)
    for width, height, strip, form in (
        (20001, 1, b"", "plain"), (20000, 10001, b"", "g4"), (20000, 10032, b"", "g4"), (10, 20001, bytes(40002), "plain"),
        (10, 20032, b"\xff" * 2504, "g4"), (10, 20033, b"\xff" * 2504, "g4"), (20000, 10032, b"\xff" * 1254, "g4"),
        (10, 20000, b"\xff" * 2500, "g4"), (20000, 10000, b"\xff" * 1250, "g4"),
    )
]


def write_folder(folder, files):
    for path, data in files.items():
        place = os.path.join(folder, path)
        if data is None:
            os.makedirs(place, exist_ok=True)
            continue
        os.makedirs(os.path.dirname(place), exist_ok=True)
        with open(place, "wb") as file:
            file.write(data)
