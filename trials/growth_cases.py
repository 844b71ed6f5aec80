"""The cases of growths.py: folders as they stand before a command, what is asked at desks, and the commands."""
import collections
import os
import random
import shutil

import fuzz_batch as batches
import fuzz_days as days
import fuzz_loads as loads
import fuzz_matter as matters
import fuzz_pages as pages
import fuzz_tools

# ---- folders


def page(draw, width, height):
    return pages.Page(width, height, pages.some_lines(draw, width, height))


def batch(draw, ids, sizes):
    """The files of a batch: families of two, the named documents, of each as many pages as there are sizes."""
    files, opt, words, records = {}, [], b"", []
    for k, id_ in enumerate(ids):
        records.append([id_, ids[k - k % 2], f"Ng {k}", "caf\u00e9, 2019" if k % 2 else ""])
        for p, (width, height) in enumerate(sizes[k]):
            image = id_ if p == 0 else f"{id_}.{p}"
            files[f"I/{image}.tif"] = pages.tiff_of(page(draw, width, height), ("g4", "plain")[p % 2])
            opt.append((image, "", f"I\\{image}.tif", p == 0, False, False, ""))
            for n in range(3):
                words += f"{image},{n},{n},0,{1 + n},1,w{n}\n".encode()
    return files | {"load.dat": loads.dat_of(["BEGDOC", "BEGATTACH", "AUTHOR", "NOTE"], records), "load.opt": loads.opt_of(opt), "words.csv": words}


SIZES = [[(8, 1), (64, 40)], [(33, 20)], [(40, 33), (9, 9), (64, 12)], [(50, 30)]]


def begun(folder):
    """A folder with a matter that has its lead alone, and the batches B1 and B2."""
    draw = random.Random(37)
    batches.write_folder(os.path.join(folder, "B1"), batch(draw, ["A1", "A2", "A3", "A4"], SIZES))
    batches.write_folder(os.path.join(folder, "B2"), batch(draw, ["C1", "C2"], SIZES[:2]))
    matter = matters.begun(days.DIGESTS[0])
    days.write_rows(folder, matters.rows_of(matter))
    return matter


def imported(folder):
    matter = begun(folder)
    matters.batch_in(matter, batches.read_batch(folder, "B1"))
    for k, role in ((1, "Reviewer"), (2, "Receiver"), (3, "Clerk")):
        matter.staff.append((role, days.DIGESTS[k], f"member {k}"))
    days.write_rows(folder, matters.rows_of(matter))
    return matter


def called(folder):
    """All documents are called: Produce, Redact with boxes and a held field, withheld, Redact; and confirmed."""
    matter = imported(folder)
    for data in decisions():
        days.answered(matter, data)
    days.write_rows(folder, matters.rows_of(matter))
    return matter


def frozen(folder):
    matter = called(folder)
    matters.freeze(matter, {"id": "R-1", "volume": "V1", "prefix": "AB-", "width": 4, "from": 1, "to": 4, "fields": ["AUTHOR", "NOTE"]})
    days.write_rows(folder, matters.rows_of(matter))
    return matter


def pressed(folder):
    """The volume of R-1 stands in the folder itself, for a check."""
    matter = frozen(folder)
    batches.write_folder(folder, days.volume_of(matter, matter.productions[0]))
    return matter


def with_notice(folder):
    frozen(folder)
    batches.write_folder(folder, {"notice.csv": b'1,AC,2019-01-07,Ng,"Ortiz, Berg",Letter to counsel\n'})


def with_grants(folder):
    frozen(folder)
    batches.write_folder(folder, {"grants.csv": b"3,R-1\n"})


def with_page(folder):
    batches.write_folder(folder, {"in.tif": pages.tiff_of(page(random.Random(3), 64, 40), "g4"), "out/b.tif": b"as it was"})


def with_plain_page(folder):
    batches.write_folder(folder, {"in.tif": pages.tiff_of(page(random.Random(3), 64, 40), "plain")})


def changed(prepare, path, change):
    """The same with one file changed."""
    def prepared(folder):
        prepare(folder)
        place = os.path.join(folder, path)
        with open(place, "rb") as file:
            data = file.read()
        with open(place, "wb") as file:
            file.write(change(data))
    return prepared


def with_dropped_box(folder):
    """R-1 is frozen and its volume stands below `out`; then a box of it was dropped."""
    matter = frozen(folder)
    batches.write_folder(folder, {f"out/{path}": data for path, data in days.volume_of(matter, matter.productions[0]).items()})
    days.answered(matter, post(days.KEYS[1], "/docs/3/unbox", {"num": 2}))
    days.write_rows(folder, matters.rows_of(matter))
    return matter


def of_two(which):
    """One of two matters that agree: document 1 has a box, covered words and a held author, document 2 is withheld."""
    def prepared(folder):
        draw, matter = random.Random(15), matters.begun(days.DIGESTS[0])
        matter.fields.append("AUTHOR")
        for k, (count, author) in enumerate(((1, ("Smith", "Jones")[which]), ((1, 3)[which], "Berg")), 1):
            matter.docs.append({"parent": k, "pages": count, "batch": 1, "id": f"D{k}", "values": [author]})
            for number in range(1, count + 1):
                matter.pages[k, number], matter.words[k, number] = page(draw, 64, 32), []
        matter.batches.append((days.DIGESTS[1], 2, sum(doc["pages"] for doc in matter.docs), "B"))
        scan = matter.pages[1, 1]
        rows, mask = pages.pixels(scan), pages.across(8, 24, 64)
        for row in range(8, 16):
            rows[row] = rows[row] | mask if which else rows[row] & ~mask
        matter.pages[1, 1] = pages.of_pixels(scan, rows)
        matter.words[1, 1] = [(1, 9 + 4 * k, 9, 3, 3, word) for k, word in enumerate(((("Smith",), ("Jo", "Hart"))[which]))]
        matter.calls = {1: (2, 1, 2, True, "Redact", ""), 2: (2, 1, 2, True, "WP", "")}
        matter.staff.append(("Second", days.DIGESTS[2], "second"))
        matter.boxes[1, 1], matter.held[1, 1] = (1, 8, 8, 16, 8, "PI"), "PI"
        matter.entries[2] = ("2019-03-04", "Ng", "Ortiz", "Letter")
        days.write_rows(folder, matters.rows_of(matter))
        return matter
    return prepared


def with_worked_page(folder):
    """A white page of 8 by 1."""
    batches.write_folder(folder, {"a.tif": pages.tiff_of(pages.Page(8, 1, [[]]), "plain")})


def to_be_imported(folder):
    """The batch B1 and a notice, and no matter yet."""
    batches.write_folder(os.path.join(folder, "B1"), batch(random.Random(37), ["A1", "A2", "A3", "A4"], SIZES))
    batches.write_folder(folder, {"notice.csv": b'1,AC,2019-01-07,Ng,"Ortiz, Berg",Letter to counsel\n'})


# ---- lines for bp_test_codecs


def with_load_lines(folder):
    """A DAT file with a mark and a newline in a value, one in UTF-16, OPT files of four, seven and eight fields: each read and written."""
    dat = "\ufeff" + "\u00fe" + "\u00fe\x14\u00fe".join(("BEGDOC", "BEGATTACH", "NOTE")) + "\u00fe\n\u00feA1\u00fe\x14\u00fe\u00fe\x14\u00feone\u00aetwo\u00fe\n"
    utf_16 = b"\xff\xfe" + "\u00feBEGDOC\u00fe\n".encode("utf-16-le")
    asked = [("dat", loads.dat_told, data) for data in (dat.encode(), utf_16)] + [("dat_written", loads.dat_written, dat.encode())]
    for data in (b"P1,V,a.tif,Y", b"P1,,a.tif,Y,,,1", b"P1,V,a.tif,Y\nP2,V,b.tif,,,,,x\n"):
        asked += [("opt", loads.opt_told, data), ("opt_written", loads.opt_written, data)]
    batches.write_folder(folder, {f"{k}.txt": f"load {name} {fuzz_tools.said(data)} = {fuzz_tools.answer(told, data)}\n".encode()
                                  for k, (name, told, data) in enumerate(asked)})


def with_strip_lines(folder):
    """Pages coded, strips read, and strips with each of the faults."""
    lines = []
    for width, height, rows in ((8, 1, [[]]), (20, 1, [[5, 10]]), (4, 1, [[1, 2]]), (8, 2, [[0, 8]] * 2), (6000, 1, [[2624, 2625]]), (6000, 1, [[5184, 5185]])):
        made = pages.Page(width, height, rows)
        packed, strip = fuzz_tools.told_bytes(made.packed()), fuzz_tools.hex_word(pages.strip_of(made))
        lines.append(f"page packed {width} {height} {fuzz_tools.hex_word(made.packed())}\npage codes = {fuzz_tools.told_bytes(pages.strip_of(made))}\n")
        lines.append(f"page coded {width} {height} high {strip}\npage rows = {packed}\n")
    for strip, rows, due in (("80080080", 2, "71 T6EarlyEnd 0 1 1"), ("03c0", 1, "72 T6Extension 0 0 0"), ("-", 1, "70 T6ShortData 0 0 0"),
                             ("60", 1, "74 T6BadPlace 0 0 0")):
        lines.append(f"page coded 8 {rows} high {strip} = refused {due}\n")
    batches.write_folder(folder, {f"{k}.txt": line.encode() for k, line in enumerate(lines)})


# ---- requests


def post(key, target, body):
    data = days.as_json(body)
    return f"POST {target} HTTP/1.1\r\nDesk-Key: {key}\r\nContent-Length: {len(data)}\r\n\r\n".encode() + data


def get(key, target):
    return f"GET {target} HTTP/1.1\r\nDesk-Key: {key}\r\n\r\n".encode()


def decisions():
    """The requests that settle the four documents."""
    lead, reviewer = days.KEYS[0], days.KEYS[1]
    entry = {"date": "2019-03-04", "author": "Ng", "recipients": "Ortiz, Berg", "description": "Letter"}
    for doc, treatment in ((1, "Produce"), (2, "Redact"), (3, "Redact"), (4, "Withhold-AC")):
        yield post(reviewer, f"/docs/{doc}/call", {"responsive": True, "treatment": treatment, "designation": "CONFIDENTIAL"})
    yield post(reviewer, "/docs/2/box", {"num": 1, "page": 1, "left": 2, "top": 3, "width": 20, "height": 9, "basis": "AC"})
    yield post(reviewer, "/docs/3/box", {"num": 1, "page": 1, "left": 0, "top": 0, "width": 40, "height": 30, "basis": "PI"})
    yield post(reviewer, "/docs/3/box", {"num": 2, "page": 3, "left": 1, "top": 1, "width": 2, "height": 2, "basis": "WP"})
    yield post(reviewer, "/docs/3/hold", {"field": "AUTHOR", "basis": "PI"})
    for doc in (2, 3, 4):
        yield post(reviewer, f"/docs/{doc}/entry", entry)
        yield post(lead, f"/docs/{doc}/confirm", {})


def asked_at_a_desk():
    """A request of each kind, and some that are refused."""
    lead, reviewer = days.KEYS[0], days.KEYS[1]
    return [
        post(lead, "/staff", {"name": "member 5", "role": "Second", "digest": days.DIGESTS[5].hex()}), *decisions(),
        post(reviewer, "/docs/3/unbox", {"num": 2}), get(lead, "/docs/3"), get(reviewer, "/docs/3/pages/1"), get(lead, "/docs/1/pages/1/words"),
        post(days.KEYS[5], "/docs/3/confirm", {}), post(reviewer, "/docs/2/free", {"field": "NOTE"}), post(reviewer, "/docs/3/confirm", {}),
        post(days.KEYS[3], "/productions", {"id": "R-1", "volume": "V1", "prefix": "AB-", "width": 4, "from": 1, "to": 4, "fields": ["NOTE"]}),
        get(days.KEYS[3], "/productions/R-1"), post(reviewer, "/docs/1/back", {}), get("nobody", "/docs/1"), get(lead, "/docs/9"),
        post(reviewer, "/docs/2/box", {"num": 1}), b"GET / HTTP/1.1\r\n\r\n", b"\x00",
        get(lead, "/docs/2"), post(reviewer, "/docs/2/box", {"num": 7, "page": 1, "left": 0, "top": 0, "width": 4, "height": 4, "basis": "TS"}),
    ]


def asked_of_a_delivery():
    lead, receiver = days.KEYS[0], days.KEYS[2]
    return [
        get(receiver, "/granted"), get(receiver, "/granted/R-1/V1/MANIFEST.TXT"), get(receiver, "/granted/R-1/V1/DATA/V1.DAT"),
        get(receiver, "/granted/R-1/V1/IMAGES/0001/AB-0001.TIF"), get(receiver, "/granted/R-1/V1/X"), get(receiver, "/granted/P/V1/MANIFEST.TXT"),
        get(receiver, "/docs/1"), get(lead, "/docs/1"), get(receiver, "/granted/R-1/V1/TEXT/0001/AB-0007.TXT"), post(lead, "/grants", {"staff": 1, "id": "R-1"}),
        get(receiver, "/granted/R-1/V1/DATA/V1-LOG.CSV"), post(days.KEYS[1], "/docs/1/back", {}), get(receiver, "/granted"),
    ]


def asked_in_a_day():
    """Who is taken in, and what settles the four documents."""
    lead = days.KEYS[0]
    return [*(post(lead, "/staff", {"name": f"member {k}", "role": role, "digest": days.DIGESTS[k].hex()})
              for k, role in ((1, "Reviewer"), (2, "Receiver"), (3, "Clerk"))), *decisions()]


def asked_at_two_desks():
    """A box put at the first desk is seen at the second, and at the first again."""
    reviewer = days.KEYS[1]
    box = {"num": 5, "page": 1, "left": 1, "top": 1, "width": 4, "height": 4, "basis": "TS"}
    return [get(reviewer, "/docs/3"), get(days.KEYS[0], "/docs/3"), post(reviewer, "/docs/3/box", box), get(days.KEYS[0], "/docs/3"),
            get(reviewer, "/docs/3"), post(days.KEYS[0], "/docs/3/back", {}), get(reviewer, "/docs/3"), get(days.KEYS[0], "/docs/3")]


# ---- cases

# requests: what a desk is asked; steps: the commands of a day, each a case of its own; is_lines: files for bp_test_codecs
Case = collections.namedtuple("Case", "name prepare words requests steps is_lines", defaults=(None, None, False))

PRODUCE = ["produce", "R-1", "V1", "AB-", "4", "1", "4", "AUTHOR", "NOTE"]
CHECKED = ["check", "V1/DATA/V1.DAT", "V1/DATA/V1.OPT", "V1/MANIFEST.TXT"]
OF_TWO = ["produce", "R-1", "V1", "AB-", "4", "1", "2", "AUTHOR"]


def as_it_was(_):
    """Nothing is done between two commands."""


def received(folder):
    """Whoever receives the volume puts it beside the matter."""
    shutil.copytree(os.path.join(folder, "out", "V1"), os.path.join(folder, "V1"))


DAY = [
    Case("init", as_it_was, ["init", days.DIGESTS[0].hex()]),
    Case("import", as_it_was, ["import", "B1"]),
    Case("serve", as_it_was, ["serve", "1"], asked_in_a_day),
    Case("produce", as_it_was, PRODUCE),
    Case("press", as_it_was, ["press", "R-1"]),
    Case("log", as_it_was, ["log", "R-1"]),
    Case("claw", as_it_was, ["claw", "R-1", "V2", "notice.csv"]),
    Case("check", received, CHECKED),
]

CASES = [
    Case("burn_worked", with_worked_page, ["burn", "a.tif", "0", "0", "8", "1", "b.tif", "plain"]),
    Case("burn", with_page, ["burn", "in.tif", "3", "4", "20", "9", "b.tif", "plain"]),
    Case("burn_g4", with_plain_page, ["burn", "in.tif", "3", "4", "20", "9", "b.tif", "g4"]),
    Case("burn_refused", with_page, ["burn", "in.tif", "60", "4", "20", "9", "b.tif", "plain"]),
    Case("words_refused", begun, ["burn", "in.tif"]),
    Case("init", lambda folder: None, ["init", days.DIGESTS[0].hex()]),
    Case("init_refused", begun, ["init", days.DIGESTS[0].hex()]),
    Case("import", begun, ["import", "B1"]),
    Case("import_again", imported, ["import", "B1"]),
    Case("import_more", imported, ["import", "B2"]),
    Case("import_differs", changed(imported, "B1/words.csv", lambda data: data + b"A1,1,0,0,1,1,x\n"), ["import", "B1"]),
    Case("import_damaged", changed(begun, "B1/I/A3.tif", lambda data: data[:-4] + b"\0\0\0\1"), ["import", "B1"]),
    Case("produce", called, PRODUCE),
    Case("produce_again", frozen, PRODUCE),
    Case("produce_refused", imported, PRODUCE),
    Case("produce_dropped", with_dropped_box, PRODUCE),
    Case("produce_differs", with_dropped_box, [*PRODUCE[:6], "3", *PRODUCE[7:]]),
    Case("produce_taken", with_dropped_box, ["produce", "R-2", *PRODUCE[2:]]),
    Case("produce_one", of_two(0), OF_TWO),
    Case("produce_other", of_two(1), OF_TWO),
    Case("press", frozen, ["press", "R-1"]),
    Case("press_refused", frozen, ["press", "R-2"]),
    Case("log", frozen, ["log", "R-1"]),
    Case("claw", with_notice, ["claw", "R-1", "V2", "notice.csv"]),
    Case("check", pressed, CHECKED),
    Case("check_refused", changed(pressed, "V1/DATA/V1-LOG.CSV", lambda data: data + b"\n"), CHECKED),
    Case("serve", imported, ["serve", "1"], asked_at_a_desk),
    Case("serve_two", imported, ["serve", "2"], asked_at_a_desk),
    Case("serve_seen", called, ["serve", "2"], asked_at_two_desks),
    Case("deliver", with_grants, ["deliver", "grants.csv"], asked_of_a_delivery),
    Case("demo", as_it_was, ["demo", "7", "3"]),
    Case("lines_loads", with_load_lines, None, is_lines=True),
    Case("lines_strips", with_strip_lines, None, is_lines=True),
    Case("day", to_be_imported, ["init", "..", "check"], steps=DAY),
]
