"""A plain model of pages and page files (docs/FORMATS.md: bp_t6, bp_tiff, bp_burn), and random cases of them: files as
strangers write them, whole and damaged. What reads them stands in tools/volumes/page_files.py. A page's row is the list of
its changing elements, as in t6_model.py."""
import t6_model
from fuzz_tools import answer, damaged, hex_word, said, told_bytes
from volumes.page_files import LONG, RATIONAL, SHORT, Page, can_be_a_page, flipped, lines_of_strip, read_tiff, turned  # noqa: F401

UNITS = {1: "none", 2: "inch", 3: "centimetre"}
GLYPHS = dict(
    pair.split(" ") for pair in """A 0E11111F111111;B 1E11111E11111E;C 0E11101010110E;D 1E11111111111E;E 1F10101E10101F;
F 1F10101E101010;G 0E11101711110F;H 1111111F111111;I 0E04040404040E;J 0702020202120C;K 11121418141211;L 1010101010101F;
M 111B1515111111;N 11191513111111;O 0E11111111110E;P 1E11111E101010;Q 0E11111115120D;R 1E11111E141211;S 0F10100E01011E;
T 1F040404040404;U 1111111111110E;V 11111111110A04;W 11111115151B11;X 11110A040A1111;Y 11110A04040404;Z 1F01020408101F;
0 0E11131519110E;1 040C040404040E;2 0E11010204081F;3 1F02040201110E;4 02060A121F0202;5 1F101E0101110E;6 0608101E11110E;
7 1F010204080808;8 0E11110E11110E;9 0E11110F01020C;- 0000001F000000;_ 0000000000001F;. 00000000000C0C""".replace("\n", "").split(";")
)
GLYPHS[" "] = "00" * 7
BAND = 32


def page_told(page):
    sides = "%d %d %d/%d %d/%d" % (page.width, page.height, *page.xres, *page.yres)
    return f"{sides} {UNITS[page.unit]} {told_bytes(page.packed())}"


def can_come_in(width, height):
    return 1 <= width <= 20000 and 1 <= height <= 20000 and width * height <= 200000000


def tiff_of(page, form):
    """The file that is written, `plain` or `g4`."""
    return tiff_around(page, page.packed() if form == "plain" else strip_of(page), form)


def strip_of(page):
    return t6_model.code(page.lines, page.width)


def tiff_around(page, strip, form):
    is_g4 = form == "g4"
    behind = 8 + 2 + 12 * (14 if is_g4 else 13) + 4
    entries = [
        (256, LONG, page.width), (257, LONG, page.height), (258, SHORT, 1), (259, SHORT, 4 if is_g4 else 1),
        (262, SHORT, 0), (266, SHORT, 1), (273, LONG, behind + 16), (277, SHORT, 1), (278, LONG, page.height),
        (279, LONG, len(strip)), (282, RATIONAL, behind), (283, RATIONAL, behind + 8),
        *([(293, LONG, 0)] if is_g4 else []), (296, SHORT, page.unit),
    ]
    out = b"II" + low(42, 2) + low(8, 4) + low(len(entries), 2)
    out += b"".join(low(tag, 2) + low(kind, 2) + low(1, 4) + low(value, 4) for tag, kind, value in entries)
    return out + low(0, 4) + b"".join(low(n, 4) for n in (*page.xres, *page.yres)) + strip


def low(number, size):
    return number.to_bytes(size, "little")


# ---- burning, bands, slip sheets


def pixels(page):
    """Each row as a number, the first pixel its highest bit."""
    pad = -page.width % 8
    return [int.from_bytes(t6_model.packed_row(line, page.width), "big") >> pad for line in page.lines]


def of_pixels(page, rows):
    pad, size = -page.width % 8, (page.width + 7) // 8
    lines = [t6_model.edges_of((row << pad).to_bytes(size, "big"), page.width) for row in rows]
    return page.like(lines, len(rows))


def across(left, right, width):
    """The pixels of these columns."""
    left, right = min(max(left, 0), width), min(max(right, 0), width)
    return ((1 << (right - left)) - 1) << (width - right) if left < right else 0


def drawn(rows, width, text, top, left, is_black=True):
    for k, character in enumerate(text):
        shape = bytes.fromhex(GLYPHS[character])
        for g in range(7):
            mask = 0
            for c in range(5):
                if shape[g] >> (4 - c) & 1:
                    mask |= across(left + 18 * k + 3 * c, left + 18 * k + 3 * c + 3, width)
            for row in range(top + 3 * g, top + 3 * g + 3):
                if 0 <= row < len(rows):
                    rows[row] = rows[row] | mask if is_black else rows[row] & ~mask


def burned(page, boxes):
    rows = pixels(page)
    for left, top, width, height in boxes:
        mask = across(left, left + width, page.width)
        for row in range(min(top, page.height), min(top + height, page.height)):
            rows[row] |= mask
    return of_pixels(page, rows)


def covered(page, stamps, ink):
    """The page under its stamps, each a box and its ground: the last stamp over a pixel decides it."""
    if ink == "black":
        return burned(page, [stamp[:4] for stamp in stamps])
    rows = pixels(page)
    for left, top, width, height, basis in stamps:
        area = [0] * page.height
        mask = across(left, left + width, page.width)
        inside = range(min(top, page.height), min(top + height, page.height))
        for row in inside:
            area[row] = mask
        if width >= 39 and height >= 27:
            drawn(area, page.width, basis, top + 3, left + 3, is_black=False)
        for row in inside:
            rows[row] = rows[row] & ~mask | area[row]
    return of_pixels(page, rows)


def banded(page, label, designation):
    rows = pixels(page) + [0] * BAND
    drawn(rows, page.width, designation, page.height + 5, 16)
    drawn(rows, page.width, label, page.height + 5, page.width - 16 - (18 * len(label) - 3))
    return of_pixels(page, rows)


def slip(basis, label, designation):
    page = Page(1700, 2200, [[]] * 2200)
    rows = pixels(page)
    drawn(rows, 1700, "DOCUMENT WITHHELD - " + basis, 1000, 200)
    return banded(of_pixels(page, rows), label, designation)


# ---- random pages and files


def some_lines(draw, width, height):
    lines = []
    for _ in range(height):
        kind = draw.randrange(6)
        if kind == 0 or not lines:
            line = sorted(draw.sample(range(width), min(width, draw.choice((0, 1, 2, 3, 7)))))
        elif kind == 1:
            line = list(lines[-1])
        else:
            line = sorted({min(max(0, edge + draw.choice((-4, -3, -2, -1, 0, 0, 0, 1, 2, 3, 4))), width - 1) for edge in lines[-1]})
            if draw.random() < 0.2:
                line = sorted({*line, draw.randrange(width)})
        lines.append(line)
    return lines


def some_page(draw):
    width = draw.choice((1, 2, 7, 8, 9, 15, 16, 17, 24, 31, 33, 40, 64, 65, 130, draw.randrange(1, 60), draw.randrange(60, 400)))
    if draw.random() < 0.03:
        width = draw.choice((1792, 2560, 2561, 2700, 5200, 20000))
    height = draw.choice((1, 1, 2, 3, 4, 5, 8, draw.randrange(1, 30)))
    page = Page(width, height, some_lines(draw, width, height))
    if draw.random() < 0.3:
        page.xres, page.yres = (draw.choice(((300, 1), (0, 0), (2**32 - 1, 7))) for _ in range(2))
        page.unit = draw.randrange(1, 4)
    return page


def run_spelled(draw, length, black):
    """A run of any make-up codes and one terminating code."""
    bits, codes = "", t6_model.RUN_CODES[black]
    while length >= 64:
        part = draw.choice((64, min(2560, length // 64 * 64), draw.randrange(1, min(40, length // 64) + 1) * 64))
        bits, length = bits + codes[part], length - part
        if length < 64 and draw.random() < 0.5:
            break
    while length >= 64:
        bits, length = bits + codes[64], length - 64
    return bits + codes[length]


def line_spelled(draw, reference, coding, width):
    """The line in any modes that paint it."""
    a0, black, bits = -1, False, ""
    while a0 < width:
        a1 = next((edge for k, edge in enumerate(coding) if edge > a0 and (k % 2 == 0) != black), width)
        a2 = next((edge for edge in coding if edge > a1), width)
        b1, b2 = t6_model.right_of(reference, a0, width, not black)
        modes = ["horizontal"]
        if abs(a1 - b1) <= 3 and a1 > a0:
            modes += ["vertical"] * 4
        if b2 <= a1 and b2 < width:
            modes += ["pass"] * (1 if b2 == a1 else 4)
        if a1 - max(a0, 0) > 1:
            modes.append("part")
        mode = draw.choice(modes)
        if mode == "pass":
            bits, a0 = bits + t6_model.MODE_CODES["pass"], b2
            if b2 == a1:
                # the colour turns here: no pixel of the old one, and then the other
                bits += t6_model.MODE_CODES["horizontal"] + run_spelled(draw, 0, black) + run_spelled(draw, a2 - a1, not black)
                a0 = a2
        elif mode == "vertical":
            bits, a0, black = bits + t6_model.MODE_CODES[a1 - b1], a1, not black
        elif mode == "part":
            part = draw.randrange(1, a1 - max(a0, 0))
            bits += t6_model.MODE_CODES["horizontal"] + run_spelled(draw, part, black) + run_spelled(draw, 0, not black)
            a0 = max(a0, 0) + part
        else:
            bits += t6_model.MODE_CODES["horizontal"]
            bits += run_spelled(draw, a1 - max(a0, 0), black) + run_spelled(draw, a2 - a1, not black)
            a0 = a2
    return bits


def strip_spelled(draw, lines, width):
    if draw.random() < 0.4:
        return t6_model.code(lines, width)
    bits = "".join(line_spelled(draw, above, line, width) for above, line in zip([[], *lines], lines))
    bits += draw.choice(("", t6_model.END_OF_BLOCK, "1", "0000001111"))
    bits += "0" * (-len(bits) % 8)
    return int(bits or "0", 2).to_bytes(max(1, len(bits) // 8), "big")


INTERESTING = (0, 1, 2, 3, 4, 5, 6, 7, 8, 9, 16, 32, 255, 256, 32773, 32767, 65535, 65536, 20000, 20001, 20032, 20033,
               10032, 10033, 2**31, 2**32 - 1, 2**32 - 2)
TAGS = (254, 256, 257, 258, 259, 262, 266, 273, 274, 277, 278, 279, 282, 283, 293, 296, 297, 0, 65535)


def stranger(draw, page, changes=0):
    """The page as a file in one of many forms; with changes, parts of its directory say something else."""
    order = draw.choice(("little", "big"))
    compression, photometric, fill = draw.choice((1, 4)), draw.choice((0, 1)), draw.choice((1, 1, 2))
    rows = draw.choice((page.height, page.height, 1, 2, 3, page.height + 1, 2**32 - 1))
    lines = [flipped(line) for line in page.lines] if photometric else page.lines
    strips = []
    for top in range(0, page.height, rows):
        part = lines[top : top + rows]
        if compression == 4:
            strip = strip_spelled(draw, part, page.width)
        else:
            strip = b"".join(t6_model.packed_row(line, page.width) for line in part)
        strip = strip if fill == 1 else turned(strip)
        strips.append(strip + bytes(draw.choice((0, 0, 0, 1, 3))))

    def whole(limit=65535):
        return draw.choice((SHORT, LONG)) if limit <= 65535 else LONG

    entries = [
        [256, whole(page.width), [page.width]], [257, whole(page.height), [page.height]], [258, whole(), [1]],
        [259, whole(), [compression]], [262, whole(), [photometric]], [266, whole(), [fill]],
        [273, draw.choice((SHORT, LONG)), "offsets"], [274, whole(), [1]], [277, whole(), [1]], [278, whole(rows), [rows]],
        [279, draw.choice((SHORT, LONG)), [len(strip) for strip in strips]],
        [282, RATIONAL, [page.xres]], [283, RATIONAL, [page.yres]], [296, whole(), [page.unit]],
    ]
    standard = {258: 1, 266: fill if fill == 1 else None, 274: 1, 277: 1, 296: page.unit if page.unit == 2 else None,
                278: rows if rows >= page.height else None}
    if page.xres == page.yres == (200, 1):
        standard |= {282: 1, 283: 1}
    entries = [entry for entry in entries if standard.get(entry[0]) is None or draw.random() < 0.6]
    for _ in range(draw.choice((0, 0, 0, 1, 2))):
        entries.append([draw.choice((254, 293, 297, 305)), draw.choice((1, 2, SHORT, LONG)), [draw.choice(INTERESTING) % 256]])
    if draw.random() < 0.2:
        draw.shuffle(entries)
    entries = [[tag, kind, values, None] for tag, kind, values in entries]
    for _ in range(changes):
        changed(draw, entries)
    following = draw.choice(INTERESTING) if changes and draw.random() < 0.03 else 0
    return laid_out(draw, order, entries, strips, following)


def changed(draw, entries):
    """One entry of a directory says something else; its last member stands for its count."""
    kind = draw.randrange(9)
    if not entries or kind == 0:
        entries.insert(draw.randrange(len(entries) + 1),
                       [draw.choice(TAGS), draw.choice((1, 2, SHORT, LONG, RATIONAL, 0, 65535)), [draw.choice(INTERESTING)], None])
        return
    entry = draw.choice(entries)
    if kind == 1:
        entries.remove(entry)
    elif kind == 2:
        entry[0] = draw.choice(TAGS)
    elif kind == 3:
        entry[1] = draw.choice((0, 1, 2, SHORT, LONG, RATIONAL, 6, 65535))
    elif kind == 4:
        entry[3] = draw.choice(INTERESTING)
    elif kind == 5:
        entries.insert(draw.randrange(len(entries) + 1), [entry[0], entry[1], [draw.choice(INTERESTING)], None])
    elif entry[1] in (SHORT, LONG) and isinstance(entry[2], list) and entry[2]:
        at = draw.randrange(len(entry[2]))
        entry[2] = [value if isinstance(value, int) else value[0] for value in entry[2]]
        entry[2][at] = draw.choice((draw.choice(INTERESTING), abs(entry[2][at] + draw.choice((-1, 1, 2, 8)))))
    else:
        entry[2] = ("at", draw.choice(INTERESTING))


def laid_out(draw, order, entries, strips, following):
    """The bytes: header, directory, strips and values that need room, in any order."""
    offsets = [0] * len(strips)

    def value(number, size):
        return (number % 256**size).to_bytes(size, order)

    def bytes_of(kind, values):
        if values == "offsets":
            values = offsets
        if kind == RATIONAL:
            return b"".join(value(n, 4) for pair in values for n in (pair if isinstance(pair, tuple) else (pair, 1)))
        return b"".join(value(n if isinstance(n, int) else n[0], {SHORT: 2, LONG: 4}.get(kind, 1)) for n in values)

    parts = [("directory", None), *(("strip", k) for k in range(len(strips)))]
    parts += [("values", k) for k, (_, kind, values, _) in enumerate(entries)
              if not isinstance(values, tuple) and len(bytes_of(kind, values)) > 4]
    if draw.random() < 0.7:
        draw.shuffle(parts)
    gaps = [draw.choice((0, 0, 0, 0, 1, 2, 5)) for _ in parts]
    places = {}
    for _ in range(2):
        at = 8
        for (what, k), gap in zip(parts, gaps):
            at += gap
            places[what, k] = at
            if what == "strip":
                offsets[k] = at
                at += len(strips[k])
            else:
                at += 2 + 12 * len(entries) + 4 if what == "directory" else len(bytes_of(*entries[k][1:3]))
    out = (b"II" if order == "little" else b"MM") + value(42, 2) + value(places["directory", None], 4)
    for (what, k), gap in zip(parts, gaps):
        out += b"\xaa" * gap
        if what == "strip":
            out += strips[k]
        elif what == "values":
            out += bytes_of(*entries[k][1:3])
        else:
            out += value(len(entries), 2)
            for at, (tag, kind, values, count) in enumerate(entries):
                if isinstance(values, tuple):
                    data, found = value(values[1], 4), 1
                else:
                    data = bytes_of(kind, values)
                    found = len(offsets) if values == "offsets" else len(values)
                    data = value(places["values", at], 4) if len(data) > 4 else data.ljust(4, b"\0")
                out += value(tag, 2) + value(kind, 2) + value(found if count is None else count, 4) + data
            out += value(following, 4)
    return out


def some_file(draw):
    """A file as a stranger writes it: whole, with another directory, or damaged."""
    kind = draw.random()
    data = stranger(draw, some_page(draw), 0 if kind < 0.45 else draw.choice((1, 1, 1, 2, 3)))
    return damaged(draw, data) if kind < 0.30 or kind > 0.85 else data


# ---- lines of bp_test_codecs


def tiff_lines(draw):
    """Page files, whole and damaged."""
    while True:
        whole = stranger(draw, some_page(draw), draw.choice((0, 0, 1, 1, 2, 3)))
        for data in (whole, damaged(draw, whole), damaged(draw, whole), damaged(draw, whole, 1)):
            yield [("file tiff + " + hex_word(data), answer(lambda: page_told(read_tiff(data))))]


def strip_lines(draw):
    """Strips of codes, whole and damaged, each read into a page whose rows are then told."""
    while True:
        page = some_page(draw)
        strip, fill = strip_spelled(draw, page.lines, page.width), draw.choice((1, 1, 2))
        width, height = page.width, page.height
        if draw.random() < 0.7:
            strip = damaged(draw, strip)
        if draw.random() < 0.1:
            width = draw.choice((0, 1, width + 1, max(1, width - 1), 20000, 20001, 2**32 - 1))
        if draw.random() < 0.2:
            height = draw.choice((0, 1, height + 1, height + 7, 20032, 20033))
        fills = "high" if fill == 1 else "low"
        asked = f"page coded {width} {height} {fills} {hex_word(strip)}"
        told = answer(lines_of_strip, strip, fill, width, height)
        if isinstance(told, str):
            yield [(asked, told)]
        else:
            yield [(asked, ""), ("page rows", told_bytes(Page(width, height, told).packed()))]


TEXT = "ABCDEFGHIJKLMNOPQRSTUVWXYZ0123456789-_. "


def some_rect(draw, width, height):
    left, top = draw.randrange(-2, width + 3), draw.randrange(-2, height + 3)
    return [max(0, left), max(0, top), draw.choice((0, 1, 2, 5, 38, 39, 40, width, 2**32 - 1)),
            draw.choice((0, 1, 2, 5, 26, 27, 28, height, 2**32 - 1))]


def runs_told(line, width):
    return " ".join(str(to - at) for at, to in zip([0, *line], [*line, width]))


def sheet_lines(ground, label, designation):
    words = f"{ground} {said(label.encode())} {said(designation.encode())}"
    strip = strip_of(slip(ground, label, designation))
    return [(f"page strip_slip {words}", "yes"), (f"page slip {words}", ""), ("page codes", told_bytes(strip))]


def page_lines(draw):
    """Pages written in both forms, burned, covered and banded."""
    while True:
        page = some_page(draw)
        if draw.random() < 0.3:
            page = page.like(some_lines(draw, page.width, 40), 40)
        page.xres, page.yres, page.unit = (200, 1), (200, 1), 2
        lines = [(f"page packed {page.width} {page.height} {hex_word(page.packed())}", ""),
                 ("page codes", told_bytes(strip_of(page))), ("strip written", told_bytes(strip_of(page))), ("page again", "yes")]
        for form in ("plain", "g4"):
            lines += [(f"file hex {hex_word(tiff_of(page, form))}", ""), (f"page written {form}", "yes")]
        stamps = [[*some_rect(draw, page.width, page.height), draw.choice(("AC", "WP", "PI", "TS"))]
                  for _ in range(draw.choice((0, 1, 1, 2, 4)))]
        ink = draw.choice(("black", "lettered"))
        label, designation = ("".join(draw.choice(TEXT) for _ in range(draw.choice((0, 1, 7, 22)))) for _ in range(2))
        if draw.random() < 0.05:
            lines = [*sheet_lines(draw.choice(("AC", "WP", "PI", "TS")), label, designation), *lines]
        words = " ".join(str(word) for stamp in stamps for word in stamp)
        words = f"{ink} {said(label.encode())} {said(designation.encode())} {words}".rstrip()
        if draw.random() < 0.5:
            under, row = covered(page, stamps, ink), draw.randrange(page.height)
            made = banded(under, label, designation)
            asked = " ".join(["strip covered", ink, str(row), *(str(word) for stamp in stamps for word in stamp)])
            lines += [(asked, runs_told(under.lines[row], page.width)), (f"page strip_produced {words}", "yes"), (f"page produced {words}", "")]
        else:
            boxes = [stamp[:4] for stamp in stamps]
            made = burned(page, boxes)
            lines.append((" ".join(["page burn", *(str(n) for box in boxes for n in box)]), ""))
        yield [*lines, ("page rows", told_bytes(made.packed()))]
