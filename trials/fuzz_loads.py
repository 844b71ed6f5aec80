"""A plain model of load files, words files, paths and labels (docs/FORMATS.md: bp_load, bp_text, bp_tiff, bp_bates), whose
readers of load files and paths stand in tools/volumes/profile.py, and random cases of them as lines of bp_test_codecs."""
import re

from fuzz_tools import Rule, answer, damaged, said, told_text
from volumes.profile import BETWEEN, DIGITS, MARK, NEWLINE, QUOTE, as_text, path_of, read_dat, read_opt
from volumes.profile import dat_columns, dat_records, read_dat_lines  # noqa: F401


def can_be_written(columns, rows):
    cells = [cell for row in [columns, *rows] for cell in row]
    return not any(c in cell for cell in cells for c in (QUOTE, BETWEEN, "\r", NEWLINE)) and not any("\n" in c for c in columns)


def dat_of(columns, rows):
    lines = [BETWEEN.join(QUOTE + cell.replace("\n", NEWLINE) + QUOTE for cell in row) for row in [columns, *rows]]
    return "".join(line + "\r\n" for line in lines).encode("utf-8")


# ---- OPT


def opt_of(lines):
    text = ""
    for image, volume, path, doc, folder, box, pages in lines:
        text += ",".join([image, volume, path, *("Y" if b else "" for b in (doc, folder, box)), pages]) + "\r\n"
    return text.encode("utf-8")


# ---- words


def csv_records(data):
    """Records of fields, as bytes (RFC 4180 as docs/FORMATS.md says it)."""
    data = data.removeprefix(MARK)
    records, record, at = [], [], 0
    while at < len(data):
        if not record and data[at] in b"\r\n":
            at += 1
            continue
        field = b""
        if data[at : at + 1] == b'"':
            at += 1
            while at < len(data):
                end = data.find(b'"', at)
                if end < 0:
                    field, at = field + data[at:], len(data)
                    break
                field, at = field + data[at:end], end + 1
                if data[at : at + 1] != b'"':
                    break
                field, at = field + b'"', at + 1
        # what follows a quote that has ended, or a field without one, stands as it is
        rest = re.compile(rb"[^,\r\n]*").match(data, at)[0]
        field, at = field + rest, at + len(rest)
        record.append(field)
        if data[at : at + 1] == b",":
            at += 1
            if at < len(data):
                if data[at] in b"\r\n":
                    record.append(b"")
                    records, record = [*records, record], []
                continue
            record.append(b"")
        records.append(record)
        record = []
    return records


def read_words(data):
    """Of each record: image, line, left, top, width, height, text."""
    out = []
    for k, record in enumerate(csv_records(data)):
        rule = Rule(57, line=k + 1)
        fields = [as_text(field, rule) for field in record]
        if len(fields) != 7 or not all(DIGITS.fullmatch(field) for field in fields[1:6]):
            raise rule
        numbers, text = [int(field) for field in fields[1:6]], fields[6]
        if 0 in numbers[3:] or not text or re.search("[\0-\x1f\x7f]", text):
            raise rule
        out.append((fields[0], *numbers, text))
    return out


def touch(one, other):
    """Whether two rectangles have a pixel in common."""
    return all(max(one[k], other[k]) < min(one[k] + one[k + 2], other[k] + other[k + 2]) for k in (0, 1))


def kept(words, boxes):
    """Of words (line, rectangle, text) those that no box touches."""
    return [word for word in words if not any(touch(word[1:5], box) for box in boxes)]


def page_text(words):
    text = ""
    for k, word in enumerate(words):
        text += word[5] + (" " if k + 1 < len(words) and words[k + 1][0] == word[0] else "\r\n")
    return text + "\f"


# ---- labels


def good_prefix(text, width):
    return re.fullmatch("(?!-)[A-Z0-9_-]{1,12}(?<![0-9])", text) is not None and 4 <= width <= 10


def largest(width):
    return 10**width - 1


def take(after, width, count):
    if after + count - 1 > largest(width):
        raise Rule(31, largest(width))
    return after, after + count - 1, after + count


def label(prefix, width, number):
    return f"{prefix}{number:0{width}}"


# ---- random files

WORDS = ("A", "BEGDOC", "BEGATTACH", "Ng", "Ortiz, Berg", "", "", "x y", "caf\u00e9", "\u00ae", "\u4e2d\u6587", "\ufeff", "'", '"', "1", "\U0001f600")


def some_text(draw):
    return "".join(draw.choice(WORDS) for _ in range(draw.choice((0, 1, 1, 2))))


def some_dat(draw):
    columns = draw.choice((1, 2, 3, 5))
    out = draw.choice((b"", b"", MARK))
    for _ in range(draw.choice((0, 1, 2, 2, 3, 6))):
        count = columns if draw.random() < 0.97 else columns + draw.choice((-1, 1))
        out += BETWEEN.join(QUOTE + some_text(draw) + QUOTE for _ in range(count)).encode("utf-8")
        out += draw.choice((b"\n", b"\r\n", b"\r\n", b"\n\n", b"\r\n\n\r\n"))
    return out.removesuffix(draw.choice((b"", b"", b"\n", b"\r\n")))


def some_opt(draw):
    out = draw.choice((b"", b"", MARK))
    for _ in range(draw.choice((0, 1, 2, 3, 6))):
        fields = [draw.choice(("P1", "P2", "caf\u00e9", "A B", "\ufeff", '"')), draw.choice(("", "V")),
                  draw.choice(("a.tif", "a\\b.tif", "..", "\u00fe"))]
        for _ in range(draw.choice((0, 1, 1, 3, 4))):
            fields.append(draw.choice(("", "", "Y", "1", "y", " ")) if len(fields) < 6 else draw.choice(("", "1", "000000012", "123456789")))
        if draw.random() < 0.05:
            fields = fields[: draw.randrange(8)] + draw.choice(([], [""], ["1234567890"]))
        out += ",".join(fields).encode("utf-8") + draw.choice((b"\n", b"\r\n", b"\r\n", b"\n\n"))
    return out.removesuffix(draw.choice((b"", b"", b"\n", b"\r\n")))


def quoted(draw, field):
    if draw.random() < 0.3 or any(c in field for c in ',"\r\n'):
        return '"' + field.replace('"', '""') + '"'
    return field


def some_words_file(draw, images=("P1", "P2", "", "a,b", 'q"q', "l\nl"), width=40, height=12):
    out = draw.choice((b"", b"", b"", MARK))
    for _ in range(draw.choice((0, 1, 2, 3, 6))):
        w, h = draw.choice((1, 2, 6, "07", 0) if draw.random() < 0.1 else (1, 2, 6)), draw.choice((1, 2, 5))
        left, top = draw.randrange(max(1, width - 6)), draw.randrange(max(1, height - 5))
        text = draw.choice(("Dear", "x y", "a,b", '"', "\u00fe", "\ufeff", " ", "caf\u00e9"))
        if draw.random() < 0.04:
            text = draw.choice(("", "\t", "\x7f", "a\nb", "\x1f"))
        fields = [draw.choice(images), draw.choice(("0", "1", "2", "003")), str(left), str(top), str(w), str(h), text]
        if draw.random() < 0.04:
            fields[draw.randrange(1, 6)] = draw.choice(("", "-1", "+1", " 1", "1234567890", "999999999", "0", "x", "\u0661"))
        if draw.random() < 0.03:
            fields = fields[: draw.randrange(8)] or [""]
        fields = [quoted(draw, field) + ("x" if draw.random() < 0.01 else "") for field in fields]
        out += ",".join(fields).encode("utf-8") + draw.choice((b"\n", b"\n", b"\r\n", b"\r", b"\n\n"))
    return out.removesuffix(draw.choice((b"", b"", b"\n")))


# ---- lines of bp_test_codecs


def dat_told(data):
    columns, rows = read_dat(data)
    return " /".join("".join(f"[{told_text(value)}]" for value in row) for row in [columns, *rows])


def dat_written(data):
    columns, rows = read_dat(data)
    if not can_be_written(columns, rows):
        return "not writable"
    out = dat_of(columns, rows)
    return "same" if out == data else told_text(out.decode("utf-8"))


def opt_told(data):
    return " / ".join(
        "[%s][%s][%s] %s%s%s [%s]" % (*(told_text(part) for part in line[:3]), *("dfb"[k] if line[3 + k] else "-" for k in range(3)),
                                     told_text(line[6]))
        for line in read_opt(data)
    )


def opt_written(data):
    lines = read_opt(data)
    if any("\ufeff" in part for line in lines for part in (line[0], line[1], line[2])):
        return "not writable"
    out = opt_of(lines)
    return "same" if out == data else told_text(out.decode("utf-8"))


def words_told(data):
    rows = read_words(data)
    return f"{len(rows)}" + "".join(
        f" / [{told_text(row[0])}] {' '.join(str(n) for n in row[1:6])} [{told_text(row[6])}]" for row in rows
    )


def load_lines(draw):
    """DAT and OPT files, whole and damaged, read and written again."""
    while True:
        is_dat = draw.random() < 0.5
        data = some_dat(draw) if is_dat else some_opt(draw)
        if draw.random() < 0.7:
            data = damaged(draw, data)
        if is_dat:
            told, written, name = dat_told, dat_written, "dat"
        else:
            told, written, name = opt_told, opt_written, "opt"
        if draw.random() < 0.7:
            yield [(f"load {name} {said(data)}", answer(told, data))]
        else:
            yield [(f"load {name}_written {said(data)}", answer(written, data))]


def word_lines(draw):
    """Words files, whole and damaged, and the text that boxes leave of them."""
    while True:
        data = some_words_file(draw)
        if draw.random() < 0.7:
            data = damaged(draw, data)
        told = answer(words_told, data)
        lines = [(f"words read {said(data)}", told)]
        if not told.startswith("refused") and draw.random() < 0.5:
            words = [row[1:] for row in read_words(data)]
            boxes = [[draw.randrange(30), draw.randrange(12), draw.choice((0, 1, 4)), draw.choice((0, 1, 9))]
                     for _ in range(draw.choice((0, 1, 2)))]
            asked = " ".join(["words kept", *(str(n) for box in boxes for n in box)])
            lines.append((asked, told_text(page_text(kept(words, boxes)))))
        yield lines


def name_lines(draw):
    """Paths, prefixes, labels and their numbers."""
    while True:
        kind = draw.randrange(4)
        if kind < 2:
            parts = [draw.choice(("a", "b.tif", ".", "..", "", "...", "C:", "\u00e9", " ", "-")) for _ in range(draw.randrange(5))]
            text = draw.choice("/\\").join(parts)
            if draw.random() < 0.5:
                text = damaged(draw, text.encode("utf-8")).decode("utf-8", "ignore")
            yield [(f"core path {said(text.encode('utf-8'))}", answer(lambda: told_text(path_of(text))))]
            continue
        prefix = "".join(draw.choice("ABZ-_09aB\u00c4") for _ in range(draw.choice((0, 1, 2, 3, 11, 12, 13))))
        if draw.random() < 0.6:
            prefix = draw.choice(("AB-", "Z", "_", "A1_", "ABCDEFGHIJKL", "0-"))
        width = draw.choice((0, 3, 4, 5, 9, 10, 11, 255))
        if kind == 2:
            yield [(f"label good {said(prefix.encode('utf-8'))} {width}", "yes" if good_prefix(prefix, width) else "no")]
        elif good_prefix(prefix, width):
            most = largest(width)
            number = draw.choice((1, 2, 9, 10, most, most - 1, draw.randrange(1, most + 1)))
            text = label(prefix, width, number)
            yield [(f"label write {said(prefix.encode('utf-8'))} {width} {number}", f"{len(text)} {text.ljust(22, '.')}")]
            number, count = draw.choice((1, number, most, most + 1, most - 19999)), draw.choice((1, 2, 9, 20000, draw.randrange(1, 20001)))
            number = max(1, number)
            yield [(f"label take {number} {width} {count}", answer(lambda: "%d-%d %d" % take(number, width, count)))]
