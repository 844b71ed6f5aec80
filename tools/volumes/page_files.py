"""Page files of the profile, read by its rules (docs/FORMATS.md: bp_t6, bp_tiff). A page's row is the list of its changing
elements, as in t6.py."""
from . import t6
from .rule import Rule

SHORT, LONG, RATIONAL = 3, 4, 5


class Page:
    def __init__(self, width, height, lines, xres=(200, 1), yres=(200, 1), unit=2):
        self.width, self.height, self.lines = width, height, lines
        self.xres, self.yres, self.unit = xres, yres, unit

    def like(self, lines, height=None):
        return Page(self.width, height or self.height, lines, self.xres, self.yres, self.unit)

    def packed(self):
        return b"".join(t6.packed_row(line, self.width) for line in self.lines)


def can_be_a_page(width, height):
    return 1 <= width <= 20000 and 1 <= height <= 20032 and width * height <= 200640000


# ---- strips of codes


def turned(data):
    return bytes(int("{:08b}".format(byte)[::-1], 2) for byte in data)


def lines_of_strip(strip, fill, width, height, row=0):
    """The lines of a strip that begins at this row of the page."""
    if not can_be_a_page(width, height):
        raise Rule(62, width, height)
    try:
        return t6.read(strip if fill == 1 else turned(strip), width, height)
    except t6.Refused as refused:
        number, at, bit = refused.args
        raise Rule(number, at + row, bit) from None


# ---- page files


class File:
    """The bytes of a TIFF file."""

    def __init__(self, data):
        if len(data) < 8 or data[:2] not in (b"II", b"MM"):
            raise Rule(80)
        self.data, self.order = data, "little" if data[:2] == b"II" else "big"
        if self.number(2, 2) != 42:
            raise Rule(80)
        at = self.number(4, 4)
        count = self.number(at, 2) if at + 2 <= len(data) else 0
        if at + 2 + 12 * count + 4 > len(data):
            raise Rule(81, 0)
        if self.number(at + 2 + 12 * count, 4) != 0:
            raise Rule(86)
        self.entries = {}
        for k in range(count):
            place = at + 2 + 12 * k
            self.entries.setdefault(self.number(place, 2), place)

    def number(self, at, size):
        return int.from_bytes(self.data[at : at + size], self.order)

    def values(self, tag, types, count, default):
        """The values of a tag; `count` is how many there must be, and with `other` the rule where there aren't."""
        if tag not in self.entries:
            if default is None:
                raise Rule(82, tag)
            return [default]
        place = self.entries[tag]
        kind, found = self.number(place + 2, 2), self.number(place + 4, 4)
        if kind not in types:
            raise Rule(83, tag)
        if found != count:
            raise Rule(87) if tag in (273, 279) else Rule(83, tag)
        size = {SHORT: 2, LONG: 4, RATIONAL: 8}[kind]
        at = place + 8
        if size * count > 4:
            at = self.number(at, 4)
            if at + size * count > len(self.data):
                raise Rule(81, tag)
        if kind == RATIONAL:
            return [(self.number(at, 4), self.number(at + 4, 4))]
        return [self.number(at + size * k, size) for k in range(count)]

    def whole(self, tag, default, allowed):
        value = self.values(tag, (SHORT, LONG), 1, default)[0]
        if allowed and value not in allowed:
            raise Rule(84, value) if tag == 259 else Rule(85, tag)
        return value


def read_tiff(data):
    file = File(data)
    width, height = file.whole(256, None, None), file.whole(257, None, None)
    if not can_be_a_page(width, height):
        raise Rule(62, width, height)
    for tag in (258, 277, 274):
        file.whole(tag, 1, (1,))
    compression = file.whole(259, None, (1, 4))
    photometric = file.whole(262, None, (0, 1))
    fill = file.whole(266, 1, (1, 2))
    rows = file.whole(278, 2**32 - 1, None)
    if rows == 0:
        raise Rule(85, 278)
    count = -(-height // rows)
    offsets = file.values(273, (SHORT, LONG), count, None)
    sizes = file.values(279, (SHORT, LONG), count, None)
    xres, yres = (file.values(tag, (RATIONAL,), 1, (200, 1))[0] for tag in (282, 283))
    unit = file.whole(296, 2, (1, 2, 3))
    if any(offset + size > len(data) for offset, size in zip(offsets, sizes)):
        raise Rule(81, 273)
    lines, stride = [], (width + 7) // 8
    for k in range(count):
        strip, due = data[offsets[k] : offsets[k] + sizes[k]], min(rows, height - k * rows)
        if compression == 4:
            lines += lines_of_strip(strip, fill, width, due, k * rows)
            continue
        if len(strip) < due * stride:
            raise Rule(87)
        strip = strip if fill == 1 else turned(strip[: due * stride])
        lines += [t6.edges_of(strip[r * stride : r * stride + stride], width) for r in range(due)]
    if photometric == 1:
        lines = [flipped(line) for line in lines]
    return Page(width, height, lines, xres, yres, unit)


def flipped(line):
    return line[1:] if line[:1] == [0] else [0, *line]
