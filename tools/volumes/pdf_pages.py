"""A PDF (ISO 32000-1) of a document's page files: their Group 4 codes as they stand (7.4.6, CCITTFaxDecode), and its text, which
isn't drawn (9.3.6, text rendering mode 3, in a font without a mark). The same pages and text make the same file."""
import hashlib
import itertools
from dataclasses import dataclass

from . import t6
from .page_files import LONG, SHORT, File, read_tiff

POINTS = {2: 72, 3: 72 / 2.54}  # of a unit; by TIFF's ResolutionUnit
USUAL = (200, 1)  # pixels to the inch where a file doesn't say
MARGIN, LARGEST, WIDTH = 18, 10, 0.5  # points; points of a letter; its width in its height
NARROWEST = 0.6  # of a letter's width
UNITS, A_FONT = 1000, 255  # of a letter's height; letters


@dataclass(frozen=True)
class PageImage:
    """A page's sides in pixels and in points, its codes, and whether black is what the codes call black."""

    width: int
    height: int
    across: float
    down: float
    codes: bytes
    is_black: bool


def image_of(data):
    """The page of a file that `read_tiff` takes. Codes in one strip stay as they are; other pages are coded anew."""
    file = File(data)
    value = lambda tag, default: file.whole(tag, default, None)  # noqa: E731
    width, height, unit = value(256, None), value(257, None), value(296, 2)
    scales = [file.values(tag, (5,), 1, (200, 1))[0] for tag in (282, 283)]
    if unit not in POINTS or any(0 in scale for scale in scales):
        scales, unit = [USUAL, USUAL], 2
    across, down = (side * POINTS[unit] * below / above for side, (above, below) in zip((width, height), scales))
    if value(259, None) == 4 and value(266, 1) == 1 and value(278, 2**32 - 1) >= height:
        at, size = (file.values(tag, (SHORT, LONG), 1, None)[0] for tag in (273, 279))
        return PageImage(width, height, across, down, data[at : at + size], value(262, None) == 0)
    page = read_tiff(data)
    return PageImage(width, height, across, down, t6.code(page.lines, width), True)


class Pdf:
    """Objects on their way into a file."""

    def __init__(self):
        self.objects = []

    def reserve(self):
        self.objects.append(b"")
        return len(self.objects)

    def put(self, body, number=None):
        number = number or self.reserve()
        self.objects[number - 1] = body if isinstance(body, bytes) else body.encode("ascii")
        return number

    def stream(self, head, data):
        return self.put(f"<< {head} /Length {len(data)} >>\nstream\n".encode("ascii") + data + b"\nendstream")

    def written(self, root, info):
        out, places = bytearray(b"%PDF-1.5\n%\xe2\xe3\xcf\xd3\n"), []
        for number, body in enumerate(self.objects, 1):
            places.append(len(out))
            out += b"%d 0 obj\n%b\nendobj\n" % (number, body)
        begins = len(out)
        out += b"xref\n0 %d\n0000000000 65535 f \n" % (len(places) + 1)
        out += b"".join(b"%010d 00000 n \n" % place for place in places)
        mark = hashlib.sha256(bytes(out)).hexdigest()[:32].encode()
        out += b"trailer\n<< /Size %d /Root %d 0 R /Info %d 0 R /ID [<%b> <%b>] >>\nstartxref\n%d\n%%%%EOF\n" % (
            len(places) + 1, root, info, mark, mark, begins)
        return bytes(out)


def pdf_of(title, pages):
    """The file of these pages, each the bytes of its page file and its text."""
    pdf = Pdf()
    tree, letters = pdf.reserve(), sorted({" ", *(letter for _, text in pages for letter in text if letter >= " ")})
    fonts, places = put_fonts(pdf, letters)
    named = " ".join(f"/F{at} {font} 0 R" for at, font in enumerate(fonts))
    kids = [put_page(pdf, tree, named, image_of(data), text_drawn_by(places, text)) for data, text in pages]
    pdf.put(f"<< /Type /Pages /Count {len(kids)} /Kids [{' '.join(f'{kid} 0 R' for kid in kids)}] >>", tree)
    root = pdf.put(f"<< /Type /Catalog /Pages {tree} 0 R >>")
    info = pdf.put(f"<< /Title <FEFF{title.encode('utf-16-be').hex()}> >>")
    return pdf.written(root, info)


def text_drawn_by(places, text):
    return lambda image: text_drawn(image, text, places)


def put_page(pdf, tree, fonts, image, drawn_on):
    photometric = "" if image.is_black else " /BlackIs1 true"
    parms = f"<< /K -1 /Columns {image.width} /Rows {image.height}{photometric} >>"
    drawn = pdf.stream(f"/Type /XObject /Subtype /Image /Width {image.width} /Height {image.height} /ColorSpace /DeviceGray"
                       f" /BitsPerComponent 1 /Filter /CCITTFaxDecode /DecodeParms {parms}", image.codes)
    content = pdf.stream("", f"q {image.across:.4f} 0 0 {image.down:.4f} 0 0 cm /P Do Q\n".encode() + drawn_on(image))
    return pdf.put(f"<< /Type /Page /Parent {tree} 0 R /MediaBox [0 0 {image.across:.4f} {image.down:.4f}] /Contents {content} 0 R"
                   f" /Resources << /XObject << /P {drawn} 0 R >> /Font << {fonts} >> >> >>")


def text_drawn(image, text, places):
    """The lines of the text from the top of the page, in its reading order, invisible. A volume doesn't say where words stand."""
    room = max(1, image.across - 2 * MARGIN)
    lines = rows_of("".join(letter if letter in places else "\n" for letter in text), room)
    if not lines:
        return b""
    step = (image.down - 2 * MARGIN) / len(lines) if image.down > 4 * MARGIN else image.down / len(lines)
    size = max(0.1, min(LARGEST, step * 0.8))
    out = ["BT 3 Tr"]
    for number, line in enumerate(lines):
        scale = min(100, 100 * room / (len(line) * WIDTH * size))
        top = image.down - (MARGIN if image.down > 4 * MARGIN else 0) - (number + 0.8) * step
        runs = itertools.groupby((places[letter] for letter in line), key=lambda place: place[0])
        shown = " ".join(f"/F{font} {size:.3f} Tf <{''.join(f'{code:02x}' for _, code in run)}> Tj" for font, run in runs)
        out.append(f"{scale:.3f} Tz 1 0 0 1 {MARGIN} {top:.3f} Tm {shown}")
    return "\n".join([*out, "ET"]).encode()


def rows_of(text, room):
    """The lines of a text; a long one becomes several, between its words, so that letters aren't drawn too narrow to be read."""
    most, rows = int(room / (WIDTH * LARGEST * NARROWEST)), []
    for line in filter(None, (line.split() for line in text.split("\n"))):
        rows.append(line[0])
        for word in line[1:]:
            if len(rows[-1]) + 1 + len(word) <= most:
                rows[-1] += f" {word}"
            else:
                rows.append(word)
    return rows


def put_fonts(pdf, letters):
    """For each letter its font and its code there. Fonts of type 3 (9.6.5) whose glyphs have no mark in them, as many as the letters
    need, are whole in the file: no reader of it looks for one; which letter a code is stands beside it (9.10.3)."""
    glyph = pdf.stream("", f"{UNITS * WIDTH:g} 0 d0".encode())
    fonts, places = [], {}
    for at in range(0, len(letters), A_FONT):
        part = letters[at : at + A_FONT]
        places.update({letter: (len(fonts), code) for code, letter in enumerate(part, 1)})
        fonts.append(put_font(pdf, glyph, part))
    return fonts, places


def put_font(pdf, glyph, letters):
    told = pdf.stream("", unicode_map(letters))
    names = "".join(f"/g{code}" for code in range(1, len(letters) + 1))
    return pdf.put(f"<< /Type /Font /Subtype /Type3 /FontBBox [0 0 {UNITS * WIDTH:g} {UNITS}] /FontMatrix [{1 / UNITS:g} 0 0 {1 / UNITS:g} 0 0]"
                   f" /CharProcs << {' '.join(f'/g{code} {glyph} 0 R' for code in range(1, len(letters) + 1))} >>"
                   f" /Encoding << /Type /Encoding /Differences [1 {names}] >> /FirstChar 1 /LastChar {len(letters)}"
                   f" /Widths [{' '.join([f'{UNITS * WIDTH:g}'] * len(letters))}] /Resources << >> /ToUnicode {told} 0 R >>")


def unicode_map(letters):
    rows = [f"<{code:02x}> <{letter.encode('utf-16-be', 'replace').hex()}>" for code, letter in enumerate(letters, 1)]
    parts = [rows[at : at + 100] for at in range(0, len(rows), 100)]
    head = ("/CIDInit /ProcSet findresource begin\n12 dict begin\nbegincmap\n"
            "/CIDSystemInfo << /Registry (Adobe) /Ordering (UCS) /Supplement 0 >> def\n"
            "/CMapName /Text def\n/CMapType 2 def\n1 begincodespacerange\n<00> <ff>\nendcodespacerange\n")
    body = "".join(f"{len(part)} beginbfchar\n" + "\n".join(part) + "\nendbfchar\n" for part in parts)
    return (head + body + "endcmap\nCMapName currentdict /CMap defineresource pop\nend\nend").encode("ascii")
