#!/usr/bin/env python3
"""Writes a raw PBM (P4) on standard input, as TIFF files (TIFF 6.0) in forms that no common tool writes, into a folder:
the directory ahead of the strips or behind them, at odd places, in other orders of bytes, with SHORT and LONG offsets and
counts, private tags, entries out of order, no resolutions, entries that hold what they may leave out, strips that stand
backwards, that share their bytes or have bytes to spare. Prints a line for each: its name.
The strips are packed rows, or in Group 4 those that the coder of t6_model.py makes. Words: the folder.
"""
import os
import struct
import sys

sys.dont_write_bytecode = True
import t6_model  # noqa: E402
from plain_page import read_pbm  # noqa: E402

BYTE, ASCII, SHORT, LONG, RATIONAL = 1, 2, 3, 4, 5
CODES = {BYTE: "B", ASCII: "B", SHORT: "H", LONG: "L", RATIONAL: "L"}
REVERSED = bytes(int("{:08b}".format(byte)[::-1], 2) for byte in range(256))


class Form:
    """How a file says its page; each word given changes one thing of the usual form."""

    order = "<"  # struct's sign for the order of bytes
    g4 = False
    low_first = False  # FillOrder 2
    black_is_zero = False  # PhotometricInterpretation 1; in Group 4 the codes of the colours are then exchanged too
    rows = None  # RowsPerStrip; all in one where None
    numbers = LONG  # the type of every number that may be SHORT or LONG
    resolutions = True
    private = False
    shuffled = False
    bare = False  # no tag that may be left out
    odd = False  # all parts begin at odd places
    directory_last = False
    strips_backwards = False
    spare = b""  # bytes behind each strip, that its count includes
    end_of_block = True

    def __init__(self, **words):
        for name, value in words.items():
            assert hasattr(Form, name)
            setattr(self, name, value)


def strips_of(form, width, height, packed):
    """The bytes of each strip, from the top."""
    size, rows = (width + 7) // 8, form.rows or height
    if form.black_is_zero:
        packed = bytes(byte ^ 255 for byte in packed)
        unused = size * 8 - width
        packed = b"".join(
            packed[at : at + size - 1] + bytes([packed[at + size - 1] >> unused << unused])
            for at in range(0, len(packed), size)
        )
    for top in range(0, height, rows):
        part = packed[top * size : (top + rows) * size]
        if form.g4:
            lines = [t6_model.edges_of(part[at : at + size], width) for at in range(0, len(part), size)]
            part = t6_model.code(lines, width)
            if not form.end_of_block:
                part = without_end_of_block(part)
        yield (part.translate(REVERSED) if form.low_first else part) + form.spare


def without_end_of_block(strip):
    bits = "".join("{:08b}".format(byte) for byte in strip)
    bits = bits[: bits.rindex(t6_model.END_OF_BLOCK)]
    bits += "0" * (-len(bits) % 8)
    return int(bits or "0", 2).to_bytes(len(bits) // 8, "big")


def entries_of(form, width, height, offsets, counts):
    """Tag, type and values of each entry, before they are put in their order."""
    number = form.numbers
    entries = [(256, number, [width]), (257, number, [height]), (259, SHORT, [4 if form.g4 else 1])]
    entries += [(262, SHORT, [int(form.black_is_zero)]), (273, number, offsets), (279, number, counts)]
    if form.rows:
        entries.append((278, number, [form.rows]))
    if form.low_first:
        entries.append((266, SHORT, [2]))
    if not form.bare:
        entries += [(258, number, [1]), (277, number, [1]), (274, number, [1]), (254, LONG, [0]), (284, SHORT, [1])]
        entries += [(305, ASCII, list(b"a tool of ours\0"))]
        if not form.low_first:
            entries.append((266, number, [1]))
    if form.resolutions:
        entries += [(282, RATIONAL, [3, 2]), (283, RATIONAL, [7, 1]), (296, number, [3])]
    if form.private:
        entries += [(65000, BYTE, list(b"private")), (40000, 99, [0xFFFFFFFF]), (65535, LONG, [1, 2, 3])]
    return sorted(entries, reverse=form.shuffled)


def tiff(form, width, height, packed):
    """The file: the parts are laid out twice, first for their lengths, then with the places found."""
    strips = list(strips_of(form, width, height, packed))
    offsets = [0] * len(strips)
    for _ in range(2):
        entries = entries_of(form, width, height, offsets, [len(strip) for strip in strips])
        gap = b"\xa5" if form.odd else b""
        body, places = bytearray(8) + gap, [0] * len(strips)

        def put_strips():
            turn = range(len(strips))
            for k in reversed(turn) if form.strips_backwards else turn:
                places[k] = len(body)
                body.extend(strips[k] + gap)

        if form.directory_last:
            put_strips()
        at = len(body)
        outside = at + 2 + 12 * len(entries) + 4
        lines, tail = [], bytearray(gap)
        for tag, kind, values in entries:
            code = CODES.get(kind, "L")
            data = struct.pack(form.order + str(len(values)) + code, *values)
            count = len(values) // (2 if kind == RATIONAL else 1)
            if len(data) > 4:
                place, tail = struct.pack(form.order + "L", outside + len(tail)), tail + data + gap
            else:
                # what a short value leaves free of its four bytes says nothing
                place = data.ljust(4, b"\xee" if form.private else b"\0")
            lines.append(struct.pack(form.order + "HHL", tag, kind, count) + place)
        body += struct.pack(form.order + "H", len(entries)) + b"".join(lines) + bytes(4) + tail
        if not form.directory_last:
            put_strips()
        offsets = places
    body[:8] = (b"II" if form.order == "<" else b"MM") + struct.pack(form.order + "HL", 42, at)
    return bytes(body)


FORMS = {
    "bare": dict(bare=True, resolutions=False),
    "no-resolutions": dict(resolutions=False),
    "private": dict(private=True),
    "shuffled": dict(shuffled=True),
    "private-shuffled": dict(private=True, shuffled=True),
    "odd": dict(odd=True),
    "directory-last": dict(directory_last=True),
    "directory-last-odd": dict(directory_last=True, odd=True),
    "backwards": dict(strips_backwards=True, rows=7),
    "spare": dict(spare=b"\xff\x00\x3c", rows=7),
    "more-rows-than-the-page": dict(rows=0xFFFFFFFF),
    "no-end-of-block": dict(g4=True, end_of_block=False, rows=7),
}


def main():
    if len(sys.argv) != 2:
        sys.exit("usage: tiff_forms.py FOLDER < page.pbm")
    width, height, packed = read_pbm(sys.stdin.buffer)

    def put(name, **words):
        form = Form(**words)
        file = tiff(form, width, height, packed)
        if form.numbers == SHORT and len(file) > 0xFFFF:
            return
        with open(os.path.join(sys.argv[1], name + ".tif"), "wb") as out:
            out.write(file)
        print(name)

    for g4 in (False, True):
        kind = "g4" if g4 else "plain"
        for order, end in (("<", "II"), (">", "MM")):
            for name, words in FORMS.items():
                put("-".join((kind, end, name)), **{"order": order, "g4": g4, **words})
            for rows in (None, 1, 7, 64):
                for low_first in (False, True):
                    for black_is_zero in (False, True):
                        for numbers, short in ((SHORT, "short"), (LONG, "long")):
                            name = "-".join((kind, end, str(rows), str(int(low_first)), str(int(black_is_zero)), short))
                            put(name, order=order, g4=g4, rows=rows, low_first=low_first, black_is_zero=black_is_zero,
                                numbers=numbers)


main()
