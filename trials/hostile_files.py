#!/usr/bin/env python3
"""Writes files that name more than they hold, or hold much that names little, into a folder. Prints a line for each: its
name, the line that `burn` is to print for the box of the first pixel, and what it is, with tabs between them.
Words: the folder.
"""
import os
import struct
import sys

SHORT, LONG = 3, 4


def file_of(entries, rest=b"", following=0):
    """A directory at byte 8, and behind it whatever stands there. An entry is its tag, type, count and value."""
    lines = b"".join(struct.pack("<HHII", *entry) for entry in entries)
    head = b"II" + struct.pack("<HI", 42, 8) + struct.pack("<H", len(entries))
    return head + lines + struct.pack("<I", following) + rest


def sides(width, height, compression):
    return [(256, LONG, 1, width), (257, LONG, 1, height), (259, SHORT, 1, compression), (262, SHORT, 1, 0)]


def page(width, height, compression, offset, size):
    """The six entries that can't be left out, with one strip."""
    return [*sides(width, height, compression), (273, LONG, 1, offset), (279, LONG, 1, size)]


def strips_of_one_row(width, height, compression, strip):
    """A file of as many strips as rows, all of them the same bytes of it."""
    places = 8 + 2 + 12 * 7 + 4
    counts = places + 4 * height
    shared = counts + 4 * height
    entries = sides(width, height, compression)
    entries += [(273, LONG, height, places), (278, LONG, 1, 1), (279, LONG, height, counts)]
    return file_of(entries, struct.pack("<I", shared) * height + struct.pack("<I", len(strip)) * height + strip)


def files():
    most = 4294967295
    short, head = "refused 87 TiffStrips 0 0 0", "20,000 by 10,000 pixels, "
    yield file_of(page(20000, 10000, 1, 86, 0)), short, head + "plain, a strip of no bytes"
    yield file_of(page(20000, 10000, 4, 86, 0)), "refused 70 T6ShortData 0 0 0", head + "Group 4, a strip of no bytes"
    yield file_of(page(20000, 10000, 1, 0, 86)), short, head + "plain, the strip is the file"
    # its first byte is 8, the place of the directory: 000010 is VL2, and then come 26 zeros, which begin no code
    yield (file_of(page(20000, 10000, 4, 4, 82)), "refused 73 T6BadCode 0 0 6",
           head + "Group 4, the strip is the file from byte 4 on")
    yield (file_of(page(20000, 20000, 4, 86, 0)), "refused 62 PageLimit 0 20000 20000", "20,000 by 20,000 pixels")
    yield (file_of(page(most, most, 1, 86, 0)), "refused 62 PageLimit 0 4294967295 4294967295",
           "the largest sides that a LONG holds")
    # the page that is written has 3 + 8 + 3 bits for the burned pixel, 1 for the rest of its row, 24 for EOFB: 5 bytes
    many = [(40000, LONG, most, most)] * 65529
    behind = 8 + 2 + 12 * 65535 + 4
    yield (file_of([*many, *page(8, 1, 1, behind, 1)], b"\0"), "burned 203", "65,535 entries, the needed ones last")
    yield file_of([*many, *many[:6]]), "refused 82 TiffMissing 0 256 0", "65,535 entries, none of them needed"
    yield file_of(page(8, 1, 1, 0, 1), following=8), "refused 86 TiffManyPages 0 0 0", "a directory that is the next one too"
    yield (file_of([*sides(8, 1, 1), (273, LONG, most, 8), (279, LONG, most, 8)]), short,
           "4,294,967,295 strips for one row")
    yield file_of(page(20000, 10000, 1, most, most)), "refused 81 TiffBounds 0 273 0", "a strip of 4,294,967,295 bytes"
    # a white row below a white one is the bit 1
    yield (file_of(page(20000, 10000, 4, 86, 1250), b"\xff" * 1249 + b"\xfe"), "refused 70 T6ShortData 0 9999 9999",
           head + "Group 4, white rows, the last one missing")
    # what is written is white but for its first pixel: a row of 15 bits, one of a pass mode and V0, the others as above
    burned = "burned %d" % (198 + (15 + 5 + 9998 + 24 + 7) // 8)
    yield strips_of_one_row(20000, 10000, 4, b"\x80"), burned, head + "Group 4, 10,000 strips that are one byte"
    yield strips_of_one_row(20000, 10000, 1, bytes(2500)), burned, head + "plain, 10,000 strips that are one row"


def main():
    if len(sys.argv) != 2:
        sys.exit("usage: hostile_files.py FOLDER")
    for number, (data, due, what) in enumerate(files()):
        name = "hostile-%d.tif" % number
        with open(os.path.join(sys.argv[1], name), "wb") as file:
            file.write(data)
        print(name, due, what, sep="\t")


main()
