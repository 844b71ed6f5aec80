#!/usr/bin/env python3
"""Turns a raw PBM (P4) on standard input into the plain page file on standard output.

The form is that of docs/FORMATS.md, a TIFF 6.0 file: little-endian, one directory of 13 entries at byte 8, the
two resolutions, and one uncompressed strip at byte 186. The rows of a PBM are that strip: the first pixel in
the high bit, 1 is black. Words: pixels per inch.
"""
import struct
import sys

SHORT, LONG, RATIONAL = 3, 4, 5


def entry(tag, kind, value):
    # a SHORT stands in the first two of the four bytes, which in this byte order are those of the number
    return struct.pack("<HHII", tag, kind, 1, value)


def plain_page(width, height, resolution, strip):
    directory = [
        entry(256, LONG, width),
        entry(257, LONG, height),
        entry(258, SHORT, 1),  # BitsPerSample
        entry(259, SHORT, 1),  # Compression: none
        entry(262, SHORT, 0),  # PhotometricInterpretation: 0 is white
        entry(266, SHORT, 1),  # FillOrder: the first pixel in the high bit
        entry(273, LONG, 186),  # StripOffsets
        entry(277, SHORT, 1),  # SamplesPerPixel
        entry(278, LONG, height),  # RowsPerStrip
        entry(279, LONG, len(strip)),  # StripByteCounts
        entry(282, RATIONAL, 170),  # XResolution
        entry(283, RATIONAL, 178),  # YResolution
        entry(296, SHORT, 2),  # ResolutionUnit: inch
    ]
    head = b"II" + struct.pack("<HI", 42, 8) + struct.pack("<H", len(directory)) + b"".join(directory) + bytes(4)
    return head + struct.pack("<IIII", resolution, 1, resolution, 1) + strip


def read_pbm(file):
    """Returns the width, the height and the packed rows, with the unused bits of each row 0."""
    numbers, line = [], file.readline()
    if line.strip() != b"P4":
        sys.exit("plain_page.py: not a raw PBM (P4)")
    while len(numbers) < 2:
        numbers += file.readline().split(b"#")[0].split()
    width, height = map(int, numbers)
    row_bytes = (width + 7) // 8
    strip = bytearray(file.read(row_bytes * height))
    if len(strip) != row_bytes * height:
        sys.exit("plain_page.py: the PBM is cut off")
    unused = row_bytes * 8 - width
    if unused:
        for last in range(row_bytes - 1, len(strip), row_bytes):
            strip[last] &= 0xFF << unused & 0xFF
    return width, height, strip


def main():
    if len(sys.argv) != 2 or not sys.argv[1].isdigit():
        sys.exit("usage: plain_page.py PIXELS_PER_INCH < page.pbm > page.tif")
    width, height, strip = read_pbm(sys.stdin.buffer)
    sys.stdout.buffer.write(plain_page(width, height, int(sys.argv[1]), strip))


if __name__ == "__main__":
    main()
