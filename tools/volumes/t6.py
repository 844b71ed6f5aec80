"""T.6 in slow, plain Python, written from ITU-T T.6 alone, which also says what is wrong with a strip (docs/STATUSES.md).
A line is the list of its changing elements: the columns whose pixel differs from the one before it, where a white one
stands before the first.
"""
import bisect

TERMINATING = {
    "white": """
00110101 000111 0111 1000 1011 1100 1110 1111 10011 10100 00111 01000 001000 000011 110100 110101 101010 101011
0100111 0001100 0001000 0010111 0000011 0000100 0101000 0101011 0010011 0100100 0011000 00000010 00000011
00011010 00011011 00010010 00010011 00010100 00010101 00010110 00010111 00101000 00101001 00101010 00101011
00101100 00101101 00000100 00000101 00001010 00001011 01010010 01010011 01010100 01010101 00100100 00100101
01011000 01011001 01011010 01011011 01001010 01001011 00110010 00110011 00110100
""",
    "black": """
0000110111 010 11 10 011 0011 0010 00011 000101 000100 0000100 0000101 0000111 00000100 00000111 000011000
0000010111 0000011000 0000001000 00001100111 00001101000 00001101100 00000110111 00000101000 00000010111
00000011000 000011001010 000011001011 000011001100 000011001101 000001101000 000001101001 000001101010
000001101011 000011010010 000011010011 000011010100 000011010101 000011010110 000011010111 000001101100
000001101101 000011011010 000011011011 000001010100 000001010101 000001010110 000001010111 000001100100
000001100101 000001010010 000001010011 000000100100 000000110111 000000111000 000000100111 000000101000
000001011000 000001011001 000000101011 000000101100 000001011010 000001100110 000001100111
""",
}
MAKE_UP = {
    "white": """
11011 10010 010111 0110111 00110110 00110111 01100100 01100101 01101000 01100111 011001100 011001101 011010010
011010011 011010100 011010101 011010110 011010111 011011000 011011001 011011010 011011011 010011000 010011001
010011010 011000 010011011
""",
    "black": """
0000001111 000011001000 000011001001 000001011011 000000110011 000000110100 000000110101 0000001101100
0000001101101 0000001001010 0000001001011 0000001001100 0000001001101 0000001110010 0000001110011 0000001110100
0000001110101 0000001110110 0000001110111 0000001010010 0000001010011 0000001010100 0000001010101 0000001011010
0000001011011 0000001100100 0000001100101
""",
    "both": """
00000001000 00000001100 00000001101 000000010010 000000010011 000000010100 000000010101 000000010110
000000010111 000000011100 000000011101 000000011110 000000011111
""",
}
VERTICAL = {"1": 0, "011": 1, "000011": 2, "0000011": 3, "010": -1, "000010": -2, "0000010": -3}
MODES = {"0001": "pass", "001": "horizontal", **VERTICAL}
EXTENSION, END_OF_BLOCK = "0000001", "000000000001" * 2
DUE_AT_A_MODE = {*MODES, EXTENSION, END_OF_BLOCK}


def run_codes(colour):
    """The length of each code of this colour: 0 to 63, and 64 to 2,560 in steps of 64."""
    make_up = (MAKE_UP[colour] + MAKE_UP["both"]).split()
    codes = {code: length for length, code in enumerate(TERMINATING[colour].split())}
    codes.update({code: 64 * (k + 1) for k, code in enumerate(make_up)})
    assert len(codes) == 104
    return codes


RUNS = {False: run_codes("white"), True: run_codes("black")}
RUN_CODES = {black: {length: code for code, length in codes.items()} for black, codes in RUNS.items()}
MODE_CODES = {mode: code for code, mode in MODES.items()}


def by_window(codes, size):
    """For each text of so many bits that begins with a code, that code: a look-up in place of a search."""
    windows = {}
    for code in codes:
        for rest in range(1 << size - len(code)):
            windows[code + format(rest, f"0{size - len(code)}b") if len(code) < size else code] = code
    return windows


MODE_WINDOWS = by_window(MODES, 7)
RUN_WINDOWS = {black: by_window(codes, 13) for black, codes in RUNS.items()}


class Refused(Exception):
    """The number of a rule, the row and the bit."""


def right_of(edges, place, width, into_black=None):
    """The first changing element right of a place, into that colour where one is named, and the one after it."""
    k = bisect.bisect_right(edges, place)
    if into_black is not None and into_black != (k % 2 == 0):
        k += 1
    return (*edges[k : k + 2], width, width)[:2]


def run_bits(length, black):
    bits = ""
    while length >= 2560:
        bits, length = bits + RUN_CODES[black][2560], length - 2560
    if length >= 64:
        bits += RUN_CODES[black][length // 64 * 64]
    return bits + RUN_CODES[black][length % 64]


def modes_of(reference, coding, width):
    """The modes in which the coding line is written, each with its bits (T.6, 2.2.5: coding procedure)."""
    a0, black = -1, False
    while a0 < width:
        a1, a2 = right_of(coding, a0, width)
        b1, b2 = right_of(reference, a0, width, not black)
        if b2 < a1:
            mode, bits, a0 = "pass", "", b2
        elif abs(a1 - b1) <= 3:
            mode, bits, a0, black = a1 - b1, "", a1, not black
        else:
            mode, bits, a0 = "horizontal", run_bits(a1 - max(a0, 0), black) + run_bits(a2 - a1, not black), a2
        yield mode, MODE_CODES[mode] + bits


def code(lines, width):
    """The strip: each line against the one before, the first against a white one; EOFB; zeros to the byte."""
    bits = "".join(bits for above, line in zip([[], *lines], lines) for _, bits in modes_of(above, line, width))
    bits += END_OF_BLOCK
    bits += "0" * (-len(bits) % 8)
    return int(bits, 2).to_bytes(len(bits) // 8, "big")


def begins(bits, at, codes):
    """The code that begins at a place, if one does."""
    return next((bits[at:end] for end in range(at + 1, at + 25) if bits[at:end] in codes), None)


def read_run(bits, at, black, room, row):
    """The length of a run that begins at a bit, and the bit after it."""
    length = 0
    while True:
        code = RUN_WINDOWS[black].get(bits[at : at + 13]) or begins(bits, at, RUNS[black])
        if code is None:
            raise Refused(70 if any(code.startswith(bits[at:]) for code in RUNS[black]) else 73, row, at)
        part = RUNS[black][code]
        length += part
        if length > room:
            raise Refused(74, row, at)
        at += len(code)
        if part < 64:
            return length, at


def read_line(bits, at, reference, width, row):
    """The line whose modes begin at a bit, and the bit after them."""
    edges, a0, black = [], -1, False

    def turn(edge):
        if edges and edges[-1] == edge:
            edges.pop()
        elif edge < width:
            edges.append(edge)

    while a0 < width:
        code = MODE_WINDOWS.get(bits[at : at + 7]) or begins(bits, at, DUE_AT_A_MODE)
        if code is None:
            cut = any(code.startswith(bits[at:]) for code in DUE_AT_A_MODE)
            raise Refused(70 if cut else 73, row, at)
        if code in (EXTENSION, END_OF_BLOCK):
            raise Refused(72 if code == EXTENSION else 71, row, at)
        mode, after = MODES[code], at + len(code)
        b1, b2 = right_of(reference, a0, width, not black)
        if mode == "pass":
            a0 = b2
        elif mode == "horizontal":
            a1, after = read_run(bits, after, black, width - max(a0, 0), row)
            a1 += max(a0, 0)
            a2, after = read_run(bits, after, not black, width - a1, row)
            a2 += a1
            if a2 <= a0:
                raise Refused(74, row, at)
            turn(a1)
            turn(a2)
            a0 = a2
        else:
            a1 = b1 + mode
            if a1 <= a0 or a1 > width:
                raise Refused(74, row, at)
            turn(a1)
            a0, black = a1, not black
        at = after
    return edges, at


def read(strip, width, height):
    """The lines of a strip. What stands after the last is not read."""
    bits, at, lines = "".join("{:08b}".format(byte) for byte in strip), 0, []
    for row in range(height):
        line, at = read_line(bits, at, lines[-1] if lines else [], width, row)
        lines.append(line)
    return lines


def edges_of(packed, width):
    """The changing elements of a packed row, whose first pixel is in the high bit."""
    row = int.from_bytes(packed, "big") >> (-width % 8)
    turns = "{:0{}b}".format(row ^ (row >> 1), width)
    edges, at = [], turns.find("1")
    while at >= 0:
        edges.append(at)
        at = turns.find("1", at + 1)
    return edges


def packed_row(edges, width):
    row = 0
    for edge in edges:
        row ^= (1 << (width - edge)) - 1
    return (row << (-width % 8)).to_bytes((width + 7) // 8, "big")


def lines_of(page):
    """The width and the lines of a plain page file."""
    width, height = (int.from_bytes(page[at : at + 4], "little") for at in (18, 30))
    size = (width + 7) // 8
    return width, [edges_of(page[at : at + size], width) for at in range(186, 186 + size * height, size)]
