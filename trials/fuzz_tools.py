"""What the modules of fuzz.py share: how lines are written, bytes damaged, and a refusal told (docs/STATUSES.md)."""
import os
import re
import sys

sys.path.append(os.path.join(os.path.dirname(os.path.dirname(os.path.abspath(__file__))), "tools"))
from volumes.rule import NAMES, Rule  # noqa: E402, F401

# no check says it
NAMES[140] = "TermRefused"


def answer(make, *words):
    """What a call gives, or its rule as it is told."""
    try:
        return make(*words)
    except Rule as rule:
        return rule.told()


# ---- lines of bp_test_codecs

PLAIN = set(b"ABCDEFGHIJKLMNOPQRSTUVWXYZabcdefghijklmnopqrstuvwxyz0123456789,.:/\\\"'|+*#!?;()[]{}<>@&~^$")


def said(data):
    """Bytes as a word of a line says them."""
    return "".join(chr(b) if b in PLAIN else "%%%02x" % b for b in data) or "-"


def told_text(text):
    """A text as a line tells it."""
    out = []
    for c in text:
        if c == " ":
            out.append("_")
        elif c in "_%" or c < " " or c == "\x7f":
            out.append("%%%02x" % ord(c))
        else:
            out.append(c)
    return "".join(out)


def told_bytes(data):
    """Bytes as a line tells them: pairs of digits, and nine equal bytes or more as a word like 00*9."""
    out, at = [], 0
    for run in re.finditer(rb"(.)\1{8,}", data, re.S):
        out += [data[at : run.start()].hex(), "%02x*%d" % (run[1][0], run.end() - run.start())]
        at = run.end()
    return " ".join(part for part in [*out, data[at:].hex()] if part)


def hex_word(data):
    return data.hex() or "-"


# ---- damage

BYTES = b"\x00\x01\x02\x03\x04\x05\x07\x08\x09\x0a\x0d\x14\x1f\x20\x22\x2c\x2d\x2e\x2f\x30\x39\x3a\x41\x59\x5c\x7f\x80\xae\xbb\xbf\xc2\xc3\xef\xfe\xff"


def damaged(draw, data, times=None):
    """The same with a few bytes changed, dropped, doubled, put in or cut off."""
    for _ in range(times or draw.choice((1, 1, 1, 2, 3, 6))):
        at = draw.randrange(len(data) + 1)
        kind = draw.randrange(8)
        if kind == 0:
            data = data[:at] + bytes([draw.choice(BYTES)]) + data[at + 1 :]
        elif kind == 1:
            data = data[:at] + bytes([draw.randrange(256)]) + data[at + 1 :]
        elif kind == 2 and at < len(data):
            data = data[:at] + bytes([data[at] ^ (1 << draw.randrange(8))]) + data[at + 1 :]
        elif kind == 3:
            data = data[:at] + data[at + draw.choice((1, 1, 2, 4, 12, 40)) :]
        elif kind == 4:
            data = data[:at] + data[max(0, at - draw.choice((1, 2, 8, 30))) :]
        elif kind == 5:
            data = data[:at] + bytes([draw.choice(BYTES)]) + data[at:]
        elif kind == 6 and draw.random() < 0.4:
            data = data[:at]
        elif kind == 7 and data:
            other = draw.randrange(len(data))
            low, high = min(at, other), max(at, other)
            piece = data[low : low + draw.choice((1, 2, 4, 12))]
            data = data[:high] + piece + data[high + len(piece) :]
    return data
