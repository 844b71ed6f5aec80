"""A bilevel page, and where it is black."""
import re
from functools import reduce
from operator import or_


class Bitmap:
    """The rows of a raw PBM (P4), each a number whose highest bit is the first pixel; black is 1."""

    def __init__(self, data):
        head = re.match(rb"P4\s(?:#.*\n)*(\d+)\s+(\d+)\s", data)
        if not head:
            raise ValueError("no raw PBM")
        self.width, self.height = int(head[1]), int(head[2])
        size = (self.width + 7) // 8
        if len(data) - head.end() != size * self.height:
            raise ValueError("a raw PBM of another length")
        starts = range(head.end(), len(data), size)
        spare = size * 8 - self.width
        self.rows = [int.from_bytes(data[start : start + size], "big") >> spare for start in starts]

    def is_white(self):
        return not any(self.rows)

    def clipped(self, box):
        """The part of the box (left, top, right, bottom) on the page; None where there is none."""
        left, top, right, bottom = box
        left, top, right, bottom = max(0, left), max(0, top), min(self.width, right), min(self.height, bottom)
        return (left, top, right, bottom) if left < right and top < bottom else None

    def ink(self, box):
        """The smallest box with all black pixels of this one, and how many there are; None where all is white."""
        left, top, right, bottom = box
        mask = ((1 << right - left) - 1) << self.width - right
        parts = [row & mask for row in self.rows[top:bottom]]
        inked = [row for row, part in enumerate(parts, top) if part]
        if not inked:
            return None, 0
        bits = reduce(or_, parts)
        first, last = self.width - bits.bit_length(), self.width - (bits & -bits).bit_length()
        return (first, inked[0], last + 1, inked[-1] + 1), sum(map(int.bit_count, parts))


def area(box):
    left, top, right, bottom = box
    return (right - left) * (bottom - top)
