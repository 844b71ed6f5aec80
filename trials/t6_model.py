#!/usr/bin/env python3
"""The plain T.6 of tools/volumes/t6.py as a program: an oracle beside libtiff, which also says what is wrong with a strip.

    t6_model.py code < PAGE.tif > STRIP           the strip of a plain page file
    t6_model.py read WIDTH HEIGHT < STRIP > PBM   the page of a strip, or `refused NUMBER ROW BIT` and status 2, with the
                                                  numbers of docs/STATUSES.md, the row and the bit counted from 0
"""
import os
import sys

sys.path.append(os.path.join(os.path.dirname(os.path.dirname(os.path.abspath(__file__))), "tools"))
from volumes.t6 import *  # noqa: E402, F403
from volumes.t6 import Refused, code, lines_of, packed_row, read  # noqa: E402


def main():
    words = sys.argv[1:]
    if words == ["code"]:
        width, lines = lines_of(sys.stdin.buffer.read())
        sys.stdout.buffer.write(code(lines, width))
    elif len(words) == 3 and words[0] == "read" and all(word.isdigit() for word in words[1:]):
        width, height = map(int, words[1:])
        try:
            lines = read(sys.stdin.buffer.read(), width, height)
        except Refused as refused:
            print("refused", *refused.args)
            sys.exit(2)
        sys.stdout.buffer.write(b"P4\n%d %d\n" % (width, height) + b"".join(packed_row(line, width) for line in lines))
    else:
        sys.exit("usage: t6_model.py code < PAGE.tif > STRIP, or t6_model.py read WIDTH HEIGHT < STRIP > PBM")


if __name__ == "__main__":
    main()
