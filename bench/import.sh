#!/bin/sh
# An import by the command, over made batches: letter pages at 300 dots an inch (Group 4, 376 words each), in one strip, as most scanners
# write them, which come in without pixels, and in strips of 64 rows, up to 450 pages; 1,000 to 10,000 documents of one small page, which
# is to grow in a line; last, white pages of 20,000 by 10,000, one and 25 of them, 5,000,000,000 pixels, whose strips have 2.5 KB each.
# Processor time, the least of all rounds, and the peak of memory; each import is the first of its matter.
# Words: how many letter pages, 200 where none is given; rounds, 3; the most documents of the growth, 10,000.
# Needs rt on PATH where the program isn't built; python3 and tiffcp (Debian: libtiff-tools).
set -eu
here=$(CDPATH='' cd -- "$(dirname -- "$0")" && pwd)
. "$here/../trials/common.sh"
pages=${1:-200} rounds=${2:-3} most=${3:-10000}
need libtiff-tools tiffcp
make_scratch
build

# the files of an almost white page of 64 by 32 pixels, uncompressed, and of a white one of 20,000 by 10,000, of which a row is a bit 1 in T.6
python3 - "$scratch" << 'END'
import struct, sys

def write(name, width, height, compression, strip):
    entries = [(256, 4, width), (257, 4, height), (258, 3, 1), (259, 3, compression), (262, 3, 0), (273, 4, 122), (278, 4, height),
               (279, 4, len(strip))]
    head = b"II" + struct.pack("<HI", 42, 8) + struct.pack("<H", len(entries))
    for tag, kind, value in entries:
        head += struct.pack("<HHI", tag, kind, 1) + (struct.pack("<I", value) if kind == 4 else struct.pack("<HH", value, 0))
    head += struct.pack("<I", 0)
    open(f"{sys.argv[1]}/{name}", "wb").write(head.ljust(122, b"\0") + strip)

write("small.tif", 64, 32, 1, bytes(8) * 31 + b"\0\0\0\1\0\0\0\0")
write("white.tif", 20000, 10000, 4, bytes([255]) * 1250 + bytes([0, 16, 1]))
END

# what its pages are, pages, image, words a page, pages a document: an import, in a line
import_of() {
    what=$1 count=$2
    python3 "$here/make_import.py" "$scratch/room/B" "$count" "$3" "$4" "$5"
    set -- $(python3 - "$here" "$rounds" "$program" "$scratch/room" << 'END'
import glob
import os
import subprocess
import sys

sys.path.insert(0, sys.argv[1])
from runs import run

rounds, program = int(sys.argv[2]), sys.argv[3]
os.chdir(sys.argv[4])
costs = []
for _ in range(rounds):
    for left in glob.glob("matter.db*"):
        os.remove(left)
    subprocess.run([program, "init", "0" * 64], check=True, stdout=subprocess.DEVNULL)
    costs.append(run([program, "import", "B"]))
print(f"{min(cost[0] for cost in costs):.4f} {max(cost[3] for cost in costs):.0f}")
END
    )
    awk -v n="$count" -v what="$what" -v time="$1" -v memory="$2" 'BEGIN {
        printf "%5d %s: import %.3f s, %.3f ms each; %.0f MB, %.3f MB each\n", n, what, time, 1000 * time / n, memory, memory / n }'
    rm -rf "$scratch/room"
}

# letter.tif has strips of 64 rows
tiffcp -c g4 -r 3300 "$letter" "$scratch/one_strip.tif"
import_of "letter pages in one strip" "$pages" "$scratch/one_strip.tif" 376 3
for count in "$pages" 300 450; do import_of "letter pages" "$count" "$letter" 376 3; done
for count in 1000 2000 5000 10000; do
    [ "$count" -gt "$most" ] || import_of "documents of a small page" "$count" "$scratch/small.tif" 4 1
done
for count in 1 25; do import_of "white pages of 200,000,000 pixels" "$count" "$scratch/white.tif" 4 1; done
