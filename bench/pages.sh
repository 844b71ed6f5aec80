#!/bin/sh
# Makes the pages of the benches as plain page files in a folder: letter-size pages of 2,550 by 3,300 pixels of each
# kind that a coder meets, and one of the largest size. Words: the folder.
#   letter    text, the page of examples/letter.tif
#   form      text in a table with rules
#   halftone  clouds as a press prints them, in clustered dots
#   dithered  the same clouds with their error diffused
#   random    random bits, which no code makes shorter
#   white     one line of text at the foot, else nothing
#   large     20,000 by 10,000 pixels of the letter page, side by side
# Needs groff, gs, netpbm and python3 (Debian: groff, ghostscript, netpbm, python3). Another version of a font or of
# netpbm moves a few pixels.
set -eu
[ $# -eq 1 ] || { echo "usage: pages.sh FOLDER" >&2; exit 1; }
here=$(CDPATH='' cd -- "$(dirname -- "$0")" && pwd)
. "$here/../trials/common.sh"

need 'groff, ghostscript, netpbm, python3' groff gs ppmforge pamditherbw pbmtext pnmtile python3

mkdir -p "$1"
cd "$1"
make_scratch

plain_page() { pamtopnm | python3 "$top/trials/plain_page.py" 300; }

tifftopnm -quiet "$letter" > "$scratch/letter.pbm"
plain_page < "$scratch/letter.pbm" > letter.tif

groff -t -Tps -P-pletter "$here/form.roff" |
    gs -q -dSAFER -dBATCH -dNOPAUSE -sDEVICE=pbmraw -r300 -g2550x3300 -dFIXEDMEDIA -sOutputFile=- - | plain_page > form.tif

ppmforge -quiet -clouds -seed 7 -width 2550 -height 3300 | pamcut -width 2550 -height 3300 |
    ppmtopgm > "$scratch/clouds.pgm"
pamditherbw -cluster4 "$scratch/clouds.pgm" | plain_page > halftone.tif
pamditherbw -floyd -randomseed 7 "$scratch/clouds.pgm" | plain_page > dithered.tif

python3 -c 'import random, sys
bits = random.Random(7).randbytes((2550 + 7) // 8 * 3300)
sys.stdout.buffer.write(b"P4\n2550 3300\n" + bits)' > "$scratch/random.pbm"
plain_page < "$scratch/random.pbm" > random.tif

echo "This page was left blank." | pbmtext -builtin fixed | pnmenlarge 4 > "$scratch/line.pbm"
pbmmake -white 2550 3300 | pnmpaste "$scratch/line.pbm" 900 3000 | plain_page > white.tif

pnmtile 20000 10000 "$scratch/letter.pbm" | plain_page > large.tif
