#!/bin/sh
# Burns a paragraph of letter.tif, and compares what was written with the letter page by a public reader of TIFF,
# netpbm's tifftopnm over libtiff: black in every pixel of the box, and elsewhere the pixels of the letter page.
# Ends with a status other than 0 where they differ. Words: the form to write, plain where none is given.
# Needs netpbm (Debian's netpbm).
set -eu
here=$(CDPATH='' cd -- "$(dirname -- "$0")" && pwd)
. "$here/common.sh"
need netpbm tifftopnm pamcut pbmmake pnmpaste
make_scratch
cd "$scratch"
cp "$letter" .

left=320 row=1755 width=1910 height=370
"$tivrenan" burn letter.tif $left $row $width $height redacted.tif "${1:-plain}"

tifftopnm -quiet letter.tif > letter.pbm
tifftopnm -quiet out/redacted.tif > redacted.pbm
pbmmake -black $width $height > box.pbm

pamcut -left $left -top $row -width $width -height $height redacted.pbm | cmp - box.pbm || stop "a pixel of the box is not black"

# the same black box in both pages leaves what stands outside it
for page in letter redacted; do pnmpaste box.pbm $left $row $page.pbm > $page.outside.pbm; done
cmp letter.outside.pbm redacted.outside.pbm || stop "a pixel outside the box differs"

echo "redacted.tif: black in the box, equal to letter.tif outside it"
