#!/bin/sh
# Makes the pictures of README.md, produced.png, withheld.png, lettered.png and foot.png, of the volume that office.sh wrote: a page
# with a covered paragraph, and a slip sheet, each scaled down to 680 columns with 8 levels of grey; and of the first, pixel by
# pixel, the corner of its box, and its foot, the right half of its last 220 rows. Needs netpbm.
set -eu
cd "$(dirname "$0")"

page() { tifftopnm -quiet "out/office/out/VOL001/IMAGES/0001/$1.TIF"; }

# page, picture
picture() { page "$1" | pamdepth -quiet 255 | pamscale -quiet -xsize 680 | pamdepth -quiet 7 | pnmtopng -quiet -compression 9 > "$2"; }

picture ABC00000017 produced.png
picture ABC00000006 withheld.png
page ABC00000017 | pamcut -left 330 -width 640 -top 600 -height 150 | pnmtopng -quiet -compression 9 > lettered.png
page ABC00000017 | pamcut -left 1250 -width 1300 -top 3112 -height 220 | pnmtopng -quiet -compression 9 > foot.png
