#!/bin/sh
# Makes the pictures of README.md, letter.png and redacted.png: the letter page, and the page that README's first command
# makes of it, each scaled down to 680 columns with 8 levels of grey. Needs netpbm (Debian's netpbm).
set -eu
cd "$(dirname "$0")"

for tool in tifftopnm pamscale pamdepth pnmtopng; do
    command -v "$tool" > /dev/null || { echo "pictures.sh: needs $tool (Debian: netpbm)" >&2; exit 1; }
done

# page, picture
picture() {
    tifftopnm -quiet "$1" | pamdepth -quiet 255 | pamscale -quiet -xsize 680 | pamdepth -quiet 7 |
        pnmtopng -quiet -compression 9 > "$2"
}

../tivrenan burn letter.tif 320 1755 1910 370 redacted.tif g4 > /dev/null
picture letter.tif letter.png
picture out/redacted.tif redacted.png
