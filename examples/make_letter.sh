#!/bin/sh
# Makes letter.tif from letter.roff: a letter page of 2,550 by 3,300 pixels at 300 to the inch, as a scanner would hand it
# over: Group 4 in strips of 64 rows, written by libtiff's ppm2tiff.
# Needs groff, gs and ppm2tiff (Debian's groff, ghostscript and libtiff-tools). Another version of a font moves a few
# pixels.
set -eu
cd "$(dirname "$0")"

for tool in groff gs ppm2tiff; do
    command -v "$tool" > /dev/null ||
        { echo "make_letter.sh: needs $tool (Debian: groff, ghostscript, libtiff-tools)" >&2; exit 1; }
done

scratch=$(mktemp -d)
trap 'rm -rf "$scratch"' EXIT

groff -Tps -P-pletter letter.roff > "$scratch/letter.ps"
gs -q -dSAFER -dBATCH -dNOPAUSE -sDEVICE=pbmraw -r300 -g2550x3300 -dFIXEDMEDIA \
    -sOutputFile="$scratch/letter.pbm" "$scratch/letter.ps"
ppm2tiff -c g4 -r 64 -R 300 "$scratch/letter.pbm" "$scratch/letter.tif"
mv "$scratch/letter.tif" letter.tif
