#!/bin/sh
# The images of a volume by public tools, as a peer of `press`: for each page netpbm blackens a box, puts a band of 32 rows
# with designation and label below it and codes it as Group 4, and sha256sum digests all files. It makes neither texts nor
# load files, and its letters are netpbm's.
# Words: the page as a PBM file of 2,550 by 3,300 pixels, how many pages, and the folder of the volume.
# Needs netpbm and coreutils.
set -eu
[ $# -eq 3 ] || { echo "usage: press_peer.sh PAGE PAGES FOLDER" >&2; exit 1; }
page=$1
pages=$2
images=VOL001/IMAGES/0001
mkdir -p "$3/$images"
scratch=$(mktemp -d)
trap 'rm -rf "$scratch"' EXIT

pbmmake -black 1910 370 > "$scratch/box.pbm"
pbmtext -builtin fixed CONFIDENTIAL | pnmcrop -quiet > "$scratch/designation.pbm"
pbmmake -white 2550 32 | pnmpaste "$scratch/designation.pbm" 16 5 > "$scratch/band.pbm"
number=1
while [ "$number" -le "$pages" ]; do
    label=$(printf 'ABC%08d' "$number")
    pbmtext -builtin fixed "$label" | pnmcrop -quiet | pnmpaste - 2440 5 "$scratch/band.pbm" > "$scratch/labelled.pbm"
    pnmpaste "$scratch/box.pbm" 320 1755 "$page" | pnmcat -topbottom - "$scratch/labelled.pbm" |
        pamtotiff -quiet -g4 -xresolution=300 -yresolution=300 > "$3/$images/$label.TIF"
    number=$((number + 1))
done
cd "$3"
sha256sum "$images"/*.TIF > VOL001/MANIFEST.TXT
