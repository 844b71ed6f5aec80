#!/bin/sh
# Makes CVI_001, a batch of scanned papers as a vendor hands it over, from the texts in batch_sources: a page a file in
# IMAGES/001, load.dat (Concordance), load.opt (Opticon) and words.csv, the word boxes. Pages have 2,550 by 3,300 pixels
# at 300 to the inch, in Group 4. Another version of a font moves a few pixels.
# Needs groff, gs, pdftotext, ppm2tiff and python3 (Debian's groff, ghostscript, poppler-utils, libtiff-tools, python3).
set -eu
cd "$(dirname "$0")"

for tool in groff gs pdftotext ppm2tiff python3; do
    command -v "$tool" > /dev/null || {
        echo "make_batch.sh: needs $tool (Debian: groff, ghostscript, poppler-utils, libtiff-tools, python3)" >&2
        exit 1
    }
done

scratch=$(mktemp -d)
trap 'rm -rf "$scratch"' EXIT
batch=$scratch/CVI_001
mkdir -p "$batch/IMAGES/001"

# the vendor's numbers go on from its last batch
image=4181
for text in batch_sources/[0-9][0-9].roff; do
    document=$scratch/$(basename "$text" .roff)
    # each paper went through a scanner that writes strips of 64 rows; the others were printed to files of one strip
    rows=3300
    grep -q "^$(basename "$text" .roff),.*,paper," batch_sources/documents.csv && rows=64

    groff -t -Tps -P-pletter batch_sources/office.tmac "$text" > "$document.ps"
    gs -q -dSAFER -dBATCH -dNOPAUSE -sDEVICE=pbmraw -r300 -g2550x3300 -dFIXEDMEDIA \
        -sOutputFile="$document-%02d.pbm" "$document.ps"
    gs -q -dSAFER -dBATCH -dNOPAUSE -sDEVICE=pdfwrite -sOutputFile="$document.pdf" "$document.ps"
    pdftotext -bbox "$document.pdf" "$document.html"
    for page in "$document"-*.pbm; do
        image=$((image + 1))
        name=$(printf 'CVI%07d' "$image")
        ppm2tiff -c g4 -r "$rows" -R 300 "$page" "$batch/IMAGES/001/$name.TIF"
    done
done

python3 batch_sources/load_files.py batch_sources/documents.csv "$scratch" "$batch"
rm -rf CVI_001
mv "$batch" CVI_001
