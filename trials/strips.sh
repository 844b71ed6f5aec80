#!/bin/sh
# Compares the strips of `burn` with those of a peer on libtiff (burn_peer.c), byte for byte: for the pages of pages.sh,
# and for a table of small pages (small_pages.py) of each width about 1 to 70, 2,560 and 5,120 pixels. Both burn the last
# pixel of each page; then `burn` reads the peer's file, burns that pixel again, and must write the same strip.
# Ends with status 1 where a strip differs.
# Words: the form, g4 where none is given; then a command to try in place of `burn`, which takes the words of `burn` and
# writes the page below the folder out.
# Needs rt on PATH where the program isn't built; of Debian gcc, libtiff-dev; and what pages.sh needs.
set -eu
here=$(CDPATH='' cd -- "$(dirname -- "$0")" && pwd)
. "$here/common.sh"
form=${1:-g4}
if [ $# -gt 1 ]; then
    shift
else
    build
    set -- "$program" burn
fi

make_scratch
need_header tiffio.h libtiff-dev
cc -O2 -o "$scratch/burn_peer" "$top/bench/burn_peer.c" -ltiff
cc -O2 -o "$scratch/strips" "$here/strips.c" -ltiff

mkdir "$scratch/pages" "$scratch/pages/out" "$scratch/pages/peer"
cd "$scratch/pages"
"$top/bench/pages.sh" .
for page in letter form halftone dithered random white; do echo "$page.tif 2549 3299"; done > pages
echo "large.tif 19999 9999" >> pages
"$here/small_pages.py" . > small

# a list of pages: burns each by both, and compares
compare() {
    while read -r page left row; do
        "$burn" "$@" "$page" "$left" "$row" 1 1 "$page" "$form" > printed || stop "$burn failed on $page: $(cat printed)"
        "$scratch/burn_peer" "$page" "$left" "$row" 1 1 "peer/$page" "$form" || stop "the peer failed on $page"
        "$burn" "$@" "peer/$page" "$left" "$row" 1 1 "again/$page" "$form" > printed ||
            stop "$burn failed on the peer's $page: $(cat printed)"
    done < "$list"
    for folder in out out/again; do "$scratch/strips" "$folder" peer < "$list" || exit 1; done
}

burn=$1
shift
for list in pages small; do compare "$@"; done
