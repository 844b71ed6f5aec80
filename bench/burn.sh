#!/bin/sh
# `burn` beside a peer on libtiff (burn_peer.c), run in turn: wall time, processor time and peak memory of the whole
# command, each as product over peer, once both outputs hold equal pixels and fields. From plain to plain, for pages of
# 8 by 1, of letter size and of 20,000 by 10,000 pixels; then from plain to Group 4, from Group 4 to plain and from Group 4
# to Group 4, for the pages of pages.sh; those in Group 4 have strips of 64 rows, as examples/letter.tif. Each time then
# the instructions that the product takes for each pixel of the largest page: from plain to plain more than 3 would mean
# that something goes by the pixel.
# Words: what to do, of plain-plain, plain-g4, g4-plain and g4-g4; all four where none is given.
# Each run writes a new file. Both run in the same environment, without settings of the C library.
# Needs rt on PATH where the program isn't built; of Debian gcc, libtiff-dev, libtiff-tools, valgrind; and what pages.sh
# needs.
set -eu
here=$(CDPATH='' cd -- "$(dirname -- "$0")" && pwd)
. "$here/../trials/common.sh"
unset GLIBC_TUNABLES

need 'gcc, libtiff-tools, valgrind' cc tiffcmp tiffcp valgrind

make_scratch

need_header tiffio.h libtiff-dev
cc -O2 -o "$scratch/burn_peer" "$here/burn_peer.c" -ltiff
cc -O2 -o "$scratch/side_by_side" "$here/side_by_side.c"

cd "$scratch"
mkdir plain g4
"$here/pages.sh" plain
printf 'P4\n8 1\n\125' | python3 "$top/trials/plain_page.py" 300 > plain/small.tif
for page in letter form halftone dithered random white large; do tiffcp -c g4 -r 64 "plain/$page.tif" "g4/$page.tif"; done

# label, rounds, page, box
compare() {
    label=$1; rounds=$2; page=$from/$3.tif; shift 3
    "$top/tivrenan" burn "$page" "$@" product.tif "$to" > printed || stop "the product failed on $page: $(cat printed)"
    ./burn_peer "$page" "$@" peer.tif "$to" || stop "the peer failed on $page"
    # tiffcmp ends with 0 where a field differs, and then compares no pixels: it must also print nothing
    differs=$(tiffcmp out/product.tif peer.tif 2>&1 || echo "it failed")
    [ -z "$differs" ] || stop "the two outputs differ on $page: $differs"
    ./side_by_side "$label" "$rounds" out/product.tif peer.tif \
        "$program" burn "$page" "$@" product.tif "$to" -- ./burn_peer "$page" "$@" peer.tif "$to"
}

paragraph='320 1755 1910 370'
most='1003 997 17995 8001'
corner='0 0 1 1'

[ $# -gt 0 ] || set -- plain-plain plain-g4 g4-plain g4-g4
# shellcheck disable=SC2086 # a box is four words
for way in "$@"; do
    from=${way%-*} to=${way#*-}
    case $way in plain-plain | plain-g4 | g4-plain | g4-g4) ;; *) stop "no way from and to: $way" ;; esac
    printf '%-18s%-29s%-29s%-29s%s\n' "$from to $to" "  median wall time" "  least wall time" \
        "  median processor time" "  peak memory"
    if [ "$way" = plain-plain ]; then
        box=$most
        compare "8 by 1" 300 small 1 0 6 1
        compare "2,550 by 3,300" 100 letter $paragraph
        compare "20,000 by 10,000" 15 large $box
    else
        box=$corner
        compare "letter" 60 letter $paragraph
        for page in form halftone dithered random white; do compare "$page" 30 "$page" $corner; done
        compare "20,000 by 10,000" 9 large $box
    fi
    valgrind --tool=callgrind --callgrind-out-file=/dev/null "$program" burn "$from/large.tif" $box product.tif "$to" \
        > valgrind.log 2>&1 || stop "valgrind failed: $(tail -n 1 valgrind.log)"
    awk '/Collected/ { printf "20,000 by 10,000: %.3f instructions a pixel\n", $NF / 200000000 }' valgrind.log
done
