#!/bin/sh
# Burns a box into pages of strangers: text, a table with rules and random bits, each in every form within the profile
# that the tools of libtiff, netpbm and ImageMagick write, and in those that no tool writes (tiff_forms.py): both orders of
# bytes, both orders of bits, both values of white, one strip and strips of 1, 7 and 64 rows, plain and Group 4. Each is
# burned to plain and to Group 4, and both results are read by a public reader, netpbm's tifftopnm over libtiff: every
# pixel of the box must be black, every other one as the same reader finds it in the stranger's file, and the resolutions
# those that libtiff's tiffinfo finds there, 200 to the inch where there are none. And all forms of one page with the same
# resolutions must give the same file.
# Then some hostile files, each with the line that is due, the run time and the peak memory.
# Ends with status 1 where something is not as expected.
# Needs rt on PATH where the program isn't built; of Debian libtiff-tools, netpbm, imagemagick, groff, ghostscript, time
# and python3.
set -eu
here=$(CDPATH='' cd -- "$(dirname -- "$0")" && pwd)
. "$here/common.sh"
magick=$(command -v convert-im6 || command -v magick || command -v convert) || stop "needs convert (Debian: imagemagick)"
need 'libtiff-tools, netpbm, groff, ghostscript, python3, time' \
    tiffcp tiffset tiffinfo ppm2tiff fax2tiff tifftopnm pnmtotiff pbmtog3 pnmpaste groff gs python3 /usr/bin/time
build
make_scratch
cd "$scratch"

forms=0 failed=0

# the box, in each page
left=13 row=9 width=71 height=24
pbmmake -black $width $height > box.pbm

differs() {
    failed=$((failed + 1))
    echo "$name: $1"
}

# page file: what libtiff says of its resolutions, with what is due where it has none, or no unit
resolution() {
    tiffinfo "$1" 2> /dev/null | sed -n 's/^  Resolution: //p' | sed 's|^[0-9.]*, [0-9.]*$|& pixels/inch|' | grep . ||
        echo "200, 200 pixels/inch"
}

# the name of the stranger's file page.tif, and the pixels that went in, or - where the tool that wrote it changes them
check() {
    name=$1 pixels=$2
    forms=$((forms + 1))
    tifftopnm -quiet page.tif > page.pbm 2> /dev/null || { differs "the public reader can't read it"; return; }
    [ "$pixels" = - ] || cmp -s page.pbm "$pixels" || { differs "the public reader finds other pixels than went in"; return; }
    pnmpaste box.pbm $left $row page.pbm > expected.pbm
    for form in plain g4; do
        printed=$("$program" burn page.tif $left $row $width $height page.tif $form || :)
        if [ "$printed" != "burned $(wc -c < out/page.tif)" ]; then
            differs "to $form: printed '$printed'"
        elif ! tifftopnm -quiet out/page.tif | cmp -s - expected.pbm; then
            differs "to $form: other pixels"
        elif [ "$(resolution out/page.tif)" != "$(resolution page.tif)" ]; then
            differs "to $form: other resolutions: $(resolution out/page.tif), expected $(resolution page.tif)"
        elif [ "$pixels" != - ]; then
            first=first/$pixels.$form.$(resolution page.tif | tr -d ' /')
            [ -e "$first" ] || cp out/page.tif "$first"
            cmp -s out/page.tif "$first" || differs "to $form: another file than of another form of the page"
        fi
        rm -f out/page.tif
    done
    rm -f page.tif
}

# name, pixels, command that writes page.tif
made() {
    name=$1 pixels=$2
    shift 2
    "$@" > /dev/null 2> errors || stop "$name can't be made: $(cat errors)"
    check "$name" "$pixels"
}

# into page.tif, what a tool of netpbm writes to standard output
to_page() { "$@" > page.tif; }

# pixels: each form that a tool writes
by_tools() {
    for ink in miniswhite minisblack; do
        pnmtotiff -none -$ink -xresolution 300 -yresolution 150 "$1" > source.tif 2> /dev/null
        for order in -L -B; do
            for fill in msb2lsb lsb2msb; do
                for code in none g4; do
                    for rows in 1 7 64 99999; do
                        made "tiffcp $1 $ink $order $fill $code $rows" "$1" \
                            tiffcp $order -f $fill -c $code -r $rows source.tif page.tif
                    done
                done
            done
        done
        for code in none g4; do
            for rows in 1 7 64 99999; do
                made "pnmtotiff $1 $ink $code $rows" "$1" to_page pnmtotiff -$code -$ink -rowsperstrip $rows "$1"
                # it says the other order of bits, and leaves the bits as they are
                made "pnmtotiff $1 $ink $code $rows, other order of bits" - \
                    to_page pnmtotiff -$code -$ink -lsb2msb -rowsperstrip $rows "$1"
            done
        done
    done
    pbmtog3 "$1" > fax.g3
    for fill in -m -l; do
        for rows in 1 7 64 99999; do
            # it takes the end of the fax for white rows
            made "fax2tiff $1 $fill $rows" - \
                fax2tiff -M -X "$(pamfile -size "$1" | cut -d ' ' -f 1)" -8 -r $rows $fill -o page.tif fax.g3
        done
    done
    for code in none g4; do
        for rows in 1 7 64 99999; do
            made "ppm2tiff $1 $code $rows" "$1" ppm2tiff -c $code -r $rows -R 240 "$1" page.tif
        done
        for unit in 1 2 3; do
            ppm2tiff -c $code -R 98 "$1" source.tif
            tiffset -s 296 $unit source.tif
            made "tiffset $1 $code, unit $unit" "$1" cp source.tif page.tif
        done
        tiffset -u 296 source.tif
        made "tiffset $1 $code, no unit" "$1" cp source.tif page.tif
        for tag in 282 283; do tiffset -u $tag source.tif; done
        made "tiffset $1 $code, no resolutions" "$1" cp source.tif page.tif
    done
    for code in None Group4; do
        for order in LSB MSB; do
            for fill in lsb msb; do
                for ink in white black; do
                    for rows in 1 7 64 99999; do
                        made "convert $1 $code $order $fill $ink $rows" "$1" \
                            "$magick" "$1" -compress $code -endian $order -define tiff:fill-order=$fill \
                            -define quantum:polarity=min-is-$ink -define tiff:rows-per-strip=$rows page.tif
                    done
                done
            done
        done
        for unit in Undefined PixelsPerInch PixelsPerCentimeter; do
            made "convert $1 $code $unit" "$1" \
                "$magick" "$1" -units $unit -density 200x100 -compress $code page.tif
        done
    done
}

# pixels: each form that no tool writes
by_hand() {
    rm -rf by_hand
    mkdir by_hand
    "$here/tiff_forms.py" by_hand < "$1" > names
    while read -r form; do
        mv "by_hand/$form.tif" page.tif
        check "tiff_forms.py $1 $form" "$1"
    done < names
}

mkdir out first
tifftopnm -quiet "$letter" | pamcut -left 340 -top 1770 -width 611 -height 150 | pamtopnm > letter.pbm
groff -t -Tps -P-pletter "$top/bench/form.roff" |
    gs -q -dSAFER -dBATCH -dNOPAUSE -sDEVICE=pbmraw -r100 -g850x1100 -dFIXEDMEDIA -sOutputFile=- - |
    pamcut -left 90 -top 90 -width 608 -height 210 | pamtopnm > form.pbm
python3 -c 'import random, sys
bits = random.Random(7).randbytes((333 + 7) // 8 * 66)
sys.stdout.buffer.write(b"P4\n333 66\n" + bits)' | pamtopnm > random.pbm

for page in letter form random; do
    by_tools $page.pbm
    by_hand $page.pbm
done
echo "$forms forms, $failed not as expected"

hostile=0
# what it is, line that is due: the file hostile.tif
attacked() {
    name=$1
    hostile=$((hostile + 1))
    printed=$(/usr/bin/time -o measured -f '%e s, %M kB' "$program" burn hostile.tif 0 0 1 1 hostile.tif g4 || :)
    [ "$printed" = "$2" ] || differs "printed '$printed', expected '$2'"
    printf '%-69s  %-44s %6d bytes, %s\n' "$name" "$printed" "$(wc -c < hostile.tif)" "$(tail -n 1 measured)"
}

"$here/hostile_files.py" . > names
while IFS='	' read -r file due what; do
    mv "$file" hostile.tif
    attacked "$what" "$due"
done < names
echo "$hostile hostile files, $failed not as expected with the forms above"
[ "$failed" -eq 0 ]
