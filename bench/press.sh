#!/bin/sh
# The press of letter pages at 300 dots an inch, each a document of its own with a box over a paragraph and 300 words, by the command
# `press` over a matter of make_matter.py: beside a script with public tools (press_peer.sh), once both show the same pixels above
# the band; then the growth up to 450 pages, and the memory beside the tables. A time is that of `press` less that of `log`, which
# opens the same matter and writes no volume, a run of the script by itself, the least of all rounds; the memory is `press`'s peak
# less that of `log`.
# Words: how many pages, 100 where none is given; how often each is run, 5 where none is given.
# Needs rt on PATH where the program isn't built; python3, the port 48201 free, and of Debian netpbm.
set -eu
here=$(CDPATH='' cd -- "$(dirname -- "$0")" && pwd)
. "$here/../trials/common.sh"
pages=${1:-100}
rounds=${2:-5}

need 'netpbm, python3' pbmmake pbmtext pnmcat pnmpaste pamtotiff tifftopnm pamcut python3
make_scratch
build
tifftopnm -quiet "$letter" > "$scratch/letter.pbm"

# pages: their matter, in the folder of that number
matter_of() { [ -d "$scratch/$1" ] || python3 "$here/make_matter.py" "$program" "$scratch/$1" "$1" 1 300 "$letter"; }

# pages: processor and wall seconds of a volume, and MB
volume_of() { (cd "$scratch/$1" && python3 "$here/cost.py" "$rounds" 1 out "$program" log R-1 -- "$program" press R-1); }

# a page file: its pixels above the band, without the letters in the corner of the box, which the script doesn't draw
pbmmake -black 39 27 > "$scratch/corner.pbm"
above_band() { tifftopnm -quiet "$1" | pamcut -top 0 -height 3300 | pnmpaste "$scratch/corner.pbm" 320 1755; }

# the two show the same
matter_of "$pages"
"$here/press_peer.sh" "$scratch/letter.pbm" 2 "$scratch/peer"
above_band "$scratch/$pages/out/VOL001/IMAGES/0001/P-000002.TIF" > "$scratch/mine.pbm"
above_band "$scratch/peer/VOL001/IMAGES/0001/ABC00000002.TIF" > "$scratch/other.pbm"
cmp "$scratch/mine.pbm" "$scratch/other.pbm" || stop "the script's pages are other ones"

set -- $(volume_of "$pages") \
    $(python3 "$here/cost.py" "$rounds" 1 "$scratch/peer" -- "$here/press_peer.sh" "$scratch/letter.pbm" "$pages" "$scratch/peer")
awk -v n="$pages" -v press="$1" -v wall="$2" -v peer="$4" -v peer_wall="$5" 'BEGIN {
    printf "%d letter pages: public tools %.2f s of processor time and %.2f s of wall time; press %.3f and %.3f of it (at most 0.1)\n",
        n, peer, peer_wall, press / peer, wall / peer_wall }'

for count in 100 200 300 450; do
    matter_of "$count"
    set -- $(volume_of "$count")
    awk -v n="$count" -v press="$1" -v wall="$2" -v memory="$3" 'BEGIN {
        page = 319 * 3300 / 1048576
        printf "%5d letter pages: press %.2f s of processor time, %.2f ms a page; %.2f s of wall time, %.2f ms a page; ",
            n, press, 1000 * press / n, wall, 1000 * wall / n
        printf "%.2f MB beside the tables, %.2f pages (at most 3)\n", memory, memory / page }'
done
