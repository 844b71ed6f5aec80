#!/bin/sh
# Judging page files, as `check` does it, beside reading them: bp_bench judges each of the pages of pages.sh (Group 4, strips of 64 rows,
# as examples/letter.tif) so many times, and reads it as often, in turn. Printed are the processor time of one file each way, the
# least of all rounds, and the ratio: at most 0.5 is wanted.
# Words: rounds, 5 where none is given; how many times, 100 of a letter page. Needs rt on PATH where bp_bench isn't built; of
# Debian libtiff-tools, and what pages.sh needs.
set -eu
here=$(CDPATH='' cd -- "$(dirname -- "$0")" && pwd)
. "$here/../trials/common.sh"
rounds=${1:-5} times=${2:-100}
need libtiff-tools tiffcp
make_scratch
build_bench
"$here/pages.sh" "$scratch/plain"

# job, file, times: seconds of the processor for one
seconds() { python3 "$here/cost.py" "$rounds" "$3" - "$bench" "$1" "$2" 1 -- "$bench" "$1" "$2" $(($3 + 1)) | cut -d ' ' -f 1; }

for page in letter form halftone dithered random white large; do
    file=$scratch/$page.tif count=$times
    [ "$page" != large ] || count=$(((times + 19) / 20))
    tiffcp -c g4 -r 64 "$scratch/plain/$page.tif" "$file"
    judged=$(seconds judge "$file" "$count") read=$(seconds read "$file" "$count")
    awk -v page="$page" -v judged="$judged" -v read="$read" '
        BEGIN { printf "%-9s judged in %7.3f ms, read in %7.3f ms: %.2f times that (at most 0.5 is wanted)\n", page, 1000 * judged, 1000 * read, judged / read }'
done
