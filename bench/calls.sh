#!/bin/sh
# Review calls over a matter of 10,000 documents, with a keeper in memory, beside those over one of 100: SetCall of each document in
# turn by the book of a desk, without HTTP (bp_bench_desk). A time is processor time, that of a run with many calls less that of a run
# with few, the least of all rounds; the making of the call is in it. Wanted: at most 2 us a call, and over the large matter at most 1.5
# times those over the small one.
# Words: how many calls, 200,000 where none is given; rounds, 3.
# Needs rt on PATH where the program isn't built; python3.
set -eu
here=$(CDPATH='' cd -- "$(dirname -- "$0")" && pwd)
. "$here/../trials/common.sh"
count=${1:-200000} rounds=${2:-3}
make_scratch
build_crate bp_bench_desk calls - 1 1

# documents: the seconds of a call
call_over() {
    python3 "$here/cost.py" "$rounds" "$count" - "$built" calls - "$1" 1 -- "$built" calls - "$1" $((count + 1)) | cut -d ' ' -f 1
}

awk -v calls="$count" -v small="$(call_over 100)" -v large="$(call_over 10000)" 'BEGIN {
    printf "%d SetCalls: 100 documents %.2f us, 10,000 documents %.2f us a call (at most 2), %.2f times (at most 1.5)\n", calls,
        1000000 * small, 1000000 * large, large / small }'
