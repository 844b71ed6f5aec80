#!/bin/sh
# Fuzzes for long beside other work, on one processor and behind everything else: rounds of all jobs of fuzz.py and of fuzz_desks.py, each
# round with the next seed. The desks have a network of their own. A line a job goes to standard output: how many cases, how many of them
# otherwise. A program that isn't built is named once, and its jobs are left out.
# FUZZ_SECONDS says how long a program may take, 60 where it isn't set; CRATES where the crates are, PROCESSOR which processor.
# Words: the folder that keeps cases that differ; how many rounds, 1 where there is none; the first seed, 1 where there is none; a part of
# the jobs' sizes, 100 (percent) where there is none. Ends with 1 where a case differed.
set -u
here=$(CDPATH='' cd -- "$(dirname -- "$0")" && pwd)
. "$here/common.sh"
crates=${CRATES:-$top/crates}
keep=$1 rounds=${2:-1} seed=${3:-1} part=${4:-100}
mkdir -p "$keep"
failed=0

has() { [ -x "$crates/$1/out/$1" ] || { [ "$2" != "$first" ] || echo "fuzz_all.sh: $1 isn't built"; return 1; }; }
go() { taskset -c "${PROCESSOR:-0}" nice -n 19 "$@" || failed=1; }
own_network='import sys; sys.path.insert(0, sys.argv[1]); import apart, os; apart.in_own_network(); os.execvp(sys.argv[2], sys.argv[2:])'

first=$seed
last=$((seed + rounds - 1))
while [ "$seed" -le "$last" ]; do
    if has bp_main "$seed"; then
        program=$crates/bp_main/out/bp_main
        for job in burn:3000 check:3000 batch:1500 matter:3000 file:1500; do
            go python3 "$here/fuzz.py" "${job%:*}" "$program" $((${job#*:} * part / 100)) "$seed" "$keep"
        done
        go python3 -c "$own_network" "$top/tools/tests" python3 "$here/fuzz.py" day "$program" $((2000 * part / 100)) "$seed" "$keep"
        go python3 "$here/fuzz_desks.py" "$program" $((4000 * part / 100)) "$seed" "$keep"
    fi
    if has bp_test_codecs "$seed"; then
        for job in tiff:40000 strips:40000 pages:5000 loads:40000 words:40000 names:20000; do
            go python3 "$here/fuzz.py" "${job%:*}" "$crates/bp_test_codecs/out/bp_test_codecs" $((${job#*:} * part / 100)) "$seed" "$keep"
        done
    fi
    if has bp_test_requests "$seed"; then
        go python3 "$here/fuzz.py" requests "$crates/bp_test_requests/out/bp_test_requests" $((40000 * part / 100)) "$seed" "$keep"
    fi
    if has bp_test_volumes "$seed"; then
        go python3 "$here/fuzz.py" volumes "$crates/bp_test_volumes/out/bp_test_volumes" $((5000 * part / 100)) "$seed" "$keep"
    fi
    seed=$((seed + 1))
done
exit "$failed"
