#!/bin/sh
# Reading load files and words: bp_load and bp_text beside plain loops in C over the same bytes (load.c, words.c), in one interleaved
# run. A reading's time is that of a run with many readings, less that of a run with one (which also makes the file and the
# checksum); printed are the medians of seven rounds, and the median ratio of a round. The checksums must agree.
# A word: how many readings for each of those of a quiet machine, in percent, 100 where none is given. Needs rt on PATH and gcc.
set -eu
here=$(CDPATH='' cd -- "$(dirname -- "$0")" && pwd)
. "$here/../trials/common.sh"
percent=${1:-100}
make_scratch
build_bench
for loop in load words; do cc -O2 -o "$scratch/$loop" "$here/$loop.c"; done

now() { date +%s%N; }

# program, job, size, readings: nanoseconds for a reading
time_of() {
    start=$(now); "$1" "$2" "$3" 1 > "$scratch/sum"; middle=$(now); "$1" "$2" "$3" $(($4 + 1)) > "$scratch/sum"; end=$(now)
    echo $((((end - middle) - (middle - start)) / $4))
}

# the loop in C, job, size, readings
compare() {
    loop=$scratch/$1 readings=$(($4 * percent / 100))
    [ "$readings" -gt 0 ] || readings=1
    ours=$("$bench" "$2" "$3" 1)
    theirs=$("$loop" "$2" "$3" 1)
    [ "$ours" = "$theirs" ] || stop "$2: the checksums differ: $ours by the crate, $theirs by the loop in C"
    for _ in 1 2 3 4 5 6 7; do
        echo "$(time_of "$bench" "$2" "$3" "$readings") $(time_of "$loop" "$2" "$3" "$readings")"
    done > "$scratch/rounds"
    awk -v job="$2" -v size="$3" -v sum="$ours" '
        function median(values, count,    i, j, held) {
            for (i = 2; i <= count; i++)
                for (j = i; j > 1 && values[j - 1] > values[j]; j--) { held = values[j]; values[j] = values[j - 1]; values[j - 1] = held }
            return values[int((count + 1) / 2)]
        }
        { ours[NR] = $1; theirs[NR] = $2; ratio[NR] = $1 / $2 }
        END {
            printf "read_%s of %d lines: %.2f ms by the crate, %.2f ms by the loop in C, ratio %.2f  checksum %s\n",
                job, size, median(ours, NR) / 1e6, median(theirs, NR) / 1e6, median(ratio, NR), sum
        }' "$scratch/rounds"
}

compare load dat 10000 10
compare load opt 20000 100
compare words words 100000 10
