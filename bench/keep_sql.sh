#!/bin/sh
# The keeper over a database (`SqlKeeper`), by the program bp_bench_rows, beside the same statements through the kit's sqlite alone,
# and beside sqlite3's own library (keep_peer.c), all with a log beside the file and full syncs, in one folder of one disk:
#   commits      of one put, of a hundred, of 20,000, each of 40 bytes; of the rows of an import of 450 letter pages
#   loading      20,000 rows with strips of 20 KB, and the most memory that it takes
#   opening      the file of these rows, 400 MB
#   closing      the file after that import, and after those rows were committed: the log is copied into the file
# A time is that of a run with many jobs less that of a run with few, each the least of rounds in which all three run by turns;
# in milliseconds, of the processor and on the clock. The keeper is to take at most 1.15 times what the statements alone take.
# Words: rounds, 3 where none is given; a folder on the disk that is to be measured, the system's for temporary files where none is.
# Last the instructions of commits and of a load by the keeper over those by the statements alone, which no other work on the machine changes.
# Needs rt on PATH where the program isn't built; python3, gcc, valgrind, libsqlite3-dev, and 2 GB of room.
set -eu
here=$(CDPATH='' cd -- "$(dirname -- "$0")" && pwd)
. "$here/../trials/common.sh"
rounds=${1:-3}
scratch=$(mktemp -d ${2:+-p "$2"})
room=$scratch/room
file=$room/matter.db

build_crate bp_bench_rows statements open - 0
timing=$built
need_header sqlite3.h libsqlite3-dev
cc -O2 -o "$scratch/keep_peer" "$here/keep_peer.c" -lsqlite3

echo "in ms of the processor, and on the clock          keeper      statements         sqlite3   keeper / statements   statements / sqlite3"
# what is measured, few jobs, many, a folder that is emptied before each run or -, the file of the peer, the job, its words
compare() {
    what=$1 few=$2 many=$3 folder=$4 first=$5 other=$6 job=$7
    shift 7
    python3 "$here/turns.py" "$rounds" "$few" "$many" "$folder" "$timing" keeper "$job" "$first" "$@" -- \
        "$timing" statements "$job" "$first" "$@" -- "$scratch/keep_peer" "$job" "$other" "$@" > "$scratch/times" ||
        stop "$job failed"
    awk -v what="$what" '{ cpu[NR] = 1000 * $1; wall[NR] = 1000 * $3 } END {
        printf "%-40s", what
        for (way = 1; way <= 3; way++) printf " %7.1f %7.1f", cpu[way], wall[way]
        printf "   %8.2f %8.2f     %8.1f %8.1f\n", cpu[1] / cpu[2], wall[1] / wall[2], cpu[2] / cpu[3], wall[2] / wall[3] }' "$scratch/times"
}

compare "a commit of one put" 1 101 "$room" "$file" "$file" commit small 1
compare "a commit of 100 puts" 1 21 "$room" "$file" "$file" commit small 100
compare "a commit of 20,000 puts" 0 1 "$room" "$file" "$file" commit small 20000
compare "a commit of 450 letter pages" 0 1 "$room" "$file" "$file" commit letters 1050
compare "closing after these" 0 1 "$room" "$file" "$file" close letters 1050
compare "closing after 20,000 rows of 20 KB" 0 1 "$room" "$file" "$file" close large 20000

rm -rf "$room"
big=$scratch/big.db
"$timing" keeper close "$big" large 20000 1 > /dev/null || stop "the file isn't made"
cp "$big" "$scratch/other.db"
compare "opening the file of these, 400 MB" 0 1 - "$big" "$scratch/other.db" open
compare "a load of these" 0 1 - "$big" "$scratch/other.db" load

# the most memory of a run with a load, and of one that only opens, in MB
most() { python3 "$here/cost.py" 1 1 - -- "$@" | cut -d ' ' -f 3; }
for way in keeper statements; do
    set -- "$(most "$timing" $way load "$big" 1)" "$(most "$timing" $way load "$big" 0)"
    awk -v way=$way -v with="$1" -v without="$2" 'BEGIN { rows = 20000 * 20000 / 2 ^ 20
        printf "memory of a load by the %s: %.0f MB at once, %.2f times its rows (at most 2 is wanted); to open the file takes %.0f MB\n",
            way, with, with / rows, without }'
done

# the file that a job begins with, or - for none; the way, the job, its words and times: the instructions of the whole run
count() {
    rm -rf "$room"
    mkdir "$room"
    [ "$1" = - ] || cp "$1" "$file"
    way=$2 job=$3
    shift 3
    valgrind --tool=callgrind --callgrind-out-file=/dev/null "$timing" "$way" "$job" "$file" "$@" 2>&1 | awk '/Collected/ { print $NF }'
}
# what is counted, few jobs, many, the file, the job, its words
compare_counts() {
    what=$1 few=$2 many=$3 first=$4 job=$5
    shift 5
    for way in keeper statements; do
        echo "$(count "$first" $way "$job" "$@" "$many") $(count "$first" $way "$job" "$@" "$few")"
    done | awk -v what="$what" '{ jobs[NR] = $1 - $2 } END {
        printf "instructions of %-34s keeper / statements %.3f\n", what, jobs[1] / jobs[2] }'
}
compare_counts "a commit of one put" 1 41 - commit small 1
compare_counts "a commit of 100 puts" 1 11 - commit small 100
compare_counts "a commit of 2,000 puts" 0 1 - commit small 2000
compare_counts "a commit of 450 letter pages" 0 1 - commit letters 1050
few_rows=$scratch/few_rows.db
"$timing" keeper close "$few_rows" large 1000 1 > /dev/null || stop "the file isn't made"
compare_counts "a load of 1,000 rows of 20 KB" 0 1 "$few_rows" load
