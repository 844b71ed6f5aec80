#!/bin/sh
# A trial end to end beside its coding on all processors: `demo 1 PAGES` by the built program, the least of all rounds on the clock, and the
# coding in it. Each drawn page is coded once, to be kept, and each image of the volume is read from a strip and coded: so as many strips are
# read and coded by `bp_bench strips`, of eight images of the volume in turn, by as many processes as there are processors, each on its own,
# which share nothing. At most 1.5 times their time is wanted. What one process takes for them, and what the system takes to make as many files
# of those sizes, by a plain loop in C, is told beside.
# Words: how many pages, 2,000 where none is given; rounds, 3; a folder for what is written, a new one where none is given.
# Needs rt on PATH, python3, gcc, taskset (Debian: util-linux).
set -eu
here=$(CDPATH='' cd -- "$(dirname -- "$0")" && pwd)
. "$here/../trials/common.sh"
pages=${1:-2000}
rounds=${2:-3}
export GLIBC_TUNABLES="${GLIBC_TUNABLES-glibc.pthread.stack_cache_size=200000000}" # as the launcher sets it
[ ! -w /dev/shm ] || export TMPDIR="${TMPDIR:-/dev/shm}"
if [ -n "${3-}" ]; then mkdir -p "$3" && scratch=$3; else make_scratch; fi
build
build_bench

cat > "$scratch/once.sh" << END
#!/bin/sh
mkdir "$scratch/day"
cd "$scratch/day"
exec "$program" demo 1 $pages
END
chmod +x "$scratch/once.sh"
# processor seconds, seconds on the clock, MB
set -- $(python3 "$here/cost.py" "$rounds" 1 "$scratch/day" -- "$scratch/once.sh")
spent=$1 wall=$2 memory=$3

find "$scratch/day/out" -name '*.TIF' | sort > "$scratch/images"
images=$(wc -l < "$scratch/images")
coded=$((pages + images))
processors=$(nproc)
for at in 1 2 3 4 5 6 7 8; do sed -n "$(((images - 1) * at / 8 + 1))p" "$scratch/images"; done > "$scratch/eight"

# a hundred strips of each of the eight, so many times, by a process on each of the first processors
cat > "$scratch/strips.sh" << END
#!/bin/sh
for at in \$(seq 0 \$((\$2 - 1))); do
    while read -r image; do taskset -c \$at "$bench" strips "\$image" 100 \$1 > /dev/null; done < "$scratch/eight" &
done
wait
END
chmod +x "$scratch/strips.sh"
# seconds on the clock for a strip, by so many processes at once
a_strip() {
    set -- "$1" $(python3 "$here/cost.py" "$rounds" 4 - "$scratch/strips.sh" 1 "$1" -- "$scratch/strips.sh" 5 "$1")
    awk -v wall="$3" -v p="$1" 'BEGIN { print wall / (800 * p) }'
}
one=$(a_strip 1)
all=$(a_strip "$processors")

cc -O2 -o "$scratch/files" "$here/make_files.c"
find "$scratch/day/out" -type f -printf '%s\n' > "$scratch/sizes"
made=$("$scratch/files" "$scratch/made" < "$scratch/sizes")

awk -v n="$pages" -v images="$images" -v files="$(wc -l < "$scratch/sizes")" -v spent="$spent" -v wall="$wall" -v memory="$memory" -v coded="$coded" \
    -v one="$one" -v all="$all" -v p="$processors" -v made="$made" 'BEGIN {
    printf "demo 1 %d: %.2f s on the clock, %.2f s of the processor, %.0f MB; %d images, %d files\n", n, wall, spent, memory, images, files
    printf "its coding: %d strips by %d processes, %.2f s: %.2f times that (at most 1.5 is wanted)\n", coded, p, coded * all, wall / (coded * all)
    printf "by one process: %.3f ms a strip, %.2f s; the processes are %.2f times as fast\n", 1000 * one, coded * one, one / all
    printf "as many files of those sizes by a plain loop: %.2f s\n", made }'
