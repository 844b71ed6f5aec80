#!/bin/sh
# Opening a matter, which each command and desk does first: processor time and peak memory of a command that then looks for a production
# which isn't there (`log`), over a matter of letter pages at 300 dots an inch beside reading and coding their strips alone (bp_bench
# strips); and of 1,000 to 10,000 documents of one small page, which is to grow in a line. A time is the least of all rounds. Wanted: at
# most 1.2 times the strips.
# Words: how many letter pages, 450 where none is given; rounds, 5; the most documents of the growth, 10,000.
# Needs rt on PATH where a program isn't built; python3.
set -eu
here=$(CDPATH='' cd -- "$(dirname -- "$0")" && pwd)
. "$here/../trials/common.sh"
pages=${1:-450} rounds=${2:-5} most=${3:-10000}
make_scratch
build
build_bench
{ printf 'P4\n64 32\n' && head -c 256 /dev/zero; } | python3 "$top/trials/plain_page.py" 200 > "$scratch/small.tif"

# folder, pages, image, words a page, pages a document: their matter
matter() {
    mkdir "$scratch/$1"
    python3 "$here/make_import.py" "$scratch/$1/B" "$2" "$3" "$4" "$5"
    (cd "$scratch/$1" && "$program" init "$(digest lead)" && "$program" import B) > "$scratch/made" || stop "the matter isn't made: $(cat "$scratch/made")"
    rm -rf "$scratch/$1/B"
}

# folder: the least seconds of processor time of a command, and the most memory in MB
opened() {
    python3 - "$rounds" "$program" "$scratch/$1" << 'END'
import os
import subprocess
import sys

rounds, program, folder = int(sys.argv[1]), sys.argv[2], sys.argv[3]
times, memory = [], []
for _ in range(rounds):
    child = subprocess.Popen([program, "log", "R-1"], cwd=folder, stdout=subprocess.PIPE, text=True)
    line = child.stdout.read()
    _, status, used = os.wait4(child.pid, 0)
    child.returncode = os.waitstatus_to_exitcode(status)
    if child.returncode != 2 or not line.startswith("refused 33 "):
        sys.exit(f"matter.sh: log ended with {child.returncode}, {line}")
    times.append(used.ru_utime + used.ru_stime)
    memory.append(used.ru_maxrss)
print(f"{min(times):.6f} {max(memory) / 1024:.1f}")
END
}

matter letters "$pages" "$letter" 4 1
strips=$(python3 "$here/cost.py" "$rounds" 1 - "$bench" strips "$letter" "$pages" 1 -- "$bench" strips "$letter" "$pages" 2 | cut -d ' ' -f 1)
set -- $(opened letters)
awk -v pages="$pages" -v strips="$strips" -v time="$1" -v memory="$2" 'BEGIN {
    printf "%d letter pages: strips %.2f s, opened %.2f s, %.3f times (at most 1.2); %.0f MB\n", pages, strips, time, time / strips, memory }'
rm -rf "$scratch/letters"
for docs in 1000 2000 5000 10000; do
    [ "$docs" -le "$most" ] || continue
    matter small "$docs" "$scratch/small.tif" 0 1
    set -- $(opened small)
    awk -v docs="$docs" -v time="$1" -v memory="$2" 'BEGIN {
        printf "%6d documents of a small page: opened %.3f s, %.1f us a document, %.0f MB\n", docs, time, 1000000 * time / docs, memory }'
    rm -rf "$scratch/small"
done
