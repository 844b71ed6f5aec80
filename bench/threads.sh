#!/bin/sh
# The press of letter pages by sixteen images at a time, over matters as press.sh has them: on one processor (taskset) and on all that
# there are, beside as many processes that share nothing, each on a processor of its own, which tells what this machine gives at most;
# beside the script with public tools (press_peer.sh) in as many processes (xargs -P); the memory beside the tables; two volumes at once,
# each of a matter of its own; and the growth up to 20,000 pages, in documents of two, since a matter has at most 10,000 documents. How
# many times as fast a plain C program is (threads.c), whose jobs share and touch nothing, by the same tree of threads, tells what such
# threads can give here. A time is on the clock, that of `press` less that of `log`, which opens the same matter and writes no volume,
# the least of all rounds; it tells little where other work runs beside. It works in TMPDIR, or else in a file system in memory: ext4
# looks long for places of new files where many were removed seconds before, as this does each time.
# Words: how many pages, 2,000 where none is given; how often each is run, 3 where none is given; the most pages of the growth, 20,000.
# Needs rt on PATH where the program isn't built; python3, gcc, taskset (Debian: util-linux), the port 48201 free, and of Debian netpbm.
set -eu
here=$(CDPATH='' cd -- "$(dirname -- "$0")" && pwd)
. "$here/../trials/common.sh"
pages=${1:-2000}
rounds=${2:-3}
most=${3:-20000}
processors=$(nproc)

need 'util-linux, netpbm, python3' taskset tifftopnm python3
export GLIBC_TUNABLES="${GLIBC_TUNABLES-glibc.pthread.stack_cache_size=200000000}" # as the launcher sets it
[ ! -w /dev/shm ] || export TMPDIR="${TMPDIR:-/dev/shm}"
make_scratch
build
tifftopnm -quiet "$letter" > "$scratch/letter.pbm"

# folder, documents, pages of each: their matter
matter() { python3 "$here/make_matter.py" "$program" "$scratch/$1" "$2" "$3" 300 "$letter"; }

# processors, folder of the matter, rounds: processor and wall seconds of a volume, and MB
volume_on() {
    (cd "$scratch/$2" && python3 "$here/cost.py" "$3" 1 out taskset -c "$1" "$program" log R-1 -- taskset -c "$1" "$program" press R-1)
}

matter whole "$pages" 1
set -- $(volume_on 0 whole "$rounds") $(volume_on "0-$((processors - 1))" whole "$rounds")
one=$2 all=$5
awk -v n="$pages" -v p="$processors" -v time="$1" -v one="$2" -v all="$5" -v spent="$4" 'BEGIN {
    printf "%d letter pages: %.2f s on one processor (%.2f ms of it a page, at most 4), %.2f s on %d: ", n, one, 1000 * time / n, all, p
    printf "%.2f times as fast, %.2f of a linear speed-up (at least 0.85); %.2f ms of processor time a page\n",
        one / all, one / all / p, 1000 * spent / n }'

cc -O2 -o "$scratch/threads" "$here/threads.c" -lpthread
for _ in $(seq "$rounds"); do "$scratch/threads" "$(awk -v one="$one" -v n="$pages" 'BEGIN { print 1000 * one / n }')" 30; done | sort -n > "$scratch/plain"
awk -v one="$one" -v all="$all" '{ best = $1 } NR == 1 { least = $1 } END {
    printf "as many threads of a plain C program for jobs of the same time: %.2f to %.2f times as fast as one; press %.2f of the best\n",
        least, best, one / all / best }' "$scratch/plain"

# a command, how many copies of a matter, processors or -: the command in each copy at once, each on a processor of its own where these are told.
# What stood in `out` is laid aside, and goes before the next run
cat > "$scratch/at_once.sh" << END
#!/bin/sh
mkdir "$scratch/old"
for at in \$(seq 0 \$((\$2 - 1))); do
    cd "$scratch/copy.\$at"
    [ ! -d out ] || mv out "$scratch/old/\$at"
    on=\$at
    [ "\$3" != - ] || on=0-$((processors - 1))
    taskset -c "\$on" "$program" "\$1" R-1 > /dev/null &
done
wait
END
chmod +x "$scratch/at_once.sh"

# folder of a matter, how many copies, processors or -: wall seconds of their volumes
at_once() {
    for at in $(seq 0 $(($2 - 1))); do cp -r "$scratch/$1" "$scratch/copy.$at"; done
    python3 "$here/cost.py" "$rounds" 1 "$scratch/old" "$scratch/at_once.sh" log "$2" "$3" -- "$scratch/at_once.sh" press "$2" "$3" | cut -d ' ' -f 2
    rm -rf "$scratch"/copy.*
}

matter part $((pages / processors)) 1
awk -v one="$one" -v all="$all" -v apart="$(at_once part "$processors" each)" -v p="$processors" 'BEGIN {
    printf "as many pages by %d processes, each on a processor: %.2f s, %.2f times as fast as one; press %.2f of that\n",
        p, apart, one / apart, apart / all }'

cat > "$scratch/peers.sh" << END
#!/bin/sh
seq $processors | xargs -P $processors -I{} "$here/press_peer.sh" "$scratch/letter.pbm" $((100 / processors)) "$scratch/peer/{}"
END
chmod +x "$scratch/peers.sh"
set -- $(python3 "$here/cost.py" "$rounds" 1 "$scratch/peer" -- "$scratch/peers.sh")
awk -v n=$((100 / processors * processors)) -v wall="$2" -v all="$all" -v pages="$pages" 'BEGIN {
    printf "%d letter pages by public tools in as many processes: %.2f s, %.1f ms a page; press %.3f of it\n",
        n, wall, 1000 * wall / n, (all / pages) / (wall / n) }'

awk -v all="$all" -v two="$(at_once whole 2 -)" 'BEGIN { printf "two volumes at once: %.2f s, %.2f times one\n", two, two / all }'
rm -rf "$scratch/whole" "$scratch/part"

# documents, pages of each
growth() {
    count=$(($1 * $2))
    [ "$count" -le "$most" ] || return 0
    turns=$rounds
    [ "$count" -lt 20000 ] || turns=1 # to open so large a matter takes longer than all volumes
    matter grown "$1" "$2"
    set -- $(volume_on "0-$((processors - 1))" grown "$turns")
    awk -v n="$count" -v wall="$2" -v time="$1" -v memory="$3" 'BEGIN {
        printf "%6d letter pages: %.2f s, %.3f ms a page; %.2f ms of processor time a page; %.1f MB beside the tables\n",
            n, wall, 1000 * wall / n, 1000 * time / n, memory }'
    rm -rf "$scratch/grown"
}
growth 100 1
growth 1000 1
growth 5000 1
growth 10000 2
