#!/bin/sh
# One desk beside sixteen, at the ports 48201 to 48216 of this machine, over a matter kept in memory, by bp_bench_desk; each desk
# has one client of one connection a request (serve_client.c), and all clients ask at once:
#   SetCall   on a matter of 10,000 documents
#   the usual mix on it: a document is seen, then its words, it is called, a box put, a field held and the entry written
#   SeePage   of 2,550 by 3,300 pixels (examples/letter.tif)
# How many exchanges a second all of them had together is the sum of the clients' rates, each over its own exchanges but the first.
# Wanted: as many calls by sixteen desks as by one, and 2.5 times as many pages. A desk that waits takes no processor: the
# processor time of sixteen desks that nobody asks for two seconds is told, and what one of them does while fifteen wait.
# Words: rounds, 5 where none is given; SetCalls a round, 16,000; pages a round, 320.
# Needs rt on PATH where the program isn't built; python3, gcc, and those ports free.
set -eu
here=$(CDPATH='' cd -- "$(dirname -- "$0")" && pwd)
. "$here/../trials/common.sh"
rounds=${1:-5} count=${2:-16000} pages=${3:-320}
docs=10000
make_scratch

build_crate bp_bench_desk calls - 1 1
timing=$built
cc -O2 -o "$scratch/serve_client" "$here/serve_client.c"

. "$here/serve_requests.sh"
write_requests "$scratch"

# one round: the file of its rates, how many desks there are, how many are asked, the exchanges of all together, the request, the
# page's file or -, how many documents
round() {
    told=$1 desks=$2 asked=$3 each=$(($4 / $3))
    rm -f "$scratch"/times.*
    "$timing" serve "$6" "$7" "$desks" $((each + 1)) > "$scratch/served" 2>&1 &
    desk=$!
    clients=
    for at in $(seq "$asked"); do
        "$scratch/serve_client" $((port + at - 1)) "$each" "$5" 200 "$7" - > "$scratch/times.$at" &
        clients="$clients $!"
    done
    for client in $clients; do wait "$client" || stop "no exchange: $(cat "$scratch/served")"; done
    if [ "$asked" -eq "$desks" ]; then
        wait "$desk" || stop "the desks ended with $?: $(cat "$scratch/served")"
    else
        kill "$desk"
        wait "$desk" 2> /dev/null || :
    fi
    desk=
    cat "$scratch"/times.* | awk '{ rate += 1 / $1 } END { printf "%.3f\n", rate }' >> "$told"
}

# the processor time in hundredths of a second that the desks took so far
ticks() { awk '{ print $14 + $15 }' "/proc/$desk/stat"; }

# what sixteen desks take while nobody asks for two seconds
idle() {
    "$timing" serve - 1 16 2 > "$scratch/served" 2>&1 &
    desk=$!
    "$scratch/serve_client" "$port" 0 "$scratch/call" 200 1 - > "$scratch/times.1"
    before=$(ticks)
    sleep 2
    echo "sixteen desks that nobody asks: $(($(ticks) - before)) hundredths of a second of processor time in two seconds"
    kill "$desk"
    wait "$desk" 2> /dev/null || :
    desk=
}

# the median of a file's numbers
median() { sort -n "$1" | awk '{ row[NR] = $1 } END { print (row[int((NR + 1) / 2)] + row[int(NR / 2) + 1]) / 2 }'; }

for _ in $(seq "$rounds"); do
    round "$scratch/calls_1" 1 1 "$count" "$scratch/call" - "$docs"
    round "$scratch/calls_16" 16 16 "$count" "$scratch/call" - "$docs"
    round "$scratch/mixed_1" 1 1 "$count" "$mix" - "$docs"
    round "$scratch/mixed_16" 16 16 "$count" "$mix" - "$docs"
    round "$scratch/pages_1" 1 1 "$pages" "$scratch/page" "$letter" 16
    round "$scratch/pages_16" 16 16 "$pages" "$scratch/page" "$letter" 16
    round "$scratch/idle_16" 16 1 "$count" "$scratch/call" - "$docs"
done
for job in calls mixed pages; do
    awk -v job="$job" -v one="$(median "$scratch/${job}_1")" -v all="$(median "$scratch/${job}_16")" -v cores="$(nproc)" 'BEGIN {
        printf "%s: by one desk %.0f a second, by sixteen %.0f, %.2f times, on %d processors (%s wanted)\n", job, one, all, all / one,
            cores, job == "pages" ? "2.5 are" : "1 is" }'
done
awk -v all="$(median "$scratch/idle_16")" -v one="$(median "$scratch/calls_1")" 'BEGIN {
    printf "calls at one of sixteen desks while fifteen wait: %.0f a second, %.2f times those of one desk\n", all, all / one }'
idle
