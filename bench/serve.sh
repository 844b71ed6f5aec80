#!/bin/sh
# One desk over HTTP, at the port of desk 1 of this machine, by a client of one connection a request (serve_client.c):
#   SetCall   on a matter of 10,000 documents kept in memory, by bp_bench_desk: exchanges a second, beside a bare loop in C that
#             accepts, reads a request and writes the same reply (serve_bare.c), and beside the same calls of the book without HTTP
#   the same  with a body of a megabyte in 66,000 members that are passed over
#   a page    of 2,550 by 3,300 pixels (examples/letter.tif), beside a bare loop that writes the same reply
#   database  SetCall by the program, `tivrenan serve 1 N`, over matter.db with the example batch, beside the commits alone by
#             sqlite3's own library (keep_peer.c) in a copy of that file in the same folder
# Each is the median of rounds, in which they run by turns; on the clock, as the client sees it. Wanted: at least 10,000 SetCalls a
# second, in at most 1.5 times the bare loop plus the calls; a page in at most 8 ms; over the database at most 1.3 times the
# commits. The desk, its peer and the client are three processes, so at least two processors must be idle.
# Words: rounds, 5 where none is given; SetCalls a round over the matter in memory, 9,999; pages a round, 100; SetCalls a round over
# the database, 200; a folder on the disk that is to be measured, the system's for temporary files where none is.
# Needs rt on PATH where a program isn't built; python3, curl, gcc, libsqlite3-dev, and the port 48201 free.
set -eu
here=$(CDPATH='' cd -- "$(dirname -- "$0")" && pwd)
. "$here/../trials/common.sh"
rounds=${1:-5} count=${2:-9999} pages=${3:-100} commits=${4:-200}
docs=10000
scratch=$(mktemp -d ${5:+-p "$5"})

build_crate bp_bench_desk calls - 1 1
timing=$built
build
need_header sqlite3.h libsqlite3-dev
cc -O2 -o "$scratch/keep_peer" "$here/keep_peer.c" -lsqlite3
for each in bare client; do cc -O2 -o "$scratch/serve_$each" "$here/serve_$each.c"; done

. "$here/serve_requests.sh"
write_requests "$scratch"

# one round at a desk: the file of its times, how many exchanges beside the first, the request, how many documents, a file for
# the last reply or -, the desk and its words
served() {
    told=$1 times=$2 asked=$3 among=$4 kept=$5
    shift 5
    "$@" > "$scratch/served" 2>&1 &
    desk=$!
    "$scratch/serve_client" "$port" "$times" "$asked" 200 "$among" "$kept" >> "$told" || stop "no exchange with $1: $(cat "$scratch/served")"
    wait "$desk" || stop "$1 ended with $?: $(cat "$scratch/served")"
    desk=
}

# the seconds of one job of a program, its last word the number of jobs: the file of its times, few, many, the program and its words
alone() {
    told=$1 few=$2 many=$3
    shift 3
    python3 "$here/turns.py" 1 "$few" "$many" - "$@" | cut -d ' ' -f 3 >> "$told" || stop "$1 failed"
}

# the median of the first column of a file
median() { cut -d ' ' -f 1 "$1" | sort -n | awk '{ row[NR] = $1 } END { print (row[int((NR + 1) / 2)] + row[int(NR / 2) + 1]) / 2 }'; }

# ---- in memory

served "$scratch/first" 1 "$scratch/call" "$docs" "$scratch/call_reply" "$timing" serve - "$docs" 1 2
served "$scratch/first" 1 "$scratch/page" 1 "$scratch/page_reply" "$timing" serve "$letter" 1 1 2
for _ in $(seq "$rounds"); do
    served "$scratch/calls" "$count" "$scratch/call" "$docs" - "$timing" serve - "$docs" 1 $((count + 1))
    served "$scratch/bare" "$count" "$scratch/call" "$docs" - "$scratch/serve_bare" "$port" $((count + 1)) "$scratch/call_reply"
    alone "$scratch/step" 1 $((10 * count + 1)) "$timing" calls - "$docs"
    served "$scratch/longs" 10 "$scratch/long" "$docs" - "$timing" serve - "$docs" 1 11
    served "$scratch/pages" "$pages" "$scratch/page" 1 - "$timing" serve "$letter" 1 1 $((pages + 1))
    served "$scratch/bare_pages" "$pages" "$scratch/page" 1 - "$scratch/serve_bare" "$port" $((pages + 1)) "$scratch/page_reply"
done
echo "SetCall, $docs documents in memory, $rounds rounds of $count, medians:"
awk -v desk="$(median "$scratch/calls")" -v bare="$(median "$scratch/bare")" -v step="$(median "$scratch/step")" 'BEGIN {
    printf "    an exchange with the desk %.1f us, %.0f a second (at least 10,000 are wanted)\n", 1e6 * desk, 1 / desk
    printf "    an exchange with the bare loop %.1f us, %.0f a second; the call alone %.2f us\n", 1e6 * bare, 1 / bare, 1e6 * step
    printf "    desk / (bare loop and call) %.2f (at most 1.5 is wanted)\n", desk / (bare + step) }'
awk -v long="$(median "$scratch/longs")" 'BEGIN { printf "    an exchange with a body of a megabyte in 66,000 members %.1f ms\n", 1000 * long }'
echo "SeePage of 2,550 by 3,300 pixels, $rounds rounds of $pages, medians:"
awk -v desk="$(median "$scratch/pages")" -v bare="$(median "$scratch/bare_pages")" 'BEGIN {
    printf "    an exchange with the desk %.2f ms (at most 8 are wanted), with the bare loop %.2f ms\n", 1000 * desk, 1000 * bare }'

# ---- over matter.db

room=$scratch/room
mkdir "$room"
ln -s "$batch" "$room/CVI_001"
(cd "$room" && "$program" init "$(digest 'the key of the lead')" && "$program" import CVI_001) > "$scratch/made" 2>&1 ||
    stop "the matter isn't made: $(cat "$scratch/made")"
(cd "$room" && exec "$program" serve 1 1) > "$scratch/served" 2>&1 &
desk=$!
body="{\"name\":\"Ellis\",\"role\":\"Reviewer\",\"digest\":\"$(digest "$key")\"}"
added=$(curl -s --retry 20 --retry-connrefused --retry-delay 1 -H 'Desk-Key: the key of the lead' --data-binary "$body" \
    "http://127.0.0.1:$port/staff") || stop "no reviewer is added"
[ "$added" = '{"staff":2}' ] || stop "no reviewer is added: $added"
wait "$desk" || stop "the desk ended with $?"
desk=
cp "$room/matter.db" "$scratch/first.db"
for _ in $(seq "$rounds"); do
    cd "$room"
    # a row that is put as it stands already isn't written
    rm -f peer.db peer.db-wal peer.db-shm
    cp "$scratch/first.db" peer.db
    sync
    served "$scratch/kept" "$commits" "$scratch/call" 12 - "$program" serve 1 $((commits + 1))
    alone "$scratch/commits" 1 $((commits + 1)) "$scratch/keep_peer" commit "$room/peer.db" small 1
done
echo "SetCall over matter.db, $rounds rounds of $commits, medians:"
awk -v desk="$(median "$scratch/kept")" -v commit="$(median "$scratch/commits")" 'BEGIN {
    printf "    an exchange with the desk %.3f ms, a commit by sqlite3 %.3f ms, %.2f times (at most 1.3 is wanted)\n",
        1000 * desk, 1000 * commit, desk / commit }'
