#!/bin/sh
# Kills the program at random moments of `import` and of `produce`, and opens matter.db again: the program has to find the rows
# from before the command or those after it, and sqlite3 a whole database with the same rows. Says how often it found which.
# For `produce` each document of the example batch is called Produce by rows that python3 writes, with their sums, without a desk.
# Words: how often each, 100 where there is none. Needs rt on PATH where the program isn't built; sqlite3 and python3.
set -eu
here=$(CDPATH='' cd -- "$(dirname -- "$0")" && pwd)
. "$here/common.sh"
need 'sqlite3, python3' sqlite3 python3
"$tivrenan" build
times=${1:-100}
make_scratch
enter_room "$scratch/matter"

"$program" init "$(digest 'the key of the lead')" > /dev/null
mkdir begun decided
cp matter.db* begun
"$program" import CVI_001 > /dev/null

# each document First by staff 1, responsive, called Produce, without a designation
python3 - << 'END'
import sqlite3
import struct

matter = sqlite3.connect("matter.db")
documents = [row[0] for row in matter.execute("SELECT k1 FROM kept WHERE kind = 3")]
body = b"\1" + struct.pack("<BIIBBI", 1, 1, 0, 1, 0, 0)
matter.executemany("INSERT INTO kept VALUES (5, ?, 0, ?)", [(document, body) for document in documents])
matter.commit()
matter.close()
END
seal
cp matter.db* decided

# folder of the rows before, words of the command: kills it so often
kill_often() {
    from=$1
    shift
    rm -rf matter.db* out
    cp "$from"/matter.db* .
    before=$(rows)
    started=$(date +%s%N)
    "$program" "$@" > /dev/null
    took=$(($(date +%s%N) - started))
    after=$(rows)
    old=0 new=0 turn=0
    while [ "$turn" -lt "$times" ]; do
        turn=$((turn + 1))
        rm -rf matter.db* out
        cp "$from"/matter.db* .
        # drawn first, as the program may be over before python3 has begun
        moment=$(python3 -c "import random; print(random.random() * 1.1 * $took / 1e9)")
        "$program" "$@" > /dev/null 2>&1 &
        process=$!
        sleep "$moment"
        kill -9 "$process" 2> /dev/null || :
        wait "$process" 2> /dev/null || :
        # the program opens what is left
        line=$("$program" press NOBODY) || :
        [ "$line" = 'refused 33 NoProduction 0 0 0' ] || stop "$1, turn $turn: press says '$line'"
        [ "$(sqlite3 matter.db 'PRAGMA integrity_check')" = ok ] || stop "$1, turn $turn: not whole"
        case $(rows) in
            "$before") old=$((old + 1)) ;;
            "$after") new=$((new + 1)) ;;
            *) stop "$1, turn $turn: other rows" ;;
        esac
    done
    echo "$1: $times times; $old times the rows from before, $new times those after it, never others"
}

kill_often begun import CVI_001
kill_often decided produce R-1 VOL001 ABC 8 1 12
