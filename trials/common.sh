# What the shell scripts of trials/, bench/ and examples/ share. A script sources it by
#
#     here=$(CDPATH='' cd -- "$(dirname -- "$0")" && pwd)
#     . "$here/../trials/common.sh"
#
# Then `top` is the repository, `tivrenan` the launcher, and `program` what the launcher builds.
# shellcheck shell=sh disable=SC2034,SC2154 # names of this file are for those who source it, and `here` is theirs

top=$(CDPATH='' cd -- "$here/.." && pwd)
tivrenan=$top/tivrenan
program=$top/crates/bp_main/out/bp_main
letter=$top/examples/letter.tif
batch=$top/examples/CVI_001

# why: ends the script with 1
stop() { echo "$(basename -- "$0"): $1" >&2; exit 1; }

# Debian's packages, tools: ends the script where a tool isn't there
need() {
    packages=$1
    shift
    for tool; do command -v "$tool" > /dev/null || stop "needs $tool (Debian: $packages)"; done
}

# a header of C, its package: ends the script where it isn't there
need_header() { echo "#include <$1>" | cc -E - > /dev/null 2>&1 || stop "needs $1 (Debian: $2)"; }

# builds the program where it isn't built; nothing is printed but where that fails
build() {
    said=$("$tivrenan" build 2>&1) || stop "the program can't be built: $said"
}

# a crate, words of its program: proves, builds and runs it, which leaves it as `built`. Needs a scratch room
build_crate() {
    built=$top/crates/$1/out/$1
    (cd "$top/crates/$1" && shift && rt run -- "$@") < /dev/null > "$scratch/build.log" 2>&1 || {
        cat "$scratch/build.log" >&2
        stop "$1 can't be built"
    }
}

# the program of library calls that the benches time, as `bench`
build_bench() {
    build_crate bp_bench dat 1 1
    bench=$built
}

# What a script leaves when it ends, in whatever way: its scratch room goes, and the process `desk` with its group, where one is set.
scratch='' desk=''
leave() {
    [ -z "$desk" ] || kill -- "-$desk" 2> /dev/null || kill "$desk" 2> /dev/null || :
    [ -z "$scratch" ] || { chmod -R u+w "$scratch" 2> /dev/null || :; rm -rf "$scratch"; }
}
trap leave EXIT
trap 'exit 130' INT
trap 'exit 143' TERM

# makes the folder `scratch`
make_scratch() { scratch=$(mktemp -d); }

# folder: makes it anew, with the example batch in it, as `room`, and goes there
enter_room() {
    room=$1
    rm -rf "$room"
    mkdir -p "$room"
    ln -s "$batch" "$room/CVI_001"
    cd "$room" || exit
}

# status, printed line (as a pattern), words: gives a command, and stops where it ends otherwise. What it printed is in told.
run() {
    wanted=$1 line=$2
    shift 2
    echo "\$ tivrenan $*"
    status=0
    told=$("$tivrenan" "$@" 2> /dev/null) || status=$?
    echo "$told"
    # shellcheck disable=SC2254 # the line is a pattern
    case $status,$told in "$wanted",$line) ;; *) stop "ended with $status, and not with $wanted and '$line'" ;; esac
}

# a key: its SHA-256
digest() { printf %s "$1" | sha256sum | cut -c1-64; }

# the digest of all rows that matter.db keeps
rows() { sqlite3 matter.db 'SELECT kind, k1, k2, hex(body) FROM kept ORDER BY kind, k1, k2' | sha256sum; }

# What sqlite3 writes into matter.db has no sums: makes it a file without any that has the same rows; or writes the right sums
drop_sums() { python3 "$top/tools/tests/page_sums.py" drop matter.db; }
seal() { python3 "$top/tools/tests/page_sums.py" seal matter.db; }

# how a broken rule is told over HTTP: number, name
broken() { printf '{"a":0,"b":0,"line":0,"name":"%s","rule":%s}' "$2" "$1"; }

# key, target, what curl is given more: asks the desk at `port`
fetch() {
    key=$1 target=$2
    shift 2
    curl -s --retry 60 --retry-connrefused --retry-delay 1 -H "Desk-Key: $key" "$@" "http://127.0.0.1:$port$target" || stop "no reply"
}

# status and body that are due, key, method, target, body of a POST
ask() {
    wanted=$1 due=$2 asked=$4 at=$5
    case $asked in POST) told=$(fetch "$3" "$at" -w '\n%{http_code}' --data-binary "$6") ;; *) told=$(fetch "$3" "$at" -w '\n%{http_code}') ;; esac
    echo "$asked $at ${6-}"
    echo "    $(echo "$told" | tail -n 1) $(echo "$told" | sed '$d')"
    [ "$told" = "$due
$wanted" ] || stop "what was due: $wanted $due"
}
port=48201
done='{"done":true}'

# words of a command that opens desks: gives it in a group of its own, so that the launcher and the program below it end together, and
# waits until somebody listens at `port`, by the system's list, since a trial connection would be served as one
open_desk() {
    echo "\$ tivrenan $*"
    setsid "$tivrenan" "$@" > served 2> /dev/null &
    desk=$!
    until grep -q "$(printf ':%X 00000000:0000 0A ' "$port")" /proc/net/tcp; do
        kill -0 "$desk" 2> /dev/null || stop "the desk didn't open: $(cat served)"
        sleep 0.1
    done
}

# line: waits until the desk ends, with 0 and that line
closed() {
    wait "$desk" || stop "the desk ended with $?"
    desk=
    cat served
    [ "$(cat served)" = "$1" ] || stop "what was due: $1"
}
