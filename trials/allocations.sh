#!/bin/sh
# Refuses each allocation of `burn` in turn, the first, the second and so on, or each so many'th, by the kit's runner of programs that aren't
# proved yet. Each run must end with 0 and the line of the whole file, or with 6: that memory ran out is never told as bad
# words, a broken rule or a fault. Ends with a status other than 0 where one doesn't. A run can end with 0 though one of
# its allocations was refused, where it does without; so the script ends after four runs in a row that end with 0.
# Words: the form to read and the one to write, plain or g4; `plain` where none is given. A third: how many allocations each run goes on.
# Needs rt; each run compiles the whole program, which takes minutes.
set -eu
here=$(CDPATH='' cd -- "$(dirname -- "$0")" && pwd)
. "$here/common.sh"
cd "$top/crates/bp_main"
from=${1:-plain} to=${2:-plain} step=${3:-1}
case $to in
    plain) length=187 ;;
    g4) length=204 ;;
    *) stop "the form is plain or g4" ;;
esac

# a page of 8 by 1 pixels: the white one of the stored run, or a black one in Group 4
black_in_g4() {
    head -c 54 data/a.tif && printf '\4' && tail -c +56 data/a.tif | head -c 71
    printf '\6' && tail -c +128 data/a.tif | head -c 59 && printf '\046\242\200\010\000\200'
}

trap 'rm -f a.tif; leave' EXIT
case $from in
    plain) cp data/a.tif a.tif ;;
    g4) black_in_g4 > a.tif ;;
    *) stop "the form is plain or g4" ;;
esac

at=1
ended_well=0
while [ "$ended_well" -lt 4 ]; do
    said=$(rt try --fail-alloc "$at" -- burn a.tif 0 0 8 1 b.tif "$to" 2>&1) || :
    status=$(printf '%s\n' "$said" | sed -n 's/^run=ended status=\([0-9]*\) .*/\1/p')
    case $status in
        6)
            echo "allocation $at refused: 6"
            ended_well=0
            ;;
        0)
            printf '%s\n' "$said" | grep -q "^burned $length\$" || { echo "$said"; exit 1; }
            echo "allocation $at refused: 0, burned $length"
            ended_well=$((ended_well + 1))
            ;;
        *) printf 'allocation %s refused: status %s\n%s\n' "$at" "$status" "$said"; exit 1 ;;
    esac
    at=$((at + step))
done
