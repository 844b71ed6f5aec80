#!/bin/sh
# Tries the review page: its reader of pages beside libtiff, nginx by the page's configuration, a whole review in a headless
# Chromium, several people at once, a production from its plan on, a receiver, 10,000 documents. Over the program, where it is
# built, else over a stand-in for the desks, which is compared with the program.
# Words: which of the parts; none for all. Pictures of the screens go to desk_page/tests/out. PROGRAM names a program that was
# built elsewhere. Needs of Debian chromium, nginx, openssl, python3, netpbm, libtiff-tools and git; where one of them isn't
# installed it says so, tries nothing and ends with status 0. Ends with 1 where something is not as due.
parts="decoder nginx passwords review together list find plan redact keyboard receiver looks many"
set -eu
here=$(CDPATH='' cd -- "$(dirname -- "$0")" && pwd)
top=$(CDPATH='' cd -- "$here/../.." && pwd)
PATH=$PATH:/usr/sbin
export PYTHONDONTWRITEBYTECODE=1

for tool in chromium nginx openssl python3 tifftopnm pamcut tiffcp git; do
    command -v "$tool" > /dev/null && continue
    case $tool in tifftopnm | pamcut) package=netpbm ;; tiffcp) package=libtiff-tools ;; *) package=$tool ;; esac
    echo "desk_page: NOT TRIED: $tool isn't installed (Debian: $package)"
    exit 0
done

program=${PROGRAM-$top/crates/bp_main/out/bp_main}
[ -x "$program" ] || program=
if [ -n "$program" ]; then
    # its desks are at ports 48201 to 48204, which may be taken
    if taken=$(python3 "$here/taken.py" 48201 48204); then
        echo "desk_page: the program is NOT TRIED: somebody is at port $taken; over the stand-in"
        program=
    else
        echo "desk_page: over the program $program"
    fi
else
    echo "desk_page: the program is NOT TRIED, as it isn't built; over the stand-in"
fi

scratch=$(mktemp -d)
trap 'rm -rf "$scratch"' EXIT
shots=$here/out
mkdir -p "$shots"
failed=0
# shellcheck disable=SC2086 # the parts are words
[ $# -gt 0 ] || set -- $parts
for part; do
    case " $parts " in
        *" $part "*) ;;
        *) echo "usage: run.sh [PART ..], each one of: $parts" >&2; exit 1 ;;
    esac
    # the scripts of the same names, but for these; a volume is written by the program alone
    case $part in
        list) scripts=listing ;;
        find) scripts=finding ;;
        redact) scripts="redact screens ${program:+redacted_volume}" ;;
        *) scripts=$part ;;
    esac
    # where there are pictures, they go to a folder
    case $part in review | together | list | find | plan | redact | keyboard | receiver) pictures=$shots ;; *) pictures= ;; esac
    echo "== $part"
    for script in $scripts; do
        mkdir "$scratch/$script"
        "$here/$script.py" "$scratch/$script" ${pictures:+"$pictures"} ${program:+"$program"} || failed=1
    done
done
exit "$failed"
