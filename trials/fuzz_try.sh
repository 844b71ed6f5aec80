#!/bin/sh
# What reads strangers' files and requests, tried with checks of each access: lines of fuzz.py's jobs over the programs that read lines, by the
# kit's runner of programs that aren't proved yet (`rt try`), which compiles them with a sanitizer and stops at a bad access, and at an index, a
# sum or a cast that is out of range. Prints for each program how many files of some hundred lines ended, and ends with 1 where one didn't, or
# where a line was told otherwise.
# Words: a new folder for the lines; how many of each job, 1000 where there is none; the seed, 1 where there is none; the programs, all three
# where none is named: bp_test_codecs bp_test_requests bp_test_volumes. Needs rt; to compile one takes a minute on a quiet machine.
set -eu
here=$(CDPATH='' cd -- "$(dirname -- "$0")" && pwd)
. "$here/common.sh"
[ $# -gt 0 ] || stop "usage: fuzz_try.sh FOLDER [COUNT] [SEED] [PROGRAM ..]"
folder=$1 count=${2:-1000} seed=${3:-1}
shift; [ $# = 0 ] || shift; [ $# = 0 ] || shift
[ $# != 0 ] || set -- bp_test_codecs bp_test_requests bp_test_volumes
mkdir "$folder"
folder=$(cd "$folder" && pwd)
failed=0
for program in "$@"; do
    case $program in
        bp_test_codecs) jobs="tiff strips pages loads words names" ;;
        bp_test_requests) jobs=requests ;;
        bp_test_volumes) jobs=volumes ;;
        *) stop "no program of lines is named $program" ;;
    esac
    lines=$folder/$program
    for job in $jobs; do
        python3 "$here/fuzz.py" "$job" - "$count" "$seed" "$lines"
    done
    made=$(find "$lines" -name '*.txt' | wc -l)
    (cd "${CRATES:-$top/crates}/$program" && rt try --cases "$lines" -- case) > "$lines.said" 2>&1 || failed=1
    right=$(grep -c '^[0-9]* lines, 0 of them told otherwise$' "$lines.said" || :)
    echo "$program: $made files, $right of them told rightly; $(tail -n 1 "$lines.said")"
    [ "$right" = "$made" ] || failed=1
done
exit "$failed"
