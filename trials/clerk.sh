#!/bin/sh
# What a clerk meets who has a matter.db that can't be used: tries `press R-1` over each, and compares status and line, and that
# the file is as it was. Needs rt on PATH where the program isn't built; sqlite3 and python3. Where it runs as root, nobody runs the
# program in the two cases of permissions (Debian's setpriv).
set -eu
here=$(CDPATH='' cd -- "$(dirname -- "$0")" && pwd)
. "$here/common.sh"
need 'sqlite3, python3' sqlite3 python3
"$tivrenan" build

make_scratch
chmod 755 "$scratch"
cp "$program" "$scratch/program"
program=$scratch/program
mkdir "$scratch/whole"
cd "$scratch/whole"
"$program" init "$(digest 'the key of the lead')" > /dev/null

cases=0 failed=0
# name, status, line; in a folder `case` that was furnished
check() {
    cases=$((cases + 1))
    status=0
    before=$(sha256sum < matter.db)
    told=$($as "$program" press R-1 2> /dev/null) || status=$?
    if [ "$status" -ne "$2" ] || [ "$told" != "$3" ]; then
        failed=$((failed + 1))
        echo "$1: ended with $status, '$told', and not with $2, '$3'"
    elif [ "$(sha256sum < matter.db)" != "$before" ]; then
        failed=$((failed + 1))
        echo "$1: the file was changed"
    else
        echo "$1: status $status, $told"
    fi
}

furnish() {
    chmod -R u+w "$scratch/case" 2> /dev/null || :
    rm -rf "$scratch/case"
    cp -r "$scratch/whole" "$scratch/case"
    cd "$scratch/case"
}

as=
furnish
check 'a matter without that production' 2 'refused 33 NoProduction 0 0 0'
furnish
rm -f matter.db*
: > matter.db
as=
cases=$((cases + 1))
told=$("$program" press R-1 2> /dev/null) || :
echo "an empty file: $told"
[ "$told" = 'refused 43 NoMatter 0 0 0' ] || failed=$((failed + 1))
furnish
rm -f matter.db*
head -c 5000 /dev/zero | tr '\0' 'x' > matter.db
check 'no database' 5 'keeper fault'
furnish
rm -f matter.db*
sqlite3 matter.db 'CREATE TABLE kept (kind, k1, k2, body); INSERT INTO kept VALUES (1, 1, 0, 5)'
check 'a table of another definition' 5 'keeper fault'
furnish
sqlite3 matter.db 'PRAGMA wal_checkpoint(TRUNCATE)' > /dev/null
head -c $(($(wc -c < matter.db) / 2)) matter.db > half
rm -f matter.db*
mv half matter.db
check 'a file that is cut in half' 5 'keeper fault'
change="UPDATE kept SET body = zeroblob(3) WHERE kind = 1"
furnish
sqlite3 matter.db "$change"
check 'a row that sqlite3 changed, and so no sum with it' 5 'keeper fault'
furnish
sqlite3 matter.db "$change"
seal
check 'a row that was changed with its sum' 2 'refused 90 KeptRowBad 0 1 4294967296'
furnish
drop_sums
sqlite3 matter.db "$change"
check 'a row that was changed in a file without sums' 2 'refused 90 KeptRowBad 0 1 4294967296'
furnish
(
    printf 'BEGIN EXCLUSIVE;\n'
    sleep 3
    printf 'ROLLBACK;\n'
) | sqlite3 matter.db &
sleep 1
check 'locked by sqlite3' 5 'keeper fault'
wait
[ "$(id -u)" -ne 0 ] || as='setpriv --reuid=65534 --regid=65534 --clear-groups'
furnish
chmod 444 matter.db*
check 'a file that may not be written' 5 'keeper fault'
furnish
chmod 555 .
check 'a folder that may not be written' 5 'keeper fault'

echo "$cases cases, $failed not as expected"
[ "$failed" -eq 0 ]
