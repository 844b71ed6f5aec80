#!/bin/sh
# A small office's day, from a batch to a checked volume, over one matter that stays in matter.db below examples/out/office:
# the lead makes the matter and takes the batch CVI_001 in; a desk is opened; by curl the lead takes in a reviewer and one
# who confirms, the reviewer looks at a page and decides each document, and a second person confirms; a call that isn't
# allowed is refused. Then `produce` freezes the decisions and writes the volume VOL001, check_volume.py opens it by other
# programs, and Debian's sqlite3 tests the database. Each command is a process of its own.
# Needs rt on PATH where the program isn't built; curl, python3, and Debian's sqlite3, libtiff-tools and netpbm.
set -eu
here=$(CDPATH='' cd -- "$(dirname -- "$0")" && pwd)
. "$here/../trials/common.sh"
need 'curl, python3, sqlite3, netpbm' curl python3 sqlite3 tifftopnm
"$tivrenan" build
enter_room "$here/out/office"

# gives a command, behind which the log has been copied into matter.db: it has its header alone, and no page
closes() {
    run "$@"
    [ ! -e matter.db-wal ] || [ "$(wc -c < matter.db-wal)" -lt 512 ] || stop "the log was not copied into matter.db"
}

lead='the key of the lead' reviewer='the key of Ellis' second='the key of Marlow'

# The desk takes so many connections, each with one request, and then ends.
connections=26

# document, responsive, treatment, designation
decide() {
    ask 200 "$done" "$reviewer" POST "/docs/$1/call" "{\"responsive\":$2,\"treatment\":\"$3\",\"designation\":\"$4\"}"
}

# document, number, page, left, top, width, height, basis
box() {
    ask 200 "$done" "$reviewer" POST "/docs/$1/box" \
        "{\"num\":$2,\"page\":$3,\"left\":$4,\"top\":$5,\"width\":$6,\"height\":$7,\"basis\":\"$8\"}"
}

# document, date, author, recipients, description
entry() {
    ask 200 "$done" "$reviewer" POST "/docs/$1/entry" \
        "{\"date\":\"$2\",\"author\":\"$3\",\"recipients\":\"$4\",\"description\":\"$5\"}"
}

closes 2 'refused 43 NoMatter 0 0 0' import CVI_001
closes 0 'matter made' init "$(digest "$lead")"
closes 2 'refused 42 MatterThere 0 0 0' init "$(digest "$lead")"
closes 0 'batch CVI_001 documents 12 pages 31' import CVI_001
closes 2 'refused 26 Unsettled 0 1 0' produce R-1 VOL001 ABC 8 1 12 AUTHOR

open_desk serve 1 "$connections"

ask 200 '{"staff":2}' "$lead" POST /staff "{\"name\":\"Ellis\",\"role\":\"Reviewer\",\"digest\":\"$(digest "$reviewer")\"}"
ask 200 '{"staff":3}' "$lead" POST /staff "{\"name\":\"Marlow\",\"role\":\"Second\",\"digest\":\"$(digest "$second")\"}"

# a document as it came in, and its first page, pixel by pixel
uncalled='"designation":"","doc":3,"editor":0,"entry":null,"held":[],"pages":5,"parent":1,"responsive":false,"treatment":"Produce"'
ask 200 "{\"boxes\":[],\"confirmer\":0,$uncalled}" "$reviewer" GET /docs/3
echo 'GET /docs/3/pages/1'
fetch "$reviewer" /docs/3/pages/1 > seen.tif
scan=CVI_001/$(awk -F , '$4 == "Y" { doc++ } doc == 3 { gsub(/\\/, "/", $3); print $3; exit }' CVI_001/load.opt)
tifftopnm "$scan" > scan.pnm 2> /dev/null
tifftopnm seen.tif 2> /dev/null | cmp - scan.pnm || stop "the page isn't the scan"
echo '    the page as it was scanned'

# the letter that asks counsel for advice, the list with an address and an illness, the note that tells what counsel
# advised; two papers have nothing to do with the dispute
decide 1 true Produce ''
decide 2 true Produce ''
decide 3 true Withhold-AC CONFIDENTIAL
decide 4 true Produce ''
decide 5 true Redact ''
decide 6 true Produce ''
decide 7 false Produce ''
decide 8 false Produce ''
decide 9 true Produce ''
decide 10 true Redact ''
decide 11 true Produce ''
decide 12 true Produce ''
box 5 1 1 1420 460 680 60 PI
box 5 2 1 325 950 1900 180 PI
box 10 1 2 430 662 1690 670 AC
ask 200 "$done" "$reviewer" POST /docs/5/hold '{"field":"AUTHOR","basis":"PI"}'
entry 3 2019-03-04 Ng 'Ortiz, Berg' 'Letter asking counsel for advice on the lease'
entry 10 2019-05-02 Berg Ng 'Note quoting counsel'

# a reviewer may not confirm, a second person may
ask 403 "$(broken 12 RoleRefused)" "$reviewer" POST /docs/3/confirm '{}'
ask 200 "$done" "$second" POST /docs/3/confirm '{}'
ask 200 "$done" "$second" POST /docs/5/confirm '{}'
ask 200 "$done" "$second" POST /docs/10/confirm '{}'

closed "served $connections"

volume='production R-1 labels ABC00000001 to ABC00000023 files 37 manifest '
closes 0 "$volume*" produce R-1 VOL001 ABC 8 1 12 AUTHOR
line=$told
[ "${line#"$volume"}" = "$(sha256sum < out/VOL001/MANIFEST.TXT | cut -c1-64)" ] || stop "the manifest has another digest"
"$top/trials/check_volume.py" out
closes 0 "$line" press R-1
closes 0 '*Note quoting counsel*' log R-1

echo '$ sqlite3 matter.db'
[ "$(sqlite3 matter.db 'PRAGMA integrity_check')" = ok ] || stop "the database isn't whole"
names='member of the staff,field,document,page,call,box,held field,log entry,prefix,production,batch,words of a page'
sqlite3 -separator ' ' matter.db 'SELECT count(*), kind FROM kept GROUP BY kind ORDER BY kind' | while read -r count kind; do
    echo "$count rows of kind $kind: $(echo "$names" | cut -d, -f"$kind")"
done
rows=$(sqlite3 matter.db 'SELECT group_concat(n) FROM (SELECT count(*) AS n FROM kept GROUP BY kind ORDER BY kind)')
fields=$(sqlite3 matter.db 'SELECT count(*) FROM kept WHERE kind = 2')
[ "$rows" = "3,$fields,12,31,12,3,1,2,1,1,1,31" ] || stop "other rows than were decided: $rows"
echo 'the volume stands in examples/out/office/out/VOL001, and is as it should be'
