#!/bin/sh
# What the other side gets, over a matter in trials/out/deliver: the lead makes the matter, takes the batch CVI_001 in, calls
# each document and produces them twice, as R-1 and R-2. `deliver` opens a door with no grant; the lead grants R-1 to the
# receiver, who lists what is granted and takes all of its files by curl, and each is compared with the volume. Then it asks for
# what isn't its own, and is refused: the other production, one that isn't there, a path that isn't there, a document, a grant.
# Each command is a process of its own. Needs rt on PATH where the program isn't built; curl.
set -eu
here=$(CDPATH='' cd -- "$(dirname -- "$0")" && pwd)
. "$here/common.sh"
need curl curl
"$tivrenan" build
enter_room "$here/out/deliver"

lead='the key of the lead' second='the key of Marlow' receiver='the key of the other side'

run 0 'matter made' init "$(digest "$lead")"
run 0 'batch CVI_001 documents 12 pages 31' import CVI_001

# The lead takes in who confirms and who receives, and calls the documents; the third is withheld.
open_desk serve 1 17
ask 200 '{"staff":2}' "$lead" POST /staff "{\"name\":\"Marlow\",\"role\":\"Second\",\"digest\":\"$(digest "$second")\"}"
ask 200 '{"staff":3}' "$lead" POST /staff "{\"name\":\"Hale LLP\",\"role\":\"Receiver\",\"digest\":\"$(digest "$receiver")\"}"
for doc in 1 2 4 5 6 7 8 9 10 11 12; do
    ask 200 "$done" "$lead" POST "/docs/$doc/call" '{"responsive":true,"treatment":"Produce","designation":""}'
done
ask 200 "$done" "$lead" POST /docs/3/call '{"responsive":true,"treatment":"Withhold-AC","designation":""}'
ask 200 "$done" "$lead" POST /docs/3/entry '{"date":"2019-03-04","author":"Ng","recipients":"Ortiz","description":"Letter asking counsel for advice"}'
ask 200 "$done" "$second" POST /docs/3/confirm '{}'
ask 403 "$(broken 12 RoleRefused)" "$receiver" GET /docs/1
closed 'served 17'

run 0 'production R-1 labels ABC00000001 to *' produce R-1 VOL001 ABC 8 1 3 AUTHOR
run 0 'production R-2 labels *' produce R-2 VOL002 ABC 8 4 12 AUTHOR

# A file of grants that isn't of its form, or grants what can't be granted.
printf 'x,R-1\n' > grants.csv
run 2 'refused 131 GrantShape 1 0 0' deliver 1 grants.csv
printf '3,R-1\n3,R-9\n' > grants.csv
run 2 'refused 33 NoProduction 2 0 0' deliver 1 grants.csv
printf '2,R-1\n' > grants.csv
run 2 'refused 130 NotReceiver 1 0 0' deliver 1 grants.csv
run 2 'refused 54 FileAbsent 0 0 0' deliver 1 other.csv

# No grant at first; the lead grants the first production.
: > grants.csv
files=$(cd out && find VOL001 -type f | LC_ALL=C sort)
count=$(echo "$files" | wc -l)
connections=$((count + 12))
open_desk deliver "$connections" grants.csv
ask 200 '[]' "$receiver" GET /granted
ask 403 "$(broken 12 RoleRefused)" "$receiver" POST /grants '{"staff":3,"id":"R-1"}'
ask 409 "$(broken 130 NotReceiver)" "$lead" POST /grants '{"staff":2,"id":"R-1"}'
ask 200 "$done" "$lead" POST /grants '{"staff":3,"id":"R-1"}'
last=$(sed -n '$s/^ABC0*\([0-9]*\),.*/\1/p' out/VOL001/DATA/VOL001.OPT)
ask 200 "[{\"first\":1,\"id\":\"R-1\",\"last\":$last}]" "$receiver" GET /granted
for file in $files; do
    mkdir -p "taken/$(dirname "$file")"
    fetch "$receiver" "/granted/R-1/$file" -o "taken/$file" -f
    cmp "taken/$file" "out/$file" || stop "another file was given than the volume has"
done
[ "$(cd taken && find . -type f | wc -l)" -eq "$count" ] || stop "not all files were taken"
echo "    $count files, each as the volume has it"
fetch "$receiver" /granted/R-1/VOL001/MANIFEST.TXT | cmp - out/VOL001/MANIFEST.TXT || stop "the manifest is another one the second time"
# What isn't its own: the other production, as one that isn't there; a path that isn't there; a document; another's key.
ask 404 "$(broken 33 NoProduction)" "$receiver" GET /granted/R-2/VOL002/MANIFEST.TXT
ask 404 "$(broken 33 NoProduction)" "$receiver" GET /granted/R-9/VOL009/MANIFEST.TXT
ask 404 "$(broken 38 NoFile)" "$receiver" GET /granted/R-1/VOL001/OTHER.TXT
ask 403 "$(broken 12 RoleRefused)" "$receiver" GET /docs/1
ask 403 "$(broken 12 RoleRefused)" "$lead" GET /granted
ask 401 "$(broken 9 KeyUnknown)" 'the key of nobody' GET /granted/R-1/VOL001/MANIFEST.TXT
closed "delivered $connections"

# A grant stood for that run alone; those of a file stand from the opening.
printf '3,R-2\n' > grants.csv
open_desk deliver 3 grants.csv
ask 404 "$(broken 33 NoProduction)" "$receiver" GET /granted/R-1/VOL001/MANIFEST.TXT
fetch "$receiver" /granted/R-2/VOL002/MANIFEST.TXT | cmp - out/VOL002/MANIFEST.TXT || stop "the manifest is another"
ask 404 "$(broken 33 NoProduction)" "$receiver" GET /granted/R-9/VOL001/MANIFEST.TXT
closed 'delivered 3'
echo 'the receiver has the volume in trials/out/deliver/taken, and nothing else'
