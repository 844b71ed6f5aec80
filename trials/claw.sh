#!/bin/sh
# A document that went out by mistake is claimed back (FRCP 26(b)(5)(B)): over the matter of the day of examples/office.sh, `claw`
# writes VOL001B, the replacement of the production R-1 after the notice claw_notice.csv, by which the first document, an e-mail on
# advice that was asked of counsel, is claimed. claw_volumes.py looks at both volumes by public tools, `check` passes, and the matter
# is as it was. Then notices that are refused. Makes the office's day first where its volume isn't there.
# Needs rt on PATH where the program isn't built; python3, and Debian's sqlite3 and netpbm.
set -eu
here=$(CDPATH='' cd -- "$(dirname -- "$0")" && pwd)
. "$here/common.sh"
need 'python3, sqlite3, netpbm' python3 sqlite3 tifftopnm sha256sum
"$tivrenan" build

office=$top/examples/out/office
[ -e "$office/out/VOL001/MANIFEST.TXT" ] || "$top/examples/office.sh" > /dev/null
room=$here/out/claw
rm -rf "$room"
mkdir -p "$room"
cp -r "$office/matter.db" "$office/out" "$room"
cp "$here/claw_notice.csv" "$room/notice.csv"
cd "$room"

before=$(rows)

replacement='replacement VOL001B labels ABC00000001 to ABC00000023 files 37 manifest '
run 0 "$replacement*" claw R-1 VOL001B notice.csv
line=$told
[ "${line#"$replacement"}" = "$(sha256sum < out/VOL001B/MANIFEST.TXT | cut -c1-64)" ] || stop "the manifest has another digest"
"$here/claw_volumes.py" out notice.csv
run 0 "$line" claw R-1 VOL001B notice.csv

cd out
run 0 'checked documents 10 images 23 files 36' check VOL001B/DATA/VOL001B.DAT VOL001B/DATA/VOL001B.OPT VOL001B/MANIFEST.TXT
cd ..

# what is refused: a document that is withheld already, one that isn't produced, one named twice, a notice without a record, records
# of another form, the name of the volume itself, one that can't be a volume's, a production that isn't there, no notice
refuse() {
    due=$1
    printf '%b' "$2" > other.csv
    run 2 "refused $due" claw R-1 VOL003 other.csv
}
refuse '122 NotProduced 1 3 0' '3,AC,,,,\n'
refuse '122 NotProduced 2 7 0' '1,AC,,,,\n7,AC,,,,\n'
refuse '123 NoticeTwice 2 1 0' '1,AC,,,,\n1,WP,,,,\n'
refuse '121 NoticeEmpty 0 0 0' ''
refuse '120 NoticeShape 1 0 0' '01,AC,,,,\n'
refuse '120 NoticeShape 2 0 0' '1,AC,,,,\n2,PI,,,,\n'
run 2 'refused 41 VolumeTaken 0 0 0' claw R-1 VOL001 notice.csv
run 2 'refused 32 BadVolume 0 0 0' claw R-1 vol002 notice.csv
run 2 'refused 33 NoProduction 0 0 0' claw R-2 VOL001B notice.csv
run 2 'refused 54 FileAbsent 0 0 0' claw R-1 VOL001B none.csv
run 2 'refused 63 PathRefused 0 0 0' claw R-1 VOL001B ../notice.csv
[ ! -e out/VOL003 ] || stop "a refused notice left files"
[ "$(rows)" = "$before" ] || stop "the rows of the matter changed"
echo 'the replacement stands in trials/out/claw/out/VOL001B, and is as it should be'
