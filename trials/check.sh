#!/bin/sh
# Checks volumes by `tivrenan check`: the one that examples/office.sh made, the same damaged in twelve ways, and volumes of other
# tools, right ones and such as have habits that a check refuses. checked_volumes.py makes them and says what is due of each; ends
# with status 1 where one is told otherwise. Makes the office's day first where its volume isn't there. Then tries what the
# launcher says of a refusal: the place in the volume, what was found there, and what was due.
# Needs rt on PATH where the program isn't built; python3, and Debian's libtiff-tools and netpbm.
set -eu
here=$(CDPATH='' cd -- "$(dirname -- "$0")" && pwd)
. "$here/common.sh"
need 'python3, libtiff-tools, netpbm' python3 tiffcp pnmtotiff sha256sum
"$tivrenan" build

office=$top/examples/out/office
[ -e "$office/out/VOL001/MANIFEST.TXT" ] || "$top/examples/office.sh" > /dev/null
"$here/checked_volumes.py" "$office/out" "$program"

make_scratch
cp -r "$office/out/VOL001" "$scratch"
cd "$scratch"
data=VOL001/DATA/VOL001
cp $data.OPT whole.opt
cp $data.DAT whole.dat

# what is due on standard error, among else; a command and its words. The files are whole again then
told() {
    due=$1
    shift
    said=$("$tivrenan" "$@" 2>&1 > /dev/null) || :
    case $said in
        *"$due"*) printf 'told: %s\n' "$due" ;;
        *)
            stop "the launcher said: $said
and not: $due"
            ;;
    esac
    cp whole.opt $data.OPT
    cp whole.dat $data.DAT
}
explained() { due=$1 && shift && told "$due" check $data.DAT $data.OPT "$@"; }

# a pattern of sed, for a line of the OPT or of the DAT
change_opt() { LC_ALL=C sed "$1" whole.opt > $data.OPT; }
change_dat() { LC_ALL=C sed "$1" whole.dat > $data.DAT; }

change_opt '9s/^ABC00000009/ABC00000090/'
explained 'line 8 of the OPT has the image id ABC00000008, and line 9 has ABC00000090'
change_opt '4s/^ABC00000004/ABC0000000X/'
explained 'line 4 of the OPT has the image id ABC0000000X'
change_opt '1,23s/,Y,/,,/'
explained 'line 1 of the OPT has no Y in its fourth field, so no document begins there'
change_opt '8s/,Y,/,,/'
explained 'document 4 is ABC00000007 to ABC00000011 in the OPT, and ABC00000007 in the DAT'
change_dat '11d'
explained 'line 21 of the OPT begins the document 10, and the DAT has 9 records'
change_opt '21,23d'
explained 'the OPT ends with its document 9, and the DAT has 10 records'
change_opt '12s/2.$/3/'
explained 'the document of line 12 of the OPT has 2 lines; its last field has 3, and PAGECOUNT has 2'
change_opt '3s/TIF/TIFF/'
explained 'looked for VOL001/IMAGES/0001/ABC00000003.TIFF'
change_dat '3s/\.TXT/.TEX/'
explained 'looked for VOL001/TEXT/0001/ABC00000004.TEX'
change_opt '3s/IMAGES.*TIF/DATA\\VOL001-LOG.CSV/'
explained 'the image is VOL001/DATA/VOL001-LOG.CSV, of line 3 of the OPT'
change_opt '5s/,VOL001,/,/'
explained 'line 5 of the OPT is: ABC00000005,VOL001\IMAGES\0001\ABC00000005.TIF,,,'

explained 'looked for NO.TXT' NO.TXT
sed 's/  / */' VOL001/MANIFEST.TXT > list.txt
explained "line 1 of the manifest is: $(head -n 1 list.txt)" list.txt
grep -v -F ABC00000004.TXT VOL001/MANIFEST.TXT > list.txt
explained 'the file is VOL001/TEXT/0001/ABC00000004.TXT' list.txt
sed '36s/^./g/; 36s/^g/0/' VOL001/MANIFEST.TXT | sed '36s/^..../0000/' > list.txt
explained "the file is $data-LOG.CSV, and the digest that was due 0000" list.txt

# what vendors' habits are told by
change_opt '3s/VOL001.IMAGES/D:\\VOL001\\IMAGES/2; 3s/,VOL001.IMAGES/,D:\\VOL001\\IMAGES/'
explained 'it is the path of the image in line 3 of the OPT: D:\VOL001\IMAGES\0001\ABC00000003.TIF, which has a drive'
change_opt '3s/,VOL001.IMAGES/,\\VOL001\\IMAGES/'
explained 'the path of the image in line 3 of the OPT: \VOL001\IMAGES\0001\ABC00000003.TIF, which has / or \ at its front'
change_dat '3s/VOL001.TEXT/..\\VOL001\\TEXT/'
explained 'it is TEXTPATH of record 2 of the DAT: ..\VOL001\TEXT\0001\ABC00000004.TXT, which has the part .., to a folder above'
told 'it is the word OPT: ../x.opt, which has the part ..' check $data.DAT ../x.opt
change_dat '1s/BEGDOC/BegBates/; 1s/ENDDOC/End Bates/'
explained 'the DAT has the columns BegBates, End Bates, BEGATTACH, '
change_dat '1s/BEGDOC/BegBates/; 1s/ENDDOC/End Bates/'
explained '; BegBates looks like BEGDOC; End Bates looks like ENDDOC'
change_dat '1s/BEGDOC/PRODBEG/'
explained '; PRODBEG looks like BEGDOC'
for each in 'Bates Beg' 'Prod Beg' 'Begin Bates' begno 'Beginning Bates Number' 'First Page' 'BEG_CONTROL_NUMBER' 'Production Begin'; do
    change_dat "1s/BEGDOC/$each/"
    explained "; $each looks like BEGDOC"
done
for each in 'Bates End' PRODEND 'End Bates' ENDNO 'Ending Bates Number' 'Last Page' 'Control Number End'; do
    change_dat "1s/ENDDOC/$each/"
    explained "; $each looks like ENDDOC"
done
change_dat '1s/WITHHELD/BEGDOC/'
explained '; BEGDOC stands twice'
LC_ALL=C sed 's/\xc3\xbe//g; s/\x14/,/g' whole.dat > $data.DAT
explained 'it has commas between values, and no þ around them'
change_opt '3s/IMAGES.0001/Images\\0001/'
explained 'there is VOL001/IMAGES/0001/ABC00000003.TIF: capitals and small letters differ'
change_opt 's/,VOL001\\IMAGES/,IMAGES/'
explained 'there is VOL001/IMAGES/0001/ABC00000001.TIF: the path begins in another folder, VOL001'
iconv -f UTF-8 -t UTF-16 whole.opt > $data.OPT
explained "$data.OPT is in UTF-16, as Windows' tools write it, and has to be UTF-8: iconv -f UTF-16 -t UTF-8 $data.OPT > copy"
iconv -f UTF-8 -t UTF-16LE whole.dat > $data.DAT
explained "$data.DAT is in UTF-16"
# an OPT of files of several pages: a line a document
change_opt '/,Y,/!d'
explained 'line 1 stands for a document of 3 pages, and is its only line: its file has all its pages'

# of lines of a manifest
list() { LC_ALL=C sed "$1" VOL001/MANIFEST.TXT > list.txt; }
list 's/$/\r/'
explained 'the lines of the manifest end in CR LF, so that each path has a CR at its end' list.txt
list '2s/^[0-9a-f]*/\U&/'
explained 'the digest has capitals, as PowerShell writes them' list.txt
list '2s/  / */'
explained 'before the path stands a space and *, as sha256sum writes it for --binary' list.txt
list '2s/^[0-9a-f]\{32\}//'
explained 'the digest is an MD5, of 32 characters' list.txt
list '2s/^[0-9a-f]\{24\}//'
explained 'the digest is a SHA-1, of 40 characters' list.txt
list '2s/\(.*\)  \(.*\)/\2  \1/'
explained 'the digest stands behind the path' list.txt
list '2s/.*//'
explained 'the line is empty' list.txt
list '2s/  /,/'
explained 'between digest and path due are two spaces' list.txt
list '1s/^/\xef\xbb\xbf/'
explained 'the file begins with a byte order mark' list.txt
iconv -f UTF-8 -t UTF-16 VOL001/MANIFEST.TXT > list.txt
explained 'list.txt is in UTF-16' list.txt
list '/ABC00000004.TXT/s/TEXT/Text/'
explained 'has VOL001/Text/0001/ABC00000004.TXT: capitals and small letters differ' list.txt
list 's#  VOL001/#  #'
explained ': its paths begin in another folder' list.txt

# of words, where there is a matter
mkdir LET_001
cp "$office/matter.db" .
told 'Nothing was written.' import LET_001/
told 'the name has no / at its end, which a shell puts there: tivrenan import LET_001' import LET_001/
told 'go to the folder that it lies in, or move it here' import scans/LET_001
cp -r "$batch" .
mv CVI_001/load.dat CVI_001/LOAD.DAT
told 'there is CVI_001/LOAD.DAT: capitals and small letters differ' import CVI_001
mv CVI_001/LOAD.DAT CVI_001/load.dat
LC_ALL=C sed -i '3s/IMAGES/Images/' CVI_001/load.opt
told 'looked for CVI_001/Images/' import CVI_001
LC_ALL=C sed -i '3s/,Images/,IMAGES/; 3s/\.TIF/.tif/' CVI_001/load.opt
told '.TIF: capitals and small letters differ' import CVI_001
for each in 'PREFIX is abc, with small letters: ABC#29#R-9 VOL009 abc 8 1 2' 'PREFIX is AB1, with a digit at its end#29#R-9 VOL009 AB1 8 1 2' \
    'VOLUME is Vol009, with small letters: VOL009#32#R-9 Vol009 ABX 8 1 2' 'ID is R.9, with a character#32#R.9 VOL009 ABX 8 1 2' \
    'the fields that were asked for are: Author#22#R-9 VOL009 ABX 8 1 2 Author' 'AUTHOR is chosen twice#40#R-9 VOL009 ABX 8 1 2 AUTHOR AUTHOR' \
    'PAGECOUNT is a column that the DAT of each volume has of itself#40#R-9 VOL009 ABX 8 1 2 PAGECOUNT'; do
    due=${each%%#*} words=${each##*#}
    # shellcheck disable=SC2086 # a list of words
    told "$due" produce $words
done
echo 'each refusal is explained by its place in the volume'
