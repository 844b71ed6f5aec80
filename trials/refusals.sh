#!/bin/sh
# Runs the program where something is wrong, and compares for each case the status, what is printed and all that then
# stands in the folder with what is expected. Ends with status 1 where one differs. What can be seen through the launcher
# is tried through it too: it passes all of it on.
# Needs rt on PATH where the program isn't built; netpbm (Debian's netpbm) and python3. With strace (Debian: strace) also
# tries a disk that fails.
set -eu
here=$(CDPATH='' cd -- "$(dirname -- "$0")" && pwd)
. "$here/common.sh"
need 'netpbm, python3' tifftopnm python3
build
built=$program
make_scratch

# What the folder holds: a page of 8 by 1 pixels, all white, also in a folder; the letter page in Group 4, and plain.
# Beside it: the white page with all of it burned, and the letter page with its first pixel burned.
mkdir -p "$scratch/files/a"
cp "$top/crates/bp_main/data/a.tif" "$scratch/files/white.tif"
cp "$top/crates/bp_main/data/a.tif" "$scratch/files/a/b.tif"
cp "$letter" "$scratch/files/letter.tif"
tifftopnm -quiet "$letter" | python3 "$here/plain_page.py" 300 > "$scratch/files/plain.tif"
cd "$scratch"
{ head -c 186 files/white.tif; printf '\377'; } > black.tif
{ head -c 186 files/plain.tif; printf '\200'; tail -c +188 files/plain.tif; } > pixel.tif

# name, offset, byte in octal: the white page with that byte there
damaged() { { head -c "$2" files/white.tif; printf '%b' "\\0$3"; tail -c +$(($2 + 2)) files/white.tif; } > "files/$1.tif"; }

# name, how many bytes, bytes as printf's %b takes them: the white page in Group 4, with that strip
t6() {
    {
        head -c 54 files/white.tif && printf '\4' && tail -c +56 files/white.tif | head -c 71
        printf '%b' "\\0$2" && tail -c +128 files/white.tif | head -c 59 && printf '%b' "$3"
    } > "files/$1.tif"
}

printf x > files/x.tif
: > files/empty.tif
damaged many_entries 8 377
damaged other_type 12 5
damaged no_width 18 0
damaged grey 42 10
damaged lzw 54 5
damaged colour 66 2
damaged bit_order 78 3
damaged no_strips 82 20
damaged strip_behind 90 273
damaged no_rows 114 0
damaged short_strip 126 0
damaged next_page 166 10
t6 t6_white 1 '\0200'
t6 t6_nothing 0 ''
t6 t6_end 3 '\0000\0020\0001'
t6 t6_extension 1 '\0002'
t6 t6_bad_code 2 '\0000\0000'
t6 t6_past_the_edge 1 '\0140'

# what the folder holds at first
furnish() {
    rm -rf "$1"
    mkdir -p "$1/out/folder"
    cp -r files/. "$1"
    head -c 10000 files/letter.tif > "$1/out/old.tif"
}

# the ways to run the program; each writes what is printed to the file `line`
plainly() { "$program" "$@" > ../line; }
on_a_full_output() { "$program" "$@" > /dev/full; }
on_a_closed_output() { "$program" "$@" >&-; }
with_nothing_open() { "$program" "$@" <&- >&- 2>&-; }
with_room_for_512_bytes() { (trap '' XFSZ; ulimit -f 1; "$program" "$@" > ../line); }
# the first write fails as on a full disk
on_a_failing_disk() {
    strace -qq -o /dev/null -e inject=write:error=ENOSPC:when=1 sh -c 'exec "$@" > ../line' sh "$program" "$@"
}
on_a_failing_disk_and_a_closed_output() {
    strace -qq -o /dev/null -e inject=write:error=ENOSPC:when=1 sh -c 'exec "$@" >&-' sh "$program" "$@"
}

checks=0 failed=0
differs() {
    failed=$((failed + 1))
    echo "${program##*/}, $name: $1"
}

# name; how to run; status; printed line, if any; what changes in the folder; words
check() {
    name=$1 how=$2 status=$3 line=$4 change=$5
    shift 5
    checks=$((checks + 1))
    furnish room
    furnish expected
    (cd expected && eval "$change")
    : > line
    ended=0
    (cd room && "$how" "$@") 2> errors || ended=$?
    # the database that each command opens first
    rm -f room/matter.db room/matter.db-*
    if [ "$ended" -ne "$status" ]; then
        differs "ended with $ended, expected $status"
    elif ! printf '%s' "${line:+$line
}" | cmp -s - line; then
        differs "printed '$(cat line)', expected '$line'"
    elif ! diff -r room expected > changes; then
        differs "in the folder: $(head -n 1 changes)"
    fi
}

same=:
burned='cp ../black.tif out/b.tif'
not_utf8=$(printf 'b\377.tif')

for program in "$built" "$top/tivrenan"; do
    # no command line
    check "another command" plainly 1 'words refused' $same blacken white.tif 0 0 8 1 b.tif plain
    check "a word too few" plainly 1 'words refused' $same burn white.tif 0 0 8 1 b.tif
    check "a word too many" plainly 1 'words refused' $same burn white.tif 0 0 8 1 b.tif plain plain
    check "an empty path" plainly 1 'words refused' $same burn '' 0 0 8 1 b.tif plain
    check "a path with a dash before it" plainly 1 'words refused' $same burn white.tif 0 0 8 1 -b.tif plain
    check "a leading zero" plainly 1 'words refused' $same burn white.tif 0 0 08 1 b.tif plain
    check "ten digits" plainly 1 'words refused' $same burn white.tif 0 0 1000000000 1 b.tif plain
    check "a sign" plainly 1 'words refused' $same burn white.tif 0 0 +8 1 b.tif plain
    check "another form" plainly 1 'words refused' $same burn white.tif 0 0 8 1 b.tif jpeg
    check "IN that isn't UTF-8" plainly 1 'words refused' $same burn "$not_utf8" 0 0 8 1 b.tif plain
    check "OUT that isn't UTF-8" plainly 1 'words refused' $same burn white.tif 0 0 8 1 "$not_utf8" plain

    # a broken rule
    check "no such file" plainly 2 'refused 54 FileAbsent 0 0 0' $same burn none.tif 0 0 8 1 b.tif plain
    check "no such folder" plainly 2 'refused 54 FileAbsent 0 0 0' $same burn none/white.tif 0 0 8 1 b.tif plain
    check "a path below a file" plainly 2 'refused 54 FileAbsent 0 0 0' $same burn white.tif/a 0 0 8 1 b.tif plain
    check "a box without a width" plainly 2 'refused 14 BoxShape 0 0 0' $same burn white.tif 9 0 0 1 b.tif plain
    check "a box one column too wide" plainly 2 'refused 13 BoxOutside 0 0 0' $same burn white.tif 0 0 9 1 b.tif plain
    check "a box one row too low" plainly 2 'refused 13 BoxOutside 0 0 0' $same burn white.tif 0 1 8 1 old.tif plain

    # a path that is refused, or named in another way
    for path in ../a.tif a/../white.tif a//b.tif /white.tif "$scratch/room/white.tif" 'a\..\white.tif' white.tif/ . .. C:white.tif; do
        check "IN is $path" plainly 2 'refused 63 PathRefused 0 0 0' $same burn "$path" 0 0 8 1 b.tif plain
        check "OUT is $path" plainly 2 'refused 63 PathRefused 0 0 0' $same burn white.tif 0 0 8 1 "$path" plain
    done
    check "a path refused and no such file" plainly 2 'refused 63 PathRefused 0 0 0' $same burn none.tif 0 0 8 1 ../b.tif plain
    for path in a/b.tif a/./b.tif ./a/b.tif 'a\b.tif' '.\a\.\b.tif' ./white.tif; do
        check "IN is $path" plainly 0 'burned 187' "$burned" burn "$path" 0 0 8 1 b.tif plain
    done
    for path in folder/b.tif folder/./b.tif ./folder/b.tif 'folder\b.tif' '.\folder\b.tif'; do
        check "OUT is $path" plainly 0 'burned 187' 'cp ../black.tif out/folder/b.tif' burn white.tif 0 0 8 1 "$path" plain
    done

    # another file than a page that is read; the box has no width, which is looked at later
    while read -r file rule; do
        check "$file" plainly 2 "refused $rule" $same burn "$file.tif" 0 0 0 1 b.tif plain
    done << 'END'
x 80 TiffHead 0 0 0
empty 80 TiffHead 0 0 0
many_entries 81 TiffBounds 0 0 0
strip_behind 81 TiffBounds 0 273 0
no_strips 82 TiffMissing 0 273 0
other_type 83 TiffType 0 256 0
lzw 84 TiffCompression 0 5 0
grey 85 TiffMeaning 0 258 0
colour 85 TiffMeaning 0 262 0
bit_order 85 TiffMeaning 0 266 0
no_rows 85 TiffMeaning 0 278 0
next_page 86 TiffManyPages 0 0 0
short_strip 87 TiffStrips 0 0 0
no_width 62 PageLimit 0 0 1
t6_nothing 70 T6ShortData 0 0 0
t6_end 71 T6EarlyEnd 0 0 0
t6_extension 72 T6Extension 0 0 0
t6_bad_code 73 T6BadCode 0 0 0
t6_past_the_edge 74 T6BadPlace 0 0 0
END
    check "a page in Group 4" plainly 0 'burned 187' "$burned" burn t6_white.tif 0 0 8 1 b.tif plain

    # a source or a folder that fails
    check "a folder at IN" plainly 3 'source fault' $same burn out 0 0 8 1 old.tif plain
    check "a folder at OUT" plainly 4 'folder fault' $same burn white.tif 0 0 8 1 folder plain
    check "a file in place of a folder" plainly 4 'folder fault' $same burn white.tif 0 0 8 1 old.tif/b.tif plain

    # nothing is wrong
    check "a new file" plainly 0 'burned 187' "$burned" burn white.tif 0 0 8 1 b.tif plain
    check "a longer file at OUT" plainly 0 'burned 187' 'cp ../black.tif out/old.tif' burn white.tif 0 0 8 1 old.tif plain
    check "a missing folder" plainly 0 'burned 187' 'mkdir out/new && cp ../black.tif out/new/b.tif' \
        burn white.tif 0 0 8 1 new/b.tif plain

    # standard output that fails
    check "a full output" on_a_full_output 7 '' "$burned" burn white.tif 0 0 8 1 b.tif plain
    check "a full output and a broken rule" on_a_full_output 7 '' $same burn white.tif 0 0 9 1 b.tif plain
    check "a full output and other words" on_a_full_output 7 '' $same blacken
    check "a closed output" on_a_closed_output 7 '' "$burned" burn white.tif 0 0 8 1 b.tif plain
    check "a closed output and a broken rule" on_a_closed_output 7 '' $same burn white.tif 0 0 9 1 b.tif plain
    check "a closed output and a folder at OUT" on_a_closed_output 7 '' $same burn white.tif 0 0 8 1 folder plain
    check "all three closed" with_nothing_open 7 '' "$burned" burn white.tif 0 0 8 1 b.tif plain
done

# what the launcher says on standard error
check "another command explained" plainly 1 'words refused' $same blacken
grep -q '^tivrenan: there is no command blacken$' errors || differs "doesn't say which word is wrong"
check "a word too few explained" plainly 1 'words refused' $same burn white.tif 0 0 8 1 b.tif
grep -q '^tivrenan: burn takes 7 words: IN L T W H OUT FORM; here are 6$' errors || differs "doesn't say how many words are due"
grep -q '^usage: tivrenan burn IN L T W H OUT FORM$' errors || differs "doesn't say how the words must look"
check "another form explained" plainly 1 'words refused' $same burn white.tif 0 0 8 1 b.tif G4
grep -q '^tivrenan: FORM is plain or g4, and not G4$' errors || differs "doesn't say which word is wrong"
check "a grey page explained" plainly 2 'refused 85 TiffMeaning 0 258 0' $same burn grey.tif 0 0 8 1 b.tif plain
grep -q '^tivrenan: The page is grey or in colour[.]' errors || differs "doesn't say what to do"
check "a missing file explained" plainly 2 'refused 54 FileAbsent 0 0 0' $same burn none.tif 0 0 8 1 b.tif plain
grep -q '^tivrenan: looked for .*/none[.]tif$' errors || differs "doesn't say which file was looked for"
check "a rule explained" plainly 2 'refused 13 BoxOutside 0 0 0' $same burn white.tif 0 0 9 1 b.tif plain
grep -q '^tivrenan: rule 13, BoxOutside: The box passes an edge of the page[.]$' errors || differs "doesn't say which rule"
check "nothing to explain" plainly 0 'burned 187' "$burned" burn white.tif 0 0 8 1 b.tif plain
[ ! -s errors ] || differs "says something where all was done"

program=$built
check "no words" plainly 1 'words refused' $same
# the database that each command opens first needs more
check "room for 512 bytes" with_room_for_512_bytes 5 'keeper fault' $same burn letter.tif 0 0 1 1 old.tif plain
if strace -qq -o /dev/null true 2> /dev/null; then
    check "a failing disk" on_a_failing_disk 4 'folder fault' ': > out/b.tif' burn white.tif 0 0 8 1 b.tif plain
    # the line must not get into the page's file, which is opened in place of the closed output
    check "a failing disk and a closed output" on_a_failing_disk_and_a_closed_output 7 '' ': > out/b.tif' \
        burn white.tif 0 0 8 1 b.tif plain
else
    echo "refusals.sh: without strace no failing disk is tried" >&2
fi

# limit, IN: the letter page under so many kilobytes of memory. The program does all, or says that memory ran out, or the
# system can't start it; OUT has all of the file, or a beginning of it, or nothing.
check_memory() {
    name="$1 kB of memory, $2"
    checks=$((checks + 1))
    furnish room
    ended=0
    # shellcheck disable=SC3045 # ulimit -v is none of POSIX, but dash, bash, ksh and busybox have it
    (cd room && ulimit -v "$1" && exec "$program" burn "$2" 0 0 1 1 b.tif plain > ../line) 2> errors || ended=$?
    printed=$(cat line)
    : >> room/out/b.tif
    size=$(($(wc -c < room/out/b.tif)))
    case $ended in
        0) whole=$((whole + 1)) wanted='burned 1052886' least=1052886 ;;
        6) lacking=$((lacking + 1)) wanted='out of memory' least=0 ;;
        126 | 127 | 1[3-9]?) wanted='' least=0 ;;
        *) differs "ended with $ended, expected 0 or 6" && return ;;
    esac
    if [ "$printed" != "$wanted" ]; then
        differs "printed '$printed', expected '$wanted'"
    elif [ "$size" -lt "$least" ] || ! head -c "$size" pixel.tif | cmp -s - room/out/b.tif; then
        differs "another file is at OUT"
    fi
}

for page in plain.tif letter.tif; do
    whole=0 lacking=0 limit=1024
    while [ "$whole" -lt 8 ] && [ "$limit" -lt 65536 ]; do
        check_memory "$limit" "$page"
        limit=$((limit + 16))
    done
    name="a row of memory limits, $page"
    if [ "$whole" -eq 0 ] || [ "$lacking" -eq 0 ]; then differs "no limit is enough, or each is"; fi
done

echo "$checks cases, $failed not as expected"
[ "$failed" -eq 0 ]
