#!/bin/sh
# A trial without anybody's papers: `demo 7 200` draws a matter of 200 pages, freezes it and writes its volume, below trials/out/demo.
# Run in two empty folders it prints one line, which is that of a plain model of the generator in Python (bench/demo_model.py), and
# writes the same files; `press DEMO` prints it again, a second `demo` is refused. `check` passes the volume. Then ten seeds with
# numbers of pages, of which the model gives the lines with the digests of the manifests, and what a demo can't be asked.
# Needs rt on PATH where the program isn't built; python3. Takes under two minutes.
set -eu
here=$(CDPATH='' cd -- "$(dirname -- "$0")" && pwd)
. "$here/common.sh"
need python3 python3 sha256sum
"$tivrenan" build
model=$top/bench/demo_model.py

room=$here/out/demo
rm -rf "$room"

# a new empty folder of this name
enter() {
    mkdir -p "$room/$1"
    cd "$room/$1"
}

digests() { (cd out && find . -type f -exec sha256sum {} + | LC_ALL=C sort -k 2); }

due=$("$model" 7 200)
enter first
run 0 "$due" demo 7 200
digests > ../files
run 0 "$due" press DEMO
digests | cmp -s - ../files || stop "press wrote other files"
run 2 'refused 42 MatterThere 0 0 0' demo 7 200
run 2 'refused 42 MatterThere 0 0 0' demo 8 200
digests | cmp -s - ../files || stop "a refused demo left other files"
run 0 "$due" press DEMO
"$model" 7 200 manifest | cmp -s - out/DEMO/MANIFEST.TXT || stop "the manifest isn't that of the model"
(cd out && sha256sum --quiet -c DEMO/MANIFEST.TXT) || stop "a file isn't as the manifest says"
cd out
images=$(find DEMO/IMAGES -type f | wc -l)
documents=$(find DEMO/TEXT -type f | wc -l)
listed=$(wc -l < DEMO/MANIFEST.TXT)
run 0 "checked documents $documents images $images files $listed" check DEMO/DATA/DEMO.DAT DEMO/DATA/DEMO.OPT DEMO/MANIFEST.TXT
rm -f matter.db

enter second
run 0 "$due" demo 7 200
digests | cmp -s - ../files || stop "the same demo wrote other files"

# ten seeds and numbers of pages, each in a folder of its own, and one of which no document is responsive
ten=$("$model" ten)
[ "$(echo "$ten" | wc -l)" -eq 10 ] || stop "the model names other than ten"
echo "$ten" > "$room/ten"
while read -r seed pages line <&3; do
    enter "$seed-$pages"
    run 0 "$line" demo "$seed" "$pages"
    "$model" "$seed" "$pages" manifest | cmp -s - out/DEMO/MANIFEST.TXT || stop "the manifest isn't that of the model"
    run 0 "$line" press DEMO
done 3< "$room/ten"
enter none
run 2 "$("$model" 7 2)" demo 7 2
[ ! -e out/DEMO ] || stop "a refused demo left files"
for words in '' 7 '7 5 5' '07 5' '7 0' '7 2001' '1234567890 5' '7 -5'; do
    # shellcheck disable=SC2086 # the words are words
    run 1 'words refused' demo $words
done
# what was refused kept nothing: a demo still finds no matter
run 0 "$("$model" 1102 5)" demo 1102 5
echo 'each demo printed the line that is due, and wrote the files of its manifest'
