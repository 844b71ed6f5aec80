#!/bin/sh
# What looks cost at a desk, by the program, over a matter of 600 documents of one small page of 2,000 words each: one search takes the
# 1,000 parts of 500 documents, a million words of pages; States tells of 500 documents. A time is that of the desk's processor for an
# exchange, less that of one that asks for the staff, which tells little; the least of all rounds.
#   a term that isn't there, without `*` at its front and with one: 8,000,000 and 2,000,000 words a second are wanted
#   a term that stands once on each page, so that the reply has 500 hits: 1,000,000 words a second are wanted
#   the states of 500 documents: 2 ms are wanted
# Words: exchanges a round, 20 where none is given; rounds, 3. Needs the built program, python3, and the port 48201 free.
set -eu
here=$(CDPATH='' cd -- "$(dirname -- "$0")" && pwd)
. "$here/../trials/common.sh"
make_scratch
build
head -c 1600 /dev/zero | { printf 'P4\n64 200\n'; cat; } | python3 "$here/../trials/plain_page.py" 100 > "$scratch/page.tif"
python3 "$here/make_import.py" "$scratch/B" 600 "$scratch/page.tif" 2000 1
python3 "$here/looks.py" "$program" "$scratch" "${1:-20}" "${2:-3}"
