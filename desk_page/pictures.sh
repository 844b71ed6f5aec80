#!/bin/sh
# Makes the pictures of README.md and docs/GUIDE.md, review.png and production.png, of those that tests/run.sh left of a review: with 64
# colours, which makes them a third as long. Needs netpbm.
set -eu
cd "$(dirname "$0")"

for name in review production; do
    [ -e "tests/out/$name.png" ] || { echo "pictures.sh: tests/out/$name.png isn't there: run tests/run.sh review first" >&2; exit 1; }
    pngtopnm -quiet "tests/out/$name.png" | pnmquant -quiet 64 | pnmtopng -quiet -compression 9 > "$name.png"
done
