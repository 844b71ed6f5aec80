#!/bin/sh
# Random requests, and replies to looks: web_model.py makes lines of these, usual ones and damaged ones, with what its plain model
# says is due, and the program bp_test_requests reads them. Prints how many were tried and which are told otherwise; ends with status 1
# where one is. Words: how many, 100,000 where none is given, and a seed. Needs rt on PATH, and python3.
set -eu
here=$(CDPATH='' cd -- "$(dirname -- "$0")" && pwd)
. "$here/common.sh"
make_scratch
build_crate bp_test_requests
python3 "$here/web_model.py" make "${1:-100000}" "${2:-1}" > "$scratch/requests.txt"
cd "$scratch"
"$built" requests.txt | tee "$scratch/told"
grep -q " 0 of them told otherwise" "$scratch/told"
