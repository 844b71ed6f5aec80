#!/bin/sh
# Sixteen desks of one matter, 64 clients, calls of all kinds, a disk that fails now and then; and then a replay of what the clients were
# answered, by a plain model: one order of all calls, each once, gives every answer, and the kept rows are those after it (desks.py).
# Words: how many calls in all, 100,000 where none is given; a seed for their choice, 1 where none is.
# Needs rt on PATH where the program isn't built; python3, and the ports 48201 to 48216 free.
set -eu
here=$(CDPATH='' cd -- "$(dirname -- "$0")" && pwd)
. "$here/common.sh"
build
exec python3 "$here/desks.py" "$program" 16 4 "${1:-100000}" "${2:-1}"
