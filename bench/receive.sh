#!/bin/sh
# The receiver's desk, by the command `deliver` at its port, one connection a request (serve_client.c), over letter pages at 300 dots an
# inch, each a document of its own with a box and 300 words:
#   a page      requests for the file of one, on the clock, as the client sees it
#   the lists   manifest, DAT and OPT: asked for once, and a hundred times. A time is that of the desk's processor and of the client's,
#               less that of `log`, which opens the same matter
# Each the least of all rounds. Wanted: a hundred manifests in at most twice the time of one.
# Words: how many letter pages, 2,000 where none is given; rounds, 3.
# Needs rt on PATH where the program isn't built; python3, gcc, and the port 48201 free.
set -eu
here=$(CDPATH='' cd -- "$(dirname -- "$0")" && pwd)
. "$here/../trials/common.sh"
pages=${1:-2000} rounds=${2:-3}

make_scratch
build
cc -O2 -o "$scratch/serve_client" "$here/serve_client.c"
room=$scratch/matter
python3 "$here/make_matter.py" "$program" "$room" "$pages" 1 300 "$letter"
printf '3,R-1\n' > "$room/grants.csv" # after the lead and who confirms, by make_matter.py
cd "$room"

# a path of the volume, how often: a desk that is asked for it, which ends then. What the client tells stands in `times`
cat > "$scratch/asked.sh" << END
#!/bin/sh
set -eu
printf 'GET /granted/R-1/%s HTTP/1.1\r\nDesk-Key: the key of the other side\r\n\r\n' "\$1" > "$scratch/request"
"$program" deliver "\$2" grants.csv > "$scratch/served" 2>&1 &
"$scratch/serve_client" "$port" \$((\$2 - 1)) "$scratch/request" 200 1 "$scratch/reply" > "$scratch/times"
wait \$!
END
chmod +x "$scratch/asked.sh"

# path: what comes back is the volume's file, behind a head
same_file() {
    "$scratch/asked.sh" "$1" 1
    tail -c "$(wc -c < "out/$1")" "$scratch/reply" | cmp - "out/$1" || stop "another file was given than the volume has: $1"
}

# path, how often: the seconds of the processor
seconds() {
    python3 "$here/cost.py" "$rounds" 1 - "$program" log R-1 -- "$scratch/asked.sh" "$1" "$2" | cut -d ' ' -f 1
}

page=$(find out -name '*.TIF' | sort | sed -n "$(((pages + 1) / 2))p")
page=${page#out/}
same_file "$page"
for _ in $(seq "$rounds"); do "$scratch/asked.sh" "$page" 1001 && cut -d ' ' -f 1 "$scratch/times"; done | sort -n | awk -v n="$pages" 'NR == 1 {
    printf "one of %d letter pages asked for: %.3f ms on the clock\n", n, 1000 * $1 }'
for path in VOL001/MANIFEST.TXT VOL001/DATA/VOL001.DAT VOL001/DATA/VOL001.OPT; do
    same_file "$path"
    awk -v n="$pages" -v path="$path" -v once="$(seconds "$path" 1)" -v hundred="$(seconds "$path" 100)" 'BEGIN {
        printf "%s of %d letter pages: once %.4f s, a hundred times %.4f s, %.2f times (at most 2)\n", path, n, once, hundred, hundred / once }'
done
