#!/bin/sh
# Many matters on many machines, by Slurm: an array of jobs, one for each line of a table, which makes the matter, takes its batches in, has its
# documents decided where the table says how, produces and checks. A matter is one file and one process at a time; so what goes side by side is
# matters, on as many nodes as there are.
#
#     cluster.sh TABLE FOLDER
#
# TABLE is CSV with a line of names: matter,batches,lead,decide,prefix,width
#     matter   a name of A-Z, a-z, 0-9, - and _; its folder is FOLDER/matter
#     batches  folders of batches, blanks between; they have to be seen at that path on each node
#     lead     the digest of the lead's key; for decide=produce the lead's key itself stands in FOLDER/matter.key
#     decide   kept: as decided in the matter that is there; produce: every document is responsive and goes out, for material that was reviewed
#              elsewhere or is handed over whole
#     prefix   of the labels, and width: their digits
# FOLDER is on a disk of the node that a job runs on, or on one that all nodes see and that knows locks; each matter leaves what was said
# in FOLDER/matter.log and one line in FOLDER/matter.result: its pages, and the seconds of each step.
#
# A step that was done is done again without harm, so what failed is run once more by itself, and then named, with why; give the same command
# again once that is mended: matters that are done are left. SLURM_WORDS in the environment goes to sbatch (as --partition=x --mem=4G).
# Ends with 1 where a matter isn't done. Needs Slurm (Debian's slurm-wlm), tivrenan on PATH of each node, and for decide=produce curl,
# and unshare of util-linux, as each desk needs a network of its own.
set -eu

stop() { echo "cluster.sh: $1" >&2; exit 1; }

# number: the line of that matter in the table; -: how many there are
line_of() { tail -n +2 "$table" | sed '/^$/d;s/\r$//' | if [ "$1" = - ]; then grep -c ''; else sed -n "${1}p"; fi; }

seconds() { date +%s; }

# what a step prints goes on to the log; a step that doesn't end with 0 is what failed
step() {
    name=$1
    shift
    begun=$(seconds)
    echo "\$ $*"
    status=0
    told=$("$@") || status=$?
    echo "$told"
    took="$took $name=$(($(seconds) - begun))"
    [ "$status" -eq 0 ] || { echo "failed: $name: $told (status $status)" > "$result" && exit 1; }
}

# Every document is called at a desk in a network of its own: responsive, Produce.
decide_all() {
    # shellcheck disable=SC2016 # the words of the shell below
    unshare ${as_root:+--map-root-user} --net sh -eu -c '
        ip link set lo up
        tivrenan serve 1 "$1" > served 2> /dev/null &
        for try in $(seq 600); do
            grep -q ":BC49 .* 0A " /proc/net/tcp && break
            sleep 0.1
        done
        seq "$1" | while read -r number; do
            [ "$number" -eq 1 ] || echo next
            echo "url = \"http://127.0.0.1:48201/docs/$number/call\""
            echo "header = \"@$2\""
            echo "data = \"{\\\"responsive\\\":true,\\\"treatment\\\":\\\"Produce\\\",\\\"designation\\\":\\\"\\\"}\""
            echo "output = \"/dev/null\""
            echo "fail"
            echo "silent"
        done | curl --fail-early -K - && wait && cat served
    ' sh "$1" "$2"
}

# number: makes, takes in, produces and checks one matter
one() {
    line=$(line_of "$1")
    matter=$(echo "$line" | cut -d, -f1) batches=$(echo "$line" | cut -d, -f2) lead=$(echo "$line" | cut -d, -f3)
    decide=$(echo "$line" | cut -d, -f4) prefix=$(echo "$line" | cut -d, -f5) width=$(echo "$line" | cut -d, -f6)
    result=$folder/$matter.result took='' documents=0 pages=0
    case $matter in '' | *[!A-Za-z0-9_-]*) stop "line $1 of the table: $matter is no name of a matter" ;; esac
    mkdir -p "$folder/$matter"
    cd "$folder/$matter"
    rm -f "$result"
    exec > "$folder/$matter.log" 2>&1
    [ -e matter.db ] || step init tivrenan init "$lead"
    for batch in $batches; do
        [ -e "${batch##*/}" ] || ln -s "$batch" "${batch##*/}"
        step import tivrenan import "${batch##*/}"
        documents=$((documents + $(echo "$told" | awk '{ print $4 }')))
        pages=$((pages + $(echo "$told" | awk '{ print $6 }')))
    done
    case $decide in
        kept) ;;
        produce)
            printf 'Desk-Key: %s\n' "$(cat "$folder/$matter.key")" > "$folder/$matter.head"
            if [ ! -e decided ]; then step decide decide_all "$documents" "$folder/$matter.head" && : > decided; fi
            rm -f "$folder/$matter.head"
            ;;
        *) stop "line $1 of the table: decide is kept or produce, and not $decide" ;;
    esac
    step produce tivrenan produce R-1 VOL001 "$prefix" "$width" 1 "$documents"
    cd out
    step check tivrenan check VOL001/DATA/VOL001.DAT VOL001/DATA/VOL001.OPT VOL001/MANIFEST.TXT
    echo "done: documents=$documents pages=$pages$took node=$(hostname)" > "$result"
}

# numbers: runs these lines of the table, and waits
submit() {
    # shellcheck disable=SC2086 # lists of words
    sbatch ${SLURM_WORDS-} --wait --quiet --job-name=tivrenan --array="$1" --output=/dev/null --open-mode=append \
        --wrap="exec '$self' --one '$table' '$folder' \$SLURM_ARRAY_TASK_ID" || :
}

# the numbers of the matters that aren't done, with commas between
left() {
    number=0
    line_of_all | while IFS=, read -r matter _; do
        number=$((number + 1))
        grep -q '^done:' "$folder/$matter.result" 2> /dev/null || echo "$number"
    done | paste -sd, -
}
line_of_all() { tail -n +2 "$table" | sed '/^$/d;s/\r$//'; }

case ${1-} in -h | --help | '') sed -n '2,/^set -eu/s/^# \{0,1\}//p' "$0" | sed '$d' && exit 0 ;; esac
mode=all
if [ "$1" = --one ]; then mode=one && shift; fi
[ $# -ge 2 ] || stop 'usage: cluster.sh TABLE FOLDER'
table=$(realpath "$1")
self=$(realpath "$0")
mkdir -p "$2"
folder=$(realpath "$2")
as_root=
[ "$(id -u)" -eq 0 ] || as_root=yes
if [ "$mode" = one ]; then one "$3" && exit 0; fi

command -v sbatch > /dev/null || stop "needs Slurm (Debian's slurm-wlm)"
[ "$(head -n 1 "$table" | tr -d '\r')" = matter,batches,lead,decide,prefix,width ] || stop "the first line of $1 isn't matter,batches,lead,decide,prefix,width"
[ "$(line_of_all | cut -d, -f1 | sort | uniq -d | wc -l)" -eq 0 ] || stop "a matter stands in $1 twice"
todo=$(left)
if [ -n "$todo" ]; then
    echo "$(line_of -) matters, of which these lines are to be done: $todo"
    submit "$todo"
    again=$(left)
    if [ -n "$again" ]; then
        echo "once more, as they failed: $again"
        submit "$again"
    fi
fi
bad=0
for each in $(line_of_all | cut -d, -f1); do
    told=$(cat "$folder/$each.result" 2> /dev/null || echo 'failed: it left no result: the node or Slurm ended it')
    echo "$each: $told"
    case $told in done:*) ;; *) bad=$((bad + 1)) ;; esac
done
[ "$bad" -eq 0 ] || stop "$bad matters aren't done; FOLDER/matter.log has what was said. Mend that, and give the command again"
