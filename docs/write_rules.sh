#!/bin/sh
# Writes the table of rules in STATUSES.md from crates/bp_core/src/rules.rt: the numbers and names from its one
# table, what each says from the comment of its variant. With the word `check`, compares instead of writing, and ends
# with status 1 where the table isn't what would be written.
set -eu
cd "$(dirname "$0")"

scratch=$(mktemp)
trap 'rm -f "$scratch"' EXIT

awk '
    FNR == NR && /^    \/\/\/ / {
        says = substr($0, 9)
        gsub(/`line`/, "LINE", says); gsub(/`a`/, "A", says); gsub(/`b`/, "B", says)
        next
    }
    FNR == NR && /^    [A-Z][A-Za-z0-9]*,$/ { name = $1; sub(/,/, "", name); saying[name] = says; next }
    FNR == NR && /^        RuleKind::[A-Za-z0-9]+ => [(][0-9]+, "/ {
        number = $3; gsub(/[^0-9]/, "", number)
        name = $4; gsub(/[^A-Za-z0-9]/, "", name)
        table = table "| " number " | `" name "` | " saying[name] " |\n"
        next
    }
    FNR == NR { next }
    /^## Rules/ { rules = 1 }
    rules && /^[|] [0-9]/ { next }
    { print }
    rules && /^[|]---/ { printf "%s", table }
' ../crates/bp_core/src/rules.rt STATUSES.md > "$scratch"
if [ "${1-}" = check ]; then
    cmp -s "$scratch" STATUSES.md || { echo "write_rules.sh: the table of rules isn't what would be written: run docs/write_rules.sh" >&2; exit 1; }
else
    cat "$scratch" > STATUSES.md
fi
