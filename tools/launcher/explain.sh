# shellcheck shell=sh disable=SC2154
# Explains what the program ended with: statuses, rules, words; sourced by the launcher, which gives statuses (the page of
# statuses), say and is_known. usage.sh is sourced before it.

# How wide a line may be.
columns() {
    width=$({ [ -t 1 ] && tput cols 2> /dev/null; } || echo 100)
    case $width in '' | *[!0-9]* | ? ) width=100 ;; esac
    echo "$width"
}

# The text of the page of statuses between two headings, without its marks; each row of a table and each paragraph is a line of its
# own, and lines are folded.
page_of() {
    awk -F ' *[|] *' -v from="$1" -v to="$2" '
        function flush() { if (text != "") print text; text = "" }
        $0 == from { told = 1 }
        $0 == to { told = 0 }
        !told { next }
        { gsub(/`/, "") }
        /^[|] *-/ { next }
        /^[|]/ {
            line = $2
            for (column = 3; column < NF; column++) if ($column != "") line = line "  " $column
            print line
            next
        }
        /^$/ || /^#/ { flush(); sub(/^#+ /, ""); print; next }
        { text = text (text == "" ? "" : " ") $0 }
        END { flush() }
    ' "$statuses" | fold -s -w "$(columns)"
}

# number: what that status, rule or refusal of a desk means, by the page of statuses, where no two have one number: what stands under
# the heading of the status, but for what is printed, a row of its table as `command: what stands`; or the row of the two tables
meaning() {
    awk -F ' *[|] *' -v number="$1" '
        /^## / { status = index($0, "## " number ": ") == 1; rules = $0 == "## Rules" || $0 == "## Refusals of a desk"; next }
        status && !/^$/ && !/^Prints / && !/^[|] *(-|Command)/ { text = text sep (/^[|]/ ? $2 ": " $4 "." : $0); sep = " " }
        rules && /^[|]/ && $2 == number { text = $4 }
        END { gsub(/`/, "", text); if (text != "") print text }
    ' "$statuses" 2> /dev/null || :
}

# what follows help
explain_more() {
    case $1 in
        statuses) page_of '# Statuses and rules' '## What to do' ;;
        rules)
            page_of '## Rules' '## Nothing more'
            echo
            page_of '## Refusals of a desk' '## Rules'
            ;;
        help) usage_of_one help ;;
        '' | *[!0-9]*)
            is_known "$1" || return 1
            usage_of_one "$1"
            ;;
        *)
            says=$(meaning "$1")
            [ -n "$says" ] || return 1
            printf '%s: %s\n' "$1" "$says" | fold -s -w "$(columns)"
            awk -F ' *[|] *' -v rule="$1" '
                /^## / { told = $0 ~ /^## What to do/; of = $0 ~ /check$/ ? "in a check: " : "" }
                told && /^[|]/ && $2 == rule { gsub(/`/, ""); print of ($3 == "" ? "" : "A is " $3 ": ") $4 }
            ' "$statuses" | fold -s -w "$(columns)"
            ;;
    esac
}

# status, printed line, words: what the program ended with
explain() {
    case $1 in
        0) return ;;
        126 | 127)
            say "status $1: the system could not start the program"
            return
            ;;
        129 | 1[3-9]? | 2??)
            say "status $1: the program was ended by signal $(($1 - 128)), $(kill -l "$1" 2> /dev/null || echo unknown). $(lines_of "$3" signal)"
            return
            ;;
    esac
    # OUT is a word of burn alone
    what=$(meaning "$1")
    [ "$3" = burn ] || what=$(printf '%s\n' "$what" | sed 's/; a file at OUT is as it was//; s/ A file at OUT is [^.]*[.]//')
    say "status $1: $what"
    case $1 in
        1)
            shift 2
            explain_words "$@"
            usage_of_one "$1" >&2 || :
            ;;
        2)
            shift
            # shellcheck source=tools/explain/refusals.sh
            . "$explaining/refusals.sh"
            explain_refusal "$@"
            ;;
    esac
}
