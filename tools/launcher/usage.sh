# shellcheck shell=sh disable=SC2154
# Reads the table of commands: their usage, and what is wrong with the words of a command line. Sourced by the launcher, which gives
# table, own and say.

# name, tag: the values of the lines with that tag in the record of a command
lines_of() {
    awk -v name="$1" -v tag="$2" '
        /^(command|own) / { told = substr($0, 10) == name }
        told && $1 == tag { print substr($0, 10) }
    ' "$table"
}

# command: how its words must look, and what it does
usage_of() {
    words=$(lines_of "$1" operands)
    printf '       tivrenan %s\n' "$1${words:+ $words}"
    lines_of "$1" does | sed 's/^/           /'
}

# command: how a word must look: its name, what it is; of press and log by the words of produce
words_of() {
    lines_of "$1" text
    lines_of "$1" like | while read -r other word; do lines_of "$other" text | grep "^$word "; done
}

usage() {
    for command in $commands $own; do usage_of "$command"; done | sed '1s/^      /usage:/'
    echo
    for command in $commands $own; do lines_of "$command" text; done
    echo
    echo 'No word is empty or begins with -, each is UTF-8, and there are no more words than these. One stands apart: where a volume is'
    echo "written, --clear moves what isn't of it aside."
}

# command: its part of the usage
usage_of_one() {
    case $1 in help) for each in $own; do usage_of "$each"; done ;; *) usage_of "$1" ;; esac | sed '1s/^      /usage:/'
    found=$(words_of "$1")
    [ -z "$found" ] || printf '\n%s\n' "$found"
}

is_number() {
    case $1 in
        0) return 0 ;;
        '' | 0* | *[!0-9]*) return 1 ;;
    esac
    [ ${#1} -le 9 ]
}

# name, word, and of a number the least and the most, where it has bounds: says where the word is none
faulty_number() {
    if ! is_number "$2"; then
        say "$1 is 0, or 1 to 9 digits of which the first is not 0, and not $2"
    elif [ $# -eq 4 ] && { [ "$2" -lt "$3" ] || [ "$2" -gt "$4" ]; }; then
        case $3 in 0) say "$1 is at most $4, and not $2" ;; *) say "$1 is $3 to $4, and not $2" ;; esac
    fi
}

# name, word: says where the word is no digest
faulty_digest() {
    case $2 in *[!0-9a-f]*) say "$1 has other characters than 0 to 9 and a to f" ;; esac
    [ ${#2} -eq 64 ] || say "$1 has 64 characters; here are ${#2}"
}

# name, word, words: says where the word is none of these
faulty_choice() {
    name=$1 word=$2
    shift 2
    for each; do [ "$each" != "$word" ] || return 0; done
    say "$name is $(echo "$*" | sed 's/ / or /g'), and not $word"
}

# command, name of a word, the word: says where it isn't of its form, as the table has it
faulty_word() {
    form=$(lines_of "$1" form | awk -v name="$2" '
        { names = $0; sub(/  .*/, "", names); sub(/^[^ ].*  +/, "") }
        (" " names " ") ~ (" " name " ") { print; exit }
    ')
    # shellcheck disable=SC2086 # a list of words
    case $form in
        '') ;;
        number*) faulty_number "$2" "$3" ${form#number} ;;
        digest) faulty_digest "$2" "$3" ;;
        *) faulty_choice "$2" "$3" $form ;;
    esac
}

# command, how many words it has: whether these are too few or too many, by its operands; says so
faulty_count() {
    operands=$(lines_of "$1" operands)
    due=${operands%%\[*}
    # shellcheck disable=SC2086 # a list of words
    least=$(set -- $due && echo $#)
    more=${operands#"$due"} names=${due% }
    case $more in
        '') most=$least ;;
        *..*) most=1000000 more=${more#\[} names="$names, and any number of ${more%% *}" ;;
        *) most=$((least + 1)) more=${more#\[} names="$names, and ${more%\]} or not" ;;
    esac
    if [ "$2" -ge "$least" ] && [ "$2" -le "$most" ]; then return 1; fi
    say "$1 takes $least $([ "$least" -eq 1 ] && echo word || echo words): $names; here are $2"
}

# the words of a command line that the program refused: says what is wrong with them, as far as the launcher sees it
explain_words() {
    for word; do
        case $word in
            '') say 'a word is empty' && return ;;
            -*) say "no word begins with -, as $word does" && return ;;
        esac
    done
    command=$1
    shift
    faulty_count "$command" $# && return
    for name in $(lines_of "$command" operands | tr -d '[].'); do
        [ $# -eq 0 ] || { faulty_word "$command" "$name" "$1" && shift; }
    done
}
