# Bash's completion of tivrenan's words, by the table of commands. Installed as share/bash-completion/completions/tivrenan.

# the table: of this clone, or installed
_tivrenan_table() {
    local here=${BASH_SOURCE[0]%/*} each
    for each in "$here/launcher/commands" "$here/../../tivrenan/tools/launcher/commands"; do
        [ ! -r "$each" ] || { printf '%s\n' "$each" && return; }
    done
}

# the names of the commands; with a word those of the launcher too
_tivrenan_names() { awk -v own="$1" '$1 == "command" || own && $1 == "own" { print $2 }' "$(_tivrenan_table)"; }

# command, place of a word: what is offered there
_tivrenan_offer() {
    awk -v name="$1" -v place="$2" '
        $1 == "command" || $1 == "own" { told = $2 == name }
        told && $1 == "offer" && $2 == place { $1 = $2 = ""; print }
    ' "$(_tivrenan_table)"
}

# what a batch is: a folder here with load files
_tivrenan_batches() {
    local file
    for file in "$1"*/load.opt; do
        [ ! -e "$file" ] || printf '%s\n' "${file%/load.opt}"
    done
}

_tivrenan() {
    local word=${COMP_WORDS[COMP_CWORD]} words
    COMPREPLY=()
    if [ "$COMP_CWORD" -eq 1 ]; then
        words=$(_tivrenan_names own)
    else
        words=$(_tivrenan_offer "${COMP_WORDS[1]}" $((COMP_CWORD - 1)))
    fi
    case $words in
        *files*) mapfile -t COMPREPLY < <(compgen -f -- "$word") && compopt -o filenames 2> /dev/null && return ;;
        *batches*) words=$(_tivrenan_batches "$word") ;;
        *commands*) words="${words/commands/} $(_tivrenan_names)" ;;
    esac
    mapfile -t COMPREPLY < <(compgen -W "$words" -- "$word")
}

# the programs for offices: options by their --help, forms of volume-as, else files
_tivrenan_program() {
    local word=${COMP_WORDS[COMP_CWORD]} before=${COMP_WORDS[COMP_CWORD - 1]} words=
    COMPREPLY=()
    case $1,$COMP_CWORD,$word in
        *make-batch,*) case $before in --families) words='none leaf top' ;; --ocr) words='needed all none' ;; esac ;;
    esac
    [ -n "$words" ] || case $1,$COMP_CWORD,$word in
        *,-*) words=$("$1" --help 2> /dev/null | grep -o -E -- '--[a-z-]+' | sort -u) ;;
        *volume-as,[12],*) ;;
        *volume-as,*) words='dat csv lfp pdf log' ;;
    esac
    if [ -n "$words" ]; then
        mapfile -t COMPREPLY < <(compgen -W "$words" -- "$word")
    else
        mapfile -t COMPREPLY < <(compgen -f -- "$word") && compopt -o filenames
    fi
}

complete -F _tivrenan tivrenan
complete -F _tivrenan_program tivrenan-make-batch tivrenan-matter-report tivrenan-take-volume tivrenan-check-report \
    tivrenan-volume-as tivrenan-fetch-volume tivrenan-backup tivrenan-restore tivrenan-audit
