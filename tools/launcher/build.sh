# shellcheck shell=sh disable=SC2154
# Proves and builds the program in a clone, where it isn't built from the sources as they stand; sourced by the launcher, which gives
# top, program, no_program and say.

built_from=$program.built_from
kept=$program.kept
logs=$top/crates/bp_main/out/launcher
log=$logs/bp_main.log

# bp_main and the crates below it, by crates.txt
crates() {
    awk '
        function need(name,    at, count, below) {
            if (name in seen || !(name in cites)) return
            seen[name]
            print name
            count = split(cites[name], below, " ")
            for (at = 1; at <= count; at++) need(below[at])
        }
        /^[ \t]*#/ || !/:/ { next }
        {
            colon = index($0, ":")
            split(substr($0, 1, colon - 1), head, " ")
            cites[head[1]] = substr($0, colon + 1)
        }
        END { need("bp_main") }
    ' "$top/crates.txt"
}

# where the sources of the program stand, below the clone: crates.txt, and folders
places() {
    names=$(crates) || return
    echo crates.txt
    for crate in $names; do
        for part in src specs proofs; do
            [ ! -d "$top/crates/$crate/$part" ] || echo "crates/$crate/$part"
        done
    done
}

# each source of the program, with its checksum
sources() (
    cd "$top" && found=$(places) || exit
    # shellcheck disable=SC2086 # a list of words
    found=$(find $found -type f ! -name '.*' -exec sha256sum {} +) || exit
    echo "$found" | LC_ALL=C sort
)

# file: the first of the sources and their folders that is newer; the program is looked at too
newer_than() (
    cd "$top" && found=$(places) || exit
    # shellcheck disable=SC2086 # a list of words
    find $found "$program" -newer "$1" 2> /dev/null | head -n 1
)

# Nothing of the sources and no folder of theirs is newer than the note of what the program was built from: then no
# sum is needed. Else the sums decide.
is_newest() {
    [ -x "$program" ] && [ -r "$built_from" ] && newer=$(newer_than "$built_from") && [ -z "$newer" ]
}

# the sources: one checksum of them and of the program, so that each is known again
checksum() { { echo "$1"; sha256sum < "$program"; } | sha256sum; }

# the sources: whether the program is there, and was built from them
is_built() {
    [ -x "$program" ] && [ -r "$built_from" ] && [ "$(checksum "$1")" = "$(cat "$built_from")" ]
}

put_back() { [ ! -e "$kept" ] || mv -f "$kept" "$program"; }

# why: ends without a program that was built from the sources
no_build() {
    say "$1"
    put_back
    [ ! -e "$program" ] || say "the program that is there was built from other sources, and is not run"
    exit "$no_program"
}

# Proves the program and all crates below it. In the background, so that a signal ends the wait at once; end_prover then ends
# what it began.
prove_crates() {
    # shellcheck disable=SC2046 # a list of words
    "$top/tools/prove_crates" "$logs" $(crates) &
    prover=$!
    status=0
    wait "$prover" || status=$?
    prover=
    return "$status"
}

# shellcheck disable=SC2317 # traps call both
end_prover() {
    [ -n "$prover" ] || return 0
    kill "$prover" 2> /dev/null || :
    wait "$prover" 2> /dev/null || :
}
# shellcheck disable=SC2317
end_build() {
    end_prover
    put_back
}

# the sources
build() {
    command -v rt > /dev/null ||
        no_build "the program has to be built, and rt, the command of the Rattle kit, is not on PATH"
    say "proving and building the program: an hour and more the first time, minutes after a change; docs/GATE.md has the costs"
    mkdir -p "$top/crates/bp_main/out"
    [ ! -e "$program" ] || cp -p "$program" "$kept"
    prover=
    # a second signal may come while the first is answered, so each ends what was begun before it exits
    trap end_build EXIT
    trap 'end_build; exit 129' HUP
    trap 'end_build; exit 130' INT
    trap 'end_build; exit 143' TERM
    prove_crates || no_build "the program could not be proved"
    # it ends by running the program, without words: that it then prints what is due shows that it was built
    { [ -x "$program" ] && grep -q -x 'words refused' "$log"; } ||
        no_build "the program could not be built; what rt said is in $log"
    [ "$(sources)" = "$1" ] || no_build "the sources changed while the program was built"
    checksum "$1" > "$built_from"
    rm -f "$kept"
    trap - EXIT HUP INT TERM
}

# The gate, rt ci, has just built the program from the sources as they stand: notes that, so that it isn't built once more. Each
# source has to be older than the program.
note_gate() {
    [ -x "$program" ] || no_build "rt ci, the gate, has left no program"
    newer=$(newer_than "$program") || no_build "the sources of the program could not be read"
    [ -z "$newer" ] || no_build "$newer is newer than the program that is there: run rt ci, or tivrenan build"
    checksum "$(sources)" > "$built_from"
}

# Builds the program where it isn't built from the sources as they stand; with the word look it says so instead.
build_if_needed() {
    is_newest && return
    if ! found=$(sources); then
        say "the sources of the program could not be read"
        exit "$no_program"
    fi
    if is_built "$found"; then
        touch "$built_from" 2> /dev/null || :
    elif [ "${1-}" = look ]; then
        say "the program isn't built from the sources as they stand"
        exit "$no_program"
    else
        build "$found"
    fi
}
