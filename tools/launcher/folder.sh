# shellcheck shell=sh disable=SC2154,SC2016,SC1003
# What the folder of a matter has to do with a command, beside the program: a volume compared with its manifest, a matter.db that the
# command made and left empty, the log of a desk that a signal ended, who holds a file. Sourced by the launcher, which gives program,
# table and say. Nothing of this is proved.

not_listed=65

# ---- volumes

# digest of a manifest: the folder below out that it is of, which its own paths begin with
volume_with() {
    for manifest in out/*/MANIFEST.TXT; do
        volume=${manifest#out/}
        volume=${volume%/MANIFEST.TXT}
        [ "$(head -n 1 "$manifest" 2> /dev/null | cut -c67- | cut -d/ -f1)" = "$volume" ] || continue
        [ "$(sha256sum < "$manifest" | cut -c1-64)" != "$1" ] || { echo "$volume" && return; }
    done
}

# volume, folder for a list: what stands in its folder below out and isn't in its manifest, a line each; where a name has an end of a
# line, \001 stands for it
unlisted() {
    (
        cd out || exit
        { cut -c67- "$1/MANIFEST.TXT"; echo "$1/MANIFEST.TXT"; } | LC_ALL=C sort > "$2/listed"
        find "$1" ! -type d -print0 | tr '\n\0' '\001\n' | LC_ALL=C sort | LC_ALL=C comm -13 "$2/listed" -
    )
}

# volume: a folder beside it that isn't there yet; no volume's name has a point
folder_aside() {
    number=1
    while [ -e "out/$1.unlisted-$number" ]; do number=$((number + 1)); done
    echo "out/$1.unlisted-$number"
}

# volume, file of names: moves what is named into a folder beside the volume
clear_volume() {
    aside=$(folder_aside "$1")
    tr '\n\001' '\0\n' < "$2" | xargs -0 -r sh -c '
        into=$1 && shift
        for name; do mkdir -p "$into/$(dirname -- "$name")" && mv -- "out/$name" "$into/$name" || exit 255; done
    ' sh "$aside" || { say "what isn't in the manifest of out/$1 couldn't be moved away" && return 1; }
    find "out/$1" -depth -mindepth 1 -type d -empty -delete
    case $(grep -c '' "$2") in
        1) say "1 file that isn't in the manifest of out/$1 was moved to $aside" ;;
        *) say "$(grep -c '' "$2") files that aren't in the manifest of out/$1 were moved to $aside" ;;
    esac
}

# file of names: the first of them, as they can be shown
show_some() {
    head -n 20 "$1" | tr '\001-\011\013-\037\177' '?' | sed 's#^#    out/#' >&2
    [ "$(grep -c '' "$1")" -le 20 ] || echo "    .. and $(($(grep -c '' "$1") - 20)) more" >&2
}

# line that a command printed, and whether files are to be moved aside: compares the volume with its manifest
compare_volume() {
    volume=$(volume_with "${1##* }")
    [ -n "$volume" ] || { say "the folder of this volume isn't found below out, and isn't compared" && return "$not_listed"; }
    room=$(mktemp -d) || { say "no room for a list in ${TMPDIR-/tmp}: out/$volume isn't compared with its manifest" && return "$not_listed"; }
    unlisted "$volume" "$room" > "$room/names"
    compared=0
    if [ -s "$room/names" ] && [ -n "$2" ]; then
        clear_volume "$volume" "$room/names" || compared=$not_listed
    elif [ -s "$room/names" ]; then
        compared=$not_listed
        say "status $not_listed: the volume is written whole, but out/$volume also has files that aren't of it, of an earlier run as it seems:"
        show_some "$room/names"
        say "don't hand this folder over. The same command with --clear moves these files aside."
    fi
    rm -rf "$room"
    return "$compared"
}

# ---- the matter

# Whether the log beside the matter's file has anything that isn't folded in; its head alone is some forty bytes.
has_log() { [ -e matter.db-wal ] && [ "$(wc -c < matter.db-wal)" -gt 512 ]; }

# Whether the matter's file has no row: whether it is what the program makes where there is none, with its table or before that.
is_empty_matter() {
    [ -f matter.db ] && [ ! -L matter.db ] && ! has_log || return 1
    room=$(mktemp -d 2> /dev/null) || return 1
    empty=1
    for words in '' 'log NONE'; do
        # shellcheck disable=SC2086 # a list of words
        (cd "$room" && rm -f matter.db* && "$program" $words > /dev/null 2>&1 < /dev/null) || :
        ! cmp -s "$room/matter.db" matter.db || empty=0
    done
    rm -rf "$room"
    return "$empty"
}

# Takes away an empty matter.db that this command made: nobody is to wonder what it is, or to learn to delete such files.
take_empty_matter() {
    if [ -z "$had_matter" ] && is_empty_matter; then rm -f matter.db matter.db-wal matter.db-shm; fi
}

# After a signal the latest calls may stand in the log alone: a program that opens the matter folds it into matter.db, so that a copy of
# that one file is whole.
fold_log() {
    has_log || return 0
    "$program" > /dev/null 2>&1 < /dev/null || :
    ! has_log || say "the latest calls stand in matter.db-wal: a copy has to have both files"
}

# ---- why a matter can't be opened

# the processes that have the matter open, as far as this user may see them
holders() {
    here=$(pwd -P | sed 's/[][*?\\]/\\&/g')
    find /proc/[0-9]*/fd -lname "$here/matter.db*" 2> /dev/null | cut -d/ -f3 | sort -u | while read -r number; do
        words=$(tr '\0' ' ' < "/proc/$number/cmdline" 2> /dev/null | cut -c1-70)
        owner=$(ps -o user= -p "$number" 2> /dev/null) || owner=
        printf '%s\n' "process $number${owner:+ of $owner}: ${words% }"
    done
}

# Whether somebody whom this user may not see has a lock of the matter: one of SQLite's bytes, which begin at 2^30
is_locked() { grep -q ":$(stat -L -c %i matter.db) 107374182" /proc/locks; } 2> /dev/null

# A file that nobody is seen to hold, and that looks like a matter's: whether it is damaged, as far as its own pages tell. Where a log has
# something, a page of the file may be one that the log has anew.
tell_damage() {
    megabytes=$(($(wc -c < matter.db) / 1000000))
    [ "$megabytes" -lt 100 ] || say "looking whether matter.db is damaged, for about $((megabytes / 20)) s; Ctrl-C leaves that out"
    if has_log || ! found=$(python3 "$tools/keep/pages.py" matter.db 2> /dev/null); then
        say "$unseen"
        say "where nobody does, it may be damaged: a page isn't as it was written, or the file was cut off"
    elif [ -n "$found" ]; then
        say "matter.db is damaged: $found. The disk failed, or another program wrote into the file"
    else
        say "$unseen"
        say "each of its pages is as it was written: see whether the disk refuses something, and give the command again"
        return
    fi
    say "a damaged file gives way to its last copy: tivrenan-restore COPY $(pwd) (GUIDE.md, 10. Backup)"
}

explain_keeper() {
    unseen="nobody is seen who holds matter.db; root sees more by: fuser -v $(pwd)/matter.db"
    found=$(holders)
    if [ -n "$found" ]; then
        say "matter.db is held by"
        printf '%s\n' "$found" | sed 's/^/    /' >&2
        say "end it: a desk by Ctrl-C or systemctl, a viewer of databases by closing it"
    elif is_locked; then
        say "somebody holds matter.db who isn't seen from here; root sees more by: fuser -v $(pwd)/matter.db"
    elif [ ! -w . ]; then
        say "the folder $(pwd) can't be written by $(id -un)"
    elif [ -e matter.db ] && { [ ! -r matter.db ] || [ ! -w matter.db ]; }; then
        say "$(pwd)/matter.db can't be read and written by $(id -un)"
    elif [ -s matter.db ] && [ "$(head -c 15 matter.db | tr -d '\0')" != 'SQLite format 3' ]; then
        say "$(pwd)/matter.db is no database"
    elif [ "$(df -P . | awk 'NR == 2 { print $4 }')" = 0 ]; then
        say "the disk of $(pwd) is full"
    elif [ -s matter.db ]; then
        tell_damage
    else
        say "$unseen"
    fi
}

# What stands behind a refusal that there is no matter.
explain_no_matter() {
    say "there is no matter in $(pwd): is this the matter's folder?"
}

# the manifest of a check that passed: what stands beside and isn't in it, which a check doesn't look at
tell_unlisted() {
    case $1 in */*) ;; *) return 0 ;; esac
    room=$(mktemp -d 2> /dev/null) || return 0
    { tr -d '\r' < "$1" | cut -c67- | tr '\\' /; echo "$1"; } | sed 's#^\./##' | LC_ALL=C sort > "$room/listed"
    find "${1%/*}" ! -type d -print0 2> /dev/null | tr '\n\0' '\001\n' | sed 's#^\./##' | LC_ALL=C sort |
        LC_ALL=C comm -13 "$room/listed" - > "$room/names"
    if [ -s "$room/names" ]; then
        say "$(grep -c '' "$room/names") files in ${1%/*} aren't in the manifest, and weren't looked at:"
        head -n 5 "$room/names" | tr '\001-\011\013-\037\177' '?' | sed 's/^/    /' >&2
    fi
    rm -rf "$room"
}
