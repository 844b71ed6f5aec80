# shellcheck shell=sh disable=SC2154,SC2034,SC2094
# Runs the program beside the launcher where a command may take long, so that a signal reaches it, and says meanwhile that it works;
# of serve and deliver, when the doors are open. Sourced by the launcher, which gives program, table and say.

# How a program is begun in the background: a shell has the interrupt ignored there, which is taken back where it wasn't when the launcher
# began.
with_interrupt() {
    ignored=$(sed -n 's/^SigIgn:[[:space:]]*//p' /proc/$$/status 2> /dev/null) || ignored=
    if [ $((0x${ignored:-0} & 2)) -eq 0 ]; then echo 'env --default-signal=INT,QUIT'; else echo env; fi
}

# process: how much it has read, in megabytes
read_by() { awk '/^rchar:/ { printf "%d", $2 / 1000000 }' "/proc/$1/io" 2> /dev/null || :; }

# How long a megabyte of matter.db takes until the doors are open, in ms, where it is letter pages (bench/README.md): most goes into
# reading each page.
opening=55

# Before doors are opened all of matter.db is tested: of a large one how long that takes
tell_opening() {
    megabytes=$(stat -L -c %s matter.db 2> /dev/null) || return 0
    megabytes=$((megabytes / 1000000))
    [ "$megabytes" -lt 50 ] ||
        say "all $megabytes MB of matter.db are tested first: about $((megabytes * opening / 1000 + 1)) s, more on a full machine, less where few are pages"
}

# process, command: how far it is, as far as can be seen from outside
how_far() {
    case $(lines_of "$2" writes) in
        volume) echo "$(find out -type f 2> /dev/null | wc -l) files in out" ;;
        *) echo "$(read_by "$1") MB read" ;;
    esac
}

# process, command: says that it works: each second to a person, else each minute
tell_work() {
    seconds=0
    while sleep 1 && kill -0 "$1" 2> /dev/null && kill -0 $$ 2> /dev/null; do
        seconds=$((seconds + 1))
        if [ -t 2 ]; then
            printf '\rtivrenan: %s works: %s s, %s \033[K' "$2" "$seconds" "$(how_far "$1" "$2")" >&2
        elif [ $((seconds % 60)) -eq 0 ]; then
            say "$2 works: $seconds s, $(how_far "$1" "$2")"
        fi
    done
}

# process, how many: of the first desks' ports those at which it listens, and those at which another does
doors_of() {
    listens=$(awk '$4 == "0A" { print substr($2, index($2, ":") + 1), $10 }' /proc/net/tcp)
    own_sockets=$(find "/proc/$1/fd" -lname 'socket:*' -printf '%l\n' 2> /dev/null)
    at=1 opened=0 taken=
    while [ "$at" -le "$2" ]; do
        socket=$(printf '%s\n' "$listens" | awk -v port="$(printf '%04X' $((48200 + at)))" '$1 == port { print "socket:[" $2 "]" }')
        if [ -n "$socket" ] && printf '%s\n' "$own_sockets" | grep -qxF -e "$socket"; then
            opened=$((opened + 1))
        elif [ -n "$socket" ]; then
            taken="$taken $((48200 + at))"
        fi
        at=$((at + 1))
    done
}

# process, command, how many doors: says once when all are open, and which ports another program has
tell_doors() {
    told='' waited=0
    while sleep 0.2 && kill -0 "$1" 2> /dev/null && kill -0 $$ 2> /dev/null; do
        waited=$((waited + 1))
        doors_of "$1" "$3"
        if [ "$opened" -eq "$3" ]; then
            case $2,$3 in
                deliver,*) who='the door is open at http://127.0.0.1:48201' ;;
                *,1) who='the desk is open at http://127.0.0.1:48201' ;;
                *) who="$3 desks are open at http://127.0.0.1:48201 to $((48200 + $3))" ;;
            esac
            say "$who; Ctrl-C ends it, and each call that was answered stands"
            return
        fi
        [ "$taken" = "$told" ] || { told=$taken && say "another program has port$taken of this machine; the desk waits for it"; }
        if [ $((waited % 5)) -eq 0 ] && [ -t 2 ] && [ "$opened" -eq 0 ]; then
            printf '\rtivrenan: the matter is being opened: %s s, %s MB read \033[K\r' "$((waited / 5))" "$(read_by "$1")" >&2
        fi
    done
}

# signal: passed on to the program
# shellcheck disable=SC2317 # traps call it
pass_on() { kill "-$1" "$child" 2> /dev/null || :; }

# Waits for the program however many signals come, and takes its status.
await_child() {
    status=0
    wait "$child" 2> /dev/null || status=$?
    while kill -0 "$child" 2> /dev/null; do
        status=0
        wait "$child" 2> /dev/null || status=$?
    done
    ended=0
    wait "$child" 2> /dev/null || ended=$?
    [ "$ended" -eq 127 ] || status=$ended
}

# words: runs the program beside the launcher; line and status are what it printed and ended with. False where no file can be made
# for its line.
run_beside() {
    told_in=$(mktemp 2> /dev/null) || return 1
    case $1 in serve | deliver) tell_opening ;; esac
    exec 8> "$told_in" 9< "$told_in"
    rm -f "$told_in"
    # shellcheck disable=SC2046 # a list of words
    $(with_interrupt) "$program" "$@" >&8 8>&- 9<&- &
    child=$!
    for signal in HUP INT TERM; do
        # shellcheck disable=SC2064 # the name of this signal
        trap "pass_on $signal" "$signal"
    done
    case $1 in
        serve) tell_doors "$child" "$1" "$2" 8>&- 9<&- & ;;
        deliver) tell_doors "$child" "$1" 1 8>&- 9<&- & ;;
        *) tell_work "$child" "$1" 8>&- 9<&- & ;;
    esac
    teller=$!
    await_child
    kill "$teller" 2> /dev/null || :
    wait "$teller" 2> /dev/null || :
    trap : HUP INT TERM
    [ ! -t 2 ] || printf '\r\033[K' >&2
    line=$(cat <&9; echo .)
    line=${line%.}
    exec 8>&- 9<&-
}
