# What the launcher says of a refusal: the rule, what to do, and what was found where it was met. The launcher reads this file, with its
# own say and meaning, and $statuses; of a volume that is checked volume.awk tells the place.
# shellcheck shell=sh disable=SC2154 # statuses and explaining are the launcher's

# the printed line, then the words of the command
explain_refusal() {
    refusal=$1
    shift
    # shellcheck disable=SC2086 # the words of the line: refused, number, name, line, a, b
    tell_rule "$1" $refusal
    case $refusal in
        'refused 54 '*) tell_where_looked "$@" ;;
    esac
    case $1,$refusal in
        check,*) tell_in_volume "${refusal#refused }" "${2-}" "${3-}" "${4-}" ;;
        import,'refused 63 '*' 0 0 0'*) tell_batch_name "${2-}" ;;
        import,'refused 54 '*) tell_in_batch "${refusal#refused }" "${2-}" ;;
        produce,*) shift && tell_request "${refusal#refused }" "$@" ;;
    esac
}

# heading, rule, its value A: what is to be done, by the table under that heading of the page of statuses: the row of that
# value, or the one without
to_do_under() {
    awk -F ' *[|] *' -v heading="## $1" -v rule="$2" -v value="$3" '
        /^## / { told = $0 == heading }
        told && /^[|]/ && $2 == rule && ($3 == "" || $3 == value) {
            if ($3 == value || found == "") { found = $4; gsub(/`/, "", found) }
        }
        END { if (found != "") print found }
    ' "$statuses" 2> /dev/null || :
}

# command, rule, its value A: of the files of a check other things are said than of those of a batch
to_do() {
    advice=
    case $1,$2 in
        check,*) advice=$(to_do_under 'What to do in a check' "$2" "$3") ;;
        burn,54 | burn,55) return ;;
        deliver,*) advice=$(to_do_under 'What to do where something is delivered' "$2" "$3") ;;
        claw,*) advice=$(to_do_under 'What to do after a notice' "$2" "$3") ;;
    esac
    [ -n "$advice" ] || advice=$(to_do_under 'What to do' "$2" "$3")
    [ -z "$advice" ] || printf '%s\n' "$advice"
}

# command, refused, number, name, line, a, b: the rule, with those of the three values that its text names or that aren't 0. What a
# text says of imports alone has no value elsewhere.
tell_rule() {
    [ $# -eq 7 ] || return 0
    says=$(meaning "$3")
    values=
    case $1 in check) says=$(printf '%s\n' "$says" | sed 's/in an import A says which, and LINE the OPT line of an image/A says which/') ;; esac
    case "$says $5$6$7" in
        *'in an import'*' 000') ;;
        *)
            case "$5$says" in 0*LINE* | [1-9]*) values="$values, LINE is $5" ;; esac
            case "$6$says" in 0*' A'[!A-Za-z]* | [1-9]*) values="$values, A is $6" ;; esac
            case "$7$says" in 0*' B'[!A-Za-z]* | [1-9]*) values="$values, B is $7" ;; esac
            ;;
    esac
    say "rule $3, $4: $says${values:+ Here${values#,}.}"
    advice=$(to_do "$1" "$3" "$6")
    [ -z "$advice" ] || say "$advice"
}

# the words: of a file that isn't there, where it was looked for
tell_where_looked() {
    case $1 in
        burn) say "looked for $(pwd)/$2" ;;
        deliver) say "looked for $(pwd)/$3" ;;
        claw) say "looked for $(pwd)/$4" ;;
    esac
}

# what a name would be with capitals, where it has small letters
capitals_of() {
    # shellcheck disable=SC2018,SC2019 # names have these letters alone
    case $1 in *[a-z]*) printf '%s\n' "$1" | LC_ALL=C tr 'a-z' 'A-Z' ;; esac
}

# the name of a batch that was refused
tell_batch_name() {
    case $1 in
        ?*/ | ?*\\)
            name=${1%?}
            case $name in
                */* | *\\*) ;;
                *) say "the name has no / at its end, which a shell puts there: tivrenan import $name" && return ;;
            esac
            ;;
    esac
    case $1 in
        */* | *\\*) say "the batch is a folder right in the current one, and $1 is a path: go to the folder that it lies in, or move it here" ;;
        *' '*) say "the name of a batch has no space: give the folder another name" ;;
        *[!A-Za-z0-9_-]*) say "$1 has other characters: give the folder another name" ;;
        *) [ ${#1} -le 32 ] || say "the name has ${#1} characters" ;;
    esac
}

# number, name, line, a, b as one word, then the batch: its file that isn't there
tell_in_batch() {
    batch=$2
    # shellcheck disable=SC2086 # the words of the line
    set -- $1
    case $4 in
        0) absent=load.dat ;;
        1) absent=load.opt ;;
        2) absent=words.csv ;;
        *) absent=$(LC_ALL=C awk -F , -v line="$3" '{ sub(/\r$/, "") } $0 != "" && ++count == line { print $3; exit }' "$batch/load.opt" 2> /dev/null) ;;
    esac
    absent=$(solidus "$batch/$absent" | first_name)
    say "looked for $absent"
    tell_other_name "$absent"
}

# the refusal's number and so on, then ID, VOLUME, PREFIX, WIDTH, FROM, TO and the fields
tell_request() {
    number=${1%% *}
    shift
    case $number in
        22)
            shift 6
            say "the fields that were asked for are: $*; a field is called as its column in load.dat, with the same capitals and small letters"
            ;;
        29)
            case $3 in
                *[a-z]*) say "PREFIX is $3, with small letters: $(capitals_of "$3")" ;;
                *[!A-Z0-9_-]*) say "PREFIX is $3, with a character that it can't have" ;;
                -*) say "PREFIX is $3, with - at its front" ;;
                *[0-9]) say "PREFIX is $3, with a digit at its end, where the number begins: ${3}-, say" ;;
                *) [ ${#3} -le 12 ] || say "PREFIX is $3, of ${#3} characters" ;;
            esac
            { [ "$4" -ge 4 ] && [ "$4" -le 10 ]; } || say "WIDTH is $4"
            ;;
        32)
            case $1 in *[!A-Za-z0-9_-]*) say "ID is $1, with a character that it can't have" ;; esac
            [ ${#1} -le 32 ] || say "ID is $1, of ${#1} characters"
            case $2 in
                *[a-z]*) say "VOLUME is $2, with small letters: $(capitals_of "$2")" ;;
                *[!A-Z0-9_-]*) say "VOLUME is $2, with a character that it can't have" ;;
                *) [ ${#2} -le 32 ] || say "VOLUME is $2, of ${#2} characters" ;;
            esac
            ;;
        40)
            shift 6
            for field; do
                case $field in
                    BEGDOC | ENDDOC | BEGATTACH | ENDATTACH | PAGECOUNT | DESIGNATION | WITHHELD | TEXTPATH)
                        say "$field is a column that the DAT of each volume has of itself" && return
                        ;;
                esac
            done
            twice=$(printf '%s\n' "$@" | LC_ALL=C sort | uniq -d | head -n 1)
            [ -z "$twice" ] || say "$twice is chosen twice"
            ;;
    esac
}

# file: whether it is in UTF-16, as Windows' tools write it: by its mark, or by the zero bytes of plain letters
is_utf_16() {
    head=$(head -c 4 -- "$1" 2> /dev/null | od -A n -t x1 | tr -d ' \n')
    case $head in fffe* | feff* | ??00??00 | 00??00??) ;; *) return 1 ;; esac
}

# number, name, line, a, b as one word, then DAT, OPT and MANIFEST: what stands in a volume where a rule was met, and what was due
tell_in_volume() {
    dat=$2 opt=$3 manifest=$4
    # shellcheck disable=SC2086 # the words of the line
    set -- $1
    for file in "$dat" "$opt" "$manifest"; do
        case $1 in 50 | 51 | 53 | 110 | 115 | 117) ;; *) continue ;; esac
        if [ -z "$file" ] || ! is_utf_16 "$(solidus "$file")"; then continue; fi
        say "$file is in UTF-16, as Windows' tools write it, and has to be UTF-8: iconv -f UTF-16 -t UTF-8 $file > copy"
        return
    done
    rule=$1 line=$3 place=$4 found=$5 dat=$dat opt=$opt manifest=$manifest LC_ALL=C awk -f "$explaining/volume.awk" 2> /dev/null |
        while IFS= read -r told; do
            say "$told"
            case $told in 'looked for '*) tell_other_name "${told#looked for }" ;; esac
        done
}

# a path with / between its parts
# shellcheck disable=SC1003
solidus() { printf '%s\n' "$1" | tr '\\' '/'; }

# the first of the names that are given, without what a terminal would take for more than letters
first_name() { head -n 1 | LC_ALL=C tr '\001-\011\013-\037\177' ' '; }

# a path that isn't there: the file that has its name but for capitals, or whose path ends so
tell_other_name() {
    pattern=$(printf '%s\n' "$1" | sed 's/[][*?\\]/\\&/g; s#^\./##')
    other=$(find . -ipath "./$pattern" 2> /dev/null | first_name)
    if [ -n "$other" ]; then
        say "there is ${other#./}: capitals and small letters differ"
        return
    fi
    other=$(find . -path "*/$pattern" 2> /dev/null | first_name)
    other=${other#./}
    [ -z "$other" ] || say "there is $other: the path begins in another folder, ${other%"/${1#./}"}"
}
