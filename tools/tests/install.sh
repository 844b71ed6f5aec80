#!/bin/sh
# Tries what makes, packs and installs the program: in a copy of this repository, with a command rt that proves nothing and a
# program that only prints, so that it takes a minute and no kit. How the launcher proves crate by crate, what it says when
# one fails, what a signal leaves; `make install`, `make dist`, and the launcher where there are no sources. Where the real program
# is built here, the archive is tried with it too: as nobody, in a folder of its own.
# Needs git, make, python3, bash; says what it leaves out where man or Debian's setpriv isn't there.
set -eu
here=$(CDPATH='' cd -- "$(dirname -- "$0")" && pwd)
top=$(CDPATH='' cd -- "$here/../.." && pwd)
umask 022 # others have to read what is unpacked
room=$(mktemp -d)
trap 'rm -rf "$room"' EXIT
chmod 755 "$room"
copy=$room/copy
mkdir "$copy" "$room/fake"
(cd "$top" && git ls-files -z -c -o --exclude-standard | tar --null --ignore-failed-read -T - -cf - 2> /dev/null) | tar -C "$copy" -xf -
git -C "$copy" init -q
git -C "$copy" add -A
git -C "$copy" -c user.name=a -c user.email=a@b -c commit.gpgsign=false commit -q -m trial

checks=0 failed=0
# name, what is to be true
check() {
    name=$1
    shift
    checks=$((checks + 1))
    "$@" || {
        failed=$((failed + 1))
        echo "install.sh: not so: $name"
    }
}
is() { [ "$1" = "$2" ] || { echo "  '$1' and not '$2'" && return 1; }; }
holds() { grep -q -- "$1" "$2" || { cat "$2" && return 1; }; }

# rt: a library takes PAUSE seconds, FAIL names one that isn't proved; each writes when it began and ended
cat > "$room/fake/rt" << END
#!/bin/sh
name=\${PWD##*/}
case \$1 in
    lib)
        echo "\$(date +%s.%N) begins \$name" >> "$room/events"
        [ "\$name" != "\${FAIL-}" ] || { echo 'not proved'; exit 1; }
        sleep "\${PAUSE-0.3}"
        echo "\$(date +%s.%N) ends \$name" >> "$room/events"
        ;;
    run)
        mkdir -p out
        cp "$room/fake/program" out/bp_main
        out/bp_main
        ;;
esac
END
cat > "$room/fake/program" << 'END'
#!/bin/sh
case ${1-} in
    '') echo 'words refused' && exit 1 ;;
    burn) echo 'refused 85 TiffMeaning 0 258 0' && exit 2 ;;
    import) echo "imports $2" ;;
    *) echo "ran $*" ;;
esac
END
chmod +x "$room/fake/rt" "$room/fake/program"
PATH=$room/fake:$PATH
export PATH

# status of a command whose words on both outputs stand in $room/said
status_of() {
    status=0
    "$@" > "$room/said" 2>&1 || status=$?
}

echo 'the first build'
: > "$room/events"
status_of env FAIL=bp_text "$copy/tivrenan" init x
check 'a crate that is not proved ends the build' is "$status" 69
check 'it says which, and where' holds 'bp_text could not be proved; what rt said is in .*/bp_text.log' "$room/said"
pause=7.$$ # a number that no other trial sleeps
# seconds: status of a build whose processes are ended by ten signals, so long one after another: one comes while another is answered
ended_build() {
    : > "$room/events"
    env PAUSE=$pause setsid "$copy/tivrenan" build > "$room/said" 2>&1 &
    launcher=$!
    for _ in $(seq 100); do [ -s "$room/events" ] || sleep 0.1; done
    python3 "$room/signals.py" "$launcher" "$1"
    status=0
    wait "$launcher" || status=$?
}
cat > "$room/signals.py" << 'END'
import os, signal, sys, time
for _ in range(10):
    try:
        os.killpg(int(sys.argv[1]), signal.SIGTERM)
    except ProcessLookupError:
        break
    until = time.monotonic() + float(sys.argv[2])
    while time.monotonic() < until:
        pass
END
sleeps() { grep -lxz "$pause" /proc/[0-9]*/cmdline 2> /dev/null; }
# what was ended may take a moment to go
nothing_sleeps() {
    for _ in 1 2 3 4 5; do sleeps > "$room/left" && sleep 0.2 || return 0; done
    cat "$room/left" && return 1
}
for apart in 0.00002 0.0001 0.0003 0.001; do
    ended_build "$apart"
    check "signals end the build, $apart s apart" is "$status" 143
    check "and leave nothing that runs, $apart s apart" nothing_sleeps
done
: > "$room/events"
status_of "$copy/tivrenan" init x
check 'the program is built and run' is "$status" 0
check 'its line is passed on' holds '^ran init x$' "$room/said"
status_of "$copy/tivrenan" import 'a  b'
check 'a word with spaces stays one word' is "$status$(cat "$room/said")" '0imports a  b'
mkdir -p "$room/lib/tivrenan"
printf '#!/bin/sh\necho another program\n' > "$room/lib/tivrenan/bp_main"
chmod +x "$room/lib/tivrenan/bp_main"
status_of "$copy/tivrenan" init x
check 'beside its sources the launcher runs the program built from them' is "$status$(cat "$room/said")" '0ran init x'
rm -r "$room/lib"
cat > "$room/order.py" << 'END'
import sys
below = {}
for line in open(sys.argv[1]):
    name, _, needs = line.split("#")[0].partition(":")
    if name.strip():
        below[name.split()[0]] = needs.split()
running, ended, most = set(), set(), 0
for line in open(sys.argv[2]):
    _, what, name = line.split()
    if what == "begins":
        assert name not in ended | running, f"{name} twice"
        assert all(each in ended for each in below[name] if each in below), f"{name} too early"
        running.add(name)
        most = max(most, len(running))
    else:
        running.remove(name)
        ended.add(name)
needed, todo = set(), ["bp_main"]
while todo:
    name = todo.pop()
    if name in below and name not in needed:
        needed.add(name)
        todo += below[name]
assert ended == needed - {"bp_main"}, needed ^ ended
# where memory is short, one at a time
assert most >= min(2, int(sys.argv[3])) or int(sys.argv[4]) < 12_000_000, most
END
check 'each crate once, after those below it, side by side' python3 "$room/order.py" "$copy/crates.txt" "$room/events" "$(nproc)" "$(awk '/^MemAvailable/ { print $2 }' /proc/meminfo)"
: > "$room/events"
status_of "$copy/tivrenan" build
check 'nothing is built twice' is "$status$(cat "$room/events" "$room/said")" 0
status_of "$copy/tivrenan" build look
check 'look sees that it is built' is "$status$(cat "$room/said")" 0
echo '// changed' >> "$copy/crates/bp_core/src/lib.rt"
status_of "$copy/tivrenan" build look
check 'and that it is not, and builds nothing' is "$status$(cat "$room/events")" 69
status_of "$copy/tivrenan" build gate
check 'a program older than its sources is not taken for what the gate built' is "$status" 69
check 'and the source is named' holds 'crates/bp_core/src/lib.rt is newer' "$room/said"
touch "$copy/crates/bp_main/out/bp_main"
status_of "$copy/tivrenan" build gate
check 'one that the gate has just built is' is "$status$(cat "$room/said")" 0
status_of "$copy/tivrenan" build
check 'and nothing is built once more' is "$status$(cat "$room/events" "$room/said")" 0

echo 'make install'
status_of make -C "$copy" install PREFIX="$room/usr"
check 'it installs' is "$status" 0
mkdir "$room/empty"
cd "$room/empty"
ln -s "$room/usr/bin/tivrenan" "$room/link"
for launcher in "$room/usr/bin/tivrenan" "$room/link"; do
    status_of "$launcher" init x
    check 'the installed launcher runs the program' is "$status$(cat "$room/said")" '0ran init x'
done
status_of "$room/usr/bin/tivrenan" burn a
check 'a status is passed on' is "$status" 2
check 'a rule is explained' holds 'The page is grey or in colour' "$room/said"
status_of "$room/usr/bin/tivrenan" version
check 'the kit is told' holds '^tivrenan [0-9.]*, proved with rattle-kit' "$room/said"
status_of "$room/usr/bin/tivrenan" help statuses
check 'statuses are told' holds 'keeper fault' "$room/said"
status_of "$room/usr/bin/tivrenan" build
check 'build says that it is installed' is "$status$(cat "$room/said")" '0tivrenan: the program is installed; it is built where its sources are'
status_of "$room/usr/bin/tivrenan"
check 'no words' is "$status" 64
status_of "$room/usr/bin/tivrenan-matter-report"
check 'the report runs' is "$(cat "$room/said")" \
    'tivrenan-matter-report: matter.db: there is no such file; tivrenan keeps a matter in matter.db of its folder'
status_of "$room/usr/bin/tivrenan-make-batch" "$room/none" "$room/B"
check 'make_batch runs' holds 'none: there is no such folder' "$room/said"
status_of "$room/usr/bin/tivrenan-take-volume" "$room/none" "$room/B"
check 'take_volume runs' holds 'none: there is no such folder' "$room/said"
status_of "$room/usr/bin/tivrenan-volume-as" "$room/none" "$room/B" pdf
check 'volume_as runs' holds 'none: there is no such folder' "$room/said"
status_of "$room/usr/bin/tivrenan-check-report" none.dat none.opt
check 'check_report runs' holds 'tivrenan check: refused 54 FileAbsent 0 0 0' "$room/said"
status_of "$room/usr/bin/tivrenan-fetch-volume" ftp://nobody
check 'fetch_volume runs' holds 'URL begins with https' "$room/said"
cat > "$room/links.py" << 'END'
import os, re, sys
for name in ("README.md", "GUIDE.md"):
    with open(os.path.join(sys.argv[1], name), encoding="utf-8") as file:
        for link in re.findall(r"!\[[^]]*\]\(([^)]*)\)", file.read()):
            assert os.path.isfile(os.path.join(sys.argv[1], link)), f"{name}: {link}"
END
check 'each picture of the documents is there' python3 "$room/links.py" "$room/usr/share/doc/tivrenan"
check 'the page of the manual is there' test -s "$room/usr/share/man/man1/tivrenan.1.gz"
if command -v man > /dev/null; then
    check 'man reads it' sh -c "man -l '$room/usr/share/man/man1/tivrenan.1.gz' 2>&1 | tr -s ' ' | grep -q 'blackens in the page file'"
else
    echo 'install.sh: man is not here, and does not read the page of the manual'
fi
check 'nothing was written where it runs' is "$(ls -A)" ''
rm "$room/usr/lib/tivrenan/bp_main"
status_of "$room/usr/bin/tivrenan" init x
check 'without its program it ends with 69' is "$status" 69
check 'and says which' holds '/lib/tivrenan/bp_main can.t be run' "$room/said"
mkdir "$room/alone"
cp "$top/tivrenan" "$room/alone/"
status_of "$room/alone/tivrenan" init x
check 'without program and sources it ends with 69' is "$status" 69

echo 'make uninstall'
cp -R "$room/usr" "$room/usr4"
echo x > "$room/usr4/share/other"
(cd "$room/usr4" && find . ! -type d ! -path ./share/other | sed 's#^./##') > "$room/there"
echo 'lib/tivrenan/bp_main' >> "$room/there"
check 'the list has all that was put there' is "$(LC_ALL=C sort "$room/there" | diff - "$room/usr4/share/tivrenan/INSTALLED")" ''
status_of "$room/usr4/share/tivrenan/uninstall.sh"
check 'it takes it away' is "$status" 0
check 'and nothing else' is "$(cd "$room/usr4" && find . -type f)" './share/other'
status_of make -C "$copy" uninstall PREFIX="$room/usr4"
check 'twice is said' holds 'nothing is installed below' "$room/said"
status_of "$copy/tools/install.sh" --help
check 'it tells its words' is "$status$(head -n 1 "$room/said")" '0usage: tools/install.sh PREFIX'

echo 'completion'
mkdir -p VOL_1
: > VOL_1/load.opt
cat > "$room/complete.bash" << END
. "$room/usr/share/bash-completion/completions/tivrenan"
words() { COMP_WORDS=("\$@") COMP_CWORD=\$((\$# - 1)); _tivrenan; echo "\${COMPREPLY[*]}"; }
words tivrenan i
words tivrenan import V
words tivrenan burn a 0 0 8 1 b p
words tivrenan help st
COMP_WORDS=(tivrenan-volume-as VOL_1 OUT p) COMP_CWORD=3
_tivrenan_program tivrenan-volume-as
echo "\${COMPREPLY[*]}"
COMP_WORDS=(tivrenan-make-batch --families l) COMP_CWORD=2
_tivrenan_program tivrenan-make-batch
echo "\${COMPREPLY[*]}"
END
check 'words are completed' is "$(bash "$room/complete.bash" | tr '\n' ';')" 'init import;VOL_1;plain;statuses;pdf;leaf;'
echo "words tivrenan ''" >> "$room/complete.bash"
table=$room/usr/share/tivrenan/tools/launcher/commands
check 'all commands are completed' is "$(bash "$room/complete.bash" | tail -n 1)" "$(awk '$1 == "command" || $1 == "own" { print $2 }' "$table" | tr '\n' ' ' | sed 's/ $//')"
# a new command is written once, in the table
printf '\ncommand  fold\noperands NAME TIMES\ndoes     folds\nform     TIMES  number 1 9\nsignal   Nothing.\n' >> "$table"
check 'a command of the table is completed' is "$(bash "$room/complete.bash" | tail -n 1 | tr ' ' '\n' | grep -x fold)" fold
status_of "$room/usr/bin/tivrenan" help fold
check 'its usage is told' is "$(head -n 1 "$room/said")" 'usage: tivrenan fold NAME TIMES'
sed -i '/^command  fold$/,$d' "$table"
rm -r VOL_1

# archive, prefix: unpacked and run by nobody where that can be, in a folder of its own; `words` are tried
try_archive() {
    rm -rf "$room/unpacked" "$room/trial"
    mkdir "$room/unpacked" "$room/trial"
    tar -C "$room/unpacked" -xzf "$1"
    unpacked=$(echo "$room"/unpacked/*)
    chmod 777 "$room/trial"
    cd "$room/trial"
    cp "$unpacked/share/doc/tivrenan/examples/letter.tif" .
    chmod 644 letter.tif
}
nobody=
as_nobody='setpriv --reuid=65534 --regid=65534 --clear-groups'
# shellcheck disable=SC2086 # a list of words
if [ "$(id -u)" -eq 0 ] && $as_nobody true 2> /dev/null; then
    nobody=$as_nobody
else
    echo 'install.sh: the archive is tried as this user, and not as nobody'
fi
# without the kit: the system's own folders
plain="env -i PATH=/usr/bin:/bin HOME=/nonexistent"

echo 'make dist'
status_of make -C "$copy" dist
check 'it packs' is "$status" 0
archive=$(echo "$copy"/dist/*.tar.gz)
sum=$(sha256sum < "$archive")
status_of make -C "$copy" dist
check 'the same archive twice' is "$(sha256sum < "$archive")" "$sum"
try_archive "$archive"
# shellcheck disable=SC2086 # lists of words
status_of $nobody $plain "$unpacked/bin/tivrenan" init x
check 'it runs where it is unpacked' is "$status$(cat "$room/said")" '0ran init x'
status_of "$unpacked/install.sh" "$room/usr2"
check 'it installs itself' is "$status" 0
status_of "$unpacked/install.sh" "$room/usr2"
check 'and once more over itself' is "$status" 0
status_of "$unpacked/install.sh" --help
check 'it tells its words, too' holds '^usage: install.sh' "$room/said"
status_of "$copy/tools/install.sh" "$room/usr"
check 'as make install does' is "$(diff -r "$room/usr" "$room/usr2")" ''
echo x >> "$unpacked/lib/tivrenan/bp_main"
status_of "$unpacked/install.sh" "$room/usr3"
check 'a damaged archive is refused' is "$status$(tail -n 1 "$room/said")" '1install.sh: the archive is damaged; nothing was installed'
check 'and nothing installed' test ! -e "$room/usr3"
PATH=${PATH#*:}

if "$top/tivrenan" build look > /dev/null 2>&1; then
    echo 'with the program'
    status_of "$top/tools/dist.sh"
    check 'it packs the program' is "$status" 0
    try_archive "$(echo "$top"/dist/*.tar.gz)"
    # shellcheck disable=SC2086 # lists of words
    status_of $nobody $plain "$unpacked/bin/tivrenan" burn letter.tif 320 1755 1910 370 redacted.tif g4
    check 'the letter is burned' is "$status$(cat "$room/said")" '0burned 31176'
    cp -R "$unpacked/share/doc/tivrenan/examples/CVI_001" .
    # shellcheck disable=SC2086 # lists of words
    status_of $nobody $plain "$unpacked/bin/tivrenan" init "$(printf key | sha256sum | cut -c1-64)"
    # shellcheck disable=SC2086 # lists of words
    status_of $nobody $plain "$unpacked/bin/tivrenan" import CVI_001
    check 'the batch comes in' is "$status$(cat "$room/said")" '0batch CVI_001 documents 12 pages 31'
    # shellcheck disable=SC2086 # lists of words
    status_of $nobody $plain "$unpacked/bin/tivrenan-matter-report" matter.db report.html
    check 'it is reported' is "$status$(cat "$room/said")" '0report.html'
else
    echo 'install.sh: the program is not built here, and its archive is not tried'
fi

cd /
echo "$checks checks, $failed not as expected"
[ "$failed" -eq 0 ]
