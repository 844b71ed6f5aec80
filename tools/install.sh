#!/bin/sh
# Puts the built program and all that goes with it below a folder, where Debian's conventions want them. PREFIX holds then
#   bin/tivrenan                     the launcher, with bin/tivrenan-backup and the other programs for offices
#   lib/tivrenan/bp_main             the program
#   share/tivrenan/                  what these read: the page of statuses, the launcher's parts, what explains refusals, the
#                                    programs, the review page, units of systemd and configuration of nginx (services/), uninstall.sh, and INSTALLED
#   share/doc/tivrenan/              README, guide, formats, license, and examples/ with the letter, the batch and pictures
#   share/man/man1/, share/bash-completion/completions/
# INSTALLED has a line for each file that was put there, by its path below PREFIX; share/tivrenan/uninstall.sh takes them away.
# It runs in a clone, where the program is built first if it isn't, and nothing is left half: what was there before is replaced.
set -eu
here=$(CDPATH='' cd -- "$(dirname -- "$0")" && pwd)
top=$(dirname "$here")

usage() {
    cat << 'TEXT'
usage: tools/install.sh PREFIX
       tools/install.sh --help

Builds the program where it isn't built, and copies it with all that goes with it below PREFIX, as /usr/local: programs into bin,
what they read into lib/tivrenan and share/tivrenan, documents into share/doc/tivrenan, pages of the manual, bash's completion.
DESTDIR in the environment goes before PREFIX, for those who make packages. It needs to write there: run it as root, or with
a PREFIX of your own, as $HOME/.local.

PREFIX/share/tivrenan/INSTALLED lists what was put where; PREFIX/share/tivrenan/uninstall.sh (make uninstall) takes it away. No matter,
no volume and no key is ever among it.
TEXT
}

case ${1-} in -h | --help) usage && exit 0 ;; esac
[ $# -eq 1 ] || { usage >&2; exit 64; }
case $1 in /*) ;; *) echo "install.sh: PREFIX begins with /, and $1 doesn't" >&2; exit 64 ;; esac
into=${DESTDIR-}$1
umask 022
mkdir -p "$into" 2> /dev/null || :
[ -w "$into" ] || { echo "install.sh: $into can't be written by $(id -un): nothing was installed" >&2; exit 1; }

"$top/tivrenan" build

list=$(mktemp)
trap 'rm -f "$list"' EXIT
note() { printf '%s\n' "$1" >> "$list"; }
file() { install -D -m 644 "$top/$1" "$into/$2" && note "$2"; }
program() { install -D -m 755 "$top/$1" "$into/$2" && note "$2"; }

# folder, where to: its files but what programs left there, each as the one that stands there before is replaced
folder() {
    rm -rf "${into:?}/$2"
    (cd "$top/$1" && find . -type f ! -path '*/__pycache__/*' ! -path '*/out/*' ! -path './tests/*' ! -name pictures.sh) | sed 's#^\./##' > "$list.names"
    while read -r name; do
        if [ -x "$top/$1/$name" ]; then program "$1/$name" "$2/$name"; else file "$1/$name" "$2/$name"; fi
    done < "$list.names"
    rm "$list.names"
}

# name in bin, program below share/tivrenan/tools
link() { ln -sf "../share/tivrenan/tools/$2" "$into/bin/$1" && note "bin/$1"; }

program tivrenan bin/tivrenan
program crates/bp_main/out/bp_main lib/tivrenan/bp_main

file docs/STATUSES.md share/tivrenan/STATUSES.md
file README.md share/tivrenan/README.md
program tools/uninstall.sh share/tivrenan/uninstall.sh
programs='make_batch matter_report take_volume check_report volume_as fetch_volume'
for each in $programs; do
    program "tools/$each" "share/tivrenan/tools/$each"
    link "tivrenan-$(echo "$each" | tr _ -)" "$each"
done
for each in matter_key matter_status matter_backup matter_restore matter_audit; do program "tools/$each" "share/tivrenan/tools/$each"; done
for each in backup restore audit; do link "tivrenan-$each" "matter_$each"; done
for each in batch explain keep launcher report volumes; do folder "tools/$each" "share/tivrenan/tools/$each"; done
[ ! -d "$top/desk_page" ] || folder desk_page share/tivrenan/desk_page
folder services share/tivrenan/services

doc=share/doc/tivrenan
for each in README.md docs/STATUSES.md docs/FORMATS.md docs/PROMISES.md docs/GUIDE.md docs/REVIEWER.md; do
    [ ! -e "$top/$each" ] || file "$each" "$doc/${each##*/}"
done
# their pictures, where they stand here
for each in "$top"/examples/*.png "$top/examples/cluster.svg"; do file "examples/${each##*/}" "$doc/examples/${each##*/}"; done
sed -i -E -e 's#\]\((\.\./)?desk_page/#](../../tivrenan/desk_page/#' -e 's#\]\(\.\./examples/#](examples/#' "$into/$doc/README.md" "$into/$doc/GUIDE.md"
file LICENSE "$doc/copyright"
file examples/letter.tif "$doc/examples/letter.tif"
for each in cluster.sh cluster_figure.py; do program "examples/$each" "$doc/examples/$each"; done
folder examples/CVI_001 "$doc/examples/CVI_001"

for page in "$top"/man/*.1; do
    install -D -m 644 "$page" "$into/share/man/man1/${page##*/}"
    gzip -9 -n -f "$into/share/man/man1/${page##*/}"
    note "share/man/man1/${page##*/}.gz"
done
file tools/completion.bash share/bash-completion/completions/tivrenan
for each in $programs backup restore audit; do
    completed=share/bash-completion/completions/tivrenan-$(echo "$each" | tr _ -)
    ln -sf tivrenan "$into/$completed"
    note "$completed"
done

note share/tivrenan/INSTALLED
LC_ALL=C sort "$list" > "$into/share/tivrenan/INSTALLED"
chmod 644 "$into/share/tivrenan/INSTALLED"
echo "tivrenan is installed below $into"
