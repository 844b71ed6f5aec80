#!/bin/sh
# Takes away what install.sh put below a folder: each file of its list, share/tivrenan/INSTALLED, and folders that are empty then.
# Words: PREFIX, or none where it is run as PREFIX/share/tivrenan/uninstall.sh. Matters, volumes and keys aren't in the list and stay.
set -eu
case ${1-} in
    -h | --help) echo 'usage: uninstall.sh [PREFIX]' && exit 0 ;;
    '') prefix=$(CDPATH='' cd -- "$(dirname -- "$0")/../.." && pwd) ;;
    /*) prefix=${DESTDIR-}$1 ;;
    *) echo "uninstall.sh: PREFIX begins with /, and $1 doesn't" >&2 && exit 64 ;;
esac
list=$prefix/share/tivrenan/INSTALLED
[ -r "$list" ] || { echo "uninstall.sh: nothing is installed below $prefix: there is no $list" >&2; exit 1; }
[ -w "$prefix" ] || { echo "uninstall.sh: $prefix can't be written by $(id -un): nothing was taken away" >&2; exit 1; }
kept=$(mktemp)
trap 'rm -f "$kept"' EXIT
cat "$list" > "$kept"
cd "$prefix"
while read -r name; do
    case $name in '' | /* | *..*) continue ;; esac
    rm -f "./$name"
done < "$kept"
sed 's#/[^/]*$##' "$kept" | LC_ALL=C sort -ur | while read -r folder; do
    while [ "$folder" != . ] && [ -n "$folder" ]; do
        rmdir "./$folder" 2> /dev/null || break
        folder=$(dirname "$folder")
    done
done
echo "tivrenan is taken away from $prefix"
