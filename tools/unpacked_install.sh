#!/bin/sh
# Copies what this archive holds below a folder. Words: PREFIX, as /usr/local; none: /usr/local. Needs no sources and no kit; the
# program also runs from here, as bin/tivrenan. First the archive's sums are compared.
set -eu
cd "$(dirname -- "$0")"
prefix=${1-/usr/local}
case $prefix in
    -h | --help)
        echo 'usage: install.sh [PREFIX]'
        echo
        echo 'Copies bin, lib and share below PREFIX, /usr/local where none is said; DESTDIR in the environment goes before it. It needs to'
        echo 'write there: run it as root, or with a PREFIX of your own. PREFIX/share/tivrenan/INSTALLED lists what was put where, and'
        echo 'PREFIX/share/tivrenan/uninstall.sh takes it away.'
        exit 0
        ;;
    /*) ;;
    *) echo "install.sh: PREFIX begins with /, and $prefix doesn't" >&2; exit 64 ;;
esac
umask 022
sha256sum --quiet --strict -c SHA256SUMS || { echo "install.sh: the archive is damaged; nothing was installed" >&2; exit 1; }
into=${DESTDIR-}$prefix
mkdir -p "$into" 2> /dev/null || :
[ -w "$into" ] || { echo "install.sh: $into can't be written by $(id -un): nothing was installed" >&2; exit 1; }
# what an earlier one put there goes first
[ ! -x "$into/share/tivrenan/uninstall.sh" ] || "$into/share/tivrenan/uninstall.sh" > /dev/null
rm -rf "$into/share/tivrenan" "$into/share/doc/tivrenan"
cp -R bin lib share "$into/"
echo "tivrenan is installed below $into"
