#!/bin/sh
# Makes dist/tivrenan-VERSION-MACHINE.tar.gz: the built program and all that goes with it, which runs where it is unpacked, as
# bin/tivrenan, without sources and without the kit; install.sh in it copies it below a prefix. The same commit with the same
# program makes the same archive, byte for byte. Needs what install.sh of this folder needs.
set -eu
here=$(CDPATH='' cd -- "$(dirname -- "$0")" && pwd)
top=$(dirname "$here")
version=$(sed -n 's/^version=//p' "$top/tivrenan")
name=tivrenan-$version-$(uname -m)
when=$(git -C "$top" log -1 --format=%ct 2> /dev/null || date -u +%s)

room=$(mktemp -d)
trap 'rm -rf "$room"' EXIT
unset DESTDIR
"$here/install.sh" "$room/$name" > /dev/null

install -m 755 "$here/unpacked_install.sh" "$room/$name/install.sh"
cp "$top/LICENSE" "$room/$name/LICENSE"
cat > "$room/$name/README" << 'END'
Tivrenan makes the volume that a law office hands over. Run it from here as bin/tivrenan, or copy it below a prefix:

    ./install.sh /usr/local

share/doc/tivrenan/README.md says what it does and what is promised of it, and GUIDE.md beside it goes through an office's days.
To try it:

    mkdir trial && cd trial
    cp TIVRENAN/share/doc/tivrenan/examples/letter.tif .
    TIVRENAN/bin/tivrenan burn letter.tif 320 1755 1910 370 redacted.tif g4

where TIVRENAN is this folder. SHA256SUMS has the sum of each file.
END
(cd "$room/$name" && find . -type f ! -name SHA256SUMS -exec sha256sum {} + | LC_ALL=C sort -k 2 > "$room/sums" && mv "$room/sums" SHA256SUMS)

mkdir -p "$top/dist"
tar -C "$room" --sort=name --owner=0 --group=0 --numeric-owner --mtime="@$when" -cf - "$name" | gzip -9 -n > "$room/archive"
mv "$room/archive" "$top/dist/$name.tar.gz"
echo "dist/$name.tar.gz"
