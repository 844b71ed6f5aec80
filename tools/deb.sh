#!/bin/sh
# Makes dist/tivrenan_VERSION-REVISION_ARCH.deb: what `make install` puts, below /usr, with units of systemd, nginx' configuration as
# an example, the turning of the log, and the users that the units run as. Words: none, or REVISION (1). The same commit with the same program
# makes the same package, byte for byte. Needs dpkg-deb, and what install.sh of this folder needs.
set -eu
here=$(CDPATH='' cd -- "$(dirname -- "$0")" && pwd)
top=$(dirname "$here")
version=$(sed -n 's/^version=//p' "$top/tivrenan")
revision=${1-1}
arch=$(dpkg --print-architecture)
when=$(git -C "$top" log -1 --format=%ct 2> /dev/null || date -u +%s)
export SOURCE_DATE_EPOCH="$when"
who='Tivrenan maintainers <maintainers@users.noreply.tivrenan.example>'

room=$(mktemp -d)
trap 'rm -rf "$room"' EXIT
root=$room/root
umask 022
DESTDIR=$root "$here/install.sh" /usr > /dev/null

# what apt does is not the work of these two; examples of the review page's own, for a machine with one matter, stay where they are
rm "$root/usr/share/tivrenan/uninstall.sh" "$root/usr/share/tivrenan/INSTALLED"
install -d "$root/lib/systemd/system" "$root/usr/lib/sysusers.d" "$root/etc/logrotate.d" "$root/usr/share/doc/tivrenan/examples/nginx" \
    "$root/usr/share/lintian/overrides"
mv "$root"/usr/share/tivrenan/services/systemd/* "$root/lib/systemd/system/"
mv "$root/usr/share/tivrenan/services/sysusers/tivrenan.conf" "$root/usr/lib/sysusers.d/tivrenan.conf"
mv "$root/usr/share/tivrenan/services/logrotate/tivrenan" "$root/etc/logrotate.d/tivrenan"
mv "$root/usr/share/tivrenan/services/nginx/tivrenan-matters.conf" "$root/usr/share/doc/tivrenan/examples/nginx/"
cp "$root/usr/share/tivrenan/desk_page/nginx/desk_page.conf" "$root/usr/share/doc/tivrenan/examples/nginx/"
rmdir "$root"/usr/share/tivrenan/services/systemd "$root"/usr/share/tivrenan/services/sysusers "$root"/usr/share/tivrenan/services/logrotate

# the license as Debian's policy wants it: its text stands on each machine already
{
    printf 'Format: https://www.debian.org/doc/packaging-manuals/copyright-format/1.0/\nUpstream-Name: tivrenan\n\n'
    printf 'Files: *\nCopyright: 2026 the authors of Tivrenan\nLicense: Apache-2.0\n\n'
    printf 'License: Apache-2.0\n On Debian systems the text stands in /usr/share/common-licenses/Apache-2.0.\n'
} > "$root/usr/share/doc/tivrenan/copyright"
{
    printf 'tivrenan (%s-%s) bookworm; urgency=medium\n\n' "$version" "$revision"
    printf '  * The program as it was proved and built, with what an office needs beside it.\n\n'
    printf ' -- %s  %s\n' "$who" "$(LC_ALL=C date -u -R -d "@$when")"
} | gzip -9 -n > "$root/usr/share/doc/tivrenan/changelog.Debian.gz"
# the program stands as it was built and proved: nothing is stripped off it afterwards
cat > "$root/usr/share/lintian/overrides/tivrenan" << 'TEXT'
tivrenan: unstripped-binary-or-object [usr/lib/tivrenan/bp_main]
TEXT
find "$root" -name '*.md' -path '*/usr/share/tivrenan/desk_page/*' -exec chmod 644 {} +

# the least C library that the program can be run with
libc=$(objdump -T "$root/usr/lib/tivrenan/bp_main" 2> /dev/null | grep -o 'GLIBC_[0-9.]*' | sed 's/GLIBC_//' | sort -V | tail -n 1)
install -d "$root/DEBIAN"
cat > "$root/DEBIAN/control" << TEXT
Package: tivrenan
Version: $version-$revision
Architecture: $arch
Maintainer: $who
Installed-Size: $(du -sk --exclude=DEBIAN "$root" | cut -f1)
Depends: libc6 (>= ${libc:-2.34}), python3
Recommends: nginx, libnginx-mod-http-js, openssl, curl, sqlite3, systemd, poppler-utils, libtiff-tools, netpbm, python3-numpy, tesseract-ocr
Suggests: slurm-wlm, logrotate, apache2-utils
Section: utils
Priority: optional
Description: press that makes the volume a law office hands over
 Takes scanned pages in, serves the desk at which people decide what is
 withheld or redacted, freezes these decisions, and writes the volume: pages
 with their boxes burned in and their numbers, slip sheets, texts, load files,
 privilege log. That no byte of a volume depends on what is withheld is proved.
 .
 With it come units of systemd that serve many matters on one machine, each in
 a network of its own behind nginx, backup and restore, and an audit trail.
TEXT
echo /etc/logrotate.d/tivrenan > "$root/DEBIAN/conffiles"
for each in postinst prerm postrm; do install -m 755 "$here/deb/$each" "$root/DEBIAN/$each"; done
(cd "$root" && find . -path ./DEBIAN -prune -o -type f -printf '%P\n' | LC_ALL=C sort | xargs -d '\n' md5sum > DEBIAN/md5sums)
find "$root" -newermt "@$when" -exec touch -h -d "@$when" {} +

mkdir -p "$top/dist"
name=tivrenan_$version-${revision}_$arch.deb
dpkg-deb --root-owner-group -Zxz --build "$root" "$room/$name" > /dev/null
mv "$room/$name" "$top/dist/$name"
echo "dist/$name"
