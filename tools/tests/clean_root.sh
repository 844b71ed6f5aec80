#!/bin/sh
# Makes a clean root of Debian 12 in the folder FOLDER, with what the package recommends for services, by debootstrap: some 350 MB and some
# minutes, and the network of Debian's archive. TIVRENAN_ROOT=FOLDER then has the package and the units tried there. Needs root.
set -eu
[ $# -eq 1 ] || { echo 'usage: clean_root.sh FOLDER' >&2; exit 64; }
command -v debootstrap > /dev/null || { echo "clean_root.sh: needs debootstrap (Debian's package of that name)" >&2; exit 1; }
with=systemd,systemd-sysv,dbus,nginx,libnginx-mod-http-js,openssl,ca-certificates,curl,sqlite3,python3,psmisc,procps,logrotate,man-db
exec debootstrap --variant=minbase --include="$with,apache2-utils,iproute2" bookworm "$1" "${DEBIAN_ARCHIVE-http://deb.debian.org/debian}"
