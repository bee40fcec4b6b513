#!/bin/sh
# deb.sh VERSION: packs the tree in target/deb, installed for /usr, as a Debian package in target/dist. Times as in dist.sh.
set -eu
cd target/deb
strip --remove-section=.comment --remove-section=.note usr/bin/*
find usr/share/man usr/share/doc/eremothyn/changelog -type f -exec gzip -9nf {} +
mkdir DEBIAN
find usr -type f | LC_ALL=C sort | xargs md5sum > DEBIAN/md5sums
size=$(find usr -type f -exec cat {} + | wc -c)
libc=$(../../packaging/libc.sh usr/bin/*)
sed -e "s|@VERSION@|$1|" -e "s|@SIZE@|$(((size + 1023) / 1024))|" -e "s|@LIBC@|$libc|" ../../packaging/control.in > DEBIAN/control
chmod -R u=rwX,go=rX .
find . -exec touch -h -d "@$SOURCE_DATE_EPOCH" {} +
mkdir -p ../dist
dpkg-deb --root-owner-group --build . "../dist/eremothyn_$1_amd64.deb"
