#!/bin/sh
# dist.sh NAME: packs the installed tree in target/dist/NAME as NAME.tar.gz, with checksums of its files and of the tarball.
# All times are SOURCE_DATE_EPOCH, so the same tree always gives the same bytes.
set -eu
cd "target/dist/$1"
strip --remove-section=.comment --remove-section=.note bin/*
find . -type f ! -name SHA256SUMS | LC_ALL=C sort | xargs sha256sum > SHA256SUMS
cd ..
tar --format=ustar --sort=name --mtime="@$SOURCE_DATE_EPOCH" --owner=0 --group=0 --numeric-owner --mode=u=rwX,go=rX \
    -cf "$1.tar" "$1"
gzip -9nf "$1.tar"
sha256sum "$1.tar.gz" > "$1.tar.gz.sha256"
cat "$1.tar.gz.sha256"
