#!/bin/sh
# libc.sh PROGRAM...: prints the version of glibc that the programs need, by the names of versions in them.
set -eu
grep -aoh 'GLIBC_2[.0-9]*' "$@" | sort -uV | tail -n 1 | cut -d _ -f 2
