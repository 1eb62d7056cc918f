#!/bin/sh
# Shows which modules of a crate took longest in its last check: how long after the one before it each was kept, in seconds.
# It says what it says only after a check of the crate from nothing, by one process (`rm -rf out; rt check --jobs 1`, or
# `rt test --jobs 1` in a crate of tests), with nothing else running.
#
# usage: bench/modules.sh NAME [COUNT]    the COUNT longest, 20 without it
#
# It needs GNU's `find`.
set -eu

here=$(CDPATH='' cd -- "$(dirname "$0")" && pwd -P)
. "$here/measure.sh"
[ $# -ge 1 ] || fail "a crate's name is missing"
kept=$here/../crates/$1/out/incremental
[ -d "$kept" ] || fail "no check of $1 has kept anything in $kept"
find "$kept" -name '*.oantt' -printf '%T@ %f\n' | sort -n |
    awk 'NR > 1 { printf "%.1f %s\n", $1 - before, $2 } { before = $1 }' |
    sed 's/ Rattle-[a-z0-9_]*-/ /; s/\.oantt$//; s/\.decls$//' | sort -rn | sed "${2:-20}q"
