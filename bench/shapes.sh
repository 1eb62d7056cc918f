#!/bin/sh
# Times the reading of shapes of components that `components.sh` writes, in a program that only reads. It builds a program
# over the crates in a folder of its own, and leaves the repository as it was. It wants `rt` and `awk`, and for the column
# of memory GNU's `/usr/bin/time`.
#
# usage: bench/shapes.sh [KIND N ...]    kinds and numbers in turn; without words the table in README.md
#
# Each time is the least of three runs.
set -eu

here=$(CDPATH='' cd -- "$(dirname "$0")" && pwd -P)
. "$here/measure.sh"
[ $# -gt 0 ] || set -- exports 100000 exports 200000 exports 400000 types 50000 types 100000 aliases 250000 aliases 500000 \
    instances 5000 instances 10000 doubled 10000 doubled 20000 sections 32 sections 64

build_over shape_reader 'comp_shape warg_values anyhow' <<'RT'
//! Reads the shape of the component that the standard input is, and prints how long that took, in nanoseconds, and how many
//! imports and exports it has.
#![tactic(auto)]

use anyhow::Result;
use comp_shape::read_shape;
use std::io::Read;
use std::time::Instant;

fn main(rt: HostRuntime) -> Result<()> {
    let mut bytes = Vec::new(rt.alloc());
    rt.reader().read_to_end(&mut bytes)?;
    let start = Instant::now(&rt)?;
    let shape = read_shape(rt.alloc(), &bytes);
    let taken = start.elapsed(&rt)?.as_nanos();
    match shape {
        Ok(shape) => println!(rt; "{taken} {} {}", shape.imports.len(), shape.exports.len())?,
        Err(error) => println!(rt; "{taken} {error:?}")?,
    }
    Ok(())
}
RT

# The least of three runs, in nanoseconds, and what was read.
measure() {
    for run in 1 2 3; do
        "$program" <"$work/root.wasm"
    done | sort -n | head -n 1
}

printf '| kind | N | bytes | read, ms | times the row above | peak, KiB | peak to bytes | imports and exports |\n'
printf '|---|---|---|---|---|---|---|---|\n'
before_kind=
before=0
while [ $# -gt 1 ]; do
    "$here/components.sh" "$1" "$2" >"$work/root.wasm"
    measured=$(measure)
    peak=$(peak_of sh -c '"$0" <"$1"' "$program" "$work/root.wasm")
    [ "$before_kind" = "$1" ] || before=0
    printf '%s\n' "$measured" | awk -v kind="$1" -v count="$2" -v bytes="$(size_of "$work/root.wasm")" \
        -v before="$before" -v peak="$peak" "$ratio"'
        {
            taken = $1
            $1 = ""
            printf "| %s | %d | %d | %.1f | %s | %s | %s |%s |\n", kind, count, bytes, taken / 1e6, ratio(taken, before), \
                peak, ratio(peak * 1024, bytes), $0
        }'
    before=${measured%% *}
    before_kind=$1
    shift 2
done
