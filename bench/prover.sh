#!/bin/sh
# Times the making of proofs over a log of growing length: of one inclusion, of a thousand in one bundle, and of a
# consistency. The hashing of the entries is timed apart. It builds a program over the crates in a folder of its own, and
# leaves the repository as it was. It wants `rt` and `awk`.
#
# usage: bench/prover.sh [N ...]    each N is a number of entries; without words 25000 to 200000, doubling
#
# An entry is 32 bytes. Each time is the least of three runs.
set -eu

here=$(CDPATH='' cd -- "$(dirname "$0")" && pwd -P)
. "$here/measure.sh"
[ $# -gt 0 ] || set -- 25000 50000 100000 200000

build_over prove_log 'warg_prover warg_proof warg_hash warg_values anyhow' <<'RT'
//! Makes a log of as many entries as the standard input says, and proofs over it. Prints how long each took, in
//! nanoseconds.
#![tactic(auto)]

use anyhow::Result;
use std::alloc::Global;
use std::io;
use std::time::Instant;
use warg_hash::AnyHash;
use warg_prover::LogHashes;
use warg_values::Memory;

// A log of this many entries.
fn log_of(alloc: Global, entries: u64) -> Result<LogHashes> {
    let mut log = LogHashes::new(alloc);
    for place in 0..entries {
        let entry = AnyHash::sha256_of(&place.to_be_bytes());
        log.push(entry.bytes())?;
    }
    Ok(log)
}

// A thousand indices below a length.
fn indices_below(alloc: Global, length: u64) -> Result<Vec<u64>> {
    let mut indices = Vec::new(alloc);
    for i in 0..1000u64 {
        if indices.push(i.wrapping_mul(7919) % length.max(1)).is_err() {
            return Err(Memory.into());
        }
    }
    Ok(indices)
}

fn main(rt: HostRuntime) -> Result<()> {
    let text = io::read_to_string(rt.alloc(), rt.reader())?;
    let entries = text.trim().parse::<u64>().unwrap_or(1);
    let start = Instant::now(&rt)?;
    let log = log_of(rt.alloc(), entries)?;
    let hashing = start.elapsed(&rt)?.as_nanos();
    let count = log.len();
    let start = Instant::now(&rt)?;
    let one = log.inclusion_bundle(rt.alloc(), count, &[entries / 3])?;
    let including = start.elapsed(&rt)?.as_nanos();
    let indices = indices_below(rt.alloc(), entries)?;
    let start = Instant::now(&rt)?;
    let many = log.inclusion_bundle(rt.alloc(), count, indices.as_slice())?;
    let including_many = start.elapsed(&rt)?.as_nanos();
    let start = Instant::now(&rt)?;
    let continued = log.consistency_bundle(rt.alloc(), count / 3, count)?;
    let continuing = start.elapsed(&rt)?.as_nanos();
    let (one, many, continued) = (one.len(), many.len(), continued.len());
    println!(rt; "{count} {hashing} {including} {including_many} {continuing} {one} {many} {continued}")?;
    Ok(())
}
RT

# The least of three runs, by column: the entries, and the nanoseconds of hashing and of the three proofs.
measure() {
    for run in 1 2 3; do printf '%s' "$1" | "$program"; done | awk '
        {
            for (column = 2; column <= 5; column++)
                if (NR == 1 || $column < least[column]) least[column] = $column
            count = $1
        }
        END { print count, least[2], least[3], least[4], least[5] }'
}

printf '| entries | hashing, ms | one inclusion, ms | times the row above | 1000 inclusions, ms | one consistency, ms |\n'
printf '|---|---|---|---|---|---|\n'
before='0 0 0 0 0'
for entries in "$@"; do
    line=$(measure "$entries")
    printf '%s %s\n' "$line" "$before" | awk "$ratio"'
        {
            printf "| %d | %.1f | %.1f | %s | %.1f | %.1f |\n", $1, $2 / 1e6, $3 / 1e6, ratio($3, $8), $4 / 1e6, $5 / 1e6
        }'
    before=$line
done
