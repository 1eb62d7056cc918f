#!/bin/sh
# Times the validation and the replay of a package's log, and the choice of a release from it, at growing lengths: the
# time is to grow as n log n at most. It builds a program over the crates in a folder of its own, and leaves the
# repository as it was. It wants `rt` and `awk`.
#
# usage: bench/records.sh [N ...]    each N is a number of releases; without words 5000 to 40000, doubling
#
# Each release stands in a record of its own. A signature is listed for each record, so the verifier's list is as long as
# the log. Each time is the least of three runs.
set -eu

here=$(CDPATH='' cd -- "$(dirname "$0")" && pwd -P)
. "$here/measure.sh"
[ $# -gt 0 ] || set -- 5000 10000 20000 40000

build_over follow_log 'warg_log warg_hash warg_record warg_values semver anyhow' <<'RT'
//! Makes a log of as many releases as the standard input says, validates it, replays it, and chooses a release. Prints how
//! long each took, in nanoseconds.
#![tactic(auto)]

use anyhow::Result;
use semver::{Version, VersionReq};
use std::alloc::Global;
use std::io;
use std::time::Instant;
use warg_log::package::{LogState, PackageEntry};
use warg_log::{
    AnyHash, Envelope, ListedVerifier, PackageRecord, PublicKey, Record, RecordId, Signature,
};
use warg_values::{Memory, Moment, Text};

const KEY: &str = "k:AA==";

/// A log's records, and the signatures that are listed for them.
#[derive(Drop)]
struct Signed {
    records: Vec<Envelope<PackageRecord>>,
    listed: Vec<(PublicKey, AnyHash, Signature)>,
}

// The entry at a place: Init at first, and then a release.
fn entry_at(alloc: Global, place: u64) -> Result<PackageEntry> {
    if place == 0 {
        return Ok(PackageEntry::Init {
            key: PublicKey::new(alloc, KEY)?,
            hash_algorithm: Text::copy_of(alloc, "sha256")?,
        });
    }
    Ok(PackageEntry::Release {
        version: Version::new(1, place / 1000, place % 1000),
        content: AnyHash::sha256_of(&place.to_be_bytes()),
    })
}

fn entries_at(alloc: Global, place: u64) -> Result<Vec<PackageEntry>> {
    let entry = entry_at(alloc, place)?;
    let mut entries = Vec::new(alloc);
    if entries.push(entry).is_err() {
        return Err(Memory.into());
    }
    Ok(entries)
}

// The record at a place, and the digest of the text that is signed.
fn record_at(
    alloc: Global,
    prev: Option<RecordId>,
    place: u64,
) -> Result<(Envelope<PackageRecord>, AnyHash)> {
    let rec = Record {
        prev,
        version: 0,
        time: Moment {
            seconds: place,
            nanos: 0,
        },
        entries: entries_at(alloc, place)?,
    };
    let contents = Envelope::write(alloc, &rec)?;
    let mut text = Vec::new(alloc);
    text.extend_from_slice(b"WARG-PACKAGE-RECORD-SIGNATURE-V0:")?;
    text.extend_from_slice(contents.as_slice())?;
    let env = Envelope {
        rec,
        contents,
        key_id: PublicKey::new(alloc, KEY)?.id(),
        signature: Signature::new(alloc, "k:BA==")?,
    };
    Ok((env, AnyHash::sha256_of(text.as_slice())))
}

// A log of Init and of this many releases.
fn log_of(alloc: Global, releases: u64) -> Result<Signed> {
    let mut signed = Signed {
        records: Vec::new(alloc),
        listed: Vec::new(alloc),
    };
    let mut prev = None;
    for place in 0..releases.saturating_add(1) {
        let (env, digest) = record_at(alloc, prev, place)?;
        prev = Some(RecordId::of(env.contents.as_slice()));
        let triple = (
            PublicKey::new(alloc, KEY)?,
            digest,
            Signature::new(alloc, "k:BA==")?,
        );
        if signed.records.push(env).is_err() || signed.listed.push(triple).is_err() {
            return Err(Memory.into());
        }
    }
    Ok(signed)
}

fn validated(
    alloc: Global,
    verifier: &ListedVerifier,
    records: &[Envelope<PackageRecord>],
) -> Result<LogState> {
    let mut state = LogState::new(alloc);
    for env in records {
        state.validate(alloc, verifier, env)?;
    }
    Ok(state)
}

fn main(rt: HostRuntime) -> Result<()> {
    let text = io::read_to_string(rt.alloc(), rt.reader())?;
    let releases = text.trim().parse::<u64>().unwrap_or(0);
    let signed = log_of(rt.alloc(), releases)?;
    let verifier = ListedVerifier::new(signed.listed);
    let start = Instant::now(&rt)?;
    let state = validated(rt.alloc(), &verifier, signed.records.as_slice())?;
    let validating = start.elapsed(&rt)?.as_nanos();
    let start = Instant::now(&rt)?;
    let replayed = LogState::replay(rt.alloc(), signed.records.as_slice())?;
    let replaying = start.elapsed(&rt)?.as_nanos();
    let any = VersionReq::parse(rt.alloc(), "*")?;
    let start = Instant::now(&rt)?;
    let found = state.find_latest_release(&any).is_some() && replayed.is_some();
    let choosing = start.elapsed(&rt)?.as_nanos();
    let count = state.releases().len();
    println!(rt; "{count} {validating} {replaying} {choosing} {found}")?;
    Ok(())
}
RT

# The least of three runs, by column: the releases, and the nanoseconds of validating, replaying and choosing.
measure() {
    for run in 1 2 3; do printf '%s' "$1" | "$program"; done | awk '
        $5 != "true" { exit 1 }
        {
            for (column = 2; column <= 4; column++)
                if (NR == 1 || $column < least[column]) least[column] = $column
            count = $1
        }
        END { print count, least[2], least[3], least[4] }'
}

printf '| releases | validate, ms | times the row above | replay, ms | times the row above | choose, ms |\n'
printf '|---|---|---|---|---|---|\n'
before='0 0 0 0'
for releases in "$@"; do
    line=$(measure "$releases")
    printf '%s %s\n' "$line" "$before" | awk "$ratio"'
        {
            printf "| %d | %.1f | %s | %.1f | %s | %.2f |\n", $1, $2 / 1e6, ratio($2, $6), $3 / 1e6, ratio($3, $7), $4 / 1e6
        }'
    before=$line
done
