#!/bin/sh
# Times how long the log of a package takes to be kept in a file, and to be loaded and replayed, at growing lengths,
# beside what cp takes for the file, and counts the bytes that are written for it. It builds a program over the crates
# in a folder of its own, and leaves the repository as it was. It wants `rt` and `awk`, and for the column of what is
# written Linux's `/proc`.
#
# usage: bench/stores.sh [N ...]    each N is a number of releases; without words 5000 to 40000, doubling
#
# Each release stands in a record of its own. Each time is the least of three runs.
set -eu

here=$(CDPATH='' cd -- "$(dirname "$0")" && pwd -P)
. "$here/measure.sh"
[ $# -gt 0 ] || set -- 5000 10000 20000 40000

build_over keep_log "warg_registry_files warg_store warg_info warg_exchange warg_log warg_hash warg_record warg_base \
warg_values semver anyhow" <<'RT'
//! Makes the log of a package with as many releases as the standard input says, keeps it in a file of the folder that
//! it runs in, and loads it again. Prints how many records were loaded, and how long each took, in nanoseconds.
#![tactic(auto)]

ghost use Rattle.std.specs.Prelude.{IfOk};
ghost use Rattle.warg_info.specs.Info.{IsSound, IsSoundPackage};
ghost use Rattle.warg_record.specs.Record.{Package};
ghost use Rattle.warg_record.specs.View.{package_entry_view};

use anyhow::Result;
use semver::Version;
use std::alloc::Global;
use std::io;
use std::time::Instant;
use warg_base::HostFiles;
use warg_exchange::PublishedRecord;
use warg_hash::PackageName;
use warg_info::{LogInfo, PackageInfo};
use warg_log::package::PackageEntry;
use warg_log::{AnyHash, Envelope, LogEntry, PublicKey, Record, RecordId};
use warg_registry_files::FileSystemRegistryStorage;
use warg_store::{RegistryStorage, StoreError};
use warg_values::{Memory, Moment, Sequence, Text};

/// The package.
const NAME: &str = "bench:log";

/// The key that signs each record.
const KEY: &str = "k:AA==";

/// The key that signs each record.
fn key(alloc: Global) -> Result<PublicKey, Memory> {
    let Ok(key) = PublicKey::new(alloc, KEY) else {
        return Err(Memory);
    };
    Ok(key)
}

/// The first entry.
fn init(alloc: Global) -> Result<PackageEntry, Memory> {
    let key = key(alloc)?;
    let hash_algorithm = Text::copy_of(alloc, "sha256")?;
    Ok(PackageEntry::Init {
        key,
        hash_algorithm,
    })
}

/// The release at a place.
fn release(place: u64) -> PackageEntry {
    PackageEntry::Release {
        version: Version::new(1, place / 1000, place % 1000),
        content: AnyHash::sha256_of(&place.to_be_bytes()),
    }
}

/// The message of a record of one entry, at a place.
fn message<E: LogEntry>(
    alloc: Global,
    prev: Option<RecordId>,
    place: u64,
    entry: E,
) -> Result<Vec<u8>, Memory> {
    let mut entries = Vec::new(alloc);
    entries.push(entry)?;
    let rec = Record {
        prev,
        version: 0,
        time: Moment {
            seconds: place,
            nanos: 0,
        },
        entries,
    };
    Envelope::write(alloc, &rec)
}

/// The message of the record at a place: of Init at first, and then of a release.
fn message_at(alloc: Global, prev: Option<RecordId>, place: u64) -> Result<Vec<u8>, Memory> {
    if place == 0 {
        let entry = init(alloc)?;
        return message(alloc, prev, place, entry);
    }
    message(alloc, prev, place, release(place))
}

/// The text of the id of the key.
fn key_id(alloc: Global) -> Result<Text, Memory> {
    let key = key(alloc)?;
    key.id().text(alloc)
}

/// A record at a place, as a registry publishes it.
fn published(alloc: Global, message: Vec<u8>, place: u64) -> Result<PublishedRecord, Memory> {
    let key_id = key_id(alloc)?;
    let signature = Text::copy_of(alloc, "k:BA==")?;
    let token = format!(in alloc; "{place}")?;
    Ok(PublishedRecord {
        content_bytes: Sequence::from_vec(message),
        key_id,
        signature,
        registry_index: place,
        fetch_token: Text::new(token),
    })
}

/// The records of Init and of this many releases.
fn records_of(alloc: Global, releases: u64) -> Result<Vec<PublishedRecord>, Memory> {
    let mut records = Vec::new(alloc);
    let mut prev = None;
    for place in 0..releases.saturating_add(1) {
        let message = message_at(alloc, prev, place)?;
        prev = Some(RecordId::of(message.as_slice()));
        let record = published(alloc, message, place)?;
        records.push(record)?;
    }
    Ok(records)
}

/// The log of these records.
fn log_of(alloc: Global, records: &[PublishedRecord]) -> Result<LogInfo<PackageEntry>, Memory>
    ensures { IfOk result (λ log. IsSound Package package_entry_view log) }
{
    LogInfo::replay(alloc, records).ok().ok_or(Memory)
}

/// The package's name.
fn name(alloc: Global) -> Result<PackageName, Memory> {
    let Ok(name) = PackageName::new(alloc, NAME) else {
        return Err(Memory);
    };
    Ok(name)
}

/// What is kept of the package.
fn info_of(alloc: Global, releases: u64) -> Result<PackageInfo, Memory>
    ensures { IfOk result IsSoundPackage }
{
    let records = records_of(alloc, releases)?;
    let log = log_of(alloc, records.as_slice())?;
    let name = name(alloc)?;
    Ok(PackageInfo {
        name,
        registry: None,
        checkpoint: None,
        log,
    })
}

/// Keeps a log.
fn keep<S: RegistryStorage>(
    alloc: Global,
    store: &mut S,
    info: &PackageInfo,
) -> Result<(), StoreError>
    requires { IsSoundPackage info.now }
{
    store.store_package(alloc, None, info)
}

/// How many records the log has that is loaded.
fn load<S: RegistryStorage>(
    alloc: Global,
    store: &mut S,
    name: &PackageName,
) -> Result<usize, StoreError> {
    match store.load_package(alloc, None, name)? {
        Some(info) => Ok(info.log.records().len()),
        None => Ok(0),
    }
}

/// Prints how many records are loaded once the log is kept, and how long each took, in nanoseconds.
fn report<S: RegistryStorage>(rt: &HostRuntime, store: &mut S, info: &PackageInfo) -> Result<()>
    requires { IsSoundPackage info.now }
{
    let start = Instant::now(rt)?;
    keep(rt.alloc(), store, info)?;
    let storing = start.elapsed(rt)?.as_nanos();
    let start = Instant::now(rt)?;
    let count = load(rt.alloc(), store, &info.name)?;
    let loading = start.elapsed(rt)?.as_nanos();
    println!(rt; "{count} {storing} {loading}")?;
    Ok(())
}

fn main(rt: HostRuntime) -> Result<()> {
    let text = io::read_to_string(rt.alloc(), rt.reader())?;
    let releases = text.trim().parse::<u64>().unwrap_or(0);
    let info = info_of(rt.alloc(), releases)?;
    let files = HostFiles::new(&rt);
    let mut store = FileSystemRegistryStorage::new(rt.alloc(), files, "registries/home")?;
    report(&rt, &mut store, &info)
}
RT

# What the program kept.
file_of() {
    find "$work/run" -type f -path '*/package-logs/*'
}

copy_file() {
    cp "$(file_of)" "$work/copy"
}

# The least of three runs, by column: the records, and the nanoseconds of storing and of loading. The folder is empty at
# first.
measure() {
    rm -rf "$work/run"
    mkdir -p "$work/run"
    for run in 1 2 3; do printf '%s' "$1" | (cd "$work/run" && "$program"); done | awk -v wanted="$(($1 + 1))" '
        $1 != wanted { exit 1 }
        {
            for (column = 2; column <= 3; column++)
                if (NR == 1 || $column < least[column]) least[column] = $column
            count = $1
        }
        END { print count, least[2], least[3] }'
}

# The bytes that a run of the program writes beside its line, by what Linux counts for a shell that waits for it. It is
# 0 where that is not told.
written() {
    # shellcheck disable=SC2016
    printf '%s' "$1" | (
        cd "$work/run"
        sh -c '
            "$1" >"$2"
            count=0
            [ ! -r "/proc/$$/io" ] || while read -r name count && [ "$name" != wchar: ]; do :; done <"/proc/$$/io"
            line=$(wc -c <"$2")
            echo $((count > 0 ? count - line : 0))' sh "$program" "$work/line"
    )
}

printf '| records | file, bytes | written, bytes | store, ms | times the row above '
printf '| load, ms | times the row above | cp, ms |\n'
printf '|---|---|---|---|---|---|---|---|\n'
before='0 0 0'
for releases in "$@"; do
    line=$(measure "$releases")
    size=$(size_of "$(file_of)")
    copied=$(least_of copy_file)
    printf '%s %s %s %s %s\n' "$line" "$before" "$size" "$(written "$releases")" "$copied" | awk "$ratio"'
        {
            printf "| %d | %d | %d | %.1f | %s | %.1f | %s | %.1f |\n", $1, $7, $8, $2 / 1e6, ratio($2, $5),
                $3 / 1e6, ratio($3, $6), $9 / 1e6
        }'
    before=$line
done
