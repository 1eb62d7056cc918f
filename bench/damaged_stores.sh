#!/bin/sh
# Damages each file that is kept of a registry, in every way, and counts what a load answers: of the file cut behind
# each of its bytes but the last, and empty; of the file with each of its bits turned over; and of each of the other
# files in its place. The files are the logs of two packages, the log of the registry's operator, the registry's
# checkpoint, and what is to be published. It builds a program over the crates in a folder of its own, and leaves the
# repository as it was. It wants `rt` and `awk`.
#
# usage: bench/damaged_stores.sh [N]    logs of N records behind the first; without words 3
#
# It judges, by its status, that each file is loaded as it was written; that a file that was cut, is empty, or is
# another entry's is never loaded; and that each load that gives nothing says that the entry is damaged, and of which
# kind it is. A file that has a bit turned over may be read as another entry, where the bit is of a text that nothing
# checks, as a fetch token or a signature, or of the name of a member that may be missing: those loads are counted, and
# not judged. The file of the same entry of another registry is not tried, since nothing in a file has to say whose it
# is.
set -eu

here=$(CDPATH='' cd -- "$(dirname "$0")" && pwd -P)
. "$here/measure.sh"

build_over damage_files "warg_registry_files warg_info_text warg_publish_text warg_store warg_info warg_exchange \
warg_log warg_hash warg_record warg_base warg_values hex semver anyhow" <<'RT'
//! Writes a file of each kind that is kept of a registry, with as many records in each log as the standard input says
//! behind the first, damages each in every way, and loads it. Prints a line for each file: what it is of, its length,
//! whether it is loaded as it was written, and three times how often it was loaded, was found damaged, and neither:
//! where it was cut, where a bit was turned over, and where another of the files stood in its place.
#![tactic(auto)]

ghost use Rattle.std.specs.Prelude.{IfOk};
ghost use Rattle.warg_info.specs.Info.{IsSound, IsSoundOperator, IsSoundPackage};

use anyhow::Result;
use semver::Version;
use std::alloc::Global;
use std::io;
use std::rt::HostRuntime;
use warg_base::{Files, MemoryFiles};
use warg_exchange::{Checkpoint, PublishedRecord, SignedCheckpoint};
use warg_hash::{AnyHash, LogId, PackageName, RecordId};
use warg_info::{LogInfo, OperatorInfo, PackageInfo};
use warg_info_text::{write_checkpoint, write_operator, write_package};
use warg_log::{Envelope, JudgedEntry, OperatorEntry, PackageEntry, PublicKey, Record, Signature};
use warg_publish_text::{read_publish, write_publish};
use warg_registry_files::FileSystemRegistryStorage;
use warg_store::{EntryKind, RegistryStorage, StoreError};
use warg_values::{Memory, Moment, Sequence, Text};

/// The key that signs each record.
const KEY: &str = "k:AA==";

/// The signature of each record.
const SIGNATURE: &str = "k:BA==";

/// What is to be published, with an entry of each kind.
const PUBLISH: &str = r#"{"name":"bench:log","entries":[
    {"type":"init"},
    {"type":"release","version":"1.2.0","content":
        "sha256:9f77034b1eb57d24f21ac7deb65c9cc99f63b72775e311f1f280ab2b6c2e06a2"},
    {"type":"yank","version":"1.1.0-rc.1+5"},
    {"type":"grant","key":"k:BA==","permissions":["release","yank"]},
    {"type":"revoke","permissions":["yank"],"keyId":
        "sha256:4efe654bc30051152bd60218d04e883ec1e6b92f39f8623b4caa049a90f71205"}]}"#;

/// What a file is of.
#[derive(Clone, Copy)]
enum Kind {
    /// The log of the package of this name.
    Package(&'static str),
    /// The log of the registry's operator.
    Operator,
    /// The registry's checkpoint.
    Checkpoint,
    /// What is to be published.
    Publish,
}

/// A file as it is kept.
#[derive(Drop)]
struct StoredFile {
    label: &'static str,
    kind: Kind,
    path: Text,
    bytes: Vec<u8>,
}

/// What a load answers: the entry, that it is damaged, or anything else.
#[derive(Clone, Copy)]
enum Answer {
    Loaded,
    Damaged,
    Other,
}

/// How often each answer came.
#[derive(Clone, Copy)]
struct Answers {
    loaded: u64,
    damaged: u64,
    other: u64,
}

impl Answers {
    fn none() -> Self {
        Answers {
            loaded: 0,
            damaged: 0,
            other: 0,
        }
    }

    fn count(&mut self, answer: Answer) {
        match answer {
            Answer::Loaded => self.loaded = self.loaded.saturating_add(1),
            Answer::Damaged => self.damaged = self.damaged.saturating_add(1),
            Answer::Other => self.other = self.other.saturating_add(1),
        }
    }
}

/// An entry of a log that is made here.
trait Made: JudgedEntry {
    /// The first entry.
    fn init(key: PublicKey, hash_algorithm: Text) -> Self;

    /// The entry at a place behind the first.
    fn at(alloc: Global, place: u64) -> Result<Self, Memory>;
}

impl Made for PackageEntry {
    fn init(key: PublicKey, hash_algorithm: Text) -> Self {
        PackageEntry::Init {
            key,
            hash_algorithm,
        }
    }

    fn at(_alloc: Global, place: u64) -> Result<Self, Memory> {
        Ok(PackageEntry::Release {
            version: Version::new(1, place, 0),
            content: AnyHash::sha256_of(&place.to_be_bytes()),
        })
    }
}

impl Made for OperatorEntry {
    fn init(key: PublicKey, hash_algorithm: Text) -> Self {
        OperatorEntry::Init {
            key,
            hash_algorithm,
        }
    }

    fn at(alloc: Global, place: u64) -> Result<Self, Memory> {
        let namespace = format!(in alloc; "space{place}")?;
        Ok(OperatorEntry::DefineNamespace {
            namespace: Text::new(namespace),
        })
    }
}

/// The key that signs each record.
fn key(alloc: Global) -> Result<PublicKey, Memory> {
    let Ok(key) = PublicKey::new(alloc, KEY) else {
        return Err(Memory);
    };
    Ok(key)
}

/// The first entry of a log.
fn first<E: Made>(alloc: Global) -> Result<E, Memory> {
    let key = key(alloc)?;
    let hash_algorithm = Text::copy_of(alloc, "sha256")?;
    Ok(E::init(key, hash_algorithm))
}

/// The entry at a place of a log.
fn entry_at<E: Made>(alloc: Global, place: u64) -> Result<E, Memory> {
    if place == 0 {
        return first(alloc);
    }
    E::at(alloc, place)
}

/// The message of the record at a place, behind another one where it is not the first.
fn message_at<E: Made>(
    alloc: Global,
    prev: Option<RecordId>,
    place: u64,
) -> Result<Vec<u8>, Memory> {
    let entry: E = entry_at(alloc, place)?;
    let mut entries = Vec::new(alloc);
    entries.push(entry)?;
    let rec = Record {
        prev,
        version: 0,
        time: Moment {
            seconds: place,
            nanos: 0,
        },
        entries,
    };
    Envelope::write(alloc, &rec)
}

/// The text of the id of the key.
fn key_id(alloc: Global) -> Result<Text, Memory> {
    let key = key(alloc)?;
    key.id().text(alloc)
}

/// A record at a place, as a registry publishes it.
fn published(alloc: Global, message: Vec<u8>, place: u64) -> Result<PublishedRecord, Memory> {
    let key_id = key_id(alloc)?;
    let signature = Text::copy_of(alloc, SIGNATURE)?;
    let token = format!(in alloc; "{place}")?;
    Ok(PublishedRecord {
        content_bytes: Sequence::from_vec(message),
        key_id,
        signature,
        registry_index: place,
        fetch_token: Text::new(token),
    })
}

/// The records of a log, of which as many are behind the first.
fn records_of<E: Made>(alloc: Global, count: u64) -> Result<Vec<PublishedRecord>, Memory> {
    let mut records = Vec::new(alloc);
    let mut prev = None;
    for place in 0..count.saturating_add(1) {
        let message = message_at::<E>(alloc, prev, place)?;
        prev = Some(RecordId::of(message.as_slice()));
        let record = published(alloc, message, place)?;
        records.push(record)?;
    }
    Ok(records)
}

/// A log with as many records behind the first.
fn log_of<E: Made>(alloc: Global, count: u64) -> Result<LogInfo<E>, Memory>
    ensures { IfOk result (λ log. IsSound E.kind E.plain log) }
{
    let records = records_of::<E>(alloc, count)?;
    LogInfo::replay(alloc, records.as_slice())
        .ok()
        .ok_or(Memory)
}

/// A state of the registry.
fn checkpoint() -> Checkpoint {
    Checkpoint {
        log_length: 7,
        log_root: AnyHash::sha256_of(b"log"),
        map_root: AnyHash::sha256_of(b"map"),
        timestamp: 1_764_633_600,
    }
}

/// The log of a package.
fn package_info(alloc: Global, name: PackageName, count: u64) -> Result<PackageInfo, Memory>
    ensures { IfOk result IsSoundPackage }
{
    let log = log_of(alloc, count)?;
    Ok(PackageInfo {
        name,
        registry: None,
        checkpoint: Some(checkpoint()),
        log,
    })
}

/// The text of the log of a package.
fn package_text(alloc: Global, name: PackageName, count: u64) -> Result<Vec<u8>, Memory> {
    let info = package_info(alloc, name, count)?;
    write_package(alloc, &info)
}

/// The path of the file that a hash names in a folder.
fn path_of(alloc: Global, folder: &str, hash: &AnyHash) -> Result<Text, Memory> {
    let digits = hex::encode(alloc, hash.bytes().as_slice())?;
    let path = format!(in alloc; "{folder}/sha256/{digits}")?;
    Ok(Text::new(path))
}

/// The file of the log of a package.
fn package(
    alloc: Global,
    label: &'static str,
    name: &'static str,
    count: u64,
) -> Result<StoredFile, Memory> {
    let Ok(package) = PackageName::new(alloc, name) else {
        return Err(Memory);
    };
    let id = LogId::package_log(&package);
    let path = path_of(alloc, "/r/home/package-logs", id.hash())?;
    let bytes = package_text(alloc, package, count)?;
    Ok(StoredFile {
        label,
        kind: Kind::Package(name),
        path,
        bytes,
    })
}

/// The log of the registry's operator.
fn operator_info(alloc: Global, count: u64) -> Result<OperatorInfo, Memory>
    ensures { IfOk result IsSoundOperator }
{
    let log = log_of(alloc, count)?;
    Ok(OperatorInfo {
        registry: None,
        checkpoint: Some(checkpoint()),
        log,
    })
}

/// The text of the log of the registry's operator.
fn operator_text(alloc: Global, count: u64) -> Result<Vec<u8>, Memory> {
    let info = operator_info(alloc, count)?;
    write_operator(alloc, &info)
}

/// The text of the registry's checkpoint.
fn checkpoint_text(alloc: Global) -> Result<Vec<u8>, Memory> {
    let key_id = key(alloc)?.id();
    let Ok(signature) = Signature::new(alloc, SIGNATURE) else {
        return Err(Memory);
    };
    let signed = SignedCheckpoint {
        contents: checkpoint(),
        key_id,
        signature,
    };
    write_checkpoint(alloc, &signed)
}

/// The text of what is to be published.
fn publish_text(alloc: Global) -> Result<Vec<u8>, Memory> {
    let Some(info) = read_publish(alloc, PUBLISH.as_bytes())? else {
        return Err(Memory);
    };
    write_publish(alloc, &info)
}

/// A file at a path.
fn stored_at(
    alloc: Global,
    label: &'static str,
    kind: Kind,
    path: &str,
    bytes: Vec<u8>,
) -> Result<StoredFile, Memory> {
    let path = Text::copy_of(alloc, path)?;
    Ok(StoredFile {
        label,
        kind,
        path,
        bytes,
    })
}

/// The file of the log of the registry's operator.
fn operator(alloc: Global, count: u64) -> Result<StoredFile, Memory> {
    let bytes = operator_text(alloc, count)?;
    stored_at(
        alloc,
        "the operator's log",
        Kind::Operator,
        "/r/home/operator.log",
        bytes,
    )
}

/// The file of the registry's checkpoint.
fn signed(alloc: Global) -> Result<StoredFile, Memory> {
    let bytes = checkpoint_text(alloc)?;
    stored_at(
        alloc,
        "the checkpoint",
        Kind::Checkpoint,
        "/r/home/checkpoint",
        bytes,
    )
}

/// The file of what is to be published.
fn publish(alloc: Global) -> Result<StoredFile, Memory> {
    let bytes = publish_text(alloc)?;
    stored_at(
        alloc,
        "what is to be published",
        Kind::Publish,
        "/r/home/pending-publish.json",
        bytes,
    )
}

/// Adds a file to others.
fn add(all: &mut Vec<StoredFile>, kept: Result<StoredFile, Memory>) -> Result<(), Memory> {
    let kept = kept?;
    all.push(kept)?;
    Ok(())
}

/// Adds the files of a registry.
fn add_registry(alloc: Global, all: &mut Vec<StoredFile>, count: u64) -> Result<(), Memory> {
    add(all, package(alloc, "a package's log", "bench:log", count))?;
    add(
        all,
        package(alloc, "another package's log", "bench:other", count),
    )?;
    add(all, operator(alloc, count))?;
    add(all, signed(alloc))?;
    add(all, publish(alloc))
}

/// The files that are damaged.
fn files_of(alloc: Global, count: u64) -> Result<Vec<StoredFile>, Memory> {
    let mut all = Vec::new(alloc);
    add_registry(alloc, &mut all, count)?;
    Ok(all)
}

/// Files of which one has these bytes.
fn one_file(alloc: Global, path: &str, bytes: &[u8]) -> Result<MemoryFiles, Memory> {
    let mut files = MemoryFiles::new(alloc);
    if files.write(alloc, path, bytes).is_err() {
        return Err(Memory);
    }
    Ok(files)
}

/// What a load of an entry of a kind answers.
fn told<T: Drop>(answer: Result<Option<T>, StoreError>, kind: EntryKind) -> Answer {
    match answer {
        Ok(Some(_)) => Answer::Loaded,
        Err(StoreError::Damaged(found)) if found == kind => Answer::Damaged,
        _ => Answer::Other,
    }
}

/// What a load of the log of a package answers.
fn load_package<S: RegistryStorage>(
    alloc: Global,
    store: &mut S,
    name: &str,
) -> Result<Answer, Memory> {
    let Ok(name) = PackageName::new(alloc, name) else {
        return Err(Memory);
    };
    Ok(told(store.load_package(alloc, None, &name), EntryKind::Package))
}

/// What a load of a registry's entry answers.
fn load_entry<S: RegistryStorage>(
    alloc: Global,
    store: &mut S,
    kind: Kind,
) -> Result<Answer, Memory> {
    match kind {
        Kind::Package(name) => load_package(alloc, store, name),
        Kind::Operator => Ok(told(store.load_operator(alloc, None), EntryKind::Operator)),
        Kind::Checkpoint => Ok(told(store.load_checkpoint(alloc, None), EntryKind::Checkpoint)),
        Kind::Publish => Ok(told(store.load_publish(alloc), EntryKind::Publish)),
    }
}

/// What a load of an entry of a registry answers over files.
fn load_in_registry(alloc: Global, files: MemoryFiles, kind: Kind) -> Result<Answer, Memory> {
    let mut store = FileSystemRegistryStorage::new(alloc, files, "/r/home")?;
    load_entry(alloc, &mut store, kind)
}

/// What a load answers where a file has these bytes in place of its own.
fn load(alloc: Global, kept: &StoredFile, bytes: &[u8]) -> Result<Answer, Memory> {
    let files = one_file(alloc, kept.path.as_str(), bytes)?;
    load_in_registry(alloc, files, kept.kind)
}

/// The answers where a file is cut behind each of its bytes but the last, or is empty.
fn cut(alloc: Global, kept: &StoredFile) -> Result<Answers, Memory> {
    let bytes = kept.bytes.as_slice();
    let mut answers = Answers::none();
    for length in 0..bytes.len() {
        answers.count(load(alloc, kept, &bytes[..length])?);
    }
    Ok(answers)
}

/// Turns bits of a byte over, where there is one.
fn turn(bytes: &mut [u8], place: usize, bits: u8) {
    if place < bytes.len() {
        bytes[place] ^= bits;
    }
}

/// What a load answers where bits of a byte of a file are turned over.
fn turned_at(alloc: Global, kept: &StoredFile, place: usize, bits: u8) -> Result<Answer, Memory> {
    let mut bytes = Vec::from_slice(alloc, kept.bytes.as_slice())?;
    turn(&mut bytes, place, bits);
    load(alloc, kept, bytes.as_slice())
}

/// Counts the answers where one bit of a byte of a file is turned over, each in turn.
fn count_turned(
    alloc: Global,
    kept: &StoredFile,
    place: usize,
    answers: &mut Answers,
) -> Result<(), Memory> {
    for bit in 0u32..8 {
        answers.count(turned_at(alloc, kept, place, 1u8 << bit)?);
    }
    Ok(())
}

/// The answers where one bit of a file is turned over, each in turn.
fn turned(alloc: Global, kept: &StoredFile) -> Result<Answers, Memory> {
    let mut answers = Answers::none();
    for place in 0..kept.bytes.len() {
        count_turned(alloc, kept, place, &mut answers)?;
    }
    Ok(answers)
}

/// The answers where another of the files stands in the place of one.
fn replaced(alloc: Global, kept: &StoredFile, all: &[StoredFile]) -> Result<Answers, Memory> {
    let mut answers = Answers::none();
    for other in all {
        if other.path != kept.path {
            answers.count(load(alloc, kept, other.bytes.as_slice())?);
        }
    }
    Ok(answers)
}

/// Whether a file is loaded as it was written.
fn whole(alloc: Global, kept: &StoredFile) -> Result<bool, Memory> {
    let answer = load(alloc, kept, kept.bytes.as_slice())?;
    Ok(matches!(answer, Answer::Loaded))
}

/// The answers where a file is cut, has a bit turned over, and has another file in its place.
fn answers_of(
    alloc: Global,
    kept: &StoredFile,
    all: &[StoredFile],
) -> Result<[Answers; 3], Memory> {
    let cut = cut(alloc, kept)?;
    let turned = turned(alloc, kept)?;
    let replaced = replaced(alloc, kept, all)?;
    Ok([cut, turned, replaced])
}

/// Prints the answers.
fn print_answers(rt: &HostRuntime, answers: &[Answers]) -> Result<()> {
    for found in answers {
        print!(rt; "|{}|{}|{}", found.loaded, found.damaged, found.other)?;
    }
    println!(rt; "")?;
    Ok(())
}

/// Prints the line of a file.
fn print_line(rt: &HostRuntime, kept: &StoredFile, all: &[StoredFile]) -> Result<()> {
    let whole = whole(rt.alloc(), kept)?;
    let answers = answers_of(rt.alloc(), kept, all)?;
    print!(rt; "{}|{}|{whole}", kept.label, kept.bytes.len())?;
    print_answers(rt, &answers)
}

fn main(rt: HostRuntime) -> Result<()> {
    let text = io::read_to_string(rt.alloc(), rt.reader())?;
    let count = text.trim().parse::<u64>().unwrap_or(0);
    let all = files_of(rt.alloc(), count)?;
    for kept in &all {
        print_line(&rt, kept, all.as_slice())?;
    }
    Ok(())
}
RT

printf '%s' "${1:-3}" | "$program" | awk -F '|' '
    NR == 1 {
        print "| file | bytes | cut or empty: loaded | damaged | a bit turned over: loaded | damaged " \
            "| another file: loaded | damaged |"
        print "|---|---|---|---|---|---|---|---|"
    }
    {
        print "| " $1 " | " $2 " | " $4 " | " $5 " | " $7 " | " $8 " | " $10 " | " $11 " |"
        if ($3 != "true" || $4 != 0 || $5 != $2 || $7 + $8 != 8 * $2 || $10 != 0 || $11 != 4) wrong = 1
    }
    END { exit NR == 5 && !wrong ? 0 : 1 }'
