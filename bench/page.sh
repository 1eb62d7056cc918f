#!/bin/sh
# Times how long a page of logs takes to be read from a reply's body, beside the kit's `serde_json` reading the same bytes
# and its `base64` decoding each record's contents. It builds a program over the crates in a folder of its own, and leaves
# the repository as it was. It wants `rt`, `awk` and `base64`.
#
# usage: bench/page.sh [N ...]    each N is a number of records; without words 5000 to 20000, doubling
#
# Each record has 100 bytes of contents. Each time is the least of three runs.
set -eu

here=$(CDPATH='' cd -- "$(dirname "$0")" && pwd -P)
. "$here/measure.sh"
[ $# -gt 0 ] || set -- 5000 10000 20000

build_over read_page 'warg_json warg_exchange warg_values serde_json base64 http_header anyhow' <<'RT'
//! Reads a page of logs from the standard input, as a reply's body, and then the same bytes as JSON alone, with each
//! record's contents decoded. Prints how many records it found both times, and how long each took, in nanoseconds.
#![tactic(auto)]

use anyhow::Result;
use base64::engine::general_purpose::STANDARD;
use http_header::{HeaderName, HeaderValue};
use serde_json::Value;
use std::alloc::Global;
use std::io;
use std::time::Instant;
use warg_exchange::{FetchLogsResponse, Reply};
use warg_json::{ReplyError, read_reply};
use warg_values::{Memory, Sequence};

// The reply with this body.
fn reply_of(alloc: Global, body: &str) -> Result<Reply> {
    let mut headers = Sequence::new(alloc);
    let name = HeaderName::from_bytes(alloc, b"content-type")?;
    let value = HeaderValue::from_str(alloc, "application/json")?;
    if headers.push((name, value)).is_err() {
        return Err(Memory.into());
    }
    Ok(Reply {
        status: 200,
        headers,
        body: Sequence::from_vec(Vec::from_slice(alloc, body.as_bytes())?),
    })
}

fn page(alloc: Global, reply: &Reply) -> Result<FetchLogsResponse, ReplyError> {
    read_reply(alloc, reply)
}

// How many records of the one package a page has.
fn read(alloc: Global, reply: &Reply) -> usize {
    match page(alloc, reply) {
        Ok(page) => match page.packages.values().next() {
            Some(records) => records.len(),
            None => 0,
        },
        Err(_) => 0,
    }
}

// How many of these records have contents in base64.
fn decoded(alloc: Global, records: &[Value]) -> usize {
    let mut count = 0usize;
    for record in records {
        if let Some(text) = record.get("contentBytes").and_then(Value::as_str) {
            if STANDARD.decode(alloc, text.as_bytes()).is_ok() {
                count = count.saturating_add(1);
            }
        }
    }
    count
}

// How many records of the package's log a body has, read as JSON alone.
fn read_plainly(alloc: Global, body: &str) -> usize {
    let Ok(value) = Value::from_str(alloc, body) else {
        return 0;
    };
    match value.pointer("/packages/sha256:ba7816bf8f01cfea414140de5dae2223b00361a396177a9cb410ff61f20015ad") {
        Some(list) => decoded(alloc, list.as_array().map_or(&[], |list| list.as_slice())),
        None => 0,
    }
}

fn main(rt: HostRuntime) -> Result<()> {
    let body = io::read_to_string(rt.alloc(), rt.reader())?;
    let reply = reply_of(rt.alloc(), &body)?;
    let start = Instant::now(&rt)?;
    let count = read(rt.alloc(), &reply);
    let reading = start.elapsed(&rt)?.as_nanos();
    let start = Instant::now(&rt)?;
    let plain = read_plainly(rt.alloc(), &body);
    let decoding = start.elapsed(&rt)?.as_nanos();
    println!(rt; "{count} {plain} {reading} {decoding}")?;
    Ok(())
}
RT

# A page with so many records.
body_of() {
    contents=$(head -c 100 /dev/zero | base64 -w 0)
    awk -v count="$1" -v contents="$contents" 'BEGIN {
        hash = "sha256:ba7816bf8f01cfea414140de5dae2223b00361a396177a9cb410ff61f20015ad"
        printf "{\"more\":false,\"operator\":[],\"packages\":{\"%s\":[", hash
        for (i = 0; i < count; i++)
            printf "%s{\"contentBytes\":\"%s\",\"fetchToken\":\"t%d\",\"keyId\":\"%s\",\"registryIndex\":%d,\"signature\":\"k:AA==\"}", (i ? "," : ""), contents, i, hash, i
        printf "]}}"
    }' >"$work/body"
}

# The least of three runs, by column: the records, and the nanoseconds of both.
measure() {
    for run in 1 2 3; do "$program" <"$work/body"; done | awk -v count="$1" '
        $1 != count || $2 != count { exit 1 }
        {
            for (column = 3; column <= 4; column++)
                if (NR == 1 || $column < least[column]) least[column] = $column
        }
        END { print count, least[3], least[4] }'
}

printf '| records | bytes | page read, ms | JSON and base64 alone, ms | ratio |\n|---|---|---|---|---|\n'
for records in "$@"; do
    body_of "$records"
    printf '%s %s\n' "$(measure "$records")" "$(wc -c <"$work/body")" |
        awk '{ printf "| %d | %d | %.1f | %.1f | %.2f |\n", $1, $4, $2 / 1e6, $3 / 1e6, $2 / $3 }'
done
