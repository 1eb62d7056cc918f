#!/bin/sh
# Times `warg assemble` on plans of growing numbers of packages with ten releases each, beside a program that only does the JSON
# and the hashing of such a session by the kit's `serde_json` and `sha2`, and prints a table. It wants `rt`, `awk` and
# `python3`.
#
# usage: bench/plan.sh [N ...]    each N is a number of packages from 1 to 200; without words 50, 100 and 200
#
# The packages need each other as those of `warg demo 1 N` do, and examples/demo/world.py writes the replies. The program beside
# it reads each JSON text once and writes it once: the file of replies, and the body of each reply. It hashes the nodes of the
# map, of 65 bytes each: 256 of them for each of the two logs whose last records an update is shown; and the bytes of all bodies
# once, for the records, the contents and the texts that were signed. Hashes of the log's tree are left out.
# Each time is the least of five runs. It judges nothing but that N entries are printed.
set -eu

here=$(CDPATH='' cd -- "$(dirname "$0")" && pwd -P)
. "$here/measure.sh"
[ $# -gt 0 ] || set -- 50 100 200
build_warg
warg=$program

build_over hash_and_json 'sha2 serde_json anyhow' <<'RT'
//! Reads lines from the standard input: for each line that is empty 256 hashes of a node of a map are taken, and each other
//! line is read as JSON and written again, and hashed where it is an object. Prints the last hashes' first bytes and the length
//! of what was written.
#![tactic(auto)]

use anyhow::Result;
use serde_json::Value;
use sha2::{Digest, Sha256};
use std::alloc::Global;
use std::io::Read;
use std::rt::HostRuntime;

/// The hash of a node, hashed again behind itself, so often.
fn hashed(node: &mut [u8; 65], times: u32) {
    for _ in 0..times {
        let digest = Sha256::digest(&node[..]);
        node[33..].copy_from_slice(&digest);
    }
}

/// How long the JSON of a text is that is written again.
fn rewritten(alloc: Global, text: &str) -> Result<usize> {
    let value = Value::from_str(alloc, text)?;
    let bytes = value.to_vec(alloc)?;
    Ok(bytes.len())
}

fn main(rt: HostRuntime) -> Result<()> {
    let mut bytes = Vec::new(rt.alloc());
    rt.reader().read_to_end(&mut bytes)?;
    let text = std::str::from_utf8(&bytes)?;
    let mut node = [1u8; 65];
    let mut line_hash = [0u8; 32];
    let mut length = 0usize;
    for line in text.lines() {
        if line.is_empty() {
            hashed(&mut node, 256);
        } else {
            if line.as_bytes().starts_with(b"{") {
                line_hash = Sha256::digest(line.as_bytes());
            }
            length = rewritten(rt.alloc(), line)?;
        }
    }
    let first = node[33];
    let last = line_hash[0];
    println!(rt; "{first} {last} {length}")?;
    Ok(())
}
RT

assemble() {
    "$warg" assemble "$here/../examples/demo/plan.yaml" "$work/replies.json" "$work/checked.json" "$work/out.wasm" >"$work/lines"
}

hash_and_json() {
    "$program" <"$work/session" >"$work/sums"
}

printf '| packages | assemble, ms | times the row above | JSON and hashes, ms | assemble to these | peak, KiB | replies, bytes |\n'
printf '|---|---|---|---|---|---|---|\n'
before=0
for count in "$@"; do
    python3 "$here/../examples/demo/world.py" 1 "$count" "$work" 10
    awk -v count="$count" 'BEGIN { for (i = 0; i < 2 * count; i++) print "" }' >"$work/session"
    python3 -c '
import base64, json, sys
replies = json.load(open(sys.argv[1]))
print(json.dumps(replies))
for reply in replies:
    body = base64.b64decode(reply["body"])
    if body.startswith(b"{"):
        print(body.decode())' "$work/replies.json" >>"$work/session"
    took=$(least_of assemble)
    [ "$(grep -c '^entry ' "$work/lines")" = "$count" ] || fail "the plan of $count packages does not print that many entries"
    base=$(least_of hash_and_json)
    peak=$(peak_of "$warg" assemble "$here/../examples/demo/plan.yaml" "$work/replies.json" "$work/checked.json" "$work/out.wasm")
    awk -v count="$count" -v took="$took" -v before="$before" -v base="$base" -v peak="$peak" \
        -v size="$(size_of "$work/replies.json")" "$ratio"'
        BEGIN {
            held = peak > 0 ? sprintf("%d", peak) : "-"
            printf "| %d | %.1f | %s | %.1f | %s | %s | %d |\n", count, took / 1e6, ratio(took, before), base / 1e6, \
                ratio(took, base), held, size
        }'
    before=$took
done
