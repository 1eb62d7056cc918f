#!/bin/sh
# Times `warg link` on components of growing size, beside a program over the kit that only reads OUT's bytes, takes their
# SHA-256 and writes them, and beside sha256sum and cp on ROOT, and prints a table.
#
# usage: bench/link.sh [N ...]    each N is a number of exports; without words 12500 to 400000, doubling
#
# Each time is the least of five runs. It judges nothing but that OUT is what the printed line says.
set -eu

here=$(CDPATH='' cd -- "$(dirname "$0")" && pwd -P)
. "$here/measure.sh"
[ $# -gt 0 ] || set -- 12500 25000 50000 100000 200000 400000
build_warg
warg=$program

build_over hash_and_write 'sha2 hex anyhow' <<'RT'
//! Writes the standard input to the standard output, and its SHA-256 to standard error.
#![tactic(auto)]

use anyhow::Result;
use hex::encode;
use sha2::{Digest, Sha256};
use std::io::{Read, Write};
use std::rt::HostRuntime;

fn main(rt: HostRuntime) -> Result<()> {
    let mut bytes = Vec::new(rt.alloc());
    rt.reader().read_to_end(&mut bytes)?;
    let digest = encode(rt.alloc(), Sha256::digest(&bytes))?;
    eprintln!(rt; "{digest}")?;
    rt.stdout().write_all(&bytes)?;
    Ok(())
}
RT

link_root() {
    "$warg" link "$work/root.wasm" "$work/out.wasm" >"$work/line"
}

hash_and_write() {
    "$program" <"$work/out.wasm" >"$work/written.wasm" 2>"$work/digest"
}

hash_and_copy() {
    sha256sum "$work/root.wasm" >"$work/sum"
    cp "$work/root.wasm" "$work/copy.wasm"
}

# Whether the line tells OUT's bytes, and the other program wrote and told the same.
check_line() {
    wanted="bytes $(size_of "$work/out.wasm") $(sha256sum <"$work/out.wasm" | cut -d ' ' -f 1)"
    [ "$(cat "$work/line")" = "$wanted" ] || fail 'OUT does not have the bytes that the printed line tells'
    hash_and_write
    cmp -s "$work/out.wasm" "$work/written.wasm" || fail 'the other program did not write what it read'
}

printf '| exports | ROOT, bytes | OUT, bytes | link, ms | times the row above | read, hash and write, ms | link to this | sha256sum and cp, ms | peak, KiB | peak to ROOT |\n'
printf '|---|---|---|---|---|---|---|---|---|---|\n'
before=0
for count in "$@"; do
    "$here/root.sh" "$count" >"$work/root.wasm"
    linked=$(least_of link_root)
    check_line
    least=$(least_of hash_and_write)
    base=$(least_of hash_and_copy)
    peak=$(peak_of "$warg" link "$work/root.wasm" "$work/out.wasm")
    awk -v count="$count" -v root="$(size_of "$work/root.wasm")" -v out="$(size_of "$work/out.wasm")" \
        -v linked="$linked" -v before="$before" -v least="$least" -v base="$base" -v peak="$peak" "$ratio"'
        BEGIN {
            held = peak > 0 ? peak : "-"
            share = peak > 0 ? ratio(peak * 1024, root) : "-"
            printf "| %d | %d | %d | %.1f | %s | %.1f | %s | %.1f | %s | %s |\n", count, root, out, linked / 1e6, \
                ratio(linked, before), least / 1e6, ratio(linked, least), base / 1e6, held, share
        }'
    before=$linked
done
