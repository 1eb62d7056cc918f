#!/bin/sh
# Times `warg assemble` on packages of growing content, beside a program that only takes the SHA-256 of the content by the
# kit's `sha2`, as often as the client does, and prints a table. It wants `rt`, `awk` and `python3`.
#
# usage: bench/assemble.sh [N ...]    each N is a number of MiB; without words 1 to 64, by four
#
# A content is a component with one custom section. It is hashed twice: where it is kept, and, in OUT, for the printed line.
# Each time is the least of five runs. It judges nothing but that OUT is what the printed line says.
set -eu

here=$(CDPATH='' cd -- "$(dirname "$0")" && pwd -P)
. "$here/measure.sh"
[ $# -gt 0 ] || set -- 1 4 16 64
build_warg
warg=$program

build_over hash_twice 'sha2 hex anyhow' <<'RT'
//! Prints the SHA-256 of the standard input, which it takes twice.
#![tactic(auto)]

use anyhow::Result;
use hex::encode;
use sha2::{Digest, Sha256};
use std::io::Read;
use std::rt::HostRuntime;

fn main(rt: HostRuntime) -> Result<()> {
    let mut bytes = Vec::new(rt.alloc());
    rt.reader().read_to_end(&mut bytes)?;
    for _ in 0..2u8 {
        let digest = encode(rt.alloc(), Sha256::digest(&bytes))?;
        println!(rt; "{digest}")?;
    }
    Ok(())
}
RT

# A component of so many MiB, whose one custom section `x` fills it.
content_of() {
    python3 -c '
import sys
size = int(sys.argv[1]) << 20
def leb(n):
    out = b""
    while n > 127:
        out, n = out + bytes([n & 127 | 128]), n >> 7
    return out + bytes([n])
sys.stdout.buffer.write(bytes.fromhex("0061736d0d00010000") + leb(size + 2) + b"\1x" + bytes(size))' "$1"
}

assemble() {
    "$warg" assemble "$here/../examples/app.yaml" "$work/replies.json" "$work/checked.json" "$work/out.wasm" >"$work/lines"
}

hash_twice() {
    "$program" <"$work/content.wasm" >"$work/sums"
}

check_line() {
    wanted="bundle $(size_of "$work/out.wasm") $(sha256sum <"$work/out.wasm" | cut -d ' ' -f 1)"
    [ "$(tail -n 1 "$work/lines")" = "$wanted" ] || fail 'OUT does not have the bytes that the printed line tells'
}

printf '| content, MiB | assemble, ms | times the row above | two hashes, ms | assemble to these | peak, MiB | peak to content |\n'
printf '|---|---|---|---|---|---|---|\n'
before=0
for count in "$@"; do
    content_of "$count" >"$work/content.wasm"
    python3 "$here/../examples/registry.py" "$work/content.wasm" "$work"
    took=$(least_of assemble)
    check_line
    base=$(least_of hash_twice)
    peak=$(peak_of "$warg" assemble "$here/../examples/app.yaml" "$work/replies.json" "$work/checked.json" "$work/out.wasm")
    awk -v count="$count" -v took="$took" -v before="$before" -v base="$base" -v peak="$peak" "$ratio"'
        BEGIN {
            held = peak > 0 ? sprintf("%.0f", peak / 1024) : "-"
            share = peak > 0 ? ratio(peak, count * 1024) : "-"
            printf "| %d | %.1f | %s | %.1f | %s | %s | %s |\n", count, took / 1e6, ratio(took, before), base / 1e6, \
                ratio(took, base), held, share
        }'
    before=$took
done
