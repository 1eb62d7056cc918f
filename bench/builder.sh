#!/bin/sh
# Times how long a component takes to be built, and how much memory what was added takes, and prints a table. It builds a
# program over the crates in a folder of its own, and leaves the repository as it was. It wants `rt` and `awk`, and for
# the columns of memory GNU's /usr/bin/time.
#
# usage: bench/builder.sh [N ...]    each N is a number of items; without words 200000 to 800000, doubling
#
# `types` are types of one byte, `exports` have a name of seven bytes, and `linked` are aliases and exports in turn, as
# `warg link` writes them. Each time is the least of five runs.
set -eu

here=$(CDPATH='' cd -- "$(dirname "$0")" && pwd -P)
. "$here/measure.sh"
[ $# -gt 0 ] || set -- 200000 400000 800000

build_over build_component 'comp_encoder comp_format anyhow' <<'RT'
//! Adds as many items of a kind as the standard input says to a component, and writes it where a third word says so.
//! Prints how long each took, in nanoseconds, and how many bytes were written.
#![tactic(auto)]

use anyhow::Result;
use comp_encoder::{ComponentBuilder, DefinedType, EncodeError, Sort};
use comp_format::Primitive;
use std::alloc::Global;
use std::io;
use std::time::Instant;

// Types, each `u32`.
fn add_types(alloc: Global, builder: &mut ComponentBuilder, count: u64) -> Result<(), EncodeError> {
    for _ in 0..count {
        let ty = DefinedType::Primitive(Primitive::U32);
        builder.type_defined(alloc, &ty)?;
    }
    Ok(())
}

// Exports.
fn add_exports(
    alloc: Global,
    builder: &mut ComponentBuilder,
    count: u64,
) -> Result<(), EncodeError> {
    for i in 0..count {
        builder.export(alloc, "n123456", Sort::Ty, (i % 100000) as u32, None)?;
    }
    Ok(())
}

// Half as many aliases, and an export behind each.
fn add_linked(
    alloc: Global,
    builder: &mut ComponentBuilder,
    count: u64,
) -> Result<(), EncodeError> {
    for i in 0..count / 2 {
        builder.alias_export(alloc, 0, "n123456", Sort::Ty)?;
        builder.export(alloc, "n123456", Sort::Ty, (i % 100000) as u32, None)?;
    }
    Ok(())
}

// The items of this kind.
fn add(
    alloc: Global,
    builder: &mut ComponentBuilder,
    kind: &str,
    count: u64,
) -> Result<(), EncodeError> {
    match kind {
        "types" => add_types(alloc, builder, count),
        "exports" => add_exports(alloc, builder, count),
        _ => add_linked(alloc, builder, count),
    }
}

fn main(rt: HostRuntime) -> Result<()> {
    let text = io::read_to_string(rt.alloc(), rt.reader())?;
    let mut words = text.split_whitespace();
    let kind = words.next().unwrap_or("types");
    let count = words.next().unwrap_or("1").parse::<u64>().unwrap_or(1);
    let writes = words.next().is_some();
    let mut builder = ComponentBuilder::new(rt.alloc());
    let start = Instant::now(&rt)?;
    add(rt.alloc(), &mut builder, kind, count)?;
    let adding = start.elapsed(&rt)?.as_nanos();
    println!(rt; "add {adding}")?;
    if writes {
        let start = Instant::now(&rt)?;
        let bytes = builder.finish(rt.alloc())?;
        let writing = start.elapsed(&rt)?.as_nanos();
        let len = bytes.len();
        println!(rt; "finish {writing}")?;
        println!(rt; "bytes {len}")?;
    }
    Ok(())
}
RT

# The least of five runs, of the number behind this word.
least_after() {
    for run in 1 2 3 4 5; do
        printf '%s %s write\n' "$2" "$3" | "$program"
    done | awk -v word="$1" '$1 == word && (least == "" || $2 < least) { least = $2 } END { print least }'
}

# The most memory that adding takes, in KiB.
peak_of_adding() {
    printf '%s %s\n' "$1" "$2" >"$work/words"
    peak_of "$program" <"$work/words"
}

printf '| items | N | bytes | add, ms | times the row above | finish, ms | peak of adding, KiB | peak to bytes |\n'
printf '|---|---|---|---|---|---|---|---|\n'
for kind in types exports linked; do
    before=0
    for count in "$@"; do
        took=$(least_after add "$kind" "$count")
        wrote=$(least_after finish "$kind" "$count")
        bytes=$(least_after bytes "$kind" "$count")
        peak=$(peak_of_adding "$kind" "$count")
        awk -v kind="$kind" -v count="$count" -v bytes="$bytes" -v took="$took" -v before="$before" -v wrote="$wrote" \
            -v peak="$peak" "$ratio"'
            BEGIN {
                share = peak > 0 ? ratio(peak * 1024, bytes) : "-"
                printf "| %s | %d | %d | %.1f | %s | %.1f | %d | %s |\n", kind, count, bytes, took / 1e6, \
                    ratio(took, before), wrote / 1e6, peak, share
            }'
        before=$took
    done
done
