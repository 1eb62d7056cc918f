#!/bin/sh
# Times how long the origins of the resources of wired instances take to be found, and prints a table. It builds a program
# over the crates in a folder of its own, and leaves the repository as it was. It wants `rt` and `awk`.
#
# usage: bench/origins.sh [N ...]    each N is a number of instances; without words 125 to 1000, doubling
#
# Each instance imports an instance with 100 resources and 100 functions of them, and exports the same. The instances
# stand in a chain, each given what the one before exports, or nothing is wired. Each time is the least of five runs.
set -eu

here=$(CDPATH='' cd -- "$(dirname "$0")" && pwd -P)
. "$here/measure.sh"
[ $# -gt 0 ] || set -- 125 250 500 1000

build_over find_origins 'compose_left comp_entity warg_values anyhow' <<'RT'
//! Finds the origins of as many instances as the standard input says, in a chain where a second word says so. Prints how
//! long that took, in nanoseconds, and how long it took to put them into what the instances import.
#![tactic(auto)]

use anyhow::Result;
use comp_entity::{Entity, FuncShape, InstanceShape, ResourceNo, Shape, TypeShape, ValueShape};
use compose_left::{Origins, Wire, follows_order, origins};
use std::alloc::Global;
use std::io;
use std::time::Instant;
use warg_values::{Memory, Text};

// A name of this number.
fn name(alloc: Global, letter: &str, number: usize) -> Result<Text, Memory> {
    let text = format!(in alloc; "{letter}{number}")?;
    Ok(Text::new(text))
}

// A function that takes a resource.
fn method(alloc: Global, resource: ResourceNo) -> Result<FuncShape, Memory> {
    let mut params = Vec::new(alloc);
    params.push((Text::copy_of(alloc, "self")?, ValueShape::Borrow(resource)))?;
    Ok(FuncShape { params, result: None })
}

// An instance with so many resources that are brought, each with a function that takes it.
fn instance(alloc: Global, resources: usize) -> Result<Entity, Memory> {
    let mut exports = Vec::new(alloc);
    for number in 0..resources {
        let resource = ResourceNo::new(1, number).ok_or(Memory)?;
        exports.push((name(alloc, "r", number)?, Entity::Ty(TypeShape::Resource(resource))))?;
        exports.push((name(alloc, "f", number)?, Entity::Func(method(alloc, resource)?)))?;
    }
    Ok(Entity::Instance(InstanceShape { exports }))
}

// What each component imports and exports.
fn shape(alloc: Global, resources: usize) -> Result<Shape, Memory> {
    let mut imports = Vec::new(alloc);
    imports.push((Text::copy_of(alloc, "i")?, instance(alloc, resources)?))?;
    let mut exports = Vec::new(alloc);
    exports.push((Text::copy_of(alloc, "e")?, instance(alloc, resources)?))?;
    Ok(Shape { imports, exports })
}

// Instances of one shape.
fn copies<'a>(alloc: Global, shape: &'a Shape, count: usize) -> Result<Vec<&'a Shape>, Memory> {
    let mut shapes = Vec::new(alloc);
    for _ in 0..count {
        shapes.push(shape)?;
    }
    Ok(shapes)
}

// Each instance is given what the one before exports.
fn chain(alloc: Global, count: usize) -> Result<Vec<Wire>, Memory> {
    let mut wires = Vec::new(alloc);
    for target in 1..count {
        let source = target - 1;
        wires.push(Wire { target, import: 0, source, export: Some(0) })?;
    }
    Ok(wires)
}

// The origins, where the wires follow the order.
fn found(alloc: Global, shapes: &[&Shape], wires: &[Wire]) -> Result<Option<Origins>, Memory> {
    if !follows_order(shapes, wires) {
        return Ok(None);
    }
    let found = origins(alloc, shapes, wires)?;
    Ok(Some(found))
}

// Puts the numbers of origins into what each instance imports.
fn place_all(alloc: Global, origins: &Origins, shapes: &[&Shape]) -> Result<usize, Memory> {
    let mut placed = 0usize;
    for (at, shape) in shapes.iter().enumerate() {
        if let Some(import) = shape.imports.get(0) {
            let _copy = origins.place(alloc, at, &import.1)?;
            placed = placed.wrapping_add(1);
        }
    }
    Ok(placed)
}

fn main(rt: HostRuntime) -> Result<()> {
    let text = io::read_to_string(rt.alloc(), rt.reader())?;
    let mut words = text.split_whitespace();
    let count = words.next().unwrap_or("1").parse::<usize>().unwrap_or(1);
    let is_chain = words.next().is_some();
    let shape = shape(rt.alloc(), 100)?;
    let shapes = copies(rt.alloc(), &shape, count)?;
    let wires = chain(rt.alloc(), if is_chain { count } else { 0 })?;
    let start = Instant::now(&rt)?;
    let Some(found) = found(rt.alloc(), &shapes, &wires)? else {
        println!(rt; "the wires do not follow the order")?;
        return Ok(());
    };
    let finding = start.elapsed(&rt)?.as_nanos();
    let start = Instant::now(&rt)?;
    let placed = place_all(rt.alloc(), &found, &shapes)?;
    let placing = start.elapsed(&rt)?.as_nanos();
    println!(rt; "find {finding}")?;
    println!(rt; "place {placing}")?;
    println!(rt; "placed {placed}")?;
    Ok(())
}
RT

# The least of five runs, of the number behind this word.
least_after() {
    for run in 1 2 3 4 5; do
        printf '%s\n' "$2" | "$program"
    done | awk -v word="$1" '$1 == word && (least == "" || $2 < least) { least = $2 } END { print least }'
}

printf '| instances | wired | mentions | find, ms | times the row above | place, ms | times the row above |\n'
printf '|---|---|---|---|---|---|---|\n'
for wired in no chain; do
    before=0
    before_placed=0
    for count in "$@"; do
        words=$count
        [ "$wired" = no ] || words="$count chain"
        took=$(least_after find "$words")
        placed=$(least_after place "$words")
        awk -v count="$count" -v wired="$wired" -v took="$took" -v before="$before" -v placed="$placed" \
            -v before_placed="$before_placed" "$ratio"'
            BEGIN {
                printf "| %d | %s | %d | %.1f | %s | %.1f | %s |\n", count, wired, count * 400, took / 1e6, \
                    ratio(took, before), placed / 1e6, ratio(placed, before_placed)
            }'
        before=$took
        before_placed=$placed
    done
done
