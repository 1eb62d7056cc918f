#!/bin/sh
# Times a table of types by number: how long it takes to put so many types into it, and to find each again; and so many
# comparisons, by number, of two types of 18 levels that each hold the level below twice and differ in the places that
# named their parts. It builds a program over the crates in a folder of its own, and leaves the repository as it was. It
# wants `rt` and `awk`.
#
# usage: bench/table.sh [N ...]    each N is a number of types; without words 25000 to 200000, doubling
#
# Each time is the least of three runs.
set -eu

here=$(CDPATH='' cd -- "$(dirname "$0")" && pwd -P)
. "$here/measure.sh"
[ $# -gt 0 ] || set -- 25000 50000 100000 200000

build_over number_types 'comp_table comp_entity warg_values anyhow' <<'RT'
//! Puts as many types into a table as the standard input says, each of its own name, and looks each up again. Then compares two
//! types as often. Prints how long each took, in nanoseconds.
#![tactic(auto)]

ghost use Rattle.std.specs.Prelude.{◌<◌, ◌≤◌, length, IfOk};

use anyhow::Result;
use comp_entity::TypeNo;
use comp_table::{Head, Numbers, TypeNumber, TypeTable};
use std::alloc::Global;
use std::io;
use std::time::Instant;
use warg_values::{Memory, Text};

/// The sum of the numbers of so many labels.
fn labelled(
    alloc: Global,
    table: &mut TypeTable,
    count: u64,
) -> std::result::Result<usize, Memory> {
    let mut sum = 0usize;
    for place in 0..count {
        let name = format!(in alloc; "name-{place}")?;
        let parts = Numbers::from_vec(Vec::new(alloc));
        let number = table.number_of(alloc, Head::Label(Text::new(name)), parts)?;
        sum = sum.wrapping_add(number);
    }
    Ok(sum)
}

/// The number of a pair of what has this number.
fn pair_of(
    alloc: Global,
    table: &mut TypeTable,
    part: usize,
) -> std::result::Result<usize, Memory>
    requires { part < length table.old }
    ensures there { IfOk result (λ n. n < length table.new) }
    ensures kept { length table.old ≤ length table.new }
{
    let parts = vec![in alloc; part, part]?;
    table.number_of(alloc, Head::TupleOf, Numbers::from_vec(parts))
}

/// The number of six levels of pairs.
fn six_levels(
    alloc: Global,
    table: &mut TypeTable,
    part: usize,
) -> std::result::Result<usize, Memory>
    requires { part < length table.old }
    ensures there { IfOk result (λ n. n < length table.new) }
    ensures kept { length table.old ≤ length table.new }
{
    let one = pair_of(alloc, table, part)?;
    let two = pair_of(alloc, table, one)?;
    let three = pair_of(alloc, table, two)?;
    let four = pair_of(alloc, table, three)?;
    let five = pair_of(alloc, table, four)?;
    pair_of(alloc, table, five)
}

/// The number of 18 levels of pairs of a record that this place named.
fn doubled(
    alloc: Global,
    table: &mut TypeTable,
    place: usize,
) -> std::result::Result<TypeNumber, Memory>
    ensures there { IfOk result (λ n. n.0 < length table.new) }
    ensures kept { length table.old ≤ length table.new }
{
    let head = Head::RecordOf(TypeNo::new(0, place));
    let none = Numbers::from_vec(Vec::new(alloc));
    let record = table.number_of(alloc, head, none)?;
    let six = six_levels(alloc, table, record)?;
    let twelve = six_levels(alloc, table, six)?;
    let number = six_levels(alloc, table, twelve)?;
    Ok(TypeNumber(number))
}

/// How many of so many comparisons of two types say that they are equal.
fn equal_times(table: &TypeTable, first: TypeNumber, second: TypeNumber, count: u64) -> u64
    requires first { first.0 < length table.now }
    requires second { second.0 < length table.now }
{
    let mut sum = 0u64;
    for _ in 0..count {
        if table.equal(first, second) {
            sum = sum.wrapping_add(1);
        }
    }
    sum
}

/// The same, of two types of 18 levels.
fn comparisons(alloc: Global, count: u64) -> std::result::Result<u64, Memory> {
    let mut table = TypeTable::new(alloc);
    let first = doubled(alloc, &mut table, 1)?;
    let second = doubled(alloc, &mut table, 2)?;
    Ok(equal_times(&table, first, second, count))
}

fn main(rt: HostRuntime) -> Result<()> {
    let text = io::read_to_string(rt.alloc(), rt.reader())?;
    let count = text.trim().parse::<u64>().unwrap_or(0);
    let mut table = TypeTable::new(rt.alloc());
    let start = Instant::now(&rt)?;
    let sum = labelled(rt.alloc(), &mut table, count)?;
    let putting = start.elapsed(&rt)?.as_nanos();
    let start = Instant::now(&rt)?;
    let again = labelled(rt.alloc(), &mut table, count)?;
    let finding = start.elapsed(&rt)?.as_nanos();
    let start = Instant::now(&rt)?;
    let equal = comparisons(rt.alloc(), count)?;
    let comparing = start.elapsed(&rt)?.as_nanos();
    let found = sum == again && equal == count;
    println!(rt; "{count} {putting} {finding} {comparing} {found}")?;
    Ok(())
}
RT

# The least of three runs, by column: the types, and the nanoseconds of putting them in, of finding them and of comparing
# two others as often.
measure() {
    for run in 1 2 3; do printf '%s' "$1" | "$program"; done | awk '
        $5 != "true" { exit 1 }
        {
            for (column = 2; column <= 4; column++)
                if (NR == 1 || $column < least[column]) least[column] = $column
            count = $1
        }
        END { print count, least[2], least[3], least[4] }'
}

printf '| types | put in, ms | times the row above | found, ms | times the row above | compared, ms |\n'
printf '|---|---|---|---|---|---|\n'
before='0 0 0 0'
for types in "$@"; do
    line=$(measure "$types")
    printf '%s %s\n' "$line" "$before" | awk "$ratio"'
        { printf "| %d | %.1f | %s | %.1f | %s | %.2f |\n", $1, $2 / 1e6, ratio($2, $6), $3 / 1e6, ratio($3, $7), $4 / 1e6 }'
    before=$line
done
