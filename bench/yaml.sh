#!/bin/sh
# The parser's throughput beside that of libyaml, from C, and of the crate yaml-rust, from Rust, on the same texts; that
# time and memory grow linearly with the text; and how long a configuration takes whose keys all have one hash. It
# builds its programs in a folder of its own, and leaves the repository as it was. It wants `rt` and `python3`; for the
# comparisons `cc` with Debian's libyaml-dev, and `rustc` with Debian's librust-yaml-rust-dev.
set -eu

here=$(CDPATH='' cd -- "$(dirname "$0")" && pwd -P)
. "$here/measure.sh"

build_over count_events 'yaml_small anyhow' <<'RT'
//! Counts the events of the text on the standard input, and prints how long that took.
#![tactic(auto)]

use anyhow::Result;
use std::io;
use std::time::Instant;
use yaml_small::{Event, Parser};

fn main(rt: HostRuntime) -> Result<()> {
    let text = io::read_to_string(rt.alloc(), rt.reader())?;
    let start = Instant::now(&rt)?;
    let mut parser = Parser::new(rt.alloc(), text.as_str());
    let mut count = 0u64;
    for _ in 0..u64::MAX {
        let Ok((event, _)) = parser.next_token(rt.alloc()) else {
            break;
        };
        count = count.saturating_add(1);
        if event == Event::StreamEnd {
            break;
        }
    }
    let nanos = start.elapsed(&rt)?.as_nanos();
    println!(rt; "{count} {nanos}")?;
    Ok(())
}
RT

counts=$program

build_over read_plan 'compose_config anyhow' <<'RT'
//! Reads the text on the standard input as a configuration, and prints how long that took.
#![tactic(auto)]

use anyhow::Result;
use compose_config::Config;
use std::io;
use std::time::Instant;

fn main(rt: HostRuntime) -> Result<()> {
    let text = io::read_to_string(rt.alloc(), rt.reader())?;
    let start = Instant::now(&rt)?;
    let count = match Config::from_text(rt.alloc(), text.as_str()) {
        Ok(config) => config.dependencies.len(),
        Err(_) => 0,
    };
    let nanos = start.elapsed(&rt)?.as_nanos();
    println!(rt; "{count} {nanos}")?;
    Ok(())
}
RT

# libyaml from C, where it can be built.
libyaml=$work/libyaml
cat >"$work/libyaml.c" <<'C'
#include <stdio.h>
#include <stdlib.h>
#include <time.h>
#include <yaml.h>

int main(void) {
    size_t size = 0, room = 1 << 20;
    unsigned char *text = malloc(room);
    for (size_t n; (n = fread(text + size, 1, room - size, stdin)) > 0;) {
        size += n;
        if (size == room) text = realloc(text, room *= 2);
    }
    struct timespec start, end;
    clock_gettime(CLOCK_MONOTONIC, &start);
    yaml_parser_t parser;
    yaml_event_t event;
    unsigned long count = 0;
    int last = 0;
    yaml_parser_initialize(&parser);
    yaml_parser_set_input_string(&parser, text, size);
    while (!last && yaml_parser_parse(&parser, &event)) {
        count++;
        last = event.type == YAML_STREAM_END_EVENT;
        yaml_event_delete(&event);
    }
    yaml_parser_delete(&parser);
    clock_gettime(CLOCK_MONOTONIC, &end);
    printf("%lu %lld\n", count, (end.tv_sec - start.tv_sec) * 1000000000LL + end.tv_nsec - start.tv_nsec);
    return 0;
}
C
cc -O2 -o "$libyaml" "$work/libyaml.c" -lyaml 2>"$work/libyaml.build" || libyaml=

# yaml-rust from Rust, where it can be built.
yaml_rust=$work/yaml_rust
registry=/usr/share/cargo/registry
cat >"$work/yaml_rust.rs" <<'RS'
use std::io::Read;
use std::time::Instant;
use yaml_rust::parser::{Event, Parser};

fn main() {
    let mut text = String::new();
    std::io::stdin().read_to_string(&mut text).unwrap();
    let start = Instant::now();
    let mut parser = Parser::new(text.chars());
    let mut count = 0u64;
    while let Ok((event, _)) = parser.next() {
        count += 1;
        if event == Event::StreamEnd {
            break;
        }
    }
    println!("{count} {}", start.elapsed().as_nanos());
}
RS
{
    rustc -C opt-level=3 --edition 2021 --cap-lints allow --crate-type rlib --crate-name linked_hash_map \
        --out-dir "$work" "$registry"/linked-hash-map-0.5.*/src/lib.rs &&
        rustc -C opt-level=3 --edition 2018 --cap-lints allow --crate-type rlib --crate-name yaml_rust \
            --extern linked_hash_map="$work/liblinked_hash_map.rlib" --out-dir "$work" "$registry"/yaml-rust-0.4.*/src/lib.rs &&
        rustc -C opt-level=3 --edition 2021 -L "$work" --extern yaml_rust="$work/libyaml_rust.rlib" \
            -o "$yaml_rust" "$work/yaml_rust.rs"
} 2>"$work/yaml_rust.build" || yaml_rust=

python3 - "$counts" "$program" "$libyaml" "$yaml_rust" <<'PY'
import random
import resource
import subprocess
import sys

program, plans, libyaml, yaml_rust = sys.argv[1:]

def timed(reader, text):
    """What a reader counts in a text, and the least time of three runs, in seconds."""
    best = None
    for _ in range(3):
        run = subprocess.run([reader], input=text, capture_output=True, check=True)
        count, nanos = map(int, run.stdout.split())
        best = (count, nanos / 1e9) if best is None or nanos / 1e9 < best[1] else best
    return best

def memory(text):
    """The least address space, in MB, in which the program reads the text."""
    def runs_in(limit):
        def bound():
            resource.setrlimit(resource.RLIMIT_AS, (limit << 20, limit << 20))
        run = subprocess.run([program], input=text, capture_output=True, preexec_fn=bound)
        return run.returncode == 0 and run.stdout != b""
    low, high = 1, 1024
    while low < high:
        middle = (low + high) // 2
        if runs_in(middle):
            high = middle
        else:
            low = middle + 1
    return low

def line(name, text):
    count, seconds = timed(program, text)
    size = len(text) / 1e6
    print(f"{name}: {size:.1f} MB, {count} events, {seconds:.3f} s, {size / seconds:.1f} MB/s, {memory(text)} MB of address space")

entry = """- name: package %d
  version: "1.%d.0"
  tags: [small, 'quoted one', {key: value, other: 12}]
  text: |
    first line of a block
    second line, a little longer than the first
  note: a plain scalar of some words # and a comment
"""
mixed = "".join(entry % (i, i) for i in range(20000)).encode()
line("mixed text", mixed)
for name, text in (
    ("mixed text", mixed),
    ("a flow list of 1000000 scalars", b"[" + b"scalar, " * 1_000_000 + b"]"),
    ("a block list of 100000 entries", b"- entry\n" * 100_000),
):
    for reader, what in ((program, "yaml_small"), (libyaml, "libyaml from C"), (yaml_rust, "yaml-rust")):
        if not reader:
            print(f"{name}: {what} was not built here")
            continue
        count, seconds = timed(reader, text)
        print(f"{name}: {what}, {count} events, {seconds:.3f} s, {len(text) / 1e6 / seconds:.1f} MB/s")
for n in (250_000, 500_000, 1_000_000):
    line(f"a flow list of {n} scalars", b"[" + b"scalar, " * n + b"]")
for n in (25_000, 50_000, 100_000):
    line(f"a block list of {n} entries", b"- entry\n" * n)
for n in (25_000, 50_000, 100_000):
    line(f"a block scalar of {n} lines", b"|\n" + b"  a line of text\n" * n)
for n in (250_000, 1_000_000):
    line(f"{n} blank lines behind each of 60 open lists", b"".join(b" " * i + b"-\n" for i in range(60)) + b"\n" * n)

# Keys of one hash. The map's hasher multiplies eight bytes, joined to its state, by the eight behind them; where the
# first are the state itself, nothing of the others is left. The state behind the first 16 bytes is searched for one
# that is a text.
LETTERS = b"abcdefghijklmnopqrstuvwxyzABCDEFGHIJKLMNOPQRSTUVWXYZ0123456789"
PRINTED = set(range(0x21, 0x7f)) - set(b"\"\\")

def folded(a, b):
    product = a * b
    return (product & (2 ** 64 - 1)) ^ (product >> 64)

def number(octets):
    return int.from_bytes(octets, "little")

def front_of_one_hash(draw):
    """24 bytes behind which eight more change nothing of the hash of the 32."""
    while True:
        front = bytes(draw.choices(LETTERS, k=16))
        state = folded(number(front[:8]) ^ (0x243F6A8885A308D3 + 32), number(front[8:]) ^ 0x9E3779B97F4A7C15)
        last = state.to_bytes(8, "little")
        if PRINTED.issuperset(last):
            return front + last

def plan(keys):
    return b"dependencies:\n" + b"".join(b'  "%s": a\n' % key for key in keys)

front = front_of_one_hash(random.Random(1))
for n in (5_000, 10_000, 20_000):
    for what, keys in (
        ("keys of one hash", [front + b"%08d" % i for i in range(n)]),
        ("other keys", [b"%032d" % i for i in range(n)]),
    ):
        count, seconds = timed(plans, plan(keys))
        print(f"a configuration of {n} dependencies, {what}: {count} read, {seconds:.3f} s")
PY
