#!/bin/sh
# Damages small components at random, and compares what is read of them: where `read_items` refuses the bytes, `read_shape`
# refuses them by the same error at the same place, and where it reads them, `read_shape` does not say that they have no
# form, or a form that is not carried. What has only primitive types, tuples of these and exports of types is judged apart,
# by a reader in awk. It prints how many there were of each answer. It builds a program over the crates in a folder of its
# own, and leaves the repository as it was. It wants `rt` and `awk`.
#
# usage: bench/damaged.sh [N [SEED]]    N components; without words 200000, and the seed 1
set -eu

here=$(CDPATH='' cd -- "$(dirname "$0")" && pwd -P)
. "$here/measure.sh"
count=${1:-200000}
seed=${2:-1}

build_over component_answers 'comp_shape comp_format warg_values anyhow hex' <<'RT'
//! Reads a component from each line of the standard input, in hexadecimal digits, and prints what is answered for its items and
//! for its shape.
#![tactic(auto)]

use anyhow::Result;
use comp_format::Item;
use comp_shape::{Shape, ShapeError, read_items, read_shape};
use std::alloc::{AllocError, Global};
use std::io;

/// What the reading of items answered.
fn items_text(
    alloc: Global,
    answer: std::result::Result<Vec<Item<'_>>, ShapeError>,
) -> std::result::Result<String, AllocError> {
    match answer {
        Ok(_) => String::from_str(alloc, "Ok"),
        Err(error) => format!(in alloc; "{error:?}"),
    }
}

/// What the reading of a shape answered, with the number of exports.
fn shape_text(
    alloc: Global,
    answer: std::result::Result<Shape, ShapeError>,
) -> std::result::Result<String, AllocError> {
    match answer {
        Ok(shape) => format!(in alloc; "Ok({})", shape.exports.len()),
        Err(error) => format!(in alloc; "{error:?}"),
    }
}

fn main(rt: HostRuntime) -> Result<()> {
    let text = io::read_to_string(rt.alloc(), rt.reader())?;
    for line in text.lines() {
        let bytes = hex::decode(rt.alloc(), line)?;
        let items = items_text(rt.alloc(), read_items(rt.alloc(), &bytes))?;
        let shape = shape_text(rt.alloc(), read_shape(rt.alloc(), &bytes))?;
        println!(rt; "{line} {items} {shape}")?;
    }
    Ok(())
}
RT

# N components in hexadecimal digits, each one of these, damaged at up to three places: there a byte is another one, is left
# out or stands twice, or the rest is cut.
make_components() {
    awk -v count="$count" -v seed="$seed" '
        BEGIN {
            header = "0061736d0d000100"
            samples = split("0702017f0b0d02000161030000000162030100 \
                0705016f0279790b0701000174030000 \
                0702017f0b07010001740300000705016f0279790b0701000175030000 \
                07060172010161790a0701000172030000070501400000010a06010001660102 \
                01080061736d010000000209020100000001001200 \
                071002420104000172030141010203020100 \
                0709026d0101654000000001080061736d0100000002040100000006070100000100016608060100000000010b0701000165030000070501400000020b09010001660100010103 \
                0703014200050801010100017403000b0701000169050000 \
                0a060100017203010803010200 \
                03030150000a070100016e00110004160061736d0d00010003030150000a070100016d001100050901000001016d001100 \
                070501400001000a0601000167010004170061736d0d000100070501400001000a0601000166010005080100000101660100 \
                0004016e0102030901500103016d0200010a070100016d001100 \
                07090142010400017203010a060100016905000b0701000169050000", sample, " +")
            srand(seed)
            for (made = 0; made < count; made++) {
                text = header sample[1 + int(rand() * samples)]
                for (times = int(rand() * 4); times > 0; times--) text = damaged(text)
                print text
            }
        }
        function damaged(text,    bytes, at, kind) {
            bytes = length(text) / 2
            at = 2 * int(rand() * bytes)
            kind = rand()
            if (kind < 0.7) return substr(text, 1, at) sprintf("%02x", int(rand() * 256)) substr(text, at + 3)
            if (kind < 0.8) return substr(text, 1, at) substr(text, at + 3)
            if (kind < 0.9) return substr(text, 1, at + 2) substr(text, at + 1)
            return substr(text, 1, at)
        }'
}

# Judges each line, and prints how many there were of each answer.
judge() {
    awk -F '[ ]' '
        function value(at) {
            return 16 * (index("0123456789abcdef", substr(text, 2 * at - 1, 1)) - 1) \
                + index("0123456789abcdef", substr(text, 2 * at, 1)) - 1
        }
        # The byte behind those that were read, or -1.
        function byte() {
            return place < bytes ? value(++place) : -1
        }
        function is_primitive(b) {
            return b >= 115 && b <= 127
        }
        # How many exports there are; "Index"; or "" where it is no such component, or has a number of two bytes.
        function plain(    id, size, items, i, parts, name, types, exports, names, fault, b) {
            types = 0; exports = 0; fault = 0
            split("", names)
            if (substr(text, 1, 16) != "0061736d0d000100") return ""
            place = 8
            while (place < bytes) {
                id = byte(); size = byte()
                if ((id != 7 && id != 11) || size < 0 || size > 127 || place + size > bytes) return ""
                last = place + size
                items = byte()
                if (items < 0 || items > 127) return ""
                for (; items > 0; items--) {
                    if (id == 7) {
                        b = byte()
                        if (b == 111) {
                            parts = byte()
                            if (parts < 1 || parts > 127) return ""
                            for (; parts > 0; parts--) if (!is_primitive(byte())) return ""
                        } else if (!is_primitive(b)) return ""
                        types++
                    } else {
                        b = byte(); size = byte()
                        if (b < 0 || b > 1 || size < 1 || size > 127) return ""
                        name = ""
                        for (i = 0; i < size; i++) {
                            b = byte()
                            if (b < 0 || b > 127) return ""
                            if (b >= 65 && b <= 90) b += 32
                            name = name "." b
                        }
                        if (byte() != 3) return ""
                        i = byte()
                        if (i < 0 || i > 127 || byte() != 0) return ""
                        if (i >= types || name in names) fault = 1
                        names[name] = 1
                        types++; exports++
                    }
                }
                if (place != last) return ""
            }
            return fault ? "Index" : "Ok(" exports ")"
        }
        {
            text = $1
            bytes = length(text) / 2
            if ($2 != "Ok" ? $3 != $2 : $3 ~ /^(Form|NotCarried)/) {
                print "read otherwise: " $0
                wrong++
            }
            kind = $3
            sub(/\(.*/, "", kind)
            wanted = plain()
            if (wanted != "") {
                judged++
                if (wanted != (kind == "Index" ? kind : $3)) {
                    print "judged otherwise: " $0 " " wanted
                    wrong++
                }
            }
            answers[kind]++
        }
        END {
            for (kind in answers) printf "%s %d\n", kind, answers[kind]
            printf "judged apart %d\n", judged
            exit wrong > 0
        }'
}

make_components >"$work/components"
"$program" <"$work/components" >"$work/answers" || fail 'the program ended before its last line'
[ "$(wc -l <"$work/answers")" -eq "$(wc -l <"$work/components")" ] || fail 'a component has no answer'
judge <"$work/answers" | sort
