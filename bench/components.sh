#!/bin/sh
# Writes a component to standard output, of one of these kinds:
#
#   exports N     N types, each u32, and an export of each
#   types N       N tuples of two u32
#   aliases N     a type, and N outer aliases, each of the one before
#   instances N   a component with 100 exports, nested, and N instances of it
#   doubled N     18 tuples, each of the one before twice, and N lists of the last but one
#   sections N    N blocks of about a megabyte, each of custom sections, core modules and nested components
#
# usage: components.sh KIND N
set -eu

kind=${1:?usage: components.sh KIND N}
count=${2:?usage: components.sh KIND N}
here=$(CDPATH='' cd -- "$(dirname "$0")" && pwd -P)

# awk works out the lengths and writes lines of printf, which a shell then runs: so each byte comes out as it is meant.
sections() {
    LC_ALL=C awk -v kind="$kind" -v count="$count" '
        function leb_size(n,    size) {
            for (size = 1; n >= 128; size++) n = int(n / 128)
            return size
        }
        function octal(byte) {
            return sprintf("\\%03o", byte)
        }
        function leb(n,    text) {
            for (; n >= 128; n = int(n / 128)) text = text octal(128 + n % 128)
            return text octal(n)
        }
        function put(text) {
            line = line text
            if (length(line) > 4000) flush()
        }
        function flush() {
            if (line != "") print "printf '\''" line "'\''"
            line = ""
        }
        # A section of so many items of one text and size.
        function alike(id, items, text, size,    i) {
            put(octal(id) leb(leb_size(items) + items * size) leb(items))
            for (i = 0; i < items; i++) put(text)
        }
        function aliases(    i, size) {
            alike(7, 1, octal(121), 1)
            size = leb_size(count)
            for (i = 0; i < count; i++) size += 3 + leb_size(i)
            put(octal(6) leb(size) leb(count))
            for (i = 0; i < count; i++) put(octal(3) octal(2) octal(0) leb(i))
        }
        function doubled(    i) {
            put(octal(7) leb(74) octal(19) octal(121))
            for (i = 0; i < 18; i++) put(octal(111) octal(2) octal(i) octal(i))
            alike(7, count, octal(112) octal(17), 2)
        }
        BEGIN {
            if (kind == "types") alike(7, count, octal(111) octal(2) octal(121) octal(121), 4)
            if (kind == "aliases") aliases()
            if (kind == "instances") alike(5, count, octal(0) octal(0) octal(0), 3)
            if (kind == "doubled") doubled()
            flush()
        }
    ' | sh
}

# A number as LEB128.
leb() {
    rest=$1
    while [ "$rest" -ge 128 ]; do
        # shellcheck disable=SC2059
        printf "\\$(printf '%03o' $((128 + rest % 128)))"
        rest=$((rest / 128))
    done
    # shellcheck disable=SC2059
    printf "\\$(printf '%03o' "$rest")"
}

case $kind in
    exports)
        "$here/root.sh" "$count"
        ;;
    sections)
        "$here/sections.sh" "$count"
        ;;
    instances)
        inner=$(mktemp)
        trap 'rm -f "$inner"' EXIT
        "$here/root.sh" 100 >"$inner"
        printf '\000asm\015\000\001\000\004'
        leb "$(wc -c <"$inner" | tr -d ' ')"
        cat "$inner"
        sections
        ;;
    types | aliases | doubled)
        printf '\000asm\015\000\001\000'
        sections
        ;;
    *)
        printf 'components.sh: %s is no kind: exports, types, aliases, instances, doubled or sections\n' "$kind" >&2
        exit 2
        ;;
esac
