#!/bin/sh
# Writes a component to standard output that has N types, each u32, and exports each under a name of its own, n0 to n(N-1).
set -eu

count=${1:?usage: root.sh N}

# awk works out the lengths and writes lines of printf, which a shell then runs: so each byte comes out as it is meant.
LC_ALL=C awk -v count="$count" '
    function leb_size(n,    size) {
        for (size = 1; n >= 128; size++) n = int(n / 128)
        return size
    }
    function octal(byte) {
        return sprintf("\\%03o", byte)
    }
    function leb(n,    text) {
        for (; n >= 128; n = int(n / 128)) text = text octal(128 + n % 128)
        return text octal(n)
    }
    function put(text) {
        line = line text
        if (length(line) > 4000) flush()
    }
    function flush() {
        if (line != "") print "printf '\''" line "'\''"
        line = ""
    }
    BEGIN {
        put("\\000asm\\015\\000\\001\\000")
        put(octal(7) leb(leb_size(count) + count) leb(count))
        for (i = 0; i < count; i++) put(octal(121))
        size = leb_size(count)
        for (i = 0; i < count; i++) size += 4 + length("n" i) + leb_size(i)
        put(octal(11) leb(size) leb(count))
        for (i = 0; i < count; i++) put(octal(0) octal(length("n" i)) "n" i octal(3) leb(i) octal(0))
        flush()
    }
' | sh
