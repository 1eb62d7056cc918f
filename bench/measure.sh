# What the scripts of this folder share. Each reads it by `.`, with `here` set to this folder's path. It makes a folder,
# `work`, which is removed when the script ends.
# shellcheck shell=sh

work=$(mktemp -d)
trap 'rm -rf "$work"' EXIT
trap 'exit 130' INT TERM

# Proves and builds `warg` where that is due, so that no run that is timed does. Sets `program` to its path.
build_warg() {
    "$here/../warg" link "$here/../examples/empty.wasm" "$work/empty.wasm" >"$work/empty.line"
    program=$here/../.warg/program
}

# The crates of the repository that these libraries are or stand on.
crates_below() {
    awk -v wanted="$1" '
        function visit(name,    parts, n, i) {
            if (name in seen || !(name in below)) return
            seen[name] = 1
            n = split(below[name], parts, " ")
            for (i = 1; i <= n; i++) visit(parts[i])
            print name
        }
        { sub(/#.*/, "") }
        /:/ {
            split($0, sides, ":")
            split(sides[1], words, " ")
            below[words[1]] = sides[2]
        }
        END {
            n = split(wanted, names, " ")
            for (k = 1; k <= n; k++) visit(names[k])
        }
    ' "$here/../crates.txt"
}

# Builds a program over crates of the repository, in the folder `work`, and sets `program` to its path. Its source is
# standard input.
#
# usage: build_over NAME 'LIBRARY ...'    the libraries that it names, of the repository and of the kit
build_over() {
    mkdir -p "$work/crates/$1/src"
    cat >"$work/crates/$1/src/main.rt"
    for crate in $(crates_below "$2"); do
        mkdir -p "$work/crates/$crate"
        for part in src specs proofs; do
            [ ! -d "$here/../crates/$crate/$part" ] || cp -r "$here/../crates/$crate/$part" "$work/crates/$crate/"
        done
        grep "^$crate\( [^:]*\)\{0,1\}:" "$here/../crates.txt"
    done >"$work/crates.txt"
    printf '%s: %s\n' "$1" "$2" >>"$work/crates.txt"
    cp "$here/../HANDLES" "$work/"
    # The program is run once, without input, when it is built; how that ends says nothing.
    (cd "$work/crates/$1" && rt run </dev/null >"$work/build" 2>&1) || true
    program=$work/crates/$1/out/$1
    [ -x "$program" ] || {
        cat "$work/build" >&2
        fail "$1 was not built"
    }
}

# Ends the script with a message that has its name.
fail() {
    printf '%s: %s\n' "${0##*/}" "$1" >&2
    exit 1
}

# Nanoseconds, where the clock tells them, else whole seconds.
now() {
    time_now=$(date +%s%N)
    case $time_now in
        *N) time_now=$(date +%s)000000000 ;;
    esac
    printf '%s\n' "$time_now"
}

# The least time of five runs of a command, in nanoseconds.
least_of() {
    least=
    for run in 1 2 3 4 5; do
        begin=$(now)
        "$@"
        took=$(($(now) - begin))
        if [ -z "$least" ] || [ "$took" -lt "$least" ]; then
            least=$took
        fi
    done
    printf '%s\n' "$least"
}

# The most memory that a command held, in KiB, where GNU time is there, else 0.
peak_of() {
    if [ -x /usr/bin/time ]; then
        /usr/bin/time -q -f %M -o "$work/peak" "$@" >"$work/peak.line" 2>"$work/cause" || true
        tail -n 1 "$work/peak"
    else
        printf '0\n'
    fi
}

size_of() {
    wc -c <"$1" | tr -d ' '
}

# For awk: how often b goes into a, where there is a b.
ratio='
    function ratio(a, b) {
        return b > 0 ? sprintf("%.2f", a / b) : "-"
    }'
