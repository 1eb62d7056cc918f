#!/bin/sh
# Writes a component to standard output that has N blocks of about a megabyte (1024 KiB), each of custom sections, core
# modules and nested components.
set -eu

count=${1:?usage: sections.sh N}

work=$(mktemp -d)
trap 'rm -rf "$work"' EXIT
trap 'exit 130' INT TERM

# One byte, by its number.
byte() {
    # shellcheck disable=SC2059
    printf "\\$(printf '%03o' "$1")"
}

# A number as LEB128.
leb() {
    rest=$1
    while [ "$rest" -ge 128 ]; do
        byte $((128 + rest % 128))
        rest=$((rest / 128))
    done
    byte "$rest"
}

# A section of this id, which holds what a file does.
section() {
    byte "$1"
    leb "$(wc -c <"$2" | tr -d ' ')"
    cat "$2"
}

# So many copies of a file.
copies() {
    copy=0
    while [ "$copy" -lt "$1" ]; do
        cat "$2"
        copy=$((copy + 1))
    done
}

component_header() {
    printf '\000asm\r\000\001\000'
}

# A custom section's name and 4 KiB behind it, and the section.
{
    printf '\001n'
    head -c 4096 /dev/zero
} >"$work/custom"
section 0 "$work/custom" >"$work/custom.section"

# A core module of 64 KiB.
{
    printf '\000asm\001\000\000\000'
    head -c 65536 /dev/zero
} >"$work/module"
section 1 "$work/module" >"$work/module.section"

# A component of eight custom sections and a core module, and one that nests four of these.
{
    component_header
    copies 8 "$work/custom.section"
    cat "$work/module.section"
} >"$work/inner"
section 4 "$work/inner" >"$work/inner.section"
{
    component_header
    copies 4 "$work/inner.section"
} >"$work/outer"
section 4 "$work/outer" >"$work/outer.section"

# A block: a quarter of it custom sections, a quarter core modules, and the rest nested components.
{
    copies 64 "$work/custom.section"
    copies 6 "$work/module.section"
    cat "$work/outer.section"
} >"$work/block"

component_header
copies "$count" "$work/block"
