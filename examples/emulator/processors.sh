#!/usr/bin/env bash
# Builds the libraries that take no memory for the oldest x86-64 processors and for 64-bit Arm, and runs calls.c and
# lent.c there, under qemu. What has no emulator or compiler here isn't tried, and it says so. RT_LIB may name another
# command in place of `rt lib`.
set -eu
cd "$(dirname "$0")/../.."
work=$(mktemp -d)
# A library for this machine has the same place: it is put back.
put_back() {
    for crate in capcheck_c capcheck_freestanding; do
        rm -f "crates/$crate/out/lib$crate.a"
        [ ! -f "$work/$crate.a" ] || mv "$work/$crate.a" "crates/$crate/out/lib$crate.a"
    done
    rm -rf "$work"
}
for crate in capcheck_c capcheck_freestanding; do
    [ ! -f "crates/$crate/out/lib$crate.a" ] || cp -p "crates/$crate/out/lib$crate.a" "$work/$crate.a"
done
trap put_back EXIT

# Builds a library, and runs a program with it: its crate, the program, and the words of `rt lib`.
made() {
    local crate=$1 program=$2
    shift 2
    (cd "crates/$crate" && ${RT_LIB:-rt lib} "$@") > "$work/said" 2>&1 || { cat "$work/said" >&2; exit 1; }
    "$compiler" -std=c99 -Wall -Wextra -Werror -pedantic -O2 -static -Iinclude "examples/emulator/$program.c" "crates/$crate/out/lib$crate.a" -o "$work/$program"
    $emulator "$work/$program" > "$work/said" || { cat "$work/said" >&2; exit 1; }
}

# Tries a build: its name, the emulator with its words, the compiler, and the words of `rt lib`.
tried() {
    local name=$1 emulator=$2 compiler=$3
    shift 3
    if ! command -v "${emulator%% *}" > "$work/found" || ! command -v "$compiler" > "$work/found"; then
        echo "$name: not tried, since ${emulator%% *} or $compiler isn't here"
        return
    fi
    made capcheck_c calls "$@"
    made capcheck_freestanding lent "$@"
    echo "$name: each call answered"
}

tried 'x86-64' 'qemu-x86_64 -cpu qemu64' "${CC:-cc}" --cpu x86-64
tried 'aarch64' 'qemu-aarch64' aarch64-linux-gnu-gcc --target aarch64-unknown-linux-gnu
