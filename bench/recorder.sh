#!/bin/sh
# Counts the instructions of recording an instruction from C, without a judge, over mixed values, by callgrind: a step by
# `did`, a `derive` by `wrote`, an integer, accesses, and a load through DDC, of three lines. sh bench/recorder.sh, once the
# libraries for C are built.
set -eu
cd "$(dirname "$0")/.."
work=$(mktemp -d)
trap 'rm -rf "$work"' EXIT
sh recorder/build.sh
# shellcheck disable=SC2086 # several files
${CC:-cc} -std=c99 -O2 -Wall -Wextra -Werror -pedantic -Iinclude bench/recorder.c recorder/out/libcapcheck_recorder.a ${LIBRARIES:-judge/out/libcapcheck_judge.a crates/capcheck_c/out/libcapcheck_c.a} -o "$work/recorder"
for kind in did wrote overwrote loaded stored loaded_cap through_ddc; do
    call=$kind
    [ "$kind" != through_ddc ] || call=loaded
    valgrind --tool=callgrind --callgrind-out-file=/dev/null --toggle-collect="capcheck_recorder_$call" "$work/recorder" "$kind" 40000 2> "$work/said" ||
        { cat "$work/said" >&2; exit 1; }
    echo "$kind $(($(sed -n 's/.*Collected : *//p' "$work/said") / 40000))"
done
