#!/bin/sh
# Counts the instructions of writing a line from C over mixed values, for some kinds, by callgrind; those of the program
# around the call are taken off. sh bench/lines.sh, once the library for C is built: (cd crates/capcheck_c && rt lib)
set -eu
cd "$(dirname "$0")/.."
work=$(mktemp -d)
trap 'rm -rf "$work"' EXIT
${CC:-cc} -std=c99 -O2 -Wall -Wextra -Werror -pedantic -Iinclude bench/lines.c "${LIBRARY:-crates/capcheck_c/out/libcapcheck_c.a}" -o "$work/lines"
for kind in move setaddr setbounds lc sc load store derive exchange invoke drop fill object free; do
    valgrind --tool=callgrind --callgrind-out-file=/dev/null --toggle-collect="capcheck_line_$kind" "$work/lines" "$kind" 40000 2> "$work/said" ||
        { cat "$work/said" >&2; exit 1; }
    echo "$kind $(($(sed -n 's/.*Collected : *//p' "$work/said") / 40000))"
done
