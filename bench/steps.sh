#!/bin/sh
# Counts the instructions of a step that is handed over to a linked judge by its numbers, of its line written and handed over, and
# of both to a judge of run logs, for each kind, by callgrind: the loop and the calls are counted. sh bench/steps.sh, once both
# libraries for C are built:
# (cd crates/capcheck_c && rt lib) && sh judge/build.sh
set -eu
cd "$(dirname "$0")/.."
work=$(mktemp -d)
trap 'rm -rf "$work"' EXIT
for judge in PLAIN RUN; do
    ${CC:-cc} -std=c99 -O2 -Wall -Wextra -Werror -pedantic -D$judge -Iinclude bench/steps.c "${JUDGE:-judge/out/libcapcheck_judge.a}" \
        "${LIBRARY:-crates/capcheck_c/out/libcapcheck_c.a}" -o "$work/$judge"
done
run() {
    valgrind --tool=callgrind --callgrind-out-file=/dev/null "$work/$1" "$2" "$3" "$4" 2> "$work/said" || { cat "$work/said" >&2; exit 1; }
    sed -n 's/.*Collected : *//p' "$work/said"
}
counted() {
    none=$(run "$3" "$1" 0 "$2")
    all=$(run "$3" "$1" 40000 "$2")
    echo $(((all - none) / 40000))
}
for kind in move cleartag setaddr andperm setbounds setbounds-long setboundsexact setboundsexact-long seal unseal lc sc load load-byte \
    store; do
    echo "$kind $(counted "$kind" step PLAIN) $(counted "$kind" line PLAIN) $(counted "$kind" step RUN) $(counted "$kind" line RUN)"
done
