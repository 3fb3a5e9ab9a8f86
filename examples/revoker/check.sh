#!/bin/sh
# Runs the revoker in its three ways: the first log is accepted, and the others are rejected where memory is handed out that a
# freed object's capability still reaches. With the judge linked in, the revoker stops at that very line. CAPDIAG is the program
# that judges; the libraries for C are built.
set -eu
CAPDIAG=${CAPDIAG:?the program capdiag}
work=$(mktemp -d)
trap 'rm -rf "$work"' EXIT
top=$(dirname "$0")/../..
revoker=$top/examples/revoker/revoker.c
library=$top/crates/capcheck_c/out/libcapcheck_c.a
"${CC:-cc}" -O2 -Wall -Wextra -I"$top/include" -o "$work/revoker" "$revoker" "$library"
"${CC:-cc}" -O2 -Wall -Wextra -DJUDGED -I"$top/include" -o "$work/judged" "$revoker" "$top/judge/out/libcapcheck_judge.a" "$library"
judged() { # WORDS WANTED: the verdict on the log of these words, and what it begins with
    # shellcheck disable=SC2086 # each word apart
    verdict=$("$work/revoker" $1 | "$CAPDIAG" run) || test $? = 1
    case $verdict in
    $2) ;;
    *) echo "revoker $1: $verdict, and not $2"; exit 1 ;;
    esac
}
stopped() { # WORD: with the judge linked in, it writes the log up to the line of the verdict
    judged "$1" 'no * 36 StillHeld'
    number=$(echo "$verdict" | cut -d' ' -f2)
    "$work/judged" "$1" > "$work/log" 2> "$work/said" && { echo "revoker $1: doesn't stop"; exit 1; }
    grep -qx "revoker: stopped at line $number: StillHeld" "$work/said" && [ "$(wc -l < "$work/log")" = "$number" ] ||
        { echo "revoker $1: stops elsewhere than at line $number"; exit 1; }
}
judged '' 'yes * 2 *'
"$work/judged" > "$work/log"
stopped early
stopped skips
grep -q '^revoker: scr[34] still holds object' "$work/said" || { echo 'revoker skips: no special register is named'; exit 1; }
