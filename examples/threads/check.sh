#!/bin/sh
# Runs the two threads in both ways: the first log is accepted, and the second is rejected where memory is handed out that a
# register of the other thread still reaches. CAPDIAG is the program that judges; the libraries for C are built.
set -eu
CAPDIAG=${CAPDIAG:?the program capdiag}
work=$(mktemp -d)
trap 'rm -rf "$work"' EXIT
top=$(dirname "$0")/../..
sh "$top/recorder/build.sh"
"${CC:-cc}" -O2 -Wall -Wextra -I"$top/include" -o "$work/threads" "$top/examples/threads/threads.c" \
    "$top/recorder/out/libcapcheck_recorder.a" "$top/judge/out/libcapcheck_judge.a" "$top/crates/capcheck_c/out/libcapcheck_c.a"
judged() { # WORDS WANTED: the verdict on the log of these words, and what it begins with
    # shellcheck disable=SC2086 # each word apart
    "$work/threads" $1 > "$work/log"
    verdict=$("$CAPDIAG" run --why "$work/log") || test $? = 1
    case $verdict in
    $2) ;;
    *) echo "threads $1: $verdict, and not $2"; exit 1 ;;
    esac
}
judged '' 'yes 315 4 25*'
judged one 'no 225 36 StillHeld*'
echo "$verdict" | grep -q '^holder 1\.c14 1 ' || { echo 'threads one: the holder is no register of the other thread'; exit 1; }
