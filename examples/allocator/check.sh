#!/bin/sh
# Runs the recorder: on a program of its own, over an allocator that rounds nothing and over one that rounds, and on a
# program of the system with a child. Runs the judge inside malloc over the same two allocators. CAPDIAG is the program that
# judges; both libraries for C are built.
set -eu
cd "$(dirname "$0")"
CAPDIAG=${CAPDIAG:?the program capdiag}
work=$(mktemp -d)
trap 'rm -rf "$work"' EXIT
cc=${CC:-cc}
$cc -O2 -Wall -Wextra -shared -fPIC -o "$work/record.so" record.c -ldl -pthread
$cc -O2 -Wall -Wextra -shared -fPIC -o "$work/bump.so" bump.c
$cc -O2 -Wall -Wextra -shared -fPIC -DROUNDED -o "$work/rounded.so" bump.c
$cc -O2 -Wall -Wextra -o "$work/asks" asks.c
judged() { # FOLDER LIBRARIES PROGRAM..: the verdicts on all its logs
    mkdir "$work/$1"
    logs=$work/$1 libraries=$2
    shift 2
    env HEAP_LOGS="$logs" LD_PRELOAD="$libraries" "$@" > /dev/null 2> "$work/said"
    for log in "$logs"/*.log; do "$CAPDIAG" heap "$log" || test $? = 1; done
}
told() { test "$2" = "$3" || { echo "$1: $2, and not $3"; exit 1; }; }
told 'an allocator that rounds nothing' "$(judged one "$work/record.so $work/bump.so" "$work/asks")" 'no 4 28 Overlaps'
told 'an allocator that rounds' "$(judged two "$work/record.so $work/rounded.so" "$work/asks")" 'yes 6 0'
# The shell's child ends by itself, so its log, which begins with that of its parent, is whole too.
told 'a shell and its child' "$(judged three "$work/record.so $work/rounded.so" sh -c '(exit 0); :' | cut -d ' ' -f 1 | sort | uniq -c | tr -s ' ')" ' 2 yes'
# It says what is in a log, and why it records nothing or less. A program that changes its folder has its children recorded.
silent() { timeout 60 env "$@" 2>&1 > /dev/null | sed "s|$work/||; s/[0-9][0-9]*\.log/N.log/"; }
preload="LD_PRELOAD=$work/record.so"
mkdir "$work/four" "$work/five"
told 'what is in a log' "$(silent "$preload" HEAP_LOGS="$work/five" "$work/asks")" 'record: 3 objects, 6 events, five/asks.N.log'
told 'no folder is named' "$(silent -u HEAP_LOGS "$preload" "$work/asks")" 'record: HEAP_LOGS is not set: nothing is recorded'
told 'an empty name' "$(silent HEAP_LOGS= "$preload" "$work/asks")" 'record: HEAP_LOGS is empty: nothing is recorded'
told 'the folder is missing' "$(silent HEAP_LOGS=/missing "$preload" "$work/asks")" \
    'record: cannot write /missing/asks.N.log: No such file or directory: nothing is recorded'
told 'a full disk' "$(trap '' XFSZ; ulimit -f 1; silent "$preload" HEAP_LOGS="$work/five" ls -l /usr/bin | sed 's/[0-9]* objects, [0-9]*/N objects, N/')" \
    'record: N objects, N events, five/ls.N.log; ended early: File too large'
$cc -O2 -fno-builtin -o "$work/own" ../objects/own.c
told 'a program with its own malloc' "$(silent "$preload" HEAP_LOGS="$work/four" "$work/own")$(ls "$work/four")" \
    'record: no malloc of the C library was called, and own has its own or needs none: nothing is recorded'
(cd "$work" && HEAP_LOGS=four LD_PRELOAD=./record.so sh -c 'cd / && "$1"; :' sh "$work/asks" > /dev/null 2>&1)
told 'a program that changes its folder' "$(ls "$work/four" | cut -d . -f 1 | sort -u | tr '\n' ' ')" 'asks sh '
# The judge inside malloc stops the program in its call, or lets it end.
top=../..
$cc -O2 -Wall -Wextra -shared -fPIC -I$top/include livejudge.c $top/judge/out/libcapcheck_judge.a $top/crates/capcheck_c/out/libcapcheck_c.a \
    -o "$work/livejudge.so" -ldl -pthread
said() { (env LD_PRELOAD="$work/livejudge.so $1" "$work/asks" 2>&1 > /dev/null || :) | grep -a "^livejudge:" | sed "s/ at 0x[0-9a-f]*;/;/" | grep . || echo silent; }
told 'the judge inside malloc' "$(said "$work/bump.so")" \
    'livejudge: NotExact: 87208 bytes; right would be 87296 at a multiple of 128'
told 'the judge inside malloc, over an allocator that rounds' "$(said "$work/rounded.so")" silent
echo 'the recorder passed'
