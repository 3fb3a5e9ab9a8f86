#!/bin/sh
# Runs the recorder of objects on a program of its own: a log that is accepted, one granule too many, which the judge has to
# find, and a pipe whose reader ends. CAPCHECK is the program that judges; the library for C is built.
set -eu
unset CAP_LOGS CAP_MOST
cd "$(dirname "$0")"
CAPCHECK=${CAPCHECK:?the program capcheck}
work=$(mktemp -d)
trap 'rm -rf "$work"' EXIT
cc=${CC:-cc}
top=../..
$cc -O2 -Wall -Wextra -fno-builtin -fno-tree-loop-distribute-patterns -shared -fPIC -I$top/include -o "$work/objects.so" \
    objects.c $top/crates/capcheck_c/out/libcapcheck_c.a -ldl -pthread
$cc -O2 -w -fno-builtin -o "$work/overruns" overruns.c
$cc -O2 -Wall -Wextra -fno-builtin -o "$work/own" own.c
$cc -O2 -Wall -Wextra -fno-builtin -o "$work/threads" threads.c -pthread
told() { test "$2" = "$3" || { echo "$1: $2, and not $3"; exit 1; }; }
judged() { # FOLDER WORD..: the verdict on the log of a run with these words, and what the recorder says
    mkdir "$work/$1"
    logs=$work/$1
    shift
    env CAP_LOGS="$logs" LD_PRELOAD="$work/objects.so" "$work/overruns" "$@" 2>&1 | sed 's|/.*/overruns.[0-9]*.log|LOG|'
    "$CAPCHECK" judge "$logs"/*.log || test $? = 1
}
said() { # VARIABLES.. PROGRAM: what the recorder says
    env LD_PRELOAD="$work/objects.so" "$@" 2>&1 > /dev/null | sed "s|$work/||; s/[0-9][0-9]*\.log/N.log/"
}
told 'an object that is cleared' "$(judged one | tr '\n' ' ')" 'objects: 2 objects, 2 accesses, LOG yes 6 1 '
told 'a granule too many' "$(judged two x | tail -n 1)" 'no 9 17 AuthorityBounds'
told 'at most one access' "$(CAP_MOST=1 judged three | tr '\n' ' ')" \
    'objects: 2 objects, 1 accesses, LOG; ended early: CAP_MOST permits no more accesses yes 4 1 '
told 'no folder is named' "$(said "$work/overruns")" 'objects: CAP_LOGS is not set: nothing is recorded'
told 'an empty name' "$(said CAP_LOGS= "$work/overruns")" 'objects: CAP_LOGS is empty: nothing is recorded'
told 'the folder is missing' "$(said CAP_LOGS=/missing "$work/overruns")" \
    'objects: cannot write /missing/overruns.N.log: No such file or directory: nothing is recorded'
for most in 0 -1 x 1x 99999999999999999999; do
    told 'a limit that is none' "$(said CAP_LOGS="$work" CAP_MOST=$most "$work/overruns")" \
        "objects: CAP_MOST is $most, and no number from 1 on: nothing is recorded"
done
told 'a full disk' "$(said CAP_LOGS=/dev/full "$work/overruns")" \
    'objects: 2 objects, 2 accesses, /dev/full; ended early: No space left on device'
$cc -O2 -w -DNODES=2 -fno-builtin -fno-tree-loop-distribute-patterns -shared -fPIC -I$top/include -o "$work/small.so" \
    objects.c $top/crates/capcheck_c/out/libcapcheck_c.a -ldl -pthread
told 'too many objects' "$(said CAP_LOGS=/dev/null LD_PRELOAD="$work/small.so" "$work/overruns")" \
    'objects: 2 objects, 0 accesses, /dev/null; ended early: more objects live at once than it has room for'
mkdir "$work/four" "$work/five" "$work/six"
told 'a program with its own malloc' "$(said CAP_LOGS="$work/four" "$work/own")$(ls "$work/four")" \
    'objects: no malloc of the C library was called, and own has its own or needs none: nothing is recorded'
# Children of a program with threads end, and those of one that changes its folder are recorded.
said CAP_LOGS="$work/five" timeout 60 "$work/threads" > "$work/said"
grep -q 'objects: [0-9]* objects, .*five/threads.N.log$' "$work/said" || { echo 'children of a program with threads:'; cat "$work/said"; exit 1; }
(cd "$work" && CAP_LOGS=six LD_PRELOAD=./objects.so sh -c 'cd / && "$1"; :' sh "$work/overruns" 2> /dev/null)
told 'a program that changes its folder' "$(ls "$work/six" | cut -d . -f 1 | sort -u | tr '\n' ' ')" 'overruns sh '
# The reader of a pipe ends at once, and then the program, which waited for it.
mkfifo "$work/pipe" "$work/another"
told 'a pipe without a reader' "$({ head -c 0 "$work/pipe"; echo; } | said CAP_LOGS="$work/pipe" cat | sed 's/[0-9][0-9]* \(objects,\|accesses,\)/N \1/g')" \
    'objects: N objects, N accesses, pipe; ended early: the pipe has no reader'
# A pipe has room for one log: the program's, and not its children's.
"$CAPCHECK" judge "$work/another" > "$work/verdict" &
told 'a child of a program with a pipe' "$(said CAP_LOGS="$work/another" sh -c '"$1"; :' sh "$work/overruns" | head -n 1)" \
    'objects: another has the log of the program that started overruns: nothing is recorded'
wait
told 'a program with a pipe' "$(cut -d ' ' -f 1 "$work/verdict")" yes
echo 'the recorder of objects passed'
