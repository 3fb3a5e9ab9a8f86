#!/usr/bin/env bash
# Builds the libraries for C, the headers' tests and this example, and judges what the example writes, in both
# forms. It prints the two verdicts, and ends with status 0, where they are as wanted, and where a C program that
# has the judge linked in says of each log of examples/ what the program says.
#
# CAPCHECK and CAPDIAG name built programs; without them, this builds them too. RT_LIB is what builds a library for C in its
# crate's folder, or `rt lib`.
set -eu
cd "$(dirname "$0")/../.."
work=$(mktemp -d)
trap 'rm -rf "$work"' EXIT

# Runs a command, and shows what it says only where it fails.
quietly() {
    "$@" > "$work/said" 2>&1 || { cat "$work/said" >&2; echo "check.sh: failed: $*" >&2; exit 1; }
}

# Judges the example's log, in the form that the words say, and compares the verdict and the status.
judged() {
    local verdict status=0
    "$work/emulator" ${3:+"$3"} > "$work/log" 2> "$work/complaints" || { echo "check.sh: emulator ${3:-} failed" >&2; exit 1; }
    verdict=$("$judge" judge "$work/log") || status=$?
    echo "$verdict"
    [ "$verdict" = "$1" ] && [ "$status" = "$2" ] || { echo "check.sh: wanted $1, status $2, and got status $status" >&2; exit 1; }
}

# The libraries are built side by side.
(cd crates/capcheck_c && ${RT_LIB:-rt lib}) > "$work/built" 2>&1 &
other=$!
(cd crates/capcheck_freestanding && ${RT_LIB:-rt lib}) > "$work/built_freestanding" 2>&1 &
freestanding=$!
judge=${CAPCHECK:-}
if [ -z "$judge" ]; then
    (cd crates/capcheck && quietly rt run -- judge ../../examples/moves.log)
    judge=crates/capcheck/out/capcheck
fi
diagnosis=${CAPDIAG:-}
if [ -z "$diagnosis" ]; then
    (cd crates/capdiag && quietly rt run -- why ../../examples/moves.log)
    diagnosis=crates/capdiag/out/capdiag
fi
quietly sh judge/build.sh
wait "$other" || { cat "$work/built" >&2; echo 'check.sh: failed: the library for C' >&2; exit 1; }
wait "$freestanding" || { cat "$work/built_freestanding" >&2; echo 'check.sh: failed: the judge without a heap' >&2; exit 1; }
library=crates/capcheck_c/out/libcapcheck_c.a
lent=crates/capcheck_freestanding/out/libcapcheck_freestanding.a
libraries="judge/out/libcapcheck_judge.a $library $lent"
strict='-Wall -Wextra -Werror -pedantic -O2 -Iinclude'
quietly ${CC:-cc} -std=c99 $strict examples/emulator/emulator.c $library -o "$work/emulator"
quietly ${CC:-cc} -std=c99 $strict examples/emulator/calls.c $library -o "$work/calls"
quietly "$work/calls"
quietly ${CC:-cc} -std=c99 $strict -Wconversion examples/emulator/edges.c bench/sail_way.c $library -o "$work/edges"
quietly "$work/edges"

# The same calls from C++, where there is a compiler for it.
if command -v "${CXX:-c++}" > "$work/found"; then
    quietly ${CXX:-c++} -std=c++11 $strict -x c++ examples/emulator/calls.c -x none $library -o "$work/calls"
    quietly "$work/calls"
fi

# Logs drawn at random, as they are, with tags and loaded numbers changed, and cut inside a line.
for kind in moves memory mixed; do
    python3 bench/random_log.py "$kind" 150 > "$work/$kind.log"
    sed -E '100,$s/= 1 /= 0 /; 100,$s/^(load .*)[0-7]$/\18/' "$work/$kind.log" > "$work/$kind.changed.log"
    head -c 4000 "$work/$kind.log" > "$work/$kind.cut.log"
done
logs="$(echo examples/*.log) $(echo "$work"/*.log)"

# The judge for C against the program, log by log, as C and as C++, and by each compiler that is here, side by side.
for log in $logs; do
    "$judge" judge "$log" || [ $? = 1 ]
done > "$work/wanted"
compared() {
    local own
    own=$(mktemp -d "$work/compared.XXXXXX")
    "$@" $strict -Wconversion examples/emulator/judging.c -x none $libraries -o "$own/judging" > "$own/said" 2>&1 ||
        { cat "$own/said" >&2; echo "check.sh: failed: $*" >&2; exit 1; }
    "$own/judging" $logs > "$own/got"
    cmp "$work/wanted" "$own/got" || { echo "check.sh: judging, built by $*, gives other verdicts" >&2; exit 1; }
}
tried=()
for compiler in "${CC:-cc}" gcc clang; do
    command -v "$compiler" > "$work/found" || continue
    compared "$compiler" -std=c99 & tried+=($!)
    compared "$compiler" -std=c11 & tried+=($!)
done
for compiler in "${CXX:-c++}" g++ clang++; do
    command -v "$compiler" > "$work/found" || continue
    compared "$compiler" -std=c++11 -x c++ & tried+=($!)
    compared "$compiler" -std=c++20 -x c++ & tried+=($!)
done
for one in "${tried[@]}"; do
    wait "$one"
done
if command -v valgrind > "$work/found"; then
    quietly ${CC:-cc} -std=c99 $strict -Wconversion examples/emulator/judging.c $libraries -o "$work/judging"
    quietly valgrind -q --leak-check=full --error-exitcode=9 "$work/judging" $logs
fi

# The judge of run logs: what it answers of places and objects, and its verdicts on the conformance corpus, as C and as C++.
for compiler in "${CC:-cc} -std=c99" "${CXX:-c++} -std=c++11 -x c++"; do
    command -v "${compiler%% *}" > "$work/found" || continue
    quietly $compiler $strict -Wconversion examples/emulator/runs.c -x none $libraries -o "$work/runs"
    quietly "$work/runs"
    quietly python3 conformance/run "$work/runs" runs
done
if command -v valgrind > "$work/found"; then
    quietly valgrind -q --leak-check=full --error-exitcode=9 "$work/runs"
fi

# The judge of allocators' logs: its verdicts on the conformance corpus, and the program's texts, as C and as C++.
for log in conformance/heaps/*; do
    "$diagnosis" heap --report --why "$log" || [ $? = 1 ]
done > "$work/wanted"
for compiler in "${CC:-cc} -std=c99" "${CXX:-c++} -std=c++11 -x c++"; do
    command -v "${compiler%% *}" > "$work/found" || continue
    quietly $compiler $strict -Wconversion examples/emulator/heaps.c -x none $libraries -o "$work/heaps"
    quietly "$work/heaps"
    quietly python3 conformance/run "$work/heaps" heaps
    "$work/heaps" heap --why conformance/heaps/* > "$work/got"
    cmp "$work/wanted" "$work/got" || { echo "check.sh: heaps, built by $compiler, prints otherwise" >&2; exit 1; }
done
if command -v valgrind > "$work/found"; then
    quietly valgrind -q --leak-check=full --error-exitcode=9 "$work/heaps"
fi

# The judge without a heap wants nothing of a C library but three functions, and prints of each log what the program does.
${NM:-nm} -u "$lent" | sed -n 's/^ *U //p' | sort -u > "$work/wants"
${NM:-nm} --defined-only "$lent" | sed -nE 's/^[0-9a-f]+ [A-Z] //p' | sort -u > "$work/has"
[ "$(comm -23 "$work/wants" "$work/has" | tr '\n' ' ')" = 'memcpy memmove memset ' ] || { echo 'check.sh: the judge without a heap wants more' >&2; exit 1; }
for origins in '' --origins; do
    for log in $logs; do
        # shellcheck disable=SC2086 # no word is no word
        "$diagnosis" why $origins "$log" || [ $? = 1 ]
    done > "$work/wanted"
    for compiler in "${CC:-cc} -std=c99" "${CXX:-c++} -std=c++11 -x c++"; do
        command -v "${compiler%% *}" > "$work/found" || continue
        quietly $compiler $strict -Wconversion examples/emulator/lent.c -x none "$lent" -o "$work/lent"
        # shellcheck disable=SC2086
        "$work/lent" $origins $logs > "$work/got"
        cmp "$work/wanted" "$work/got" || { echo "check.sh: lent, built by $compiler, prints otherwise" >&2; exit 1; }
    done
done

# A program that gets the lines from a pipe stops at the line that the program names: there it has read no line more.
quietly ${CC:-cc} -std=c99 $strict -Wconversion examples/emulator/stopping.c $libraries -o "$work/stopping"
stopped=0
for log in examples/*.log "$work"/*.changed.log; do
    status=0
    "$work/stopping" < "$log" > "$work/got" 2> "$work/complaints" || status=$?
    verdict=$("$judge" judge "$log") || [ $? = 1 ]
    [ "$(cat "$work/got")" = "$verdict" ] || { echo "check.sh: stopping gives another verdict on $log" >&2; exit 1; }
    case $verdict in
        yes*) wanted=0 ;;
        no*)
            wanted=1
            stopped=$((stopped + 1))
            number=$(echo "$verdict" | cut -d' ' -f2)
            [ "$(head -n 1 "$work/complaints")" = "stopped after $number lines: $(sed -n "${number}p" "$log")" ] ||
                { echo "check.sh: stopping stops elsewhere on $log" >&2; exit 1; }
            gives=$("$diagnosis" why "$log" | sed -nE 's/^gives (c[0-9]+ )?([01] [0-9a-f]{32}|[0-9a-f]+)$/gives \2/p')
            [ "$(grep '^gives ' "$work/complaints")" = "$gives" ] ||
                { echo "check.sh: stopping tells other results on $log" >&2; exit 1; }
            ;;
    esac
    [ "$status" = "$wanted" ] || { echo "check.sh: stopping ends with status $status on $log" >&2; exit 1; }
done
[ "$stopped" -gt 0 ] || { echo 'check.sh: no log has a no' >&2; exit 1; }

# The example with the judge linked in: it ends as before, or stops in the step that is at fault, and the log ends there.
quietly ${CC:-cc} -std=c99 $strict -Wconversion -DJUDGED examples/emulator/emulator.c $libraries -o "$work/judged"
"$work/judged" > "$work/log" 2> "$work/complaints"
[ "$(cat "$work/complaints")" = 'emulator: yes 27 1' ] || { echo 'check.sh: the judged emulator gets another verdict' >&2; exit 1; }
status=0
"$work/judged" --bug > "$work/log" 2> "$work/complaints" || status=$?
[ "$status" = 1 ] && [ "$(wc -l < "$work/log")" = 12 ] && grep -qx 'emulator: stopped at line 12: NotExact' "$work/complaints" ||
    { echo 'check.sh: the judged emulator stops elsewhere' >&2; exit 1; }
grep -q '^emulator: c4 is 1 .* and in the log 1 ' "$work/complaints" || { echo 'check.sh: the judged emulator shows no difference' >&2; exit 1; }

# The same by steps without their lines: no log is written, and it stops at the same line.
quietly ${CC:-cc} -std=c99 $strict -Wconversion -DJUDGED -DSTEPS examples/emulator/emulator.c $libraries -o "$work/stepped"
"$work/stepped" > "$work/log" 2> "$work/stepping"
[ "$(cat "$work/stepping")" = 'emulator: yes 27 1' ] && [ ! -s "$work/log" ] || { echo 'check.sh: the emulator by steps gets another verdict' >&2; exit 1; }
status=0
"$work/stepped" --bug > "$work/log" 2> "$work/stepping" || status=$?
[ "$status" = 1 ] && cmp "$work/complaints" "$work/stepping" || { echo 'check.sh: the emulator by steps stops elsewhere' >&2; exit 1; }

# The recorder: which lines it writes, and the faults that each of its ways finds, as C and as C++; that the judge of run logs bears
# each refusal of memory, by the recorder and without it; and that the emulator's log by the recorder has the lines of the
# emulator's own calls, up to the faulty one.
recorder="recorder/out/libcapcheck_recorder.a $libraries"
quietly sh recorder/build.sh
for compiler in "${CC:-cc} -std=c99" "${CXX:-c++} -std=c++11 -x c++"; do
    command -v "${compiler%% *}" > "$work/found" || continue
    quietly $compiler $strict -Wconversion -Wshadow examples/emulator/hooks.c -x none $recorder -o "$work/hooks"
    "$work/hooks" > "$work/log"
    [ "$("$diagnosis" run "$work/log")" = 'yes 86 5 2' ] || { echo 'check.sh: the log of hooks gets another verdict' >&2; exit 1; }
    quietly $compiler $strict -Wconversion -Wshadow examples/emulator/faults.c -x none $recorder -o "$work/faults"
    quietly "$work/faults"
    quietly $compiler $strict -Wconversion -Wshadow examples/emulator/run_memory.c -x none $recorder -o "$work/run_memory"
    quietly "$work/run_memory"
done
if command -v valgrind > "$work/found"; then
    quietly valgrind -q --leak-check=full --error-exitcode=9 "$work/hooks"
fi
quietly ${CC:-cc} -std=c99 $strict -DHOOKED examples/emulator/emulator.c $recorder -o "$work/hooked"
for bug in '' --bug; do
    # shellcheck disable=SC2086 # no word is no word
    "$work/emulator" $bug 2> "$work/complaints" | sed '1s/.*/run 1/' > "$work/wanted"
    # shellcheck disable=SC2086
    "$work/hooked" $bug > "$work/log" 2> "$work/complaints"
    cmp "$work/wanted" "$work/log" || { echo 'check.sh: the recorder writes other lines' >&2; exit 1; }
    verdict=$("$diagnosis" run "$work/log") || [ $? = 1 ]
    [ "$verdict" = "${bug:+no 12 12 NotExact}" ] || [ "$verdict$bug" = 'yes 27 1 0' ] || { echo "check.sh: the recorder's log gets another verdict" >&2; exit 1; }
done

judged 'yes 27 1' 0
judged 'no 12 12 NotExact' 1 --bug
grep -qx 'emulator: line 12: NotExact' "$work/complaints" || { echo 'check.sh: the emulator names another line' >&2; exit 1; }
