#!/bin/sh
# Judges logs that are drawn at random by two programs, and compares what they print and their statuses. Each log has 100,000 steps
# of all kinds, and about two in three have lines that break the rules. It prints how many lines were judged, and of the logs on
# which the programs differ the seeds.
#
#   sh bench/random_lines.sh PROGRAM OTHER LOGS [FIRST_SEED]
#
# The library for C has to be built: (cd crates/capcheck_c && rt lib), or LIBRARY names it.
set -eu
cd "$(dirname "$0")/.."
work=$(mktemp -d)
trap 'rm -rf "$work"' EXIT
${CC:-cc} -std=c99 -O2 -Wall -Wextra -Werror -pedantic -Iinclude bench/random_lines.c "${LIBRARY:-crates/capcheck_c/out/libcapcheck_c.a}" -o "$work/write"
seed=${4:-1}
last=$((seed + $3 - 1))
differ=0
while [ "$seed" -le "$last" ]; do
    "$work/write" 100000 "$seed" > "$work/log"
    status=0 other=0
    "$1" judge "$work/log" > "$work/said" || status=$?
    "$2" judge "$work/log" > "$work/other" || other=$?
    cut -d' ' -f1,3- "$work/said" | sed 's/^yes .*/yes/' >> "$work/verdicts"
    if [ "$status" != "$other" ] || ! cmp -s "$work/said" "$work/other"; then
        echo "seed $seed: $status $(cat "$work/said"), $other $(cat "$work/other")"
        differ=$((differ + 1))
    fi
    seed=$((seed + 1))
done
sort "$work/verdicts" | uniq -c
echo "$3 logs of 100,000 steps, $differ differ"
[ "$differ" = 0 ]
