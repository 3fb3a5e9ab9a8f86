#!/bin/sh
# Checks the Python package over the installed libraries: compares it with the headers, runs its tests, builds its wheel without
# a network, and calls what the wheel installs. With GDB, it runs the sessions of GDB too. It says what it left out.
#
#   sh python/check.sh [PREFIX]
#
# PREFIX is the folder that install.sh installed below; without it, the script installs into a folder of its own. The words of
# the tests are WORDS, or 10000, the run logs RUN_LOGS, or 200, and the programs that print traces PROGRAMS, or 40. The tests of words run in each Python of PYTHONS that is here, too.
set -eu
cd "$(dirname "$0")/.."
work=$(mktemp -d)
trap 'rm -rf "$work"' EXIT
if [ $# = 1 ]; then
    prefix=$(cd "$1" && pwd)
else
    prefix=$work/there
    sh install.sh "$prefix" > "$work/said" 2>&1 || { cat "$work/said" >&2; exit 1; }
fi
left_out() { echo "python/check.sh: left out: $1"; }
export PYTHONDONTWRITEBYTECODE=1 CAPCHECK="$prefix/bin/capcheck" CAPDIAG="$prefix/bin/capdiag" EXPLAINED="$work/explained"
python3 -c 'import sys; sys.exit(sys.version_info < (3, 10))' || { left_out 'the Python package and GDB: python3 is older than 3.10'; exit 0; }

python3 python/abi_check.py "$prefix"
python3 -c 'import random
draw = random.Random()
for number in range('"${WORDS:-10000}"'):
    word = draw.getrandbits(128)
    print(f"{word & ~(3 << 110) | 0x3ffff << 91 if number % 2 else word:032x}")' > "$work/words"
while read -r word; do
    "$CAPCHECK" explain "$word"
done < "$work/words" > "$EXPLAINED"
${CC:-cc} -std=c99 -Wall -Wextra -Wconversion -Wshadow -Werror -pedantic -O2 "-I$prefix/include" examples/emulator/machine.c \
    "$prefix/lib/libcapcheck_recorder.a" "$prefix/lib/libcapcheck_judge.a" "$prefix/lib/libcapcheck_c.a" -o "$work/machine"
PYTHONPATH="$prefix/share/capcheck" MACHINE="$work/machine" python3 -m unittest discover -q python/tests
for other in ${PYTHONS:-python3.10 python3.12 python3.13}; do
    "$other" -c '' 2> "$work/said" || { left_out "the tests of words in $other"; continue; }
    PYTHONPATH="$prefix/share/capcheck" "$other" -m unittest discover -q -p test_words.py python/tests
done

# A cluster on this machine judges many logs, in a Python that has its packages.
clustered=
for other in python3 /usr/bin/python3; do
    [ -z "$clustered" ] && "$other" -c 'import distributed, fsspec' 2> "$work/said" || continue
    [ "$other" = python3 ] || PYTHONPATH="$prefix/share/capcheck" "$other" -m unittest discover -q -p test_cluster.py python/tests
    clustered=$other
done
[ -n "$clustered" ] || left_out "many logs by a cluster: no python3 here has the packages distributed and fsspec"

# Run logs drawn at random get the same verdict from the program, from C in each way, and from the package.
${CC:-cc} -std=c99 -O2 "-I$prefix/include" examples/emulator/runs.c "$prefix/lib/libcapcheck_judge.a" "$prefix/lib/libcapcheck_c.a" -o "$work/runs"
PYTHONPATH="$prefix/share/capcheck" python3 conformance/run_ways.py "$CAPDIAG" "$work/runs" "${RUN_LOGS:-200}"

if python3 -m pip --version > "$work/said" 2>&1; then
    CAPCHECK_LIB="$prefix/lib" python3 -m pip install -q --no-index --no-deps --disable-pip-version-check --root-user-action=ignore --target "$work/site" ./python
    got=$(cd "$work" && PYTHONPATH="$work/site" python3 -m capcheck judge "$OLDPWD/examples/moves.log")
    [ "$got" = 'yes 2 1' ] || { echo "python/check.sh: the wheel's package says $got" >&2; exit 1; }
    got=$("$work/machine" qemu 0 | PYTHONPATH="$work/site" python3 -m capcheck trace --judge --dialect qemu-cheri | cut -c 1-3)
    [ "$got" = yes ] || { echo "python/check.sh: the wheel's package says $got of a trace" >&2; exit 1; }
else
    left_out 'the wheel: there is no pip'
fi

python3 gdb/sessions.py "$prefix"
