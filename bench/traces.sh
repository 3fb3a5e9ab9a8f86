#!/bin/sh
# Times `python3 -m capcheck trace` on one core: traces of about 100,000 instructions of a random program, by the machine of
# examples/emulator, as events and in the form of QEMU-CHERI. It prints the least processor time of five runs, the interpreter's start
# with it.
#
#   sh bench/traces.sh PREFIX
#
# PREFIX is the folder that install.sh installed below.
set -eu
prefix=$(cd "$1" && pwd)
cd "$(dirname "$0")/.."
work=$(mktemp -d)
trap 'rm -rf "$work"' EXIT
${CC:-cc} -std=c99 -O2 "-I$prefix/include" examples/emulator/machine.c "$prefix/lib/libcapcheck_recorder.a" "$prefix/lib/libcapcheck_judge.a" \
    "$prefix/lib/libcapcheck_c.a" -o "$work/machine"
STEPS=40000 "$work/machine" events 1 > "$work/events"
STEPS=40000 "$work/machine" qemu 1 > "$work/qemu-cheri"
PYTHONPATH=$prefix/share/capcheck python3 - "$work" <<'PYTHON'
import resource, subprocess, sys

work = sys.argv[1]
for dialect, words in (("events", []), ("qemu-cheri", ["--malloc", "0x2100", "--free", "0x2200"])):
    command = [sys.executable, "-m", "capcheck", "trace", "--dialect", dialect, "--spare", "31", "--log", f"{work}/log", *words, f"{work}/{dialect}"]
    times = []
    for _ in range(5):
        before = resource.getrusage(resource.RUSAGE_CHILDREN)
        subprocess.run(command, check=True)
        after = resource.getrusage(resource.RUSAGE_CHILDREN)
        times.append(after.ru_utime + after.ru_stime - before.ru_utime - before.ru_stime)
    with open(f"{work}/{dialect}") as trace:
        count = sum(line.startswith("[") or '"do"' in line and '"do":"root"' not in line for line in trace)
    print(f"{dialect} {count} instructions, {count / min(times):.0f} a second")
PYTHON
