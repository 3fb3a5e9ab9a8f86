#!/usr/bin/env python3
"""Judges logs with the program and with the baseline, a judge in plain Rust that proves nothing, and compares their times.

    python3 bench/ratio.py LOG.. [--rounds N] [--program PATH] [--command WORDS]

In each of fifteen rounds, or N, the two programs run on each log in turn: so a time in which the machine is slow changes no
log's least by itself. A row says for each log what a line takes at least, in ns of CPU time, and the greatest memory, of
`capcheck` and of the baseline, and last the throughput, where 1.00 is the baseline's. The last line is the geometric mean
of the throughputs. `--command 'run --freed used'` judges run logs, by `capdiag`. It needs `cargo`, and builds the baseline in
bench/out."""
import argparse
import math
import os
import resource
import subprocess
import sys

TOP = os.path.join(os.path.dirname(os.path.abspath(__file__)), "..")
OUT = f"{TOP}/bench/out/baseline"


def built():
    manifest = f"{TOP}/bench/baseline/Cargo.toml"
    subprocess.run(["cargo", "build", "--quiet", "--release", "--manifest-path", manifest, "--target-dir", OUT], check=True)
    return f"{OUT}/release/baseline"


def once(program, command, log):
    """The CPU time of one run, and its verdict."""
    before = resource.getrusage(resource.RUSAGE_CHILDREN)
    said = subprocess.run([program, *command, log], capture_output=True, text=True).stdout
    after = resource.getrusage(resource.RUSAGE_CHILDREN)
    return after.ru_utime + after.ru_stime - before.ru_utime - before.ru_stime, said


def peak(program, command, log):
    """The greatest memory of one run, in units of 10^6 bytes."""
    ran = subprocess.run(["/usr/bin/time", "-f", "%M", program, *command, log], capture_output=True, text=True)
    return int(ran.stderr.strip().split("\n")[-1]) * 1024 / 1e6


def main(words):
    parser = argparse.ArgumentParser(usage=__doc__)
    parser.add_argument("logs", nargs="+")
    parser.add_argument("--rounds", type=int, default=15)
    parser.add_argument("--program")
    parser.add_argument("--command", default="judge", type=str.split)
    given = parser.parse_args(words)
    name = "capcheck" if given.command[0] == "judge" else "capdiag"
    programs, ratios = [given.program or f"{TOP}/crates/{name}/out/{name}", built()], []
    times = {log: ([], []) for log in given.logs}
    for _ in range(given.rounds):
        for log in given.logs:
            said = set()
            for program, taken in zip(programs, times[log]):
                time, verdict = once(program, given.command, log)
                taken.append(time)
                said.add(verdict)
            if len(said) > 1:
                print(f"{log}: the verdicts differ: {said}")
                return 1
    for log in given.logs:
        with open(log, "rb") as it:
            lines = sum(1 for _ in it)
        own, other = map(min, times[log])
        ratios.append(other / own)
        own, other, peaks = 1e9 * own / lines, 1e9 * other / lines, [peak(it, given.command, log) for it in programs]
        print(f"{os.path.basename(log):24} {own:6.1f} ns a line  {peaks[0]:6.1f} MB  the baseline {other:6.1f} ns  {peaks[1]:6.1f} MB  {ratios[-1]:5.2f}", flush=True)
    print(f"geometric mean {math.exp(sum(map(math.log, ratios)) / len(ratios)):.2f}")
    return 0


sys.exit(main(sys.argv[1:]))
