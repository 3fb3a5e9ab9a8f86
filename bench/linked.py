#!/usr/bin/env python3
"""Measures the judge that is linked into a program, beside the program that reads from a pipe, on logs of a million
steps: python3 bench/linked.py [ROUNDS]

It wants the program and both libraries for C built. Prints for each log the least times of the processor in ns a line:
of judge_from_c.c, which hands the lines over one by one and then all at once, and of `cat LOG | capcheck judge`. They
are run in turns, since a machine that others use too is now faster and now slower."""
import os
import re
import subprocess
import sys
import tempfile

os.chdir(os.path.join(os.path.dirname(os.path.abspath(__file__)), ".."))
LIBRARIES = ["judge/out/libcapcheck_judge.a", "crates/capcheck_c/out/libcapcheck_c.a"]
FLAGS = "-std=c11 -D_POSIX_C_SOURCE=199309L -O2 -Wall -Wextra -Wconversion -Werror -pedantic -Iinclude".split()


def from_pipe(log):
    """Time of the processor that the program takes, in seconds."""
    cat = subprocess.Popen(["cat", log], stdout=subprocess.PIPE)
    judge = subprocess.Popen(["crates/capcheck/out/capcheck", "judge"], stdin=cat.stdout, stdout=subprocess.DEVNULL)
    cat.stdout.close()
    _, status, used = os.wait4(judge.pid, 0)
    cat.wait()
    if status != 0:
        sys.exit(f"capcheck judge ended with {status}")
    return used.ru_utime + used.ru_stime


def from_c(linked, log):
    """Times of a line, by lines and by one call."""
    ran = subprocess.run([linked, log, "3"], stdout=subprocess.PIPE, check=True, text=True)
    return [float(it) for it in re.findall(r"[\d.]+", ran.stdout)]


def main():
    rounds = int(sys.argv[1]) if len(sys.argv) > 1 else 9
    with tempfile.TemporaryDirectory() as folder:
        linked = os.path.join(folder, "linked")
        subprocess.run([os.environ.get("CC", "cc"), *FLAGS, "bench/judge_from_c.c", *LIBRARIES, "-o", linked], check=True)
        for kind in ("moves", "memory"):
            log = os.path.join(folder, kind)
            with open(log, "w") as out:
                subprocess.run(["sh", "bench/million.sh", kind], stdout=out, check=True)
            taken = [[*from_c(linked, log), 1e3 * from_pipe(log)] for _ in range(rounds)]
            lines, one_call, pipe = (min(column) for column in zip(*taken))
            print(f"{kind}: by lines {lines:.1f}, by one call {one_call:.1f}, from a pipe {pipe:.1f}", flush=True)


main()
