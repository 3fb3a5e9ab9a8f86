#!/usr/bin/env python3
"""Measures the judge on logs of a million steps: python3 bench/speed.py [PROGRAM] [ROUNDS]

PROGRAM is crates/capcheck/out/capcheck where it is not given, and ROUNDS 9. Prints for each log the least time of
the processor, what that is in ns a line and in lines a second, and what `wc -l` takes in turn."""
import os
import subprocess
import sys
import tempfile

HERE = os.path.dirname(os.path.abspath(__file__))
LOGS = [(kind, ["sh", os.path.join(HERE, "million.sh"), kind]) for kind in ("moves", "memory", "mixed", "varied")]
LOGS += [("random " + kind, [sys.executable, os.path.join(HERE, "random_log.py"), kind])
         for kind in ("moves", "memory", "mixed")]


def once(command):
    """Time of the processor, in seconds."""
    with open(os.devnull, "w") as null:
        child = subprocess.Popen(command, stdout=null)
        _, status, used = os.wait4(child.pid, 0)
    if status != 0:
        sys.exit(f"{command} ended with {status}")
    return used.ru_utime + used.ru_stime


def main():
    program = sys.argv[1] if len(sys.argv) > 1 else os.path.join(HERE, "../crates/capcheck/out/capcheck")
    rounds = int(sys.argv[2]) if len(sys.argv) > 2 else 9
    print("log               bytes  seconds  ns a line  lines a second  wc -l")
    with tempfile.TemporaryDirectory() as folder:
        for name, maker in LOGS:
            log = os.path.join(folder, name)
            with open(log, "w") as out:
                subprocess.run(maker, stdout=out, check=True)
            judged, counted = [], []
            for _ in range(rounds):
                judged.append(once([program, "judge", log]))
                counted.append(once(["wc", "-l", log]))
            seconds = min(judged)
            print(f"{name:13} {os.path.getsize(log):9} {seconds:8.3f} {1e3 * seconds:10.0f} {1e6 / seconds:15.0f}"
                  f" {min(counted):6.3f}")


main()
