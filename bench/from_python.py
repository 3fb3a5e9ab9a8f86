#!/usr/bin/env python3
"""Measures the judge from Python on a log of a million steps: python3 bench/from_python.py PREFIX [KIND [ROUNDS]]

PREFIX is the folder that install.sh installed below, KIND a word of bench/million.sh, `mixed` if it isn't given, and ROUNDS 9.
Prints the least time of the processor in ns a line, and its ratio to `capcheck judge` on the same file. The start of the
interpreter isn't counted."""
import os
import resource
import subprocess
import sys
import tempfile

HERE = os.path.dirname(os.path.abspath(__file__))
PREFIX = os.path.abspath(sys.argv[1])
ROUNDS = int(sys.argv[3]) if len(sys.argv) > 3 else 9
PIECE = 65536
SHORT = 20000  # lines of what is slower
os.environ["CAPCHECK_LIB"] = f"{PREFIX}/lib"
sys.path.insert(0, f"{PREFIX}/share/capcheck")
import capcheck  # noqa: E402
from capcheck import Judge, lines  # noqa: E402


def used(who):
    """Time of the processor so far, in seconds."""
    usage = resource.getrusage(who)
    return usage.ru_utime + usage.ru_stime


def least(call, who=resource.RUSAGE_SELF):
    took = []
    for _ in range(ROUNDS):
        before = used(who)
        call()
        took.append(used(who) - before)
    return min(took)


def fed(log):
    with Judge() as judge:
        for at in range(0, len(log), PIECE):
            judge.feed(log[at:at + PIECE])
        assert judge.end()


def stepped(count):
    with Judge() as judge:
        judge.feed(b"capcheck 1\nroot c1 ffff1ffffc0180040000000000000000\n")
        for _ in range(count):
            judge.store(1, 8, 4, 0x12345678)


def main():
    with tempfile.TemporaryDirectory() as folder:
        path = f"{folder}/log"
        with open(path, "wb") as out:
            subprocess.run(["sh", f"{HERE}/million.sh", *(sys.argv[2:3] or ["mixed"])], stdout=out, check=True)
        with open(path, "rb") as file:
            log = file.read()
        count = log.count(b"\n")
        start = log[:log.index(b"\n", len(log) * SHORT // count) + 1]
        words = [f"{PREFIX}/bin/capcheck", "judge", path]
        base = least(lambda: subprocess.run(words, stdout=subprocess.DEVNULL, check=True), resource.RUSAGE_CHILDREN) / count
        print(f"{base * 1e9:8.1f} ns        `capcheck judge`")
        for name, call, among in (
                ("judge(path)", lambda: capcheck.judge(path), count), ("judge_bytes(log)", lambda: capcheck.judge_bytes(log), count),
                (f"Judge.feed in pieces of {PIECE} bytes", lambda: fed(log), count),
                ("lines.read", lambda: sum(1 for _ in lines.read(start)), start.count(b"\n")),
                ("Judge.store, a step by its numbers", lambda: stepped(SHORT), SHORT),
                ("lines.store, a line written", lambda: [lines.store(1, 8, 4, 0x12345678) for _ in range(SHORT)], SHORT)):
            time = least(call) / among
            print(f"{time * 1e9:8.1f} ns {time / base:6.2f}  {name}")


if __name__ == "__main__":
    main()
