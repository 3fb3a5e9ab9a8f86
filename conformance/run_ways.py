#!/usr/bin/env python3
"""Compares the verdicts on run logs drawn at random: `capdiag run`, the calls for C, and the Python package.

    PYTHONPATH=python python3 conformance/run_ways.py CAPDIAG RUNS [LOGS [SEED]]

RUNS is the program examples/emulator/runs.c: it judges each log in memory, in pieces, line by line, and by steps passed by their
numbers, and fails if these differ. The package is fed the log in pieces, and its steps by their numbers. CAPCHECK_LIB names the
folder of the shared libraries. Half of the logs have a line changed, cut, doubled or left out (run_logs.py). The status is 1 if
any verdict differs."""
import os
import random
import subprocess
import sys
import tempfile

from capcheck import RunJudge, runs
from run_logs import Drawn, changed

# How many logs one call of RUNS judges.
BATCH = 250
FREED = ("held", "used", "both")


def by_steps(log, freed, owned):
    """The verdict of the package, which gets the steps by their numbers, and lines that aren't read as they are."""
    with RunJudge(freed, owned) as judge:
        at = 0
        try:
            for line in runs.read(log):
                name = line.kind.name
                passes = judge.feed(bytes(line)) if name.startswith(("ROOT", "RUN", "MODE", "VERSION", "HART", "END")) else judge.step(line)
                at = line.at + len(bytes(line))
                if not passes:
                    return judge.end()
        except ValueError:
            judge.feed(log[at:])
        return judge.end()


def by_pieces(rng, log, freed, owned):
    """Its verdict, where it gets the log in pieces."""
    with RunJudge(freed, owned) as judge:
        at = 0
        while at < len(log):
            size = rng.choice((1, 7, 100, 1000))
            judge.feed(log[at:at + size])
            at += size
        return judge.end()


def compared(capdiag, program, logs, words, folder, rng):
    """The logs of which not all verdicts are the same: each with what is said of it."""
    freed, owned = words[1], "--owned" in words
    paths = []
    for number, log in enumerate(logs):
        paths.append(os.path.join(folder, f"{number}.log"))
        with open(paths[-1], "wb") as it:
            it.write(log)
    said = subprocess.run([program, "run", *words, *paths], capture_output=True, text=True, check=False)
    if said.returncode != 0:
        print(said.stderr[:500])
        yield b"", [f"runs: status {said.returncode}"]
    for path, log, verdict in zip(paths, logs, said.stdout.splitlines()):
        told = subprocess.run([capdiag, "run", *words, path], capture_output=True, text=True, check=False).stdout.strip()
        given = [told, verdict, str(runs.judge_bytes(log, freed, owned)), str(by_pieces(rng, log, freed, owned)), str(by_steps(log, freed, owned))]
        if len(set(given)) > 1:
            yield log, given


def main():
    capdiag, program = sys.argv[1:3]
    count = int(sys.argv[3]) if len(sys.argv) > 3 else 200
    seed = int(sys.argv[4]) if len(sys.argv) > 4 else 1
    wrong, kinds = 0, {}
    with tempfile.TemporaryDirectory() as folder:
        for first in range(0, count, BATCH):
            rng = random.Random(seed * 1000003 + first)
            words = ["--freed", rng.choice(FREED), *rng.choice(([], ["--owned"]))]
            logs = [changed(rng, Drawn(rng).draw(rng.choice([5, 20, 60, 200]))) for _ in range(first, min(first + BATCH, count))]
            for log, given in compared(capdiag, program, logs, words, folder, rng):
                wrong += 1
                print(f"{' '.join(words)}: {given}")
                with open(f"/tmp/run_ways_{seed}_{first}_{wrong}", "wb") as it:
                    it.write(log)
            kinds[" ".join(words)] = kinds.get(" ".join(words), 0) + len(logs)
    print(f"{count} run logs by capdiag, C in five ways and Python in three: {wrong} differ")
    return int(wrong != 0)


if __name__ == "__main__":
    sys.exit(main())
