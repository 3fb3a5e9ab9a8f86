#!/usr/bin/env python3
"""Times `python3 -m capcheck many` on many small logs, by 1, 2 and 4 jobs and, where distributed is installed, by a scheduler and four workers on
this machine, and `capdiag run` by xargs.

    python3 bench/many.py PREFIX [COUNT]

PREFIX is the folder that install.sh installed below. The COUNT logs, or 100,000, have 300 lines each. It prints for each how many logs a second
of time and of processor time there are: the least time of five rounds counts. Before that it prints the work for a log, by the least time of
many short runs, which other load changes least: by a job; to list it; by `capdiag run`."""
import importlib.util
import json
import os
import subprocess
import sys
import tempfile
import time
from pathlib import Path

PREFIX, COUNT = Path(sys.argv[1]), int(sys.argv[2]) if len(sys.argv) > 2 else 100_000
ROUNDS = 5
ROOT = "run 1\nmode clear\nroot c1 ffff1ffffc0180040000000000000000\n"
MOVE = "move c2 c1 = 1 ffff1ffffc0180040000000000000000\n"
ENVIRONMENT = {**os.environ, "PYTHONPATH": str(PREFIX / "share/capcheck"), "CAPCHECK_LIB": str(PREFIX / "lib")}
ENVIRONMENT.pop("PYTHONDONTWRITEBYTECODE", None)  # Python keeps the package compiled, as it does elsewhere.


def timed(commands, folder):
    """The least time of each command, and its least processor time. They take turns, so that other load meets all."""
    times, spent = {it: [] for it in commands}, {it: [] for it in commands}
    for name, command in [*commands.items()] * ROUNDS:
        Path(f"{folder}/results.jsonl").unlink(missing_ok=True)
        before, begun = os.times(), time.monotonic()
        subprocess.run(command, cwd=folder, env=ENVIRONMENT, stdout=subprocess.DEVNULL, stderr=subprocess.DEVNULL, check=True)
        times[name].append(time.monotonic() - begun)
        after = os.times()
        spent[name].append(after.children_user + after.children_system - before.children_user - before.children_system)
    for name in commands:
        print(f"{name:32} {COUNT / min(times[name]):8.0f} a second, {COUNT / min(spent[name]):8.0f} a second of processor time", flush=True)


def least(call, count, rounds):
    """The least time of many rounds, in microseconds for each of so many logs."""
    found = []
    for _ in range(rounds):
        begun = time.perf_counter()
        call()
        found.append(time.perf_counter() - begun)
    return min(found) * 1e6 / count


def work(folder):
    os.environ.update(ENVIRONMENT)
    sys.path.insert(0, ENVIRONMENT["PYTHONPATH"])
    from capcheck import many
    names = sorted(many.files([f"{folder}/logs"]))[:128]
    job = [least(lambda: list(many._blocks(names, "held", False, form)), 128, 150) for form in ("", "jsonl")]
    listed = least(lambda: list(many.files([f"{folder}/logs"])), COUNT, 5)
    more = sorted(many.files([f"{folder}/logs"]))[:2001]
    of = [least(lambda: subprocess.run([f"{PREFIX}/bin/capdiag", "run", *some], capture_output=True), 1, 25) for some in (more[:1], more)]
    print(f"work for a log: a job {job[0]:.1f} us, with its result as JSON {job[1]:.1f} us; to list it {listed:.1f} us; capdiag {(of[1] - of[0]) / 2000:.1f} us", flush=True)


def by_cluster(folder, many):
    about = f"{folder}/scheduler.json"
    start = [sys.executable, "-m", "distributed.cli.dask_scheduler", "--host", "127.0.0.1", "--port", "0", "--no-dashboard", "--scheduler-file", about]
    quiet = {"env": ENVIRONMENT, "stdout": subprocess.DEVNULL, "stderr": subprocess.DEVNULL}
    running = [subprocess.Popen(start, **quiet)]
    while not os.path.exists(about) or not Path(about).read_text().endswith("}"):
        time.sleep(0.1)
    address = json.loads(Path(about).read_text())["address"]
    start = [sys.executable, "-m", "distributed.cli.dask_worker", address, "--nthreads", "1", "--no-nanny", "--no-dashboard"]
    running += [subprocess.Popen(start, **quiet) for _ in range(4)]
    time.sleep(3)
    timed({"many, a cluster of 4 workers": [*many, "--scheduler", address]}, folder)
    for it in running:
        it.kill()
        it.wait()


def main():
    with tempfile.TemporaryDirectory() as folder:
        for number in range(COUNT):
            at = f"{folder}/logs/{number // 1000:03}"
            os.makedirs(at, exist_ok=True)
            Path(f"{at}/{number:06}.log").write_text(f"{ROOT}{MOVE * 296}end 296\n")
        work(folder)
        many = [sys.executable, "-m", "capcheck", "many", f"{folder}/logs"]
        commands = {}
        for jobs in (1, 2, 4):
            commands[f"many, {jobs} job{'s' * (jobs > 1)}"] = [*many, "--jobs", str(jobs)]
            commands[f"many, {jobs} job{'s' * (jobs > 1)}, with results"] = [*many, "--jobs", str(jobs), "--results", "results.jsonl"]
        commands["xargs -P4 capdiag run"] = ["sh", "-c", f"find logs -name '*.log' -print0 | xargs -0 -P4 {PREFIX}/bin/capdiag run"]
        timed(commands, folder)
        if importlib.util.find_spec("distributed"):
            by_cluster(folder, many)


if __name__ == "__main__":
    main()
