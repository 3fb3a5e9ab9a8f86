"""Tests of many logs judged by a cluster on this machine, where the package distributed is installed: a worker ends half-way, and the results
are those of one process."""
import importlib.util
import json
import os
import subprocess
import sys
import tempfile
import time
import unittest
from pathlib import Path

from capcheck import many

RUN = "run 1\nmode clear\nroot c1 ffff1ffffc0180040000000000000000\n"
LOGS = 2000


def log(number):
    """A log of some lines, each third one rejected."""
    moves = "move c2 c1 = 1 ffff1ffffc0180040000000000000000\n" * (number % 50)
    return f"{RUN}{moves}{'free c1' if number % 3 == 0 else 'drop c1'}\nend {number % 50 + 1}\n"


@unittest.skipUnless(importlib.util.find_spec("distributed") and importlib.util.find_spec("fsspec"), "distributed and fsspec aren't installed")
class ClusterTest(unittest.TestCase):
    def setUp(self):
        folder = tempfile.TemporaryDirectory()
        self.addCleanup(folder.cleanup)
        self.folder = folder.name
        os.mkdir(f"{self.folder}/logs")
        for number in range(LOGS):
            Path(f"{self.folder}/logs/{number:04}.log").write_text(log(number))
        about = f"{self.folder}/scheduler.json"
        self.start("scheduler", "--host", "127.0.0.1", "--port", "0", "--scheduler-file", about)
        for _ in range(600):
            if os.path.exists(about) and Path(about).read_text().endswith("}"):
                break
            time.sleep(0.1)
        self.address = json.loads(Path(about).read_text())["address"]

    def start(self, what, *words):
        """A process of the cluster, which ends with the test."""
        it = subprocess.Popen([sys.executable, "-m", f"distributed.cli.dask_{what}", *words, "--no-dashboard"], cwd=self.folder,
                              stdout=subprocess.DEVNULL, stderr=subprocess.DEVNULL)
        self.addCleanup(it.wait)
        self.addCleanup(it.kill)
        return it

    def worker(self):
        return self.start("worker", self.address, "--nthreads", "1", "--no-nanny")

    def test_lost_worker(self):
        names = list(many.files([f"{self.folder}/logs"]))
        wanted = [many.judge_file(it) for it in names]
        self.assertEqual([it.status for it in wanted], [int(number % 3 == 0) for number in range(LOGS)])
        lost, _ = self.worker(), self.worker()
        found = []
        for text, accepted, others in many.judge_by_cluster(self.address, names, form="jsonl"):
            found += (many.Result(**json.loads(it)) for it in text.splitlines())
            self.assertEqual([tuple(it) for it in found if it.status][-len(others):] if others else [], others)
            if len(found) >= LOGS // 2:
                lost.kill()
        self.assertEqual(sorted(found), wanted)

    def test_command(self):
        self.worker()
        words = [sys.executable, "-m", "capcheck", "many", "--scheduler", self.address]
        there = subprocess.run([*words, f"file://{self.folder}/logs"], capture_output=True, text=True)
        here = subprocess.run([*words[:4], f"{self.folder}/logs"], capture_output=True, text=True)
        self.assertEqual((there.returncode, there.stderr), (1, ""))
        self.assertEqual(there.stdout.replace("file://", ""), here.stdout)


class AbsentTest(unittest.TestCase):
    def test_absent(self):
        """Without the packages, the command says which one it needs."""
        for hidden, words in (("distributed", ["--scheduler", "tcp://127.0.0.1:1", "x.log"]), ("fsspec", ["memory://x.log"])):
            code = f"import sys; sys.modules['{hidden}'] = None; sys.argv = ['capcheck', 'many', *{words}]; import capcheck.__main__ as it; sys.exit(it.main())"
            said = subprocess.run([sys.executable, "-c", code], capture_output=True, text=True)
            self.assertEqual(said.returncode, 2)
            self.assertTrue(said.stderr.endswith(f"needs the package {hidden}\n"), said.stderr)


if __name__ == "__main__":
    unittest.main()
