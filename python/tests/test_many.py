"""Tests of many logs: their results, what a second run judges, and what a CI reads."""
import csv
import json
import os
import signal
import subprocess
import sys
import tempfile
import time
import unittest
import xml.etree.ElementTree as xml
from pathlib import Path

from capcheck import many

EXAMPLES = Path(__file__).parents[2] / "examples"
RUN = "run 1\nmode clear\nroot c1 ffff1ffffc0180040000000000000000\n"
LOGS = {"a.log": (EXAMPLES / "moves.log").read_text(), "b.log": (EXAMPLES / "escaped_bound.log").read_text(), "in/c.log": f"{RUN}free c1\nend 1\n",
        "in/d.log": f"{RUN}end 0\n", "in/e.log": "heap 1\nroot 0000000000010000 00000000000020000\nend 0\n", "notes.txt": "no log"}
SAID = """b.log: no 5 11 BoundsEscape
in/c.log: no 4 37 NoOwner
3 accepted
1 rejected, BoundsEscape
1 rejected, NoOwner
"""


class ManyTest(unittest.TestCase):
    def setUp(self):
        self.folder = tempfile.TemporaryDirectory()
        self.addCleanup(self.folder.cleanup)
        os.mkdir(f"{self.folder.name}/in")
        for name, text in LOGS.items():
            Path(f"{self.folder.name}/{name}").write_text(text)

    def ran(self, *words):
        it = subprocess.run([sys.executable, "-m", "capcheck", "many", *words], cwd=self.folder.name, capture_output=True, text=True)
        return it.returncode, it.stdout, it.stderr

    def test_command(self):
        self.assertEqual(self.ran("."), (1, SAID, ""))
        self.assertEqual(self.ran("in/d.log", "a.log"), (0, "2 accepted\n", ""))
        self.assertEqual(self.ran("nowhere", "a.log"), (3, "nowhere: read fault: No such file or directory\n1 accepted\n1 not read: read fault: No such file or directory\n", ""))
        self.assertEqual(self.ran(".", "--jobs", "0"), (2, "", "capcheck: jobs 0 isn't 1 or more\n"))
        for jobs in ("1", "2", "7"):
            self.assertEqual(self.ran(".", "--jobs", jobs)[1], SAID)

    def test_results(self):
        for name in ("results.jsonl", "results.csv"):
            with self.subTest(name):
                path = Path(f"{self.folder.name}/{name}")
                self.assertEqual(self.ran(".", "--results", name)[1], SAID)
                first = path.read_text()
                self.assertEqual(len(many.read_results(str(path))), 5)
                self.assertEqual(self.ran(".", "--results", name)[1], SAID)
                self.assertEqual(path.read_text(), first)  # Nothing was judged again.
                path.write_text(first[:-20])
                Path(f"{self.folder.name}/a.log").write_text(LOGS["b.log"])
                self.assertEqual(self.ran(".", "--results", name)[1].splitlines()[0], "a.log: no 5 11 BoundsEscape")
                self.assertEqual({it.file: it.verdict for it in many.read_results(str(path))}["a.log"], "no 5 11 BoundsEscape")
                Path(f"{self.folder.name}/a.log").write_text(LOGS["a.log"])
                self.ran(".", "--results", name, "--freed", "used")
                self.assertEqual(sum(it.asks == "used" for it in many.read_results(str(path))), 5)
        with open(f"{self.folder.name}/results.csv", newline="") as rows:
            self.assertEqual({row["verdict"] for row in csv.DictReader(rows)} & {"yes 2 1", "no 4 37 NoOwner"}, {"yes 2 1", "no 4 37 NoOwner"})
        Path(f"{self.folder.name}/bad.jsonl").write_text("{}\n")
        self.assertEqual(self.ran(".", "--results", "bad.jsonl")[::2], (2, "capcheck: bad.jsonl isn't a file of results\n"))

    def test_ci(self):
        self.ran(".", "--junit", "junit.xml")
        suite = xml.parse(f"{self.folder.name}/junit.xml").getroot()
        self.assertEqual((suite.get("tests"), suite.get("failures"), suite.get("errors")), ("5", "2", "0"))
        self.assertEqual([it.find("failure").get("message") for it in suite if it.find("failure") is not None], ["no 5 11 BoundsEscape", "no 4 37 NoOwner"])
        lines = self.ran(".", "--annotations")[1].splitlines()
        self.assertTrue(lines[0].startswith("::error file=b.log,line=5::no 5 11 BoundsEscape%0A"), lines[0])
        self.assertEqual(json.loads(json.dumps(many.judge_file(f"{self.folder.name}/a.log")._asdict()))["verdict"], "yes 2 1")

    def test_names(self):
        """Names of all kinds pass to other processes and into results. A folder may be named as a log is, and a link to one isn't followed."""
        long = "/".join(["x" * 250] * 10)
        os.makedirs(f"{self.folder.name}/many/{long}")
        os.mkdir(f"{self.folder.name}/many/folder.log")
        os.symlink("folder.log", f"{self.folder.name}/many/link.log")
        names = ["folder.log/a.log", "folder.log-b.log", "new\nline.log", 'quote".log', "\udcff.log", "é,.log", *(f"{long}/{number:03}.log" for number in range(300))]
        for name in names:
            Path(f"{self.folder.name}/many/{name}").write_text(LOGS["in/d.log"])
        wanted = sorted(f"many/{name}" for name in names)
        self.assertEqual(list(many.files([f"{self.folder.name}/many"])), [f"{self.folder.name}/{name}" for name in wanted])
        for jobs in ("1", "3"):
            self.assertEqual(self.ran("many", "./many/", "--jobs", jobs, "--results", f"{jobs}.jsonl"), (0, f"{len(names)} accepted\n", ""))
            lines = Path(f"{self.folder.name}/{jobs}.jsonl").read_text().splitlines()
            results = many.read_results(f"{self.folder.name}/{jobs}.jsonl")
            self.assertEqual([it.file for it in (results if jobs == "1" else sorted(results))], wanted)
            self.assertEqual(lines, [json.dumps(it._asdict()) for it in results])
        self.ran("many", "--results", "all.csv")
        self.assertEqual(sorted(many.read_results(f"{self.folder.name}/all.csv")), sorted(results))

    def test_processes(self):
        """If the system ends a process there is no result, and an interrupt ends all; a second run judges what is left."""
        os.mkfifo(f"{self.folder.name}/z.log")
        words, results = [sys.executable, "-m", "capcheck", "many", ".", "--jobs", "3", "--results", "results.jsonl"], Path(f"{self.folder.name}/results.jsonl")
        for number, wanted in ((signal.SIGKILL, (3, b"capcheck: no memory\n")), (signal.SIGINT, (130, b"capcheck: interrupted\n"))):
            results.unlink(missing_ok=True)
            # A shell's job in the background ignores interrupts, and what it starts does too.
            with subprocess.Popen(words, cwd=self.folder.name, stderr=subprocess.PIPE, preexec_fn=lambda: signal.signal(signal.SIGINT, signal.SIG_DFL)) as it:
                children = Path(f"/proc/{it.pid}/task/{it.pid}/children")
                while not (results.exists() and results.read_text().count("\n") == 5 and len(left := children.read_text().split()) == 1):
                    time.sleep(0.01)
                os.kill(int(left[0]) if number == signal.SIGKILL else it.pid, number)
                self.assertEqual((it.wait(), it.stderr.read()), wanted)
                self.assertFalse(os.path.exists(f"/proc/{left[0]}"))
        os.remove(f"{self.folder.name}/z.log")
        self.assertEqual(self.ran(".", "--results", "results.jsonl")[1], SAID)


if __name__ == "__main__":
    unittest.main()
