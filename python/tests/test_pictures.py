"""Tests of pictures: the numbers of a run log against the judge's answers after each line, and the page."""
import base64
import csv
import gzip
import io
import os
import re
import subprocess
import sys
import tempfile
import unittest
from pathlib import Path

from capcheck import pictures, runs

MACHINE, RUNS = os.environ.get("MACHINE"), Path(__file__).parents[2] / "conformance/runs"
HELD = (RUNS / "36-of-the-second.log").read_bytes()


def logs():
    """Run logs of the corpus, and of the machine where it is built."""
    yield from (it.read_bytes() for it in sorted(RUNS.glob("3*.log")))
    for seed in range(4) if MACHINE else ():
        for bug in ("none", "stale"):
            yield subprocess.run([MACHINE, "did", str(seed), bug], capture_output=True, check=True, env={"STEPS": "200"}).stdout


def plainly(log):
    """The numbers after each line, and of each object the first line at which it is freed and at which it is gone, by all objects of the
    judge after each line."""
    steps, seen = [], {}
    with runs.RunJudge() as judge:
        for line, text in enumerate(log.splitlines(keepends=True), 1):
            if not judge.feed(text):
                break
            now = {it.number: it for it in judge.objects()}
            for it in now.values():
                seen.setdefault(it.number, [it.number, it.line, None, None, 0, 0, 0])[4:] = it.base, it.top, it.held
            for number, it in seen.items():
                if it[2] is None and (number not in now or not now[number].live):
                    it[2] = line
                if it[3] is None and number not in now:
                    it[3], it[6] = line, 0
            freed = [it for it in now.values() if not it.live]
            live = sum(it.top - it.base for it in now.values() if it.live)
            steps.append((line, live, sum(it.top - it.base for it in freed), sum(it.held for it in freed)))
    return steps, [tuple(it) for _, it in sorted(seen.items())]


class TimelineTest(unittest.TestCase):
    def test_timeline(self):
        drawn = 0
        for log in logs():
            found = pictures.Timeline(io.BytesIO(log))
            self.assertEqual(found.verdict, runs.judge_bytes(log))
            steps, objects = plainly(log)
            if found._every > 1 or len(found.steps) < len(steps):  # Where many are held, it is asked less often.
                self.assertLessEqual(set(found.steps), set(steps))
                self.assertEqual([it[:3] for it in found.objects], [it[:3] for it in objects])
                continue
            self.assertEqual([tuple(it) for it in found.steps], steps or [(0, 0, 0, 0)])
            self.assertEqual([tuple(it) for it in found.objects], objects)
            drawn += 1
        self.assertGreater(drawn, 5)

    def test_pieces(self):
        """A log in pieces has the same numbers as in one, and fewer steps have those of the lines that they have."""
        whole, size = pictures.Timeline(io.BytesIO(HELD)), pictures._PIECE
        try:
            for pictures._PIECE in (1, 7, 100):
                found = pictures.Timeline(io.BytesIO(HELD))
                self.assertEqual((found.objects, found.steps, found.verdict), (whole.objects, whole.steps, whole.verdict))
        finally:
            pictures._PIECE = size
        most = pictures._SAMPLES
        try:
            pictures._SAMPLES = 3
            found = pictures.Timeline(io.BytesIO(HELD))
            self.assertEqual([it[:3] for it in found.objects], [it[:3] for it in whole.objects])
            self.assertTrue(all((it.gone is None) == (other.gone is None) for it, other in zip(found.objects, whole.objects)))
            self.assertLess(len(found.steps), 5)
            self.assertLessEqual(set(found.steps), set(whole.steps))
        finally:
            pictures._SAMPLES = most

    def test_cut(self):
        for cut in (HELD[:-40], HELD[:HELD.index(b"free")], b"run 1\n", HELD + b"x"):
            found = pictures.Timeline(io.BytesIO(cut))
            with runs.RunJudge() as judge:
                judge.feed(cut)
                self.assertEqual(found.verdict, judge.end())


class CommandTest(unittest.TestCase):
    def ran(self, *words, text=""):
        it = subprocess.run([sys.executable, "-m", "capcheck", "picture", *words], input=text, capture_output=True, text=True, cwd=self.folder)
        return it.returncode, it.stdout, it.stderr

    def setUp(self):
        folder = tempfile.TemporaryDirectory()
        self.addCleanup(folder.cleanup)
        self.folder = folder.name

    def test_command(self):
        path = str(RUNS / "36-of-the-second.log")
        verdict = f"{runs.judge_bytes(HELD)}\n"
        self.assertEqual(self.ran(path, "-o", "a.html", "--csv", "a"), (0, verdict, ""))
        page = Path(f"{self.folder}/a.html").read_text()
        name, packed = re.search(r'<script id="given" type="text/plain" data-name="([^"]*)" data-freed="" data-owned="">\n(.*)\n</script>', page).groups()
        self.assertEqual((name, gzip.decompress(base64.b64decode(packed))), ("36-of-the-second.log", HELD))
        found = pictures.Timeline(io.BytesIO(HELD))
        for what, rows in (("objects", found.objects), ("steps", found.steps)):
            with open(f"{self.folder}/a-{what}.csv", newline="") as text:
                fields, *there = csv.reader(text)
            self.assertEqual(fields, list(rows[0]._fields))
            self.assertEqual(there, [["" if it is None else str(it) for it in row] for row in rows])
        self.assertEqual(self.ran("-o", "b.html", "--freed", "both", "--owned", text=HELD.decode()), (0, verdict, ""))
        self.assertIn('data-name="" data-freed="both" data-owned="1"', Path(f"{self.folder}/b.html").read_text())

    def test_errors(self):
        self.assertEqual(self.ran(), (2, "", "capcheck: name what to write: -o FILE for a page, or --csv NAME for the numbers\n"))
        self.assertEqual(self.ran("--csv", "a", text="capcheck 1\n"), (2, "", "capcheck: a picture is of a run log, which begins with 'run 1'\n"))
        self.assertEqual(self.ran("nowhere", "--csv", "a")[0], 3)
        self.assertEqual(os.listdir(self.folder), [])


if __name__ == "__main__":
    unittest.main()
