"""Logs: reading and writing lines, judging, diagnoses, shortening. python/check.sh sets CAPDIAG, a built program."""
import copy
import io
import mmap
import os
import pickle
import random
import signal
import subprocess
import tempfile
import threading
import time
import unittest
from pathlib import Path

import capcheck
from capcheck import NULL, Capability, Judge, Kind, Refusal, RunJudge, heaps, lines, runs

DIAGNOSIS = os.environ["CAPDIAG"]
TOP = Path(__file__).resolve().parents[2]
ROOT = "root c1 ffff1ffffc0180040000000000000000\n"
# The verdict of each log of the corpus, from its index.
VERDICTS = {TOP / "conformance" / row[0]: row[1] for row in (line.rstrip("\n").split("\t") for line in open(
    TOP / "conformance/INDEX.tsv", encoding="utf-8")) if row[0].startswith(("accepted/", "rejected/"))}
EXAMPLES = sorted((TOP / "examples").glob("*.log"))


def run_row(row):
    """A run log of the corpus: its path, what is asked, whether owners are printed, and what is."""
    name, options, printed = row.rstrip("\n").split("\t")
    words = options.split()
    freed = words[words.index("--freed") + 1] if "--freed" in words else "held"
    return TOP / "conformance/runs" / name, freed, "--owned" in words, "--owners" in words, printed.split(" / ")


RUNS = [run_row(row) for row in list(open(TOP / "conformance/RUNS.tsv", encoding="utf-8"))[1:]]


def operands(line):
    """The numbers of a line, as the function that writes it takes them."""
    if line.kind in (Kind.MOVE, Kind.CLEARTAG):
        return line.target, line.source, line.cap
    if line.kind in (Kind.SETBOUNDS, Kind.SETBOUNDSEXACT, Kind.SETADDR, Kind.ANDPERM):
        return line.target, line.source, line.number, line.cap
    if line.kind in (Kind.SEAL, Kind.UNSEAL):
        return line.target, line.source, line.authority, line.cap
    if line.kind == Kind.LC:
        return line.target, line.authority, line.offset, line.cap
    if line.kind == Kind.SC:
        return line.source, line.authority, line.offset
    if line.kind in (Kind.LOAD, Kind.STORE):
        return line.authority, line.offset, line.size, line.number


def pass_step(judge, line):
    """Passes a step by its numbers; any other line as it is written."""
    return getattr(judge, line.kind.name.lower())(*operands(line)) if Kind.MOVE <= line.kind <= Kind.STORE else judge.feed(bytes(line))


def diagnosed(log, *options):
    return subprocess.run([DIAGNOSIS, "why", *options], input=log, capture_output=True).stdout.decode()


class Verdicts(unittest.TestCase):
    def test_corpus(self):
        self.assertGreater(len(VERDICTS), 300)
        for path, verdict in VERDICTS.items():
            log = path.read_bytes()
            self.assertEqual((str(capcheck.judge(path)), str(capcheck.judge_bytes(log))), (verdict, verdict), path)

    def test_pieces(self):
        draw = random.Random(1)
        for path, verdict in VERDICTS.items():
            log, at = path.read_bytes(), 0
            with Judge() as judge:
                while at < len(log):
                    size = draw.choice((1, 7, 100, 1000))
                    judge.feed(log[at:at + size])
                    at += size
                self.assertEqual(str(judge.end()), verdict, path)

    def test_logs_cut_anywhere(self):
        for path in EXAMPLES:
            log = path.read_bytes() + b"end 1"
            for size in range(len(log)):
                with Judge() as judge:
                    judge.feed(log[:size])
                    self.assertEqual(judge.end(), capcheck.judge_bytes(log[:size]), (path, size))

    def test_steps_by_their_numbers(self):
        for path, verdict in VERDICTS.items():
            if verdict.startswith("yes"):
                read = list(lines.read(path.read_bytes()))
                self.assertEqual(b"".join(map(bytes, read)), path.read_bytes())
                with Judge() as judge:
                    self.assertTrue(all(pass_step(judge, line) for line in read), path)
                    self.assertEqual(str(judge.end()), verdict)

    def test_threads_judge_at_once(self):
        log, told = f"capcheck 1\n{ROOT}".encode() + 50000 * b"store c1 8 4 12345678\n" + b"end 50000\n", []
        threads = [threading.Thread(target=lambda: told.append(str(capcheck.judge_bytes(log)))) for _ in range(2)]
        for thread in threads:
            thread.start()
        for thread in threads:
            thread.join()
        self.assertEqual(told, ["yes 50000 1"] * 2)

    def test_lines_that_are_none(self):
        read = lines.read(b"capcheck 1\nend 0\nend 00\n")
        self.assertEqual([next(read).kind, next(read).kind], [Kind.VERSION, Kind.END])
        self.assertRaises(ValueError, next, read)
        self.assertEqual(list(lines.read(b"")), [])
        many = 3000 * lines.store(1, -8, 4, 0x12345678)
        self.assertEqual({(line.offset, line.number) for line in lines.read(many)}, {(-8, 0x12345678)})


class Judging(unittest.TestCase):
    def test_what_the_machine_holds(self):
        cap = Capability.root().set_address(0x1000)
        with Judge() as judge:
            self.assertTrue(judge.feed(f"capcheck 1\n{ROOT}".encode()))
            self.assertTrue(judge.setaddr(2, 1, 0x1000, cap))
            self.assertTrue(judge.sc(2, 2, 16))
            self.assertIsNone(judge.verdict)
            self.assertFalse(judge.move(3, 2, NULL))
            self.assertEqual(str(judge.verdict), "no 5 23 WrongResult")
            self.assertEqual((judge.expected, judge.register(2), judge.granule(0x101F)), (cap, cap, cap))
            self.assertEqual((judge.register(3), judge.register(0)), (NULL, NULL))
            self.assertEqual([judge.origin(it) for it in ("c2", "@0000000000001010", "c3")], ["c1", "c1", None])
            for number in (-1, 32):
                self.assertRaisesRegex(ValueError, f"register {number} isn't from 0 to 31", judge.register, number)
            for place in ("c 1", "c01", "1000", "c32", "@1000", "@000000000000100G", "c\u0661"):
                self.assertRaises(ValueError, judge.origin, place)
        self.assertEqual(repr(judge), "<Judge: closed>")
        for call in (lambda: judge.feed(b"x"), judge.end, judge.diagnosis, lambda: judge.verdict, lambda: judge.sc(1, 1, 0),
                     lambda: judge.register(1), lambda: judge.granule(0), lambda: judge.origin("c1"), lambda: judge.expected):
            with self.assertRaises(ValueError) as raised:
                call()
            self.assertEqual(str(raised.exception), "the judge is closed")

    def test_a_judge_that_is_not_made(self):
        ran = subprocess.run(["python3", "-c", "import capcheck\ntry: capcheck.Judge(5)\nexcept TypeError: pass"], capture_output=True, text=True)
        self.assertEqual((ran.returncode, ran.stderr), (0, ""))

    def test_a_judge_that_raises(self):
        with Judge(raises=True) as judge:
            self.assertTrue(judge.feed(f"capcheck 1\n{ROOT}".encode()))
            with self.assertRaises(capcheck.Rejected) as raised:
                judge.move(3, 1, NULL)
            self.assertEqual(str(raised.exception.verdict), "no 3 23 WrongResult")
            self.assertEqual(str(pickle.loads(pickle.dumps(raised.exception))), judge.diagnosis().rstrip("\n"))
            self.assertEqual(repr(judge), "<Judge: no 3 23 WrongResult>")
            self.assertRaises(capcheck.Rejected, judge.feed, b"end 1\n")

    def test_buffers_and_files(self):
        path = TOP / "examples/escaped_bound.log"
        log, verdict = path.read_bytes(), capcheck.judge(path)
        with open(path, "rb") as file, mmap.mmap(file.fileno(), 0, access=mmap.ACCESS_READ) as mapped:
            for given in (log, bytearray(log), memoryview(log), mapped):
                self.assertEqual((capcheck.judge_bytes(given), capcheck.why(given)), (verdict, capcheck.why(log)))
                self.assertEqual((list(lines.read(given)), capcheck.shorten(given)), (list(lines.read(log)), capcheck.shorten(log)))
                with Judge() as judge:
                    judge.feed(given)
                    self.assertEqual(judge.verdict, verdict)
            self.assertEqual((capcheck.judge(file), capcheck.judge(io.BytesIO(log))), (verdict, verdict))
            file.seek(0)
            self.assertEqual(capcheck.why(file), capcheck.why(log))
        for call in (capcheck.judge_bytes, capcheck.why, lines.read, capcheck.shorten):
            self.assertRaises(TypeError, call, "x")
            self.assertRaises(TypeError, call, io.StringIO("x"))
        self.assertEqual(verdict, (False, None, None, 5, Refusal.BOUNDS_ESCAPE))

    def test_modes_and_places_of_lines(self):
        self.assertEqual([lines.mode(it) for it in ("strict", False, "clear", True)], [b"mode strict\n"] * 2 + [b"mode clear\n"] * 2)
        for wrong in ("Strict", 1, None, b"strict"):
            self.assertRaises(TypeError, lines.mode, wrong)
        log = (TOP / "examples/clear_mode.log").read_bytes()
        self.assertTrue(all(log[line.at:].startswith(bytes(line)) for line in lines.read(log)))

    def test_numbers_out_of_range(self):
        with Judge() as judge:
            judge.feed(f"capcheck 1\n{ROOT}".encode())
            for numbers in ((1, 0, 3, 0), (1, 2048, 4, 0), (1, 0, 1, 256), (32, 0, 4, 0), (1, 0, 4, 2**64), (1, 2**63, 4, 0)):
                self.assertRaises(ValueError, judge.store, *numbers)
            self.assertRaises(TypeError, judge.sc, 1, 1)
            judge.feed(b"sto")
            self.assertRaises(ValueError, judge.store, 1, 0, 4, 0)
            self.assertTrue(judge.feed(b"re c1 0 4 00000000\nend 1\n"))
            self.assertEqual(str(judge.end()), "yes 1 1")

    def test_expected_number(self):
        with Judge() as judge:
            self.assertTrue(judge.feed(f"capcheck 1\n{ROOT}".encode()) and judge.store(1, 0, 4, 5))
            self.assertFalse(judge.load(1, 0, 4, 6))
            self.assertEqual(judge.expected, 5)

    def test_diagnoses_are_those_of_the_program(self):
        for path in [*EXAMPLES, *list(VERDICTS)[::5]]:
            log = path.read_bytes()
            told = diagnosed(log)
            self.assertEqual(capcheck.why(log), told, path)
            self.assertEqual(capcheck.why(log, origins=True), diagnosed(log, "--origins"), path)
            with Judge() as judge:
                judge.feed(log)
                judge.end()
                if not judge._rest:
                    self.assertEqual(judge.diagnosis(), told, path)

    def test_many_granules(self):
        log = f"capcheck 1\n{ROOT}".encode()
        granules = b"".join(lines.setaddr(2, 1, 16 * it, Capability.root().set_address(16 * it)) + b"store c2 0 1 01\n" for it in range(5000))
        self.assertEqual(capcheck.why(log + granules + b"end 10000\n"), "yes 10000 1\n")


class Shortening(unittest.TestCase):
    def shortened(self, log):
        """The shortened log, of which no line can be left out."""
        short = capcheck.shorten(log)
        texts, wanted = short.splitlines(True), fault(log)
        self.assertEqual(fault(short), wanted)
        header = 2 if short.startswith(b"capcheck 2\nmode ") else 1
        for at in range(header, len(texts) - 1):
            self.assertNotEqual(fault(b"".join(texts[:at] + texts[at + 1:])), wanted, short)
        return texts

    def test_corpus(self):
        for path, verdict in VERDICTS.items():
            if verdict.startswith("no"):
                self.assertLessEqual(len(self.shortened(path.read_bytes())), 10, path)
            else:
                self.assertRaises(ValueError, capcheck.shorten, path.read_bytes())

    def test_faults_in_long_logs(self):
        draw = random.Random(1)
        for kind in ("moves", "memory", "mixed", "scattered"):
            made = subprocess.run(["python3", TOP / "bench/random_log.py", kind, "2000"], capture_output=True, check=True).stdout
            texts = made.splitlines(True)
            for _ in range(5):
                at = draw.randrange(len(texts) // 2, len(texts) - 1)
                wrong = texts[at].replace(b"= 1", b"= 0") if b"= 1" in texts[at] else texts[at][:-2] + (b"1\n" if texts[at][-2:-1] != b"1" else b"2\n")
                log = b"".join([*texts[:at], wrong, *texts[at + 1:]])
                if not capcheck.judge_bytes(log):
                    self.assertLessEqual(len(self.shortened(log)), 9)

    def test_lines_of_the_log_itself(self):
        for path in [*EXAMPLES, *VERDICTS]:
            log = path.read_bytes()
            if not capcheck.judge_bytes(log):
                short, own = capcheck.shorten(log), capcheck.shorten(log, replayable=True)
                self.assertLessEqual(len(short.splitlines()), len(own.splitlines()))
                self.assertEqual(fault(own), fault(log), path)
                rest = iter(log.splitlines(True))
                self.assertTrue(all(line in rest for line in own.splitlines(True)), path)
        # The store of a capability is kept, and no other is made in its place.
        log = (TOP / "examples/stale_tag.log").read_bytes()
        self.assertEqual([line.kind for line in lines.read(capcheck.shorten(log))], [line.kind for line in lines.read(log)][:-1])

    def test_short(self):
        log = (TOP / "examples/escaped_bound.log").read_bytes()
        self.assertEqual(capcheck.shorten(log), b"capcheck 1\nroot c3 ffff1ffff80810000000000000001000\n"
                         b"setbounds c4 c3 0000000000000021 = 1 ffff1ffff80850000000000000001000\n")


class RunLogs(unittest.TestCase):
    def test_corpus(self):
        self.assertGreater(len(RUNS), 100)
        for path, freed, owned, owners, (verdict, *owned_places) in RUNS:
            log = path.read_bytes()
            self.assertEqual((str(runs.judge_bytes(log, freed, owned)), str(runs.judge(path, freed, owned))), (verdict, verdict), path)
            with RunJudge(freed, owned) as judge:
                judge.feed(log)
                self.assertEqual(str(judge.end()), verdict, path)
                if owners and judge.end():
                    told = [str(it) for it in judge.objects()]
                    places = [f"{hart}." + it for hart in judge.harts() for it in [*(f"c{it}" for it in range(1, 32)), *(f"scr{it}" for it in range(32))]]
                    told += [f"owner {it.removeprefix('0.')} {judge.owner(it)}" for it in places if judge.owner(it)]
                    self.assertEqual(told, [it for it in owned_places if " @" not in it], path)
                    for it in owned_places:
                        if it.startswith("owner @"):
                            self.assertEqual(str(judge.owner(it.split()[1])), it.split()[2], path)

    def test_lines(self):
        for path, freed, owned, _, (verdict, *_) in RUNS:
            if verdict.startswith("yes"):
                log, judge = path.read_bytes(), RunJudge(freed, owned)
                read = list(runs.read(log))
                self.assertEqual(b"".join(map(bytes, read)), log)
                for line in read:
                    header = line.kind in (Kind.RUN_VERSION, Kind.MODE, Kind.ROOT, Kind.ROOT_AT, Kind.ROOT_SPECIAL, Kind.HART, Kind.END)
                    self.assertTrue(judge.feed(bytes(line)) if header else judge.step(line), (path, line))
                self.assertEqual(str(judge.end()), verdict, path)
        self.assertRaises(ValueError, list, runs.read(b"run 2\n"))

    def test_diagnoses(self):
        for path, freed, owned, _, (verdict, *_) in RUNS:
            log = path.read_bytes()
            if log.endswith(b"\n"):
                words = ["--freed", freed, *(["--owned"] if owned else []), "--why"]
                told = subprocess.run([DIAGNOSIS, "run", *words, path], capture_output=True).stdout.decode()
                self.assertEqual(runs.why(log, freed, owned), told, path)

    def test_shortening(self):
        for path, freed, owned, _, (verdict, *_) in RUNS:
            log = path.read_bytes()
            if verdict.startswith("no") and log.startswith(b"run 1\n"):
                short = capcheck.shorten(log, freed=freed, owned=owned)
                rest = iter(log.splitlines(True))
                self.assertTrue(all(line in rest for line in short.splitlines(True)), path)
                self.assertEqual(str(runs.judge_bytes(short, freed, owned)).split()[2:], verdict.split()[2:], path)

    def test_a_long_log(self):
        made = subprocess.run(["python3", TOP / "bench/run_log.py", "objects", "300", "300"], capture_output=True, check=True).stdout
        texts = made.splitlines(True)
        object_line = next(line for line in texts if line.startswith(b"object "))
        log = b"".join([*texts[:-1], object_line])
        self.assertEqual(runs.judge_bytes(log).refusal, Refusal.HAS_OWNER)
        self.assertLessEqual(len(capcheck.shorten(log).splitlines()), 7)

    def test_owners(self):
        root, part = Capability.root(), Capability.root(0x1000, 64)
        with RunJudge(raises=True) as judge:
            log = runs.version() + lines.mode("strict") + runs.root("c1", root) + runs.root("scr0", root)
            log += runs.derive("c2", "c1", part) + runs.hand_out(2) + runs.derive("scr3", "c2", part) + runs.free(2)
            self.assertTrue(judge.feed(log) and judge.step(capcheck.RunLine(Kind.DROP, ("c2",))))
            self.assertEqual([str(it) for it in judge.objects()], ["object 1 6 0000000000001000 00000000000001040 freed 1"])
            self.assertEqual((judge.owner("scr3"), judge.owner("c2"), judge.holder(1), judge.holder(2)), (1, None, "scr3", None))
            self.assertEqual((judge.held("scr3"), judge.object(2), judge.held("c1")), (part, None, root))
            judge.feed(runs.derive("c4", "c1", part))
            with self.assertRaises(capcheck.Rejected) as raised:
                judge.feed(runs.hand_out(4))
            self.assertEqual(str(raised.exception.verdict), "no 11 36 StillHeld")
            self.assertIn("holder scr3 1 ", judge.diagnosis())
            for place in ("c32", "scr32", "@10", "d1"):
                self.assertRaises(ValueError, judge.owner, place)
        for call in (lambda: judge.end(), lambda: judge.owner("c1"), lambda: judge.object(1), lambda: list(judge.objects())):
            self.assertRaisesRegex(ValueError, "the judge is closed", call)
        for wrong in (lambda: runs.fill(8, root), lambda: runs.derive("c0", "c1", root), lambda: runs.drop("c0"), lambda: runs.free(1, 1),
                      lambda: runs.hand_out(0), lambda: runs.exchange(0, 1, 0, root, root), lambda: RunJudge("never")):
            self.assertRaises(ValueError, wrong)

    def test_harts(self):
        root, part = Capability.root(), Capability.root(0x1000, 64)
        with RunJudge() as judge:
            log = runs.version() + lines.mode("strict") + runs.root("c1", root) + runs.hart(9) + runs.root("c2", part)
            self.assertTrue(judge.feed(log + runs.hand_out(2)))
            self.assertEqual((judge.hart, list(judge.harts()), judge.register(1), judge.holder(1)), (9, [0, 9], NULL, "c2"))
            self.assertEqual((judge.held("0.c1"), judge.held("c2"), judge.owner("9.c2"), judge.owner("0.c2")), (root, part, 1, None))
            self.assertTrue(judge.feed(runs.hart(0)))
            self.assertEqual((judge.hart, judge.held("c1"), judge.holder(1), judge.owner("c2")), (0, root, "9.c2", None))
            self.assertEqual((judge.held("8.c1"), judge.owner("@0000000000000000")), (NULL, None))
            self.assertFalse(judge.feed(runs.hand_out(2)))
            for place in ("65536.c1", "09.c1", ".c1", "1.@0000000000000000", "1.c32", "1.2.c3"):
                self.assertRaisesRegex(ValueError, "isn't a ", judge.held, place)
            self.assertRaisesRegex(ValueError, "hart isn't a step", judge.step, capcheck.RunLine(Kind.HART, (1,)))
        self.assertRaisesRegex(ValueError, "hart: hart 65536 isn't from 0 to 65535", runs.hart, 65536)
        # The shortest log names the hart whose register is refused, or holds.
        log = (TOP / "conformance/runs/hart-held-by-another-hart-s-register.log").read_bytes()
        short = capcheck.shorten(log).splitlines()
        self.assertEqual([it for it in short if it.startswith(b"hart ")], [b"hart 2", b"hart 0", b"hart 2", b"hart 0"])

    def test_calls_of_a_judge(self):
        root, part = Capability.root(), Capability.root(0x1000, 64)
        moved, start = root.set_address(0x1000), runs.version() + lines.mode("clear") + runs.root("c1", root)
        with RunJudge() as judge:
            self.assertTrue(judge.feed(start) and judge.expected is None)
            self.assertTrue(judge.setaddr(2, 1, 0x1000, moved) and judge.setboundsexact(2, 2, 64, part) and judge.sc(2, 2, 16))
            self.assertTrue(judge.andperm(3, 2, ~0, part) and judge.lc(4, 2, 16, part) and judge.cleartag(5, 2, part.clear_tag()))
            self.assertTrue(judge.store(2, 0, 2, 0x1234) and judge.load(2, 1, 1, 0x12))
            self.assertEqual((judge.register(2), judge.register(0), judge.granule(0x1018)), (part, NULL, part))
            self.assertFalse(judge.load(2, 0, 2, 0x1235))
            self.assertEqual((judge.expected, judge.verdict.refusal), (0x1234, Refusal.WRONG_RESULT))
        with RunJudge() as judge:
            self.assertTrue(judge.feed(start))
            self.assertFalse(judge.move(2, 1, moved))
            self.assertEqual(judge.expected, root)
        for number in (-1, 32, 257, 2**32 + 1, 2**64 + 1):
            with RunJudge() as judge:
                for wrong in (lambda: judge.move(number, 1, root), lambda: judge.load(1, 0, number, 0), lambda: judge.sc(1, number, 0),
                              lambda: judge.step(capcheck.RunLine(Kind.OBJECT, (number, 0))), lambda: judge.register(number),
                              lambda: judge.step(capcheck.RunLine(Kind.EXCHANGE, (1, 1, number, root, root)))):
                    self.assertRaises(ValueError, wrong)
        with RunJudge() as judge:
            self.assertRaises(TypeError, judge.step, None)
            self.assertRaises(TypeError, judge.step, capcheck.RunLine(Kind.MOVE, (1, 1, None)))

    def test_copies(self):
        for judge in (Judge(), RunJudge()):
            for copied in (copy.copy, copy.deepcopy, pickle.dumps):
                self.assertRaisesRegex(TypeError, type(judge).__name__, copied, judge)
            self.assertIsNone(judge.verdict)

    def test_arguments(self):
        with RunJudge() as judge:
            for call, error in ((lambda: runs.judge(3), "a log is a path or a binary file, and not int"), (lambda: capcheck.judge(3), "and not int"),
                                (lambda: judge.held(3), "a place is a string, such as 'c3', and not int")):
                self.assertRaisesRegex(TypeError, error, call)
        self.assertRaisesRegex(ValueError, "owned is True or False, and not 'no'", lambda: RunJudge(owned="no"))


class Heaps(unittest.TestCase):
    def test_corpus(self):
        for path in sorted((TOP / "conformance/heaps").glob("*.log")):
            printed = subprocess.run([DIAGNOSIS, "heap", "--report", "--why", path], capture_output=True, text=True).stdout
            self.assertEqual(heaps.why(path.read_bytes()), printed, path)
            self.assertEqual(f"{heaps.judge(path)}\n", printed[:printed.index("\n") + 1], path)

    def test_values(self):
        start = b"heap 1\nroot 0000000000001000 00000000000100000\nmalloc 0000000000001000 0000000000001001\n"
        verdict = heaps.judge(io.BytesIO(start + b"malloc 0000000000002001 0000000000000010\nend 2\n"))
        self.assertEqual((bool(verdict), verdict.line, verdict.refusal, verdict.live), (False, 4, Refusal.OVERLAPS, None))
        self.assertEqual(Refusal.NOT_LIVE.sentence, "No object lives at the address that is freed.")
        verdict = heaps.judge(memoryview(start + b"end 1\n"))
        self.assertEqual((bool(verdict), verdict.events, verdict.live, verdict.refusal), (True, 1, 1, None))
        self.assertRaises(TypeError, heaps.why, "a log")


def fault(log):
    """The diagnosis of a log, without line numbers, counts and origins."""
    verdict, *rows = diagnosed(log).splitlines()
    return verdict.split()[2:], [row for row in rows if row.split()[0] not in ("roots", "steps", "granules") and " origin " not in row]


class Command(unittest.TestCase):
    def run_command(self, *words, given=b""):
        ran = subprocess.run(["python3", "-m", "capcheck", *words], input=given, capture_output=True)
        return ran.returncode, ran.stdout.decode(), ran.stderr.decode()

    def test_commands(self):
        log = TOP / "examples/escaped_bound.log"
        self.assertEqual(self.run_command("judge", log), (1, "no 5 11 BoundsEscape\n", ""))
        self.assertEqual(self.run_command("judge", given=b"capcheck 1\nend 0\n"), (0, "yes 0 0\n", ""))
        self.assertEqual(self.run_command("why", log), (1, diagnosed(log.read_bytes()), ""))
        self.assertEqual(self.run_command("shorten", log), (0, capcheck.shorten(log.read_bytes()).decode(), ""))
        self.assertEqual(self.run_command("shorten", TOP / "examples/moves.log"), (1, "", "capcheck: the log is accepted: yes 2 1\n"))
        self.assertEqual(self.run_command("explain", "--tag", NULL.digits)[1], Capability(NULL.word, True).explain())
        self.assertEqual(self.run_command("explain", "12")[0], 2)
        self.assertEqual(self.run_command("shorten", "--replayable", log)[1], capcheck.shorten(log.read_bytes(), replayable=True).decode())
        self.assertEqual(self.run_command("why", "--origins", log)[1], diagnosed(log.read_bytes(), "--origins"))

    def test_other_logs(self):
        """Run logs and logs of allocators are judged by their first line."""
        for path, freed, owned, _, (verdict, *_) in RUNS[::20]:
            log = path.read_bytes()
            if log.startswith(b"run 1\n") and log.endswith(b"\n"):
                asks = ["--freed", freed, *(["--owned"] if owned else [])]
                status = int(verdict.startswith("no"))
                self.assertEqual(self.run_command("judge", *asks, path), (status, f"{verdict}\n", ""))
                self.assertEqual(self.run_command("why", *asks, given=log), (status, runs.why(log, freed, owned), ""))
                if status:
                    self.assertEqual(self.run_command("shorten", *asks, path), (0, capcheck.shorten(log, freed=freed, owned=owned).decode(), ""))
        heap = b"heap 1\nroot 0000000000010000 00000000000020000\nend 0\n"
        self.assertEqual(self.run_command("judge", given=heap), (0, f"{heaps.judge(heap)}\n", ""))
        self.assertEqual(self.run_command("why", given=heap), (0, heaps.why(heap), ""))

    def test_progress(self):
        """A call gets the number of bytes that were judged; what it raises stops the judge."""
        for call, log in ((capcheck.judge, b"capcheck 1\nend 0\n"), (runs.judge, b"run 1\nmode clear\nend 0\n")):
            class Slowly(io.RawIOBase):
                def __init__(self):
                    self.at = 0

                def read(self, _=-1):
                    self.at += 3
                    return log[self.at - 3:self.at]

            told = []
            self.assertTrue(call(Slowly(), progress=told.append))
            self.assertEqual(told, [min(3 * it, len(log)) for it in range(1, -(-len(log) // 3) + 1)])
            self.assertRaises(ZeroDivisionError, call, io.BytesIO(log), progress=lambda _: 1 // 0)

    def test_interrupt(self):
        """An interrupt tells how far a log was judged."""
        for first in (b"capcheck 1\n", b"run 1\nmode clear\n"):
            # A shell's job in the background ignores interrupts, and what it starts does too.
            heard = {"preexec_fn": lambda: signal.signal(signal.SIGINT, signal.SIG_DFL)}
            with subprocess.Popen(["python3", "-m", "capcheck", "judge"], stdin=subprocess.PIPE, stderr=subprocess.PIPE, **heard) as it:
                it.stdin.write(first + b"root c1 ffff1ffffc0180040000000000000000\n" + b"move c2 c1 = 1 ffff1ffffc0180040000000000000000\n" * 5000)
                it.stdin.flush()  # More than a pipe holds: it has begun to judge.
                time.sleep(0.5)
                it.send_signal(signal.SIGINT)
                self.assertRegex(it.stderr.read(), rb"\Acapcheck: interrupted after [0-9]+ kB\n\Z")
                it.stdin.close()
            self.assertEqual(it.returncode, 130)

    def test_statuses_of_the_program(self):
        for words in ("judge examples/moves.log > /dev/full", "judge missing.log", "why examples", "explain %s > /dev/full" % NULL.digits,
                      "why examples/moves.log >&-"):
            ran = subprocess.run(f"python3 -m capcheck {words}", shell=True, capture_output=True, text=True, cwd=TOP)
            self.assertEqual(ran.returncode, 3, words)
            self.assertRegex(ran.stderr, r"\Acapcheck: (read|write) fault: .*\n\Z")
        self.assertEqual(self.run_command("judge", "--strange")[0], 2)

    def test_a_folder_without_the_libraries(self):
        ran = subprocess.run(["python3", "-c", "import capcheck"], env={**os.environ, "CAPCHECK_LIB": "/nosuch"}, capture_output=True, text=True)
        self.assertIn("CAPCHECK_LIB is /nosuch, where there is no libcapcheck_c.so.1", ran.stderr)


if __name__ == "__main__":
    unittest.main()
