"""Tests of the recorder: the lines of each call, what it raises, and the judge that it may have."""
import copy
import io
import os
import pickle
import random
import tempfile
import unittest

from capcheck import NULL, Capability, Kind, Recorder, Refusal, Rejected, RunJudge, lines, runs

ROOT = Capability.root()
OBJECT = ROOT.set_address(0x1000).set_bounds(64)
SENTRY = Capability(OBJECT.word ^ 1 << 91, True)


def begun(file=None, judge=None, **words):
    recorder = Recorder(file, judge, **words)
    recorder.root("c1", ROOT)
    for place in ("scr0", "scr1", "@0000000000002000"):
        recorder.root(place, ROOT)
    return recorder


def words_of(file):
    """The words that the lines since the last call begin with."""
    text = file.getvalue().decode()
    file.seek(0)
    file.truncate()
    return " ".join(line.split()[0] for line in text.splitlines())


class RecorderTest(unittest.TestCase):
    def test_lines(self):
        file, log = io.BytesIO(), io.BytesIO()

        class Both:
            def write(self, line):
                file.write(line)
                log.write(line)

        with RunJudge() as judge:
            it = begun(Both(), judge, clear=True, spare=30)
            self.assertEqual(words_of(file), "run mode root root root root")
            at = ROOT.set_address(0x1000)
            for call, wanted in (
                (lambda: it.did(Kind.SETADDR, 2, 1, at, number=0x1000), "setaddr"),
                (lambda: it.did(Kind.SETBOUNDS, 2, 2, OBJECT, number=64), "setbounds"),
                (lambda: it.did(Kind.ANDPERM, 3, 2, OBJECT.and_permissions(~8), number=~8), "andperm"),
                (lambda: it.did(Kind.MOVE, 0, 2, OBJECT), ""),
                (lambda: it.did(Kind.SETADDR, 4, 1, ROOT.set_address(5), number=5), "setaddr"),
                (lambda: it.did(Kind.SEAL, 5, 2, OBJECT.seal(ROOT.set_address(5)), other=4), "seal"),
                (lambda: it.object(2), "object"),
                (lambda: it.wrote(6, 2, SENTRY), "derive"),
                (lambda: it.wrote("scr5", "c2", OBJECT), "derive"),
                (lambda: it.overwrote(6, 0x77), "drop"),
                (lambda: it.line(lines.move(7, 6, NULL.set_address(0x77))), "derive move"),
                (lambda: it.exchanged(8, 1, 0, ROOT, ROOT), "exchange"),
                (lambda: it.exchanged(8, None, 1, ROOT, ROOT), "derive"),
                (lambda: it.exchanged(0, 8, 1, ROOT, ROOT), "derive"),
                (lambda: it.trapped(31, ROOT, 0, ROOT), "derive derive"),
                (lambda: it.trapped(None, NULL, 31, ROOT), "derive"),
                (lambda: it.stored_cap(2, 1, 32), "sc"),
                (lambda: it.loaded_cap(9, "scr1", 32, OBJECT), "derive lc drop"),
                (lambda: it.loaded_cap(0, 1, 32, OBJECT), "load load"),
                (lambda: it.stored(2, 8, 4, 7), "store"),
                (lambda: it.loaded("c1", 0x1008, 4, 7), "derive load drop"),
                (lambda: it.filled(0x1010, bytes(16)), "fill"),
                (lambda: it.dropped("@0000000000000020"), "drop"),
                (lambda: it.freed(0, 1), "free"),
                (lambda: it.end(), "end"),
            ):
                call()
                self.assertEqual(words_of(file), wanted)
            self.assertEqual(str(judge.end()), f"yes {it.lines - 7} 4 1")
        self.assertEqual(str(runs.judge_bytes(log.getvalue())), f"yes {it.lines - 7} 4 1")
        self.assertEqual(len(log.getvalue().splitlines()), it.lines)
        self.assertRaisesRegex(ValueError, "the log has ended", it.end)

    def test_random_programs(self):
        """Right results pass both ways. Of a wrong one, `did` is refused, and `wrote` if and only if it isn't derived."""
        draw = random.Random(7)
        for _ in range(40):
            held = [NULL, ROOT, *(NULL for _ in range(2))]
            for wrong in (False, True):
                source, target = draw.randrange(4), draw.randrange(1, 4)
                cap, number = held[source], draw.getrandbits(draw.choice((5, 13, 40)))
                kind, made = draw.choice((
                    (Kind.MOVE, cap), (Kind.CLEARTAG, Capability(cap.word, False)), (Kind.SETADDR, cap.set_address_clear(number)),
                    (Kind.SETBOUNDS, cap.set_bounds_clear(number)), (Kind.SETBOUNDSEXACT, cap.set_bounds_clear(number, True)),
                    (Kind.ANDPERM, cap.and_permissions_clear(number))))
                if wrong:
                    made = draw.choice((Capability(made.word ^ 1 << draw.randrange(128), made.tag), Capability(made.word, not made.tag)))
                for way in ("did", "wrote"):
                    file = io.BytesIO()
                    it = Recorder(file, clear=True)
                    it.root("c1", ROOT)
                    for register, value in enumerate(held):
                        it.wrote(register, 1, value)
                    at = it.lines + 1
                    if way == "did":
                        it.did(kind, target, source, made, number=number)
                    else:
                        it.wrote(target, source, made)
                    it.end()
                    refusal = Refusal.WRONG_RESULT if wrong else None
                    if way == "wrote":
                        refusal = cap.derive_fault(made)
                    verdict = runs.judge_bytes(file.getvalue())
                    self.assertEqual((verdict.refusal, verdict.line), (refusal, at if refusal else None), (way, kind, cap, made))
                if not wrong:
                    held[target] = made

    def test_a_pair(self):
        file, code = io.BytesIO(), ROOT.set_address(0x40)
        data, type_ = ROOT.and_permissions(~2), ROOT.set_address(5)
        it = begun(file)
        it.did(Kind.SETADDR, 2, 1, type_, number=5)
        it.did(Kind.SETADDR, 3, 1, code, number=0x40)
        it.did(Kind.ANDPERM, 4, 1, data, number=~2)
        it.did(Kind.SEAL, 3, 3, code.seal(type_), other=2)
        it.did(Kind.SEAL, 4, 4, data.seal(type_), other=2)
        it.invoked(3, 4, code, data)
        it.end()
        self.assertEqual(str(runs.judge_bytes(file.getvalue())), "yes 6 4 0")

    def test_harts(self):
        file = io.BytesIO()
        with RunJudge() as judge:
            it = begun(file, judge)
            words_of(file)
            for call, wanted in (
                (lambda: it.hart(7), "hart"),
                (lambda: it.root("c1", ROOT), "root"),
                (lambda: it.hart(7), ""),
                (lambda: it.wrote(2, 1, OBJECT), "derive"),
                (lambda: it.overwrote(3, 5), ""),
                (lambda: it.hart(0), "hart"),
                (lambda: it.overwrote(1, 6), "drop"),
                (lambda: it.hart(7), "hart"),
                (lambda: it.line(lines.move(4, 3, NULL.set_address(5))), "derive move"),
                (lambda: it.object(2), "object"),
                (lambda: it.thread_ended(), "drop drop"),
                (lambda: it.thread_ended(), ""),
                (lambda: it.freed(0, 1), "free"),
                (lambda: it.end(), "end"),
            ):
                call()
                self.assertEqual(words_of(file), wanted)
            self.assertEqual((str(judge.end()), list(judge.objects())), ("yes 8 5 1", []))
        for number in (-1, 2**64):
            self.assertRaises(ValueError, begun(io.BytesIO()).hart, number)
        self.assertRaisesRegex(ValueError, "the hart is 65536: the harts are 0 to 65535", begun(io.BytesIO()).hart, 65536)

    def test_refused(self):
        file = io.BytesIO()
        with RunJudge() as judge:
            it = begun(file, judge)
            it.wrote(2, 1, OBJECT)
            with self.assertRaises(Rejected) as rejected:
                it.wrote(3, 2, ROOT)
            self.assertEqual((rejected.exception.verdict.line, rejected.exception.verdict.refusal), (8, Refusal.BEYOND_SOURCE))
            self.assertIn("no 8 31 BeyondSource\nline derive c3 c2", rejected.exception.diagnosis)
            self.assertTrue(file.getvalue().splitlines()[-1].startswith(b"derive c3 c2 = 1"))
            self.assertEqual((it.lines, repr(it)), (8, "<Recorder: no 8 31 BeyondSource>"))
            self.assertRaises(Rejected, it.end)
        self.assertRaisesRegex(ValueError, "no 8 31", it.end)

    def test_errors(self):
        for call, error in (
            (lambda it: it.did(Kind.MOVE, 40, 1, ROOT), "the target is c40: the registers are c0 to c31"),
            (lambda it: it.did(Kind.MOVE, -1, 1, ROOT), "target -1 isn't from 0"),
            (lambda it: it.did(Kind.LC, 2, 1, ROOT), "kind 13 is no step"),
            (lambda it: it.wrote("c40", 1, ROOT), "isn't a place of a run log"),
            (lambda it: it.wrote(30, 1, ROOT), "the target is c30, which is the spare register"),
            (lambda it: it.exchanged(3, "scr5", 0, ROOT, ROOT), "the source is no register"),
            (lambda it: it.exchanged(3, 1, 40, ROOT, ROOT), "the special register is scr40"),
            (lambda it: it.trapped(40, ROOT, 0, ROOT), "the saved register is scr40"),
            (lambda it: it.loaded(1, 0, 3, 0), "the access has 3 bytes"),
            (lambda it: it.loaded(1, 2**63, 8, 0), "offset 9223372036854775808 isn't from"),
            (lambda it: it.stored(1, 0, 1, 256), "the value 100 has more than 1 bytes"),
            (lambda it: it.filled(8, bytes(16)), "the granule's address 8 isn't a multiple of 16"),
            (lambda it: it.filled(16, bytes(15)), "a granule has 16 bytes, and not 15"),
            (lambda it: it.object(2, 2**32), "the object is 4294967296"),
            (lambda it: it.line(b"move c2 c1\n"), "the text isn't one line"),
            (lambda it: it.line(lines.mode(True)), "the line is no step"),
            (lambda it: it.again(), "no line has to be passed again"),
        ):
            file = io.BytesIO()
            it = begun(file, spare=30)
            words_of(file)
            with self.assertRaisesRegex(ValueError, error):
                call(it)
            self.assertEqual(file.getvalue(), b"")
        self.assertRaises(TypeError, begun(io.BytesIO()).did, Kind.MOVE, 2, 1, 0)
        self.assertRaisesRegex(ValueError, "nothing takes the lines", Recorder)
        self.assertRaises(TypeError, copy.copy, begun(io.BytesIO()))
        self.assertRaises(TypeError, pickle.dumps, begun(io.BytesIO()))

    def test_a_file_that_fails(self):
        class Full:
            def write(self, line):
                if line.startswith(b"move"):
                    raise OSError("the disk is full")

        it = begun(Full())
        self.assertRaisesRegex(OSError, "the disk is full", it.did, Kind.MOVE, 2, 1, ROOT)
        self.assertRaisesRegex(ValueError, "line 7 can't be written", it.did, Kind.MOVE, 2, 1, ROOT)
        with RunJudge() as judge:
            it = begun(judge=judge)
        self.assertRaisesRegex(ValueError, "the judge takes no line: NoJudge", it.wrote, 2, 1, ROOT)

    def test_a_descriptor(self):
        """A file descriptor gets the lines that a file gets, and its errors are raised."""
        with tempfile.TemporaryFile() as file:
            there = io.BytesIO()
            for it in (begun(file.fileno()), begun(there)):
                it.did(Kind.MOVE, 2, 1, ROOT)
                it.flush()
                it.did(Kind.MOVE, 3, 1, ROOT)
                it.end()
            file.seek(0)
            self.assertEqual(file.read(), there.getvalue())
        reads, writes = os.pipe()
        os.close(reads)
        it = begun(writes)
        with self.assertRaises(BrokenPipeError):
            for _ in range(10000):
                it.did(Kind.MOVE, 2, 1, ROOT)
        os.close(writes)
        self.assertRaises(OSError, begun, writes)
        if os.path.exists("/dev/full"):
            with open("/dev/full", "wb") as full:
                self.assertRaisesRegex(OSError, "No space left", begun(full.fileno()).end)


if __name__ == "__main__":
    unittest.main()
