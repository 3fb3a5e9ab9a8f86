"""Tests of traces: random programs of examples/emulator/machine.c in each way, forms of lines, dialects, and the command. MACHINE names
the machine that was built, and PROGRAMS how many programs run, or 40."""
import io
import json
import os
import random
import re
import subprocess
import sys
import tempfile
import unittest
from pathlib import Path

from capcheck import NULL, Capability, Kind, Recorder, Refusal, dialects, events, importing, runs
from capcheck.traces import TraceError, word_of

MACHINE, PROGRAMS = os.environ.get("MACHINE"), int(os.environ.get("PROGRAMS", "40"))
BUGS = ("none", "long", "short", "permission", "tag", "address", "sentry", "memory", "stale")
# What the judge may say of a machine with a bug: by its own lines, and by `derive` wherever there is no other line.
FOUND = {"none": (), "long": (Refusal.WRONG_RESULT,), "short": (Refusal.WRONG_RESULT,), "permission": (Refusal.WRONG_RESULT,),
         "tag": (Refusal.WRONG_RESULT,), "address": (Refusal.WRONG_RESULT,), "sentry": (Refusal.SEAL_CHANGED,),
         "memory": (Refusal.WRONG_RESULT,), "stale": (Refusal.STILL_HELD,)}
DERIVED = {"long": (Refusal.BEYOND_SOURCE,), "short": (), "permission": (), "address": (), "tag": (Refusal.BEYOND_SOURCE, Refusal.SEAL_CHANGED)}
ROOT, OBJECT = Capability.root(), Capability.root(0x1000, 64)
QEMU_ROOTS = 12


def ran(*words):
    return subprocess.run([MACHINE, *map(str, words)], capture_output=True, check=True).stdout


def imported(trace, dialect=None, *, clear=True, spare=0, **words):
    """The log of a trace, and its importer."""
    file = io.BytesIO()
    taking = importing.importer(Recorder(file, clear=clear, spare=spare), dialect, **words)
    taking.take(trace.splitlines() if isinstance(trace, str) else trace.decode().splitlines())
    taking.end()
    return file.getvalue(), taking


def replayed(log):
    """A run log written once more by a Recorder, of which each line is told as what happened."""
    file = io.BytesIO()
    it, value = Recorder(file, clear=True), None
    for line in runs.read(log):
        kind, value = line.kind, line.operands
        if kind in (Kind.RUN_VERSION, Kind.MODE):
            continue
        if kind in (Kind.ROOT, Kind.ROOT_AT, Kind.ROOT_SPECIAL):
            it.root(*value)
        elif kind in (Kind.MOVE, Kind.CLEARTAG):
            it.did(kind, *value)
        elif kind in (Kind.SEAL, Kind.UNSEAL):
            it.did(kind, value[0], value[1], value[3], other=value[2])
        elif kind in (Kind.SETBOUNDS, Kind.SETBOUNDSEXACT, Kind.SETADDR, Kind.ANDPERM):
            it.did(kind, value[0], value[1], value[3], number=value[2])
        else:
            call = {Kind.DERIVE: it.wrote, Kind.EXCHANGE: it.exchanged, Kind.DROP: it.dropped, Kind.LC: it.loaded_cap, Kind.SC: it.stored_cap,
                    Kind.LOAD: it.loaded, Kind.STORE: it.stored, Kind.OBJECT: it.object, Kind.FREE: it.freed, Kind.INVOKE: it.invoked}.get(kind)
            if kind == Kind.END:
                it.end()
            elif kind == Kind.FILL:
                it.filled(value[0], value[1].memory)
            else:
                call(*value)
    return file.getvalue()


@unittest.skipUnless(MACHINE, "MACHINE names no machine")
class MachineTest(unittest.TestCase):
    def test_random_programs(self):
        """A program gets the same log from the recorder, from Python's, and from both kinds of trace; the machine's own lines are refused
        where these are. Told by `derive`, a fault passes only if nothing is wider than it may be."""
        qemu, found = dialects.load("qemu-cheri"), set()
        for seed in range(PROGRAMS):
            bug = BUGS[seed % len(BUGS)]
            with self.subTest(seed=seed, bug=bug):
                own, did, wrote = (ran(way, seed, bug) for way in ("own", "did", "wrote"))
                self.assertEqual(imported(ran("events", seed, bug), spare=31)[0], did)
                log, taking = imported(ran("qemu", seed, bug), qemu, spare=31, malloc=[0x2100], free=[0x2200])
                self.assertEqual((log, taking.told()), (did, []))
                self.assertEqual(replayed(did), did)
                verdict, same = runs.judge_bytes(did), runs.judge_bytes(own)
                self.assertEqual((verdict.yes, verdict.refusal), (same.yes, same.refusal))
                self.assertTrue(verdict or verdict.refusal in FOUND[bug], verdict)
                if not verdict:
                    found.add(bug)
                    self.assertEqual(did.splitlines()[verdict.line - 1], own.splitlines()[same.line - 1])
                loose = runs.judge_bytes(wrote)
                if bug in DERIVED:
                    self.assertTrue(loose or not verdict and loose.refusal in DERIVED[bug], loose)
                else:
                    self.assertEqual((loose.line, loose.refusal), (verdict.line, verdict.refusal))
        if PROGRAMS >= 500:
            self.assertEqual(found, set(BUGS) - {"none"})

    def test_without_a_spare_register(self):
        """Accesses through DDC borrow a register, which has its value afterwards."""
        for seed in range(9):
            log, _ = imported(ran("qemu", seed), dialects.load("qemu-cheri"), malloc=[0x2100], free=[0x2200])
            self.assertTrue(runs.judge_bytes(log), seed)

    def test_cut(self):
        """A trace whose middle is missing isn't taken, or what was there isn't there."""
        lines, draw, said = ran("qemu", 3).decode().splitlines(), random.Random(3), 0
        numbered = ran("events", 3).decode().splitlines()
        for _ in range(40):
            first = draw.randrange(40, len(numbered) - 20)
            with self.assertRaisesRegex(TraceError, f"^line {first + 1}: the trace was cut: n {first + 5} doesn't follow {first - 1}$"):
                imported("\n".join(numbered[:first] + numbered[first + 5:]))
            first = draw.randrange(60, len(lines) - 40)
            try:
                imported("\n".join(lines[:first] + lines[first + 30:]), dialects.load("qemu-cheri"))
            except TraceError as error:
                said += "the trace was cut: 0x" in str(error) or "is missing" in str(error)
        self.assertGreater(said, 25)


SMALL = {
    "lines": [{"is": "instruction", "form": r"(?:(?P<hart>\d+) )?(?P<pc>[0-9a-f]+) (?P<mnemonic>\S+)(?: (?P<operands>.*))?"},
              {"is": "capability", "form": r"  (?P<register>\w+) := (?P<tag>[01]) (?P<word>[0-9a-f]{32})"},
              {"is": "integer", "form": r"  (?P<register>\w+) = (?P<value>[0-9a-f]+)"},
              {"is": "load", "form": r"  \[(?P<at>[0-9a-f]+)\] -> (?P<value>[0-9a-f]+)"},
              {"is": "store", "form": r"  \[(?P<at>[0-9a-f]+)\] <- (?P<value>[0-9a-f]+)"},
              {"is": "load_capability", "form": r"  \[(?P<at>[0-9a-f]+)\] => ?(?P<fields>.*)"},
              {"is": "store_capability", "form": r"  \[(?P<at>[0-9a-f]+)\] <="},
              {"is": "trap", "form": r"trap(?: (?P<completed>late))?"}, {"is": "mode", "form": r"to (?P<mode>\w+)"},
              {"is": "nothing", "form": "#.*"}],
    "keys": {"t": "tag", "hi": "high", "lo": "address"}, "modes": {"m": ["scr31", "scr28"], "s": ["scr15", "scr12"]},
    "registers": {"pcc": "scr0", "ddc": "scr1", "s5": "scr5"},
    "kinds": {"mv": "move", "inc": "incoffset", "bounds": "setbounds", "jump": "jump", "ret": "jump c0 c1", "spec": "special", "inv": "invoke",
              "sys": "call", "li": "access", "mret": "return scr31", "off": "setoffset", "type": "copytype", "seal": "ccseal", "ptr": "fromptr"},
}
BEGIN = f"  c1 := 1 {ROOT.digits}\n  pcc := 1 {ROOT.digits}\n  ddc := 1 {ROOT.digits}\n"


def small(trace, **words):
    return imported(BEGIN + trace, dialects.Dialect("small", SMALL), **words)


def steps(trace, **words):
    """The steps of a trace in the small dialect: their first words, without results."""
    log, _ = small(trace, **words)
    return [line.split(" = ")[0] for line in log.decode().splitlines()[5:-1]]


def value(cap):
    return f"{int(cap.tag)} {cap.digits}"


class TextTest(unittest.TestCase):
    def test_instructions(self):
        at = ROOT.set_address(0x1000)
        sentry = at.replace(otype=0x3FFFE)
        for trace, wanted in (
            (f"0 mv c2,c1\n  c2 := {value(ROOT)}", ["move c2 c1"]),
            (f"0 inc c2,c1,4096\n  c2 := {value(at)}", ["setaddr c2 c1 0000000000001000"]),
            (f"0 inc c2,c1,-16\n  c2 := {value(ROOT.set_address(2**64 - 16))}", ["setaddr c2 c1 fffffffffffffff0"]),
            (f"0 li x5\n  x5 = 1000\n4 inc c2,c1,x5\n  c2 := {value(at)}", ["setaddr c2 c1 0000000000001000"]),
            (f"0 inc c2,c1,x5\n  c2 := {value(at)}", ["derive c2 c1"]),
            (f"0 off c2,c1,4096\n  c2 := {value(at)}", ["setaddr c2 c1 0000000000001000"]),
            (f"0 ptr c2,c0,4096\n  c2 := {value(at)}", ["derive c2 scr1"]),
            (f"0 type c2,c1,c1\n  c2 := {value(NULL.set_address_clear(2**64 - 1))}", ["setaddr c2 c0 ffffffffffffffff"]),
            (f"0 ptr c2,c1,0\n  c2 := {value(NULL)}", ["setaddr c2 c0 0000000000000000"]),
            (f"0 inc c2,what,7\n  c2 := {value(ROOT)}", ["derive c2 c2"]),
            (f"0 jump c0, 8(c1)\n8 li", ["derive scr0 c1"]),
            (f"0 seal c2,c1,c1\n  c2 := {value(ROOT)}", ["move c2 c1"]),
            (f"0 any c2,c5,c1\n  c2 := {value(at)}", ["derive c2 c1"]),
            (f"0 any c2,c5\n  c2 := {value(at)}", ["derive c2 c5"]),
            (f"0 any c2,c1\n  c2 := {value(sentry)}\n4 jump c3,c2\n  c3 := {value(ROOT.set_address(8).replace(otype=0x3FFFE))}\n1000 li",
             ["derive c2 c1", "exchange c3 c2 scr0"]),
            ("0 ret\n40 li", ["derive scr0 c1"]),
            (f"0 spec c2,s5,c1\n  c2 := {value(NULL)}", ["exchange c2 c1 scr5"]),
            (f"0 spec c2,ddc,c0\n  c2 := {value(ROOT)}", ["derive c2 scr1"]),
            ("0 spec c0,s5,c1", ["derive scr5 c1"]),
            ("0 ld x5,8(c1)\n  [8] -> 1122334455667788\n  x5 = 1122334455667788",
             [f"fill @0000000000000000 {0x1122334455667788 ^ NULL.word >> 64:016x}0000000000000000", "load c1 8 8"]),
            ("0 ld x5,8(c1)\n  [8] -> 0000000000000000\n  x5 = 0", ["load c1 8 8"]),
            ("0 sw x5,4(c1)\n  [4] <- 00000007", ["store c1 4 4 00000007"]),
            ("0 sd x5,4(c1)\n  [4] <- 0000000700000008", ["store c1 4 4 00000008", "store c1 8 4 00000007"]),
            ("0 sd x5,0(x6)\n  [1000] <- 0000000000000008", ["derive c31 scr1", "store c31 0 8 0000000000000008", "drop c31"]),
            (f"0 mv c31,c1\n  c31 := {value(ROOT)}\n4 sd x5,0(x6)\n  [1000] <- 0000000000000008",
             ["move c31 c1", "derive scr26 c31", "derive c31 scr1", "store c31 0 8 0000000000000008", "drop c31", "derive c31 scr26", "drop scr26"]),
            (f"0 lc c2,16(c1)\n  [10] =>\n  c2 := {value(NULL)}", ["lc c2 c1 16"]),
            ("0 lc c0,16(c1)\n  [10] => t:0 hi:0 lo:0", ["load c1 16 8", "load c1 24 8"]),
            ("0 sc c1,16(c1)\n  [10] <=", ["sc c1 c1 16"]),
            (f"0 swap c2,c3,(c1)\n  [0] =>\n  [0] <=\n  c2 := {value(NULL)}", ["lc c2 c1 0", "sc c3 c1 0"]),
            (f"0 swap c1,c1,(c1)\n  [0] =>\n  [0] <=\n  c1 := {value(NULL)}", ["lc c31 c1 0", "sc c1 c1 0", "move c1 c31", "drop c31"]),
            (f"0 li\ntrap\nto m\n100 mret\n4 li", ["derive scr31 scr0", "derive scr0 scr28", "derive scr0 scr31"]),
            (f"0 li\nto s\n4 li\ntrap\n100 li", ["derive scr15 scr0", "derive scr0 scr12"]),
            (f"0 li\ntrap\n100 li\ntrap\nto s\ntrap\n200 li", ["derive scr31 scr0", "derive scr0 scr28", *["derive scr15 scr0", "derive scr0 scr12"] * 2]),
            ("0 ret\ntrap late\nto m\n100 li", ["derive scr0 c1", "derive scr31 scr0", "derive scr0 scr28"]),
            ("0 ret\ntrap\nto m\n100 li", ["derive scr31 scr0", "derive scr0 scr28"]),
            (f"1 0 mv c2,c1\n  c2 := {value(ROOT)}\n2 0 mv c3,c1\n  c3 := {value(ROOT)}", ["move c2 c1"]),
        ):
            with self.subTest(trace):
                self.assertEqual(steps(trace), wanted)

    def test_kernel(self):
        """After a trap or a system call, what nothing gives is a kernel's; elsewhere the judge refuses it."""
        for before, count in (("", 0), ("0 sys\n", 1), ("0 li\ntrap\nto m\n", 1), ("0 sys\n4 li\n", 0)):
            log, taking = small(f"  scr27 := {value(ROOT)}\n{before}8 any c2,c5\n  c2 := {value(OBJECT)}")
            self.assertEqual(taking.machine.built, count)
            verdict = runs.judge_bytes(log)
            self.assertEqual((verdict.yes, verdict.refusal), (bool(count), None if count else Refusal.SOURCE_UNTAGGED))
            self.assertIn(b"derive c2 scr27" if count else b"derive c2 c5", log)

    def test_loads(self):
        """What no line wrote is filled; what one wrote has to be there."""
        for trace, refusal in (
            ("0 ld x5,8(c1)\n  [8] -> 11\n4 ld x5,8(c1)\n  [8] -> 22", Refusal.WRONG_RESULT),
            ("0 ld x5,8(c1)\n  [8] -> 11\n4 ld x5,9(c1)\n  [9] -> 22", None),
            ("0 sb x5,8(c1)\n  [8] <- 11\n4 lh x5,8(c1)\n  [8] -> 2211", None),
            ("0 sb x5,8(c1)\n  [8] <- 11\n4 lh x5,8(c1)\n  [8] -> 2212", Refusal.WRONG_RESULT),
            (f"0 lc c2,16(c1)\n  [10] =>\n  c2 := 0 {OBJECT.digits}\n4 lc c3,16(c1)\n  [10] =>\n  c3 := 0 {OBJECT.digits}", None),
            (f"0 lc c2,16(c1)\n  [10] =>\n  c2 := {value(OBJECT)}", Refusal.WRONG_RESULT),
            (f"0 sc c1,16(c1)\n  [10] <=\n4 lc c3,16(c1)\n  [10] =>\n  c3 := {value(ROOT)}", None),
            (f"0 sc c1,16(c1)\n  [10] <=\n4 sb x5,16(c1)\n  [10] <- 00\n8 lc c3,16(c1)\n  [10] =>\n  c3 := {value(ROOT)}", Refusal.WRONG_RESULT),
        ):
            self.assertEqual(runs.judge_bytes(small(trace)[0]).refusal, refusal, trace)

    def test_objects(self):
        trace = (f"0 inc c1,c1,32\n  c1 := {value(ROOT.set_address(32))}\n4 go\n100 any c10,c1\n  c10 := {value(OBJECT)}\n20 li\n24 go\n200 li\n")
        self.assertEqual(steps(trace, malloc=[0x100], free=[0x200]), ["setaddr c1 c1 0000000000000020", "derive c10 c1", "object c10", "free c10"])

    def test_realloc(self):
        """A realloc that moves frees and hands out; one that grows in place widens; what an allocator calls itself isn't told."""
        def go(at, cap, inner=""):
            return f"18 inc c1,c1,32\n  c1 := {value(ROOT.set_address(32))}\n1c go\n{at} go\n{inner}300 any c10,c1\n  c10 := {value(cap)}\n20 go\n"
        inside = (f"404 inc c1,c1,1008\n  c1 := {value(ROOT.set_address(0x410))}\n408 go\n100 go\n104 any c10,c1\n  c10 := {value(OBJECT)}\n410 go\n"
                  f"414 inc c1,c1,-1008\n  c1 := {value(ROOT.set_address(32))}\n418 go\n")
        other = Capability.root(0x2000, 64)
        for trace, wanted in (
            (go("400", OBJECT), ["object c10"]), (go("100", OBJECT) + go("400", other), ["object c10", "free 1", "object c10"]),
            (go("100", OBJECT) + go("400", Capability.root(0x1000, 128)), ["object c10", "object c10 1"]),
            (go("100", OBJECT) + go("400", Capability.root(0x1000, 32)), ["object c10"]),
            (go("100", OBJECT) + go("400", NULL) + "200 go\n", ["object c10"]),
            (go("100", OBJECT) + go("400", other) + "200 go\n", ["object c10", "free 1", "object c10", "free c10"]),
            (go("400", other, inside), ["object c10"]), (go("100", OBJECT, inside), ["object c10"]),
        ):
            found = [it for it in steps(trace, malloc=[0x100], free=[0x200], realloc=[0x400]) if it.startswith(("object", "free"))]
            self.assertEqual(found, wanted)

    def test_pairs(self):
        code, data = (cap.replace(otype=5) for cap in (OBJECT, OBJECT.and_permissions(~2)))
        trace = f"  c2 := {value(code)}\n  c3 := {value(data)}\n0 inv c2,c3\n  c31 := {value(OBJECT.and_permissions(~2))}\n1000 li"
        log, _ = imported(f"  pcc := {value(ROOT)}\n{trace}", dialects.Dialect("small", SMALL))
        self.assertEqual(str(runs.judge_bytes(log)), "yes 1 3 0")

    def test_halves(self):
        """The upper half of a word in memory is taken in both forms: as it is, and with NULL's as 0."""
        for mask in (0, NULL.word >> 64):
            trace = (f"0 sc c1,16(c1)\n  [10] <=\n4 lc c2,16(c1)\n  [10] => t:1 hi:{ROOT.word >> 64 ^ mask:x} lo:0\n  c2 := {value(ROOT)}\n"
                     f"8 sd x5,32(c1)\n  [20] <- 0000000000000009\nc lc c0,32(c1)\n  [20] => t:0 hi:{NULL.word >> 64 ^ mask:x} lo:9")
            self.assertTrue(runs.judge_bytes(small(trace)[0]), mask)

    def test_empty(self):
        for trace in ("", "what\n", "# nothing\n"):
            self.assertRaisesRegex(TraceError, "^line .: the trace has no instruction$", small, trace)

    def test_not_understood(self):
        trace = "0 li\nwhat is this\nwhat else\n4 li\nother\n"
        self.assertEqual(small(trace)[1].told(), ["not understood: 2 that begin with 'what'", "not understood: 1 that begin with 'other'"])
        with self.assertRaisesRegex(TraceError, "^line 5: not understood: what is this$"):
            small(trace, stop_at_unknown=True)

    def test_errors(self):
        for trace, error in (
            ("0 mv c2,c1\n  c2 := 1 ffff\n", None),
            ("0 li\n  [0] -> 11", "line 4: li: no operand in parentheses says through which register it accesses memory"),
            ("0 mv c2,c1\n8 li", "line 5: the trace was cut: 0x8 doesn't follow 0x0, line 4"),
            ("0 jump c3,c1\n40 li", "line 4: what jump wrote into c3 isn't in the trace"),
            ("0 li\ntrap\nto moon", "line 6: the dialect doesn't say where mode moon saves PCC, and its vector"),
            ("0 mv c2,c1\n0 li", "line 5: the trace was cut"),
        ):
            if error is None:
                self.assertEqual(small(trace)[1].told(), ["not understood: 1 that begin with 'c2'"])
                continue
            with self.assertRaises(TraceError) as raised:
                small(trace)
            self.assertTrue(str(raised.exception).startswith(error), raised.exception)


class WordTest(unittest.TestCase):
    def test_random_words(self):
        draw = random.Random(5)
        for _ in range(3000):
            cap = ROOT.set_address(draw.getrandbits(draw.choice((8, 20, 40, 64)))).set_bounds_clear(draw.getrandbits(draw.choice((4, 12, 13, 30, 50))))
            cap = cap.set_address_clear((cap.address + draw.getrandbits(8)) % 2**64).and_permissions_clear(draw.getrandbits(19))
            if not cap.sound:
                continue
            cap = cap.replace(otype=draw.choice((0x3FFFF, 0x3FFFE, 5)), flag=draw.getrandbits(1))
            fields = {"base": cap.base, "length": min(cap.length, 2**64 - 1), "permissions": int(cap.permissions), "type": cap.otype, "flag": cap.fields.flag}
            self.assertEqual(word_of({**fields, "address": cap.address}), cap.word)
            self.assertEqual(word_of({**fields, "offset": (cap.address - cap.base) % 2**64, "sealed": int(cap.sealed)}), cap.word)

    def test_errors(self):
        fields = {"base": 0x1000, "length": 64, "permissions": 5, "address": 0x1000}
        for change, error in (
            ({"length": 0x1001}, "no word has these fields: base 1000 length 1001 permissions 5 address 1000: these bounds would be rounded"),
            ({"address": 0x100000}, ": the address is out of the representable range"), ({"permissions": 0x1000}, ": the permissions have a bit"),
            ({"sealed": 1}, ": sealed and type differ"), ({"base": 2**64 - 1}, "or the bounds end above 2"),
        ):
            with self.assertRaises(ValueError) as raised:
                word_of({**fields, **change})
            self.assertIn(error, str(raised.exception))
        with self.assertRaisesRegex(ValueError, "^the field permissions is missing: base 1 length 2 offset 0$"):
            word_of({"base": 1, "length": 2, "offset": 0})


class EventsTest(unittest.TestCase):
    def test_events(self):
        root = '{"do":"root","place":"c1","value":"' + value(ROOT) + '"}\n'
        for event, wanted in (
            ({"do": "setaddr", "target": "c2", "source": "c1", "number": "0x1000", "value": value(ROOT.set_address(0x1000))}, "setaddr c2 c1 0000000000001000"),
            ({"do": "setbounds", "target": "c2", "source": "c1", "number": 64,
              "value": {"base": 0, "length": 64, "permissions": "0x78fff", "address": 0}, "pc": "0x80", "note": "any"}, "setbounds c2 c1 0000000000000040"),
            ({"do": "andperm", "target": "c2", "source": "c1", "number": "-9", "value": value(ROOT)}, "andperm c2 c1 fffffffffffffff7"),
            ({"do": "derive", "target": "scr3", "source": "c1", "value": value(OBJECT)}, "derive scr3 c1"),
            ({"do": "load", "authority": "c1", "address": 8, "size": 2, "number": 0}, "load c1 8 2"),
            ({"do": "lc", "target": "c2", "authority": "c1", "offset": 16, "value": value(NULL)}, "lc c2 c1 16"),
            ({"do": "drop", "place": "@0000000000001000"}, "drop @0000000000001000"),
            ({"do": "drop", "place": "c1"}, "drop c1"),
            ({"do": "fill", "address": "0x1000", "memory": "00" * 16}, "fill @0000000000001000 00001ffffc0180040000000000000000"),
            ({"do": "object", "target": "c1"}, "object c1"), ({"do": "free", "target": "c1"}, "free c1"), ({"do": "free", "number": 7}, "free 7"),
        ):
            log, _ = imported(root + json.dumps(event))
            self.assertEqual(log.decode().splitlines()[3].split(" = ")[0], wanted)

    def test_errors(self):
        for event, error in (
            ("{", "it isn't a JSON object: Expecting property name enclosed in double quotes, column 2"), ("[]", "it isn't a JSON object"),
            ('{"target":"c2"}', "the key 'do' is missing"), ('{"do":"move","target":"c2","source":"c1"}', "the key 'value' is missing"),
            ('{"do":"move","target":"c2","source":"scr1","value":"0 ' + NULL.digits + '"}', "source 'scr1' is a special register"),
            ('{"do":"move","target":"c2","source":"c40","value":"0 ' + NULL.digits + '"}', "source 'c40' is no register, such as c3 or scr0"),
            ('{"do":"move","target":"c2","source":"c1","value":"x"}', "value 'x' is neither a tag and a word, as in a log, nor an object of fields"),
            ('{"do":"move","target":"c2","source":"c1","value":{"top":1}}', "value has no field 'top'"),
            ('{"do":"object","target":"c1","size":1}', "object has no key 'size'"), ('{"do":"setaddr","number":"z"}', "number is no number"),
            ('{"do":"load","authority":"c1","address":0,"size":1,"number":256}', "number 0x100 has more than 1 bytes"),
        ):
            with self.assertRaises(TraceError) as raised:
                imported("\n" + event)
            self.assertEqual(str(raised.exception), f"line 2: {error}")
        self.assertEqual(imported('{"do":"dance"}\n{"do":"kernel"}')[1].told(), ["not understood: 1 that begin with 'dance'"])

    def test_schema(self):
        """The schema has each event and its keys."""
        schema = json.loads((Path(__file__).parents[2] / "docs/trace.schema.json").read_text())
        found = {}
        for form in schema["oneOf"]:
            do = form["properties"]["do"]
            found.update(dict.fromkeys(do.get("enum") or [do["const"]], set(form["properties"]) - {"do"}))
        source = (Path(events.__file__)).read_text()
        for name in vars(events.Events):
            if name.startswith("_take_"):
                body = re.search(rf"(?s)    def {name}\(.*?(?=\n    def |\Z)", source)[0]
                used = set(re.findall(r'(?:take|number|data|place|special|value)\("(\w+)"', body)) | ({"address", "offset"} if "_address(" in body else set())
                self.assertEqual(found[name[6:]], used, name)
        self.assertEqual(set(found), {name[6:] for name in vars(events.Events) if name.startswith("_take_")} | set(events._STEPS))


class DialectTest(unittest.TestCase):
    def test_shipped(self):
        self.assertEqual(dialects.shipped(), ["events", "qemu-cheri"])
        qemu = dialects.load("qemu-cheri")
        self.assertEqual((len(qemu.roots), qemu.registers["ca0"], qemu.registers["a0"], qemu.registers["mepcc"]), (QEMU_ROOTS, 10, 74, 63))

    def test_errors(self):
        for change, error in (
            ({"lines": []}, "lines: no line is an instruction"), ({"line": []}, "unknown key 'line'; the keys are about"),
            ({"lines": [{"is": "x", "form": ""}]}, "lines[0].is: 'x' is none of instruction, "),
            ({"lines": [{"is": "instruction", "form": "("}]}, "lines[0].form: missing ), unterminated subpattern at position 0"),
            ({"lines": [{"is": "instruction", "form": "a"}]}, "lines[0].form: the group 'mnemonic' is missing"),
            ({"lines": [{"is": "integer", "form": "(?P<register>a)(?P<value>b)(?P<tag>c)"}]}, "lines[0].form: there is no group 'tag'"),
            ({"kinds": {"mv": "moves"}}, "kinds.mv: 'moves' isn't one of move, "), ({"kinds": {"mv": "move c40"}}, "kinds.mv: 'c40' is no register"),
            ({"registers": {"a": "b"}}, "registers.a: 'b' is no register: c0 to c31"), ({"roots": {"c1": "0"}}, "roots.c1: '0' isn't a word of 32"),
            ({"keys": {"v": "x"}}, "keys.v: 'x' is no field: address, "), ({"mode": "x"}, "mode: 'x' is none of clear, strict"),
            ({"fields": "(?P<key>.)"}, "fields: the group 'value' is missing"), ({"registers": []}, "registers: it isn't an object"),
        ):
            with self.assertRaises(dialects.DialectError) as raised:
                dialects.Dialect("d", {**SMALL, **change})
            self.assertTrue(str(raised.exception).startswith(f"d: {error}"), raised.exception)
        self.assertRaisesRegex(dialects.DialectError, "there is no dialect 'none': name one of events, qemu-cheri, or a file", dialects.load, "none")


class CommandTest(unittest.TestCase):
    def run_it(self, text, *words):
        ran_it = subprocess.run([sys.executable, "-m", "capcheck", "trace", *words], input=text, capture_output=True, text=True)
        return ran_it.returncode, ran_it.stdout, ran_it.stderr

    def test_command(self):
        root = '{"do":"root","place":"c1","value":"' + value(ROOT) + '"}\n'
        good = root + '{"do":"move","target":"c2","source":"c1","value":"' + value(ROOT) + '"}\n'
        bad = root + '{"do":"move","target":"c2","source":"c1","value":"' + value(OBJECT) + '"}\n'
        log = f"run 1\nmode clear\nroot c1 {ROOT.digits}\nmove c2 c1 = {value(ROOT)}\nend 1\n"
        self.assertEqual(self.run_it(good), (0, log, ""))
        self.assertEqual(self.run_it(good, "--judge"), (0, "yes 1 1 0\n", ""))
        self.assertEqual(self.run_it(good, "--mode", "strict")[1], log.replace("clear", "strict"))
        status, said, error = self.run_it(bad, "--judge")
        self.assertEqual((status, said.splitlines()[0], said.splitlines()[-1], error), (1, "no 4 23 WrongResult", f"trace 2 {bad.splitlines()[1]}", ""))
        self.assertEqual(self.run_it(good + "x")[::2], (2, "capcheck: line 3: it isn't a JSON object: Expecting value, column 1\n"))
        self.assertEqual(self.run_it(good + '{"do":"x"}', "--strict")[::2], (2, 'capcheck: line 3: not understood: {"do":"x"}\n'))
        self.assertEqual(self.run_it(good + '{"do":"x"}'), (0, log, "capcheck: trace: not understood: 1 that begin with 'x'\n"))
        self.assertEqual(self.run_it(good, "--dialect", "x"), (2, "", "capcheck: there is no dialect 'x': name one of events, qemu-cheri, or a file\n"))
        self.assertEqual(self.run_it(good, "--hart", "0")[0], 2)
        self.assertEqual(self.run_it("", "nowhere")[0], 3)
        self.assertIn("could not be compared with a real trace", " ".join(self.run_it("", "--help")[1].split()))
        with tempfile.TemporaryDirectory() as work:
            self.assertEqual(self.run_it(good, "--judge", "--log", f"{work}/log"), (0, "yes 1 1 0\n", ""))
            self.assertEqual(Path(f"{work}/log").read_text(), log)
        if os.path.exists("/dev/full"):
            self.assertEqual(self.run_it(good, "--log", "/dev/full")[::2], (3, "capcheck: write fault: [Errno 28] No space left on device\n"))


if __name__ == "__main__":
    unittest.main()
