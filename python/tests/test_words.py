"""Words, bounds and operations. `python3 -m unittest discover python/tests`; python/check.sh sets the environment:
CAPCHECK, a built program, and EXPLAINED, what it prints of random words."""
import copy
import os
import pickle
import random
import re
import subprocess
import tempfile
import unittest

import capcheck
from capcheck import NULL, Capability, Kind, Permissions, Refusal, Refused, lines
from capcheck.judges import State

PROGRAM = os.environ["CAPCHECK"]
COUNT = 10000


def words(seed):
    """Random words: as they are, unsealed with B and T near the address, and the words of bounds."""
    draw = random.Random(seed)
    for number in range(COUNT):
        word = draw.getrandbits(128)
        if number % 3 == 1:
            word = word & ~(3 << 110) | 0x3FFFF << 91
        if number % 3 == 2:
            base, length = draw.getrandbits(64) >> draw.randrange(64), draw.getrandbits(64) >> draw.randrange(64)
            word = Capability(word).with_bounds(base, length if base + length <= 2**64 else 0).word
        yield word, bool(draw.getrandbits(1))


class Words(unittest.TestCase):
    def test_explain_prints_what_the_program_prints(self):
        with open(os.environ["EXPLAINED"], encoding="ascii") as file:
            told = re.findall(r"word (\w+)\n(?:\w.*\n)+?sound \w+\n", file.read())
            file.seek(0)
            whole = file.read()
        self.assertEqual("".join(Capability.parse(word).explain() for word in told), whole)
        self.assertGreaterEqual(len(told), 1000)

    def test_explain_of_a_tagged_word(self):
        for word in (NULL.digits, "ffff1ffffbffd0000000000000001000"):
            told = subprocess.run([PROGRAM, "explain", "--tag", word], capture_output=True, text=True, check=True).stdout
            self.assertEqual(Capability.parse(word, True).explain(), told)

    def test_properties_are_those_of_explain(self):
        for word, tag in words(1):
            cap = Capability(word, tag)
            told = dict(line.split(" ", 1) for line in cap.explain().splitlines())
            self.assertEqual(told["memory"], cap.memory.hex())
            self.assertEqual(told["tag"], str(int(tag)))
            self.assertEqual((int(told["base"], 16), int(told["top"], 16)), cap.bounds)
            self.assertEqual(told["otype"], f"{cap.otype:05x} {cap.otype_kind}")
            self.assertEqual(told["perms"], f"{cap.permissions:08x}")
            self.assertEqual((told["t"], told["sound"]), (f"{cap.mantissa:04x}", "yes" if cap.sound else "no"))
            self.assertEqual(cap.fields.t, cap.mantissa & 0xFFF)

    def test_the_program_checks_vectors(self):
        draw, made = random.Random(2), []
        for word, _ in words(2):
            cap = Capability(word)
            address = draw.choice((draw.getrandbits(64), cap.representable.start, (cap.representable.start - 1) % 2**64))
            self.assertEqual(cap.keeps_bounds(address), address in cap.representable)
            made.append(f"bounds {word:032x} = {cap.base:016x} {cap.top:017x} {int(cap.sound)}\n")
            made.append(f"keeps {word:032x} {address:016x} = {int(cap.keeps_bounds(address))}\n")
            base, length = draw.getrandbits(64) >> draw.randrange(64), draw.getrandbits(64) >> draw.randrange(64)
            if base + length <= 2**64:
                got = capcheck.round_bounds(base, length)
                made.append(f"round {base:016x} {length:016x} = {got.base:016x} {got.top:017x} {int(got.ie)} {got.e} {int(got.exact)}\n")
        with tempfile.NamedTemporaryFile("w", suffix=".vectors") as file:
            file.writelines(made)
            file.flush()
            told = subprocess.run([PROGRAM, "vectors", file.name], capture_output=True, text=True, check=True).stdout
        self.assertEqual(told, f"pass {len(made)}\n")

    def test_there_and_back(self):
        for word, tag in words(3):
            cap = Capability(word, tag)
            self.assertEqual(Capability.from_fields(cap.fields, tag), cap)
            self.assertEqual(Capability.from_memory(cap.memory, tag), cap)
            self.assertEqual(Capability.parse(cap.digits, tag), cap)

    def test_numbers_out_of_range_are_refused(self):
        for call in (lambda: Capability(2**128), lambda: Capability(-1), lambda: Capability(0, 2), lambda: NULL.set_address(2**64),
                     lambda: NULL.set_bounds(-1), lambda: NULL.and_permissions(2**64), lambda: NULL.may_load(2048, 1),
                     lambda: NULL.may_load(0, 2**64 + 1), lambda: NULL.keeps_bounds(-1), lambda: Capability.parse("12"),
                     lambda: Capability.parse("ffff1ffffbffd00000000000000010\u0660\u0660"), lambda: Capability.from_memory(b"1"),
                     lambda: Capability.root(1), lambda: Capability.root(permissions=2**32), lambda: capcheck.round_bounds(2**64, 0),
                     lambda: Capability.from_fields(NULL.fields._replace(e=256)), lambda: Capability.from_fields(NULL.fields._replace(e=64)),
                     lambda: lines.end(2**64), lambda: lines.end(2**32), lambda: lines.load(257 + 2**64, 0, 1, 0),
                     lambda: lines.load(1, 2**63, 1, 0), lambda: lines.move(0, 1, NULL), lambda: lines.version(3)):
            self.assertRaises(ValueError, call)
        self.assertRaises(TypeError, lambda: Capability(1.5))

    def test_errors_name_the_argument_and_its_range(self):
        cap = Capability.root()
        for call, error, text in (
                (lambda: lines.root(32, cap), ValueError, "root: target 32 isn't from 1 to 31"),
                (lambda: lines.root_at(8, cap), ValueError, "root_at: address 0x8 isn't a multiple of 16"),
                (lambda: lines.store(1, 0, 3, 0), ValueError, "store: size 3 isn't 1, 2, 4 or 8"),
                (lambda: lines.store(1, 0, 1, 256), ValueError, "store: value 0x100 has more than 1 bytes"),
                (lambda: lines.sc(1, 1, 2048), ValueError, "sc: offset 2048 isn't from -2048 to 2047"),
                (lambda: lines.end(2**32), ValueError, "end: steps 4294967296 isn't from 0 to 2**32 - 1"),
                (lambda: lines.move(1, 2, 5), TypeError, "recorded is a Capability, and not int"),
                (lambda: lines.setaddr(1, 2, "5", cap), TypeError, "'str' object cannot be interpreted as an integer"),
                (lambda: cap.seal(5), TypeError, "authority is a Capability, and not int"),
                (lambda: cap.may_load(0, 3), ValueError, "size 3 isn't 1, 2, 4 or 8"),
                (lambda: cap.may_load(5000, 1), ValueError, "offset 5000 isn't from -2048 to 2047"),
                (lambda: NULL.replace(e=64), ValueError, "e 64 isn't from 0 to 2**6 - 1"),
                (lambda: NULL.replace(e=5, ie=0), ValueError, "with ie, b and t are multiples of 8; without it, e is 0: "),
                (lambda: NULL.replace(colour=1), TypeError, "a word has no field 'colour'"),
                (lambda: Capability.root(1), ValueError, "base 0x1 + length 0x10000000000000000 is above 2**64"),
                (lambda: setattr(cap, "foo", 1), AttributeError, "a Capability is immutable: foo can't be set; see replace")):
            with self.assertRaises(error) as raised:
                call()
            self.assertIn(text, str(raised.exception))

    def test_values_of_python(self):
        cap = Capability.root().set_address(0x1000).set_bounds(0x1000)
        with self.assertRaises(Refused) as raised:
            cap.set_bounds(0x1001)
        again = pickle.loads(pickle.dumps(raised.exception))
        self.assertEqual((str(again), again.refusal), ("BoundsEscape", Refusal.BOUNDS_ESCAPE))
        self.assertEqual((pickle.loads(pickle.dumps(cap)), copy.deepcopy(cap), {cap: 1}[cap]), (cap, cap, 1))
        # The same in every version of Python.
        self.assertEqual((f"{Refusal.NOT_EXACT} {Refusal.NOT_EXACT:d} {Refusal.NOT_EXACT:>9}", str(Kind.ROOT_AT)), ("NotExact 12  NotExact", "root_at"))
        self.assertEqual((str(~Permissions.STORE & Permissions(0xF)), int(~Permissions.STORE)), ("GLOBAL|EXECUTE|LOAD", 0x78FF7))
        self.assertEqual((repr(Permissions.LOAD), f"{Permissions.LOAD:04x}"), ("<Permissions LOAD: 0x4>", "0004"))
        self.assertEqual(lines.andperm(1, 2, ~8, cap), lines.andperm(1, 2, 2**64 - 9, cap))
        self.assertEqual(f"{cap:>40}", str(cap).rjust(40))
        self.assertEqual([Capability.parse(it) for it in (f"1 {cap.digits}", f"- {cap.digits}", f"0 0x{cap.digits}")],
                         [cap, cap.clear_tag(), cap.clear_tag()])
        self.assertEqual(((cap + 8 - 16).address, (cap + 8).offset, (cap - 1).offset), (0xFF8, 8, -1))
        self.assertRaises(Refused, lambda: cap.set_bounds(16) + 2**40)
        self.assertEqual(cap.replace(address=5, tag=False), Capability(cap.word - 0x1000 + 5))
        reach = cap.representable
        self.assertTrue(reach.start in reach and reach.start - 1 not in reach)
        self.assertRaises(TypeError, list, reach)

    def test_every_public_name_has_a_docstring(self):
        for it in [lines, *(getattr(capcheck, name) for name in capcheck.__all__)]:
            for name, value in vars(it).items() if isinstance(it, (type, type(lines))) else ():
                if not name.startswith("_") and (callable(value) or isinstance(value, (property, classmethod))) and "capcheck" in str(getattr(value, "__module__", "capcheck")):
                    self.assertTrue(value.__doc__, (it, name))

    def test_operations(self):
        cap = Capability.root().set_address(0x1000).set_bounds(0x20)
        self.assertEqual(str(cap), "0x1000 [rwxRW,0x1000-0x1020]")
        with self.assertRaises(Refused) as refused:
            cap.set_bounds(0x21)
        self.assertEqual((refused.exception.refusal, str(refused.exception)), (Refusal.BOUNDS_ESCAPE, "BoundsEscape"))
        self.assertRaises(Refused, cap.may_load, 0x20, 1)
        self.assertEqual(cap.may_load(0x18, 8), 0x1018)
        self.assertEqual(cap.set_bounds_clear(0x21).tag, False)
        self.assertEqual(cap.and_permissions(~Permissions.STORE).permissions, Permissions.ALL_PERMISSIONS & ~Permissions.STORE)
        self.assertEqual(cap.and_permissions(~8), cap.and_permissions(~Permissions.STORE))
        sealing = Capability.root().set_address(5)
        self.assertEqual((cap.seal(sealing).otype, cap.seal(sealing).unseal(sealing)), (5, cap))
        self.assertEqual((Capability.root().derive_fault(cap), cap.derive_fault(Capability.root()), cap.derive_fault(NULL)),
                         (None, Refusal.BEYOND_SOURCE, None))
        self.assertEqual((cap.derive_fault(cap.seal(sealing)), cap.derive_fault(cap.seal(sealing), True)), (Refusal.SEAL_CHANGED,) * 2)
        self.assertEqual(str(cap.seal(sealing)), "0x1000 [rwxRW,0x1000-0x1020] (sealed)")
        self.assertEqual(str(NULL), "0x0 [,0x0-0x10000000000000000] (untagged)")

    def test_lengths(self):
        for length in (0, 4095, 4097, 100000, 2**63 + 1):
            exact, mask = capcheck.representable_length(length), capcheck.alignment_mask(length)
            self.assertTrue(exact >= length and capcheck.round_bounds(mask & 2**62, exact).exact)
        self.assertEqual(capcheck.representable_length(2**64 - 1), 2**64)

    def test_names(self):
        self.assertEqual([it.title for it in (Refusal.BAD_HEADER, Refusal.BAD_MODE, Refusal.BAD_ARGUMENT)],
                         ["BadHeader", "BadMode", "BadArgument"])
        self.assertTrue(all(it.title.upper() == it.name.replace("_", "") for it in [*Refusal, *State]))
        self.assertTrue(all(it.sentence.endswith(".") for it in [*Refusal, *State, *Kind] if it != Refusal.BAD_ARGUMENT))
        others = {Kind.VERSION: "capcheck", Kind.ROOT_AT: "root", Kind.RUN_VERSION: "run", Kind.ROOT_SPECIAL: "root"}
        self.assertEqual([it.word for it in Kind], [others.get(it, it.name.lower()) for it in Kind])


if __name__ == "__main__":
    unittest.main()
