#!/usr/bin/env python3
"""Writes calls with random arguments, and what the Python package answers: `CALL = ANSWER`, a line each. tests/answers.rs makes
the same calls.

    PYTHONPATH=PREFIX/share/capcheck python3 rust/answers.py COUNT"""
import random
import sys

import capcheck
from capcheck import Capability, Judge, Permissions, Refused, lines

DRAW = random.Random()
LINES = [*lines.Kind]


def number():
    return DRAW.choice((DRAW.getrandbits(64) >> DRAW.randrange(64), 2**64 - 1 - (DRAW.getrandbits(64) >> DRAW.randrange(64))))


def capability(near=None):
    """A random one: any word, an unsealed word, or one derived from a root."""
    way = DRAW.randrange(4)
    word = DRAW.getrandbits(128)
    if way == 0:
        return Capability(word, bool(DRAW.getrandbits(1)))
    if way == 1:
        return Capability(word & ~(3 << 110) | 0x3FFFF << 91, True)
    base = near if near is not None else number()
    cap = Capability.root().set_address(base).set_bounds_clear(number() >> DRAW.randrange(64))
    cap = cap.and_permissions_clear(DRAW.choice((~0, DRAW.getrandbits(19))))
    if way == 2:
        sealing = Capability.root().set_address(DRAW.randrange(1 << 18))
        return cap.seal_clear(sealing) if DRAW.getrandbits(1) else cap
    return cap


def cap(it):
    return f"{int(it.tag)} {it.digits}"


def tried(call, show=cap):
    try:
        return show(call())
    except Refused as refused:
        return f"refused {int(refused.refusal)}"


def word_call():
    it, other, n, m = capability(), capability(), number(), number()
    offset, size = DRAW.randrange(-2048, 2048), DRAW.choice((1, 2, 4, 8))
    fields = it.fields
    base, top = it.bounds
    reach = it.representable
    made = DRAW.choice((other, it, it.set_bounds_clear(n), it.and_permissions_clear(m), Capability(it.word ^ 1 << 91, True)))
    opens = DRAW.getrandbits(1) == 1
    rounded = capcheck.round_bounds(n, m)
    calls = (
        lambda: (f"read {cap(it)}", f"{base:x} {top:x} {it.length:x} {int(it.sound)} {int(it.sealed)} {it.permissions:x} {it.mantissa:x} "
                 f"{reach.start:x} {reach.size:x} {it.memory.hex()} {' '.join(f'{int(f):x}' for f in fields)}"),
        lambda: (f"explain {cap(it)}", it.explain().replace("\n", "|")),
        lambda: (f"display {cap(it)}", str(it)),
        lambda: (f"keeps {cap(it)} {n:x}", str(int(it.keeps_bounds(n)))),
        lambda: (f"contains {cap(it)} {n:x} {m:x}", str(int(it.contains(n, m)))),
        lambda: (f"round {n:x} {m:x}", f"{rounded.base:x} {rounded.top:x} {int(rounded.exact)} {int(rounded.ie)} {rounded.e:x} {rounded.b:x} {rounded.t:x}"),
        lambda: (f"length {n:x}", f"{capcheck.representable_length(n):x} {capcheck.alignment_mask(n):x}"),
        lambda: (f"with_bounds {cap(it)} {n:x} {m:x}", cap(it.with_bounds(n, m))),
        lambda: (f"set_bounds {cap(it)} {n:x}", tried(lambda: it.set_bounds(n)) + " / " + cap(it.set_bounds_clear(n))),
        lambda: (f"set_bounds_exact {cap(it)} {n:x}", tried(lambda: it.set_bounds(n, True)) + " / " + cap(it.set_bounds_clear(n, True))),
        lambda: (f"set_address {cap(it)} {n:x}", tried(lambda: it.set_address(n)) + " / " + cap(it.set_address_clear(n))),
        lambda: (f"and_permissions {cap(it)} {n:x}", tried(lambda: it.and_permissions(n)) + " / " + cap(it.and_permissions_clear(n))),
        lambda: (f"seal {cap(it)} {cap(other)}", tried(lambda: it.seal(other)) + " / " + cap(it.seal_clear(other))),
        lambda: (f"unseal {cap(it)} {cap(other)}", tried(lambda: it.unseal(other)) + " / " + cap(it.unseal_clear(other))),
        lambda: (f"derive {cap(it)} {cap(made)} {int(opens)}", str(int(it.derive_fault(made, opens) or 0))),
        lambda: (f"may_load {cap(it)} {offset} {size}", tried(lambda: it.may_load(offset, size), "{:x}".format)),
        lambda: (f"may_store {cap(it)} {offset} {size}", tried(lambda: it.may_store(offset, size), "{:x}".format)),
        lambda: (f"may_load_capability {cap(it)} {offset}", tried(lambda: it.may_load_capability(offset), "{:x}".format)),
        lambda: (f"may_store_capability {cap(it)} {offset} {cap(other)}", tried(lambda: it.may_store_capability(offset, other), "{:x}".format)),
        lambda: (f"loaded {cap(it)} {cap(other)}", cap(it.loaded(other))),
    )
    return DRAW.choice(calls)()


def random_line(roots):
    """A random step, often one that passes."""
    r = DRAW.randrange
    kind, it = DRAW.choice(LINES[4:16]), DRAW.choice((capability(), DRAW.choice(roots)))
    given = {"target": r(1, 32), "source": r(4), "authority": r(4), "offset": DRAW.choice((0, 16, r(-2048, 2048))), "number": number(),
             "size": DRAW.choice((1, 2, 4, 8))}
    if kind in (lines.Kind.LOAD, lines.Kind.STORE):
        given["number"] >>= 64 - 8 * given["size"]
    return bytes(lines.Line(kind, it, given["number"], given["offset"], given["target"], given["source"], given["authority"], given["size"]))


def judge_call():
    """A log of random steps. Those that have a right result usually record it: what a judge expects of the line."""
    roots = [Capability.root(), Capability.root(0x1000, 0x1000, Permissions.ALL_PERMISSIONS)]
    clear = bool(DRAW.getrandbits(1))
    log = lines.version(2) + lines.mode(clear) + lines.root(1, roots[0]) + lines.root(2, roots[1])
    steps = 0
    for _ in range(DRAW.randrange(12)):
        line = random_line(roots)
        with Judge() as judge:
            judge.feed(log)
            if not judge.feed(line) and judge.expected is not None and DRAW.randrange(10):
                read = next(lines.read(line))
                right = judge.expected
                line = bytes(read._replace(cap=right) if isinstance(right, Capability) else read._replace(number=right))
        with Judge() as judge:
            if judge.feed(log + line) or not DRAW.randrange(12):
                log, steps = log + line, steps + 1
    log += DRAW.choice((lines.end(steps), lines.end(steps + 1), b"", b"load c1 0 1 = 1\n", b"mov"))
    log = log[:DRAW.randrange(len(log))] if not DRAW.randrange(20) else log
    with Judge() as judge:
        judge.feed(log)
        whole = log[:log.rfind(b"\n") + 1]
        registers = [judge.register(it) for it in range(4)]
        granule = judge.granule(0x1000)
        origins = [judge.origin("c1"), judge.origin("c3"), judge.origin("@0000000000001000")]
        expected = judge.expected
        diagnosis = judge.diagnosis()
    shown = cap(expected) if isinstance(expected, Capability) else "none" if expected is None else f"{expected:x}"
    parts = [capcheck.judge_bytes(log), capcheck.judge_bytes(whole), *(cap(it) for it in registers), cap(granule), *origins, shown, diagnosis.replace("\n", "|")]
    return f"judge {log.hex() or '-'}", " / ".join(map(str, parts))


def main():
    count = int(sys.argv[1])
    for at in range(count):
        print(" = ".join(judge_call() if at % 4 == 0 else word_call()))


if __name__ == "__main__":
    main()
