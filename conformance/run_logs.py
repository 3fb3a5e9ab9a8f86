#!/usr/bin/env python3
"""Compares `capdiag run` with the definitions of run logs in Python, on logs drawn at random.

    python3 conformance/run_logs.py CAPDIAG [LOGS [SEED]]

Each log is judged with each choice of --freed, with and without --owned, and with --owners. The texts and the statuses have to be
those of conformance/transcribed_runs.py. Half of the logs are accepted by the usual choice; the others end at a refused line, or
have a line changed, cut, doubled or left out. The status is 1 if anything differs."""
import copy
import os
import random
import subprocess
import sys
import tempfile
import types

from transcribed_runs import *  # noqa: F403

CHOICES = [[*freed, *owned, "--owners"] for freed in ([], ["--freed", "used"], ["--freed", "both"]) for owned in ([], ["--owned"])]
WHOLE = 0xFFFF1FFFFC018004 << 64
RARE = set(RUN_REFUSALS.values()) - {"NoCapability", "NoObject"}
USUAL_ASKS = types.SimpleNamespace(held=True, used=False, owned=False)


class Drawn:
    """Lines drawn at random, most of which the run takes."""

    def __init__(self, rng):
        self.rng, self.run, self.lines = rng, no_run(USUAL_ASKS), [("Version",), ("Mode", rng.choice(["Strict", "Clear"]))]
        self.switching = rng.choice([0, 0, 0.05, 0.3])  # how often the next line is a hart line
        run_line_after(self.run, self.lines[1])

    def hart(self): return ("Hart", self.rng.choice([0, 1, 2, 65535]) if self.rng.random() < 0.97 else self.rng.randrange(2**16))
    def register(self): return self.rng.choice([1, 2, 3, 4, 5, 6, 31]) if self.rng.random() < 0.97 else self.rng.randrange(32)
    def target(self): return max(1, self.register())
    def special(self): return self.rng.choice([0, 0, 1, 3, 31])
    def granule(self): return self.rng.choice([0x100, 0x101, 0x102, 0x103, 0x110, 0x120, 2**60 - 1]) if self.rng.random() < 0.95 else self.rng.randrange(2**60)
    def address(self): return self.rng.choice([0x1000, 0x1010, 0x1020, 0x1030, 0x1100, 0x1200, 0, 8, 2**64 - 16]) + self.rng.choice([0, 0, 0, 1, 16])
    def place(self): return self.rng.choice([("General", self.target()), ("Special", self.special()), ("Granule", self.granule())])
    def cap(self, place): return self.run.state[place_key(place)]

    def word(self):
        """A word: the whole space, a small window, one of these sealed, as a sentry or with fewer permissions, or any bits."""
        rng = self.rng
        if rng.random() < 0.03:
            return rng.randrange(2**128)
        w = with_address(WHOLE, self.address() % 2**64)
        if rng.random() < 0.6:
            w = set_bounds_result(tagged(w), rng.choice([0, 1, 16, 32, 64, 256, 4096])).word
        if rng.random() < 0.25:
            w = with_type(w, rng.choice([sentry_type, 0, 4, 5, 0x3FFFB, 0x3FFFC]))
        if rng.random() < 0.2:
            w = with_perms(w, perms_of(w) & rng.randrange(2**16))
        return w

    def derived(self, source, opens):
        """A result for derive: the source's word, narrower, as a sentry, opened, without its tag, or any."""
        rng, cap = self.rng, self.run.state[place_key(source)]
        w, pick = cap.word, rng.random()
        if pick < 0.25:
            w = set_bounds_result(tagged(with_address(w, base_of(w))), rng.choice([0, 16, 32, 64])).word
        elif pick < 0.4:
            w = with_type(w, sentry_type)
        elif pick < 0.55 and opens:
            w = with_type(w, unsealed_type)
        elif pick < 0.6:
            w = self.word()
        elif pick < 0.7:
            w = with_perms(w, perms_of(w) & rng.randrange(2**16))
        return Cap(cap.tag if rng.random() < 0.95 else not cap.tag, w)

    def result_of(self, step):
        """The step with what the rules give for it, or another result."""
        row = row_by(self.run.rules, row_of(self.run.state, step))
        if hasattr(step, "result") and row.writes:
            step.result = row.writes[1] if self.rng.random() < 0.99 else Cap(not row.writes[1].tag, row.writes[1].word)
        if step.kind == "load" and row.records:
            step.value = row.records[2] if self.rng.random() < 0.99 else step.value
        return step

    def usual(self):
        rng = self.rng
        kind = rng.choice("move move cleartag setbounds setbounds setboundsexact setaddr setaddr andperm seal unseal lc lc sc sc load store".split())
        step = types.SimpleNamespace(kind=kind)
        for name in OPERANDS[kind].split():
            value = {"target": self.target, "source": self.register, "authority": self.register, "length": lambda: rng.choice([0, 16, 32, 64, 4096]),
                     "address": lambda: self.address() % 2**64, "mask": lambda: rng.randrange(2**64) | rng.choice([0, 2**64 - 1]),
                     "offset": lambda: rng.choice([0, 0, 0, 16, 32, -16, 8]), "size": lambda: rng.choice([1, 2, 4, 8])}[name]()
            setattr(step, name, value)
        if kind in ("load", "store"):
            step.value = rng.randrange(256**step.size)
        elif kind != "sc":
            step.result = Cap(False, 0)
        return ("Step", self.result_of(step))

    def own(self):
        rng, run = self.rng, self.run
        form = rng.choice("Derive Derive Derive Exchange Invoke Drop Fill Object Object Object Widen FreeOwner FreeOwner FreeNumber".split())
        if form == "Derive":
            target, source = rng.choice([("General", self.target()), ("Special", self.special())]), rng.choice([("General", self.register()), ("Special", self.special())])
            parts = (target, source, self.derived(source, target == ("Special", 0)))
        elif form == "Exchange":
            special, source = self.special(), self.register()
            parts = (self.target(), source, special, self.derived(("Special", special), False), self.derived(("General", source), special == 0))
        elif form == "Invoke":
            code, datum = self.register(), self.register()
            words = [with_type(run.state[it].word, unsealed_type) for it in (code, datum)]
            parts = (code, datum, *words)
        elif form == "Drop":
            parts = (self.place(),)
        elif form == "Fill":
            parts = (self.granule(), self.word())
        elif form in ("Object", "FreeOwner"):
            parts = (self.target(),)
        else:
            number = rng.randrange(1, run.count + 2) if rng.random() < 0.9 else rng.randrange(1, 2**32)
            parts = (self.target(), number) if form == "Widen" else (number,)
        return ("Run", (form, *parts))

    def add(self, line):
        self.lines.append(line)
        run_line_after(self.run, line)

    def draw(self, count):
        """Draws roots, hart lines and steps; refused ones stay out, but with a small chance one ends the log."""
        for _ in range(self.rng.randrange(1, 12 if self.switching else 6)):
            line = self.hart() if self.rng.random() < self.switching else ("Root", self.place(), self.word())
            if first_of(run_line_checks(self.run, line)) is None:
                self.add(line)
        for _ in range(count):
            line = self.hart() if self.rng.random() < self.switching else self.usual() if self.rng.random() < 0.55 else self.own()
            refusal = first_of(run_line_checks(self.run, line))
            if refusal is None:
                self.add(line)
            elif self.rng.random() < (0.15 if refusal in RARE else 0.002):
                self.lines.append(line)
                break
        self.lines.append(("End", self.run.steps))
        return b"".join(run_spelling(line) + b"\n" for line in self.lines)


def changed(rng, data):
    """The log with a line changed, cut, doubled, moved or left out, or as it is."""
    lines, pick = data.split(b"\n"), rng.random()
    at = rng.randrange(len(lines))
    if pick < 0.5 or not data:
        return data
    if pick < 0.6:
        return data[: rng.randrange(len(data))]
    if pick < 0.75 and lines[at]:
        byte = rng.randrange(len(lines[at]))
        lines[at] = lines[at][:byte] + bytes([rng.choice(b"0123456789abcdef c@=\r\t")]) + lines[at][byte + 1 :]
    elif pick < 0.85:
        lines.insert(at, lines[rng.randrange(len(lines))])
    elif pick < 0.95:
        del lines[at]
    else:
        lines[at] += rng.choice([b" ", b"0" * 90, b" 1", b"\n"])
    return b"\n".join(lines)


def main():
    program, count = sys.argv[1], int(sys.argv[2]) if len(sys.argv) > 2 else 100
    seed = int(sys.argv[3]) if len(sys.argv) > 3 else 1
    wrong, names = 0, {}
    with tempfile.TemporaryDirectory() as folder:
        path = os.path.join(folder, "log")
        for number in range(count):
            rng = random.Random(seed * 1000003 + number)
            data = changed(rng, Drawn(rng).draw(rng.choice([5, 20, 60, 200])))
            with open(path, "wb") as it:
                it.write(data)
            for words in CHOICES:
                text, status = judged(data, words)
                names[" ".join(text.split()[:1] + text.split()[3:4] * (status == 1))] = names.get(" ".join(text.split()[:1] + text.split()[3:4] * (status == 1)), 0) + 1
                said = subprocess.run([program, "run", *words, path], capture_output=True, check=False)
                if (said.stdout.decode(), said.returncode) != (text, status):
                    wrong += 1
                    with open(f"/tmp/run_log_{seed}_{number}", "wb") as it:
                        it.write(data)
                    print(f"log {number} {' '.join(words)}: {said.stdout[:200]!r} {said.returncode}, and not {text[:200]!r} {status}")
    print(f"{count} run logs, {len(CHOICES)} choices each, by the definitions in Python: {wrong} otherwise")
    print(", ".join(f"{name} {many}" for name, many in sorted(names.items())))
    return 1 if wrong else 0


if __name__ == "__main__":
    sys.exit(main())
