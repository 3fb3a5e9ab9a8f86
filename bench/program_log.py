#!/usr/bin/env python3
"""Writes the run log of a program with objects to standard output, to measure `capdiag run` with.

    bench/program_log.py STEPS LIVE [--seed N] [--erased] [--harts N]

LIVE objects of 16 to 512 bytes are live at a time. Some 45 per cent of the steps are loads and stores through objects'
capabilities, 17 change an address, 12 spill and reload a capability, 8 derive, 8 move, 6 are calls and returns, and 4 hand out
an object, drop what held it and free it. `--erased` leaves out the lines `object` and `free`. With `--harts` each hart runs such
a program, with LIVE objects of its own, and another hart goes on every 1,000 steps. The verdict is yes."""
import argparse
import itertools
import random
import sys

WHOLE, SENTRY, STACK = 0xFFFF1FFFFC018004, 0xFFFF1FFFF4018004, 0x7F000000


def capability(base, size, address):
    """A tagged capability of less than 4,096 bytes, with all permissions."""
    return f"1 {0xFFFF << 48 | 0x3FFFF << 27 | (base + size & 0xFFF) << 14 | base & 0x3FFF:016x}{address:016x}"


class Program:
    """What the registers, the stack and the memory of the program hold: capabilities as base, size, address, object."""

    numbers = itertools.count(1)  # Of the objects of all programs.

    def __init__(self, seed, live, is_erased, hart):
        self.random, self.live, self.is_erased = random.Random(seed), live, is_erased
        self.stack = STACK + (hart << 16)
        self.roots = [f"root c1 {WHOLE:016x}{0:016x}", f"root c2 {WHOLE:016x}{self.stack:016x}", f"root scr0 {WHOLE:016x}{0x2000:016x}"]
        self.lines = []
        self.registers, self.slots, self.memory, self.objects = {}, {}, {}, []
        self.next_base, self.here, self.link = 0x100000 + (hart << 32), 0x2000, None

    def put(self, line):
        self.lines.append(line)

    def hand_out(self):
        base, size = self.next_base, 16 * self.random.randint(1, 32)
        self.next_base += size + 16 * self.random.randint(0, 2)
        self.put(f"setaddr c3 c1 {base:016x} = 1 {WHOLE:016x}{base:016x}")
        self.put(f"setbounds c3 c3 {size:016x} = {capability(base, size, base)}")
        if not self.is_erased:
            self.put("object c3")
        number = next(self.numbers)
        self.registers[3] = (base, size, base, number)
        self.write("move", self.random.randint(5, 29), 3, self.registers[3])
        self.objects.append(number)

    def free(self):
        number = self.objects.pop(self.random.randrange(len(self.objects)))
        for register in [it for it, held in self.registers.items() if held[3] == number]:
            self.put(f"cleartag c{register} c{register} = 0 {capability(*self.registers.pop(register)[:3])[2:]}")
        for slot in [it for it, held in self.slots.items() if held[3] == number]:
            self.put(f"drop @{self.stack + slot:016x}")
            del self.slots[slot]
        if not self.is_erased:
            self.put(f"free {number}")

    def write(self, kind, target, source, held):
        operand = f" {held[2]:016x}" if kind == "setaddr" else ""
        self.put(f"{kind} c{target} c{source}{operand} = {capability(*held[:3])}")
        self.registers[target] = held

    def access(self, register):
        base, length, address, _ = self.registers[register]
        size = self.random.choice((1, 2, 4, 8, 8, 8))
        at = base + self.random.randrange(0, length - size + 1)
        at -= at % size
        bytes_at = range(at, at + size)
        if self.random.random() < 0.6:
            value = int.from_bytes(bytes(self.memory.get(it, 0) for it in bytes_at), "little")
            self.put(f"load c{register} {at - address} {size} = {value:0{2 * size}x}")
        else:
            value = self.random.getrandbits(8 * size)
            self.memory.update(zip(bytes_at, value.to_bytes(size, "little")))
            self.put(f"store c{register} {at - address} {size} {value:0{2 * size}x}")

    def call(self):
        there = self.link if self.link is not None else self.here + 64
        if self.link is None:
            self.put(f"setaddr c4 c1 {there:016x} = 1 {WHOLE:016x}{there:016x}")
        self.put(f"exchange c4 c4 scr0 = 1 {SENTRY:016x}{self.here + 4:016x} 1 {WHOLE:016x}{there:016x}")
        self.link, self.here = (self.here + 4, there) if self.link is None else (None, self.link)

    def step(self):
        x, register = self.random.random(), self.random.choice(list(self.registers))
        base, size, _, number = held = self.registers[register]
        moved, target = (base, size, base + self.random.randrange(0, size + 1), number), self.random.randint(5, 29)
        if x < 0.45:
            self.access(register)
        elif x < 0.62:
            self.write("setaddr", self.random.choice((register, target)), register, moved)
        elif x < 0.68:
            slot = 16 * self.random.randint(0, 120)
            self.put(f"sc c{register} c2 {slot}")
            self.slots[slot] = held
        elif x < 0.74 and self.slots:
            slot = self.random.choice(list(self.slots))
            self.registers[target] = self.slots[slot]
            self.put(f"lc c{target} c2 {slot} = {capability(*self.slots[slot][:3])}")
        elif x < 0.82:
            self.write("derive", target, register, moved)
        elif x < 0.90:
            self.write("move", target, register, held)
        elif x < 0.96:
            self.call()
        elif len(self.objects) < self.live:
            self.hand_out()
        else:
            self.free()

    def turn(self, steps):
        """The lines of so many steps more, at least."""
        self.lines = []
        while len(self.lines) < steps:
            if len(self.objects) < min(self.live, 20) or not self.registers:
                self.hand_out()
            else:
                self.step()
        return self.lines


def main():
    parser = argparse.ArgumentParser(usage=__doc__)
    parser.add_argument("steps", type=int)
    parser.add_argument("live", type=int)
    parser.add_argument("--seed", type=int, default=7)
    parser.add_argument("--erased", action="store_true")
    parser.add_argument("--harts", type=int, default=1)
    given = parser.parse_args()
    programs = [Program(given.seed + hart, given.live, given.erased, hart) for hart in range(given.harts)]
    names = [f"hart {hart}" for hart in range(given.harts)] if given.harts > 1 else [None]
    lines, steps = ["run 1", "mode strict"], 0
    for name, program in zip(names, programs):
        lines += [name] * (given.harts > 1) + program.roots
    for name, program in itertools.cycle(zip(names, programs)):
        made = program.turn(min(given.steps - steps, 1000 if given.harts > 1 else given.steps))
        lines += [name] * (given.harts > 1) + made
        steps += len(made)
        if steps >= given.steps:
            break
    sys.stdout.write("\n".join([*lines, f"end {steps}", ""]))


main()
