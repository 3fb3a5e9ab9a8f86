#!/usr/bin/env python3
"""Writes a log of version 1 whose steps are drawn at random: python3 bench/random_log.py KIND [STEPS] [SEED]

KIND is moves, memory, mixed or scattered; STEPS is a million and SEED 1 where they are not given.

moves   copies any register to any other
memory  stores and loads capabilities, and values of 1, 2, 4 and 8 bytes, through nine registers at most, anywhere
        that an offset reaches
mixed   half of it such accesses, through pointers to 60,000 granules, and moves, new addresses, fewer permissions
        and cleared tags
scattered  moves, such changes, and accesses near twenty thousand places that are drawn from 16 MB

A plain machine keeps what registers and memory hold, so that each line records what it has to; it takes nothing from
the crates."""
import random
import sys

NULL = 0x00001FFFFC0180040000000000000000
HIGH = 0xFFFF1FFFFC018004  # all permissions, all of memory, not sealed
LOAD_ONLY = 0x00041FFFFC018004
BASE = 0x100000
POINTERS = range(1, 16)  # registers that keep a pointer to memory
OTHERS = range(16, 32)


class Machine:
    def __init__(self):
        self.registers = {1: (1, HIGH << 64 | BASE)}
        self.memory = {}  # granule: its tag and its bytes

    def granule(self, number):
        return self.memory.get(number, (0, bytes(16)))

    def written(self, target, tag, word):
        self.registers[target] = (tag, word)
        return f"= {tag} {word:032x}"

    def any_register(self):
        return random.choice(list(self.registers))

    def any_pointer(self):
        return random.choice([n for n in POINTERS if n in self.registers])

    def move(self, targets=range(2, 32)):
        source, target = self.any_register(), random.choice(targets)
        return f"move c{target} c{source} " + self.written(target, *self.registers[source])

    def set_address(self, granules):
        target, address = random.choice(POINTERS[1:]), BASE + 16 * random.randrange(granules)
        return f"setaddr c{target} c1 {address:016x} " + self.written(target, 1, HIGH << 64 | address)

    def clear_tag(self):
        source, target = self.any_register(), random.choice(OTHERS)
        return f"cleartag c{target} c{source} " + self.written(target, 0, self.registers[source][1])

    def restrict(self):
        source, target = self.any_pointer(), random.choice(OTHERS)
        word = LOAD_ONLY << 64 | self.registers[source][1] % 2**64
        return f"andperm c{target} c{source} 0000000000000004 " + self.written(target, 1, word)

    def access(self, reach=2048):
        register = self.any_pointer()
        size = random.choice((16, 16, 1, 2, 4, 8))
        offset = random.randrange(-reach // size, reach // size) * size
        number, index = divmod(self.registers[register][1] % 2**64 + offset, 16)
        tag, held = self.granule(number)
        if size == 16 and random.random() < 0.5:
            source = self.any_register()
            tag, word = self.registers[source]
            self.memory[number] = (tag, (word ^ NULL).to_bytes(16, "little"))
            return f"sc c{source} c{register} {offset}"
        if size == 16:
            target, word = random.choice(OTHERS), int.from_bytes(held, "little") ^ NULL
            return f"lc c{target} c{register} {offset} " + self.written(target, tag, word)
        if random.random() < 0.5:
            value = random.getrandbits(8 * size)
            held = held[:index] + value.to_bytes(size, "little") + held[index + size:]
            self.memory[number] = (0, held)
            return f"store c{register} {offset} {size} {value:0{2 * size}x}"
        value = int.from_bytes(held[index:index + size], "little")
        return f"load c{register} {offset} {size} = {value:0{2 * size}x}"

    def step(self, kind, number):
        if kind == "moves":
            return self.move()
        if kind == "memory":
            return self.set_address(4096) if number < 8 else self.access()
        draw = random.random()
        if kind == "scattered":
            if number < 8 or draw < 0.02:
                return self.set_address(1 << 20)
            if draw < 0.25:
                return self.access(16)
        elif draw < 0.15:
            return self.set_address(60000)
        elif draw < 0.65:
            return self.access()
        if draw < 0.85:
            return self.move(OTHERS)
        return self.restrict() if draw < 0.925 else self.clear_tag()


def main():
    if len(sys.argv) < 2 or sys.argv[1] not in ("moves", "memory", "mixed", "scattered"):
        sys.exit(__doc__)
    steps = int(sys.argv[2]) if len(sys.argv) > 2 else 1000000
    random.seed(int(sys.argv[3]) if len(sys.argv) > 3 else 1)
    machine = Machine()
    print("capcheck 1")
    print(f"root c1 {HIGH << 64 | BASE:032x}")
    for number in range(steps):
        print(machine.step(sys.argv[1], number))
    print("end", steps)


main()
