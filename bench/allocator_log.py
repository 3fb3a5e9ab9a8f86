#!/usr/bin/env python3
"""Writes a log of version 2 of what an allocator did: python3 bench/allocator_log.py HEAP_LOG > LOG

HEAP_LOG is a log as `examples/allocator/record.c` records it. The allocator has all of memory in c1. It narrows it to each new
object, and stores the capability in a table that has a granule for each address; of an object that is freed it loads the
capability from there, and stores it again without its tag. The results are computed from the plain definitions of vectors.py."""
import sys

from vectors import rounded, word_of

ALL = word_of(1, 52, 0, 4096, 0) >> 64 << 64
TABLE = 1 << 48


def narrowed(address, length):
    """The word that setting bounds gives."""
    base, top, ie, e, _ = rounded(address, length)
    return word_of(ie, e, (base >> e) % 2**14, (top >> e) % 2**12, address)


def moved(target, address):
    return f"setaddr c{target} c1 {address:016x} = 1 {ALL + address:032x}\n"


def steps_of(events):
    live = {}
    for name, address, *length in events:
        if name == "malloc":
            word = live[address] = narrowed(address, *length)
            yield moved(2, address) + f"setbounds c3 c2 {length[0]:016x} = 1 {word:032x}\n" + moved(4, TABLE + address // 16 * 16) + "sc c3 c4 0\n"
        else:
            word = live.pop(address)
            yield moved(4, TABLE + address // 16 * 16) + f"lc c5 c4 0 = 1 {word:032x}\ncleartag c5 c5 = 0 {word:032x}\nsc c5 c4 0\n"


def main(log):
    words = (line.split() for line in log)
    events = ([it[0], *(int(digits, 16) for digits in it[1:])] for it in words if it[0] in ("malloc", "free"))
    print(f"capcheck 2\nmode strict\nroot c1 {ALL:032x}")
    count = 0
    for lines in steps_of(events):
        sys.stdout.write(lines)
        count += 4
    print("end", count)


if __name__ == "__main__":
    main(open(sys.argv[1]))
