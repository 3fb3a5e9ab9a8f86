#!/usr/bin/env python3
"""Writes an allocator's log of random events: heap_log.py LIVE EVENTS

Objects of fewer than 4,000 bytes lie at random places, 8 KiB apart. About LIVE of them live once so many were made."""
import random
import sys


def taken(items):
    """One of the items, which is taken out of the list."""
    index = random.randrange(len(items))
    items[index], items[-1] = items[-1], items[index]
    return items.pop()


def main():
    least, events = int(sys.argv[1]), int(sys.argv[2])
    random.seed(7)
    free, live = [0x10000000 + 8192 * place for place in range(2 * least)], []
    lines = ["heap 1", "root 0000000010000000 00000000100000000"]
    for _ in range(events):
        if len(live) < least or (len(live) < least + least // 100 + 1 and random.random() < 0.5):
            live.append(taken(free))
            lines.append(f"malloc {live[-1]:016x} {random.randrange(1, 4000):016x}")
        else:
            free.append(taken(live))
            lines.append(f"free {free[-1]:016x}")
    print("\n".join(lines + [f"end {events}"]))


main()
