#!/usr/bin/env python3
"""Writes a log whose steps are those of another log, again and again: python3 bench/repeated.py LOG [STEPS]

The header and the roots stay, and the end line counts the steps: STEPS of them, or a million. The steps have to be possible
again after the last one."""
import sys


def main(words):
    if not 1 <= len(words) <= 2:
        sys.exit(__doc__)
    count = int(words[1]) if len(words) > 1 else 1000000
    with open(words[0]) as it:
        lines = it.read().splitlines()
    first = next(at for at, line in enumerate(lines) if line.split(" ")[0] not in ("capcheck", "mode", "root"))
    before, steps = lines[:first], [line for line in lines[first:] if not line.startswith("end ")]
    times, rest = divmod(count, len(steps))
    print("\n".join([*before, *steps * times, *steps[:rest], f"end {count}"]))


main(sys.argv[1:])
