#!/usr/bin/env python3
"""Writes a run log to standard output, to measure `capdiag run` with.

    bench/run_log.py steps FILE         the steps of a log of version 2, as a run log
    bench/run_log.py owned FILE         the same after an object was handed out, through c30 and c31
    bench/run_log.py calls COUNT        calls and returns: each line is an exchange with PCC
    bench/run_log.py derivations COUNT  derivations: each line moves the address of c1 into c2
    bench/run_log.py moves COUNT        moves, to compare calls with
    bench/run_log.py objects LIVE COUNT LIVE objects are handed out; then COUNT of them are freed, and others handed out in their place
    bench/run_log.py frame LIVE COUNT   the same without the lines of objects, to subtract
    bench/run_log.py held COUNT LINES   COUNT objects are handed out and freed. Registers hold 20 of them, over moves up to LINES
                                        lines; the last line hands out the memory of one that is held"""
import os
import sys

sys.path.insert(0, os.path.join(os.path.dirname(os.path.abspath(__file__)), "..", "conformance"))
from transcribed import set_bounds_result, tagged  # noqa: E402

WHOLE, SENTRY = 0xFFFF1FFFFC018004, 0xFFFF1FFFF4018004
HEAD = "run 1\nmode strict\n"


def word(high, address): return f"{high:016x}{address:016x}"


def steps(path):
    with open(path, encoding="ascii") as it:
        it.readline()
        sys.stdout.write("run 1\n")
        for line in it:
            sys.stdout.write(line)


def object_at(at):
    """The lines that make an object of 64 bytes and hand it out."""
    bounded = set_bounds_result(tagged(WHOLE * 2**64 + at), 64).word
    return (f"setaddr c30 c31 {at:016x} = 1 {word(WHOLE, at)}\nsetbounds c30 c30 0000000000000040 = 1 {bounded:032x}\n"
            "object c30\n")


def owned(path):
    with open(path, encoding="ascii") as it:
        it.readline()
        sys.stdout.write(f"run 1\n{it.readline()}root c31 {word(WHOLE, 0)}\n")
        before = object_at(0xff0000)
        for line in it:
            kind, *rest = line.split()
            if kind != "root":
                sys.stdout.write(before)
                before = ""
            sys.stdout.write(f"end {int(rest[0]) + 3}\n" if kind == "end" else line)


def derivations(count):
    lines = [f"derive c2 c1 = 1 {word(WHOLE, 0x1000 + number)}\n" for number in range(count)]
    sys.stdout.write(HEAD + f"root c1 {word(WHOLE, 0)}\n" + "".join(lines) + f"end {count}\n")


def calls(count):
    out = [HEAD, f"root c1 {word(WHOLE, 0)}\n", f"root scr0 {word(WHOLE, 0x2000)}\n"]
    here, there = 0x2000, 0
    for _ in range(count):
        out.append(f"exchange c1 c1 scr0 = 1 {word(SENTRY, here + 4)} 1 {word(WHOLE, there)}\n")
        here, there = there, here + 4
    sys.stdout.write("".join(out) + f"end {count}\n")


def moves(count):
    line = f"move c1 c1 = 1 {word(WHOLE, 0)}\n"
    sys.stdout.write(HEAD + f"root c1 {word(WHOLE, 0)}\nroot scr0 {word(WHOLE, 0x2000)}\n" + line * count + f"end {count}\n")


def objects(live, count, told):
    """Each object has 64 bytes. Its capability is overwritten by the next one's."""
    out, total = [HEAD, f"root c1 {word(WHOLE, 0)}\n"], 0
    for number in range(live + count):
        at = 0x10000 + 64 * (number % live)
        if number >= live and told:
            out.append(f"free {number - live + 1}\n")
        bounded = set_bounds_result(tagged(WHOLE * 2**64 + at), 64).word
        out.append(f"setaddr c2 c1 {at:016x} = 1 {word(WHOLE, at)}\nsetbounds c2 c2 0000000000000040 = 1 {bounded:032x}\n")
        out.append("object c2\n" if told else "")
        total += 2 + told + (told and number >= live)
    sys.stdout.write("".join(out) + f"end {total}\n")


def held(count, lines):
    """Each object has 64 bytes; c3 to c22 hold 20 of them, at equal distances."""
    out = [HEAD, f"root c1 {word(WHOLE, 0)}\n"]

    def bounded(at):
        return set_bounds_result(tagged(WHOLE * 2**64 + at), 64).word

    def handed_out(at):
        return [f"setaddr c2 c1 {at:016x} = 1 {word(WHOLE, at)}\n", f"setbounds c2 c2 0000000000000040 = 1 {bounded(at):032x}\n", "object c2\n"]

    for number in range(count):
        at = 0x10000 + 64 * number
        out += handed_out(at)
        if number % (count // 20) == 0:
            out.append(f"move c{3 + number // (count // 20)} c2 = 1 {bounded(at):032x}\n")
    out += [f"move c2 c1 = 1 {word(WHOLE, 0)}\n", *(f"free {number + 1}\n" for number in range(count))]
    out += [f"move c2 c1 = 1 {word(WHOLE, 0)}\n"] * (lines - len(out) - 5)
    out += handed_out(0x10000 + 64 * (count // 20) * 7)
    sys.stdout.write("".join(out) + f"end {len(out) - 2}\n")


if __name__ == "__main__":
    kind, *rest = sys.argv[1:]
    if kind in ("steps", "owned"):
        {"steps": steps, "owned": owned}[kind](rest[0])
    elif kind == "held":
        held(int(rest[0]), int(rest[1]))
    elif kind in ("calls", "derivations", "moves"):
        {"calls": calls, "derivations": derivations, "moves": moves}[kind](int(rest[0]))
    else:
        objects(int(rest[0]), int(rest[1]), kind == "objects")
