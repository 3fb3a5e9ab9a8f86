#!/usr/bin/env python3
"""Writes the vector file examples/vectors/edges.vectors: python3 conformance/vectors.py > examples/vectors/edges.vectors

Each line is computed from the plain definitions in docs/WORDS.md, by unbounded integers: the window and the
numbers congruent to B and T units in it, the least exponent found by trying each one from 0 on. Nothing here
shifts, compares three bits or corrects a top, as decoders do, and nothing is taken from the crates.

The words have each exponent of 0 to 63 with IE, and none without it, with B and T at edges of their windows,
and addresses at the edges of windows, of bounds and of the address space. The requests begin and end around
units and powers of two, and at the ends of the address space.
"""

SPACE = 1 << 64
NULL = 0x00001FFFFC0180040000000000000000


def congruent(low, size, value):
    """The number of low .. low + size - 1 that is congruent to value modulo size."""
    return low + (value - low) % size


def fields(word):
    """IE, E as it stands in the word, B, the low twelve bits of T, and the address."""
    ie = word >> 90 & 1
    t, b = word >> 78 & 0xFFF, word >> 64 & 0x3FFF
    if ie == 0:
        return ie, 0, b, t, word % SPACE
    return ie, t % 8 * 8 + b % 8, b - b % 8, t - t % 8, word % SPACE


def mantissa(ie, b, low):
    """The one T of fourteen bits with these low twelve that lies as far above B as IE says."""
    (t,) = [low + 4096 * high for high in range(4) if (low + 4096 * high - b) % 16384 // 4096 == ie]
    return t


def window(word):
    """The first number of the window of a word, which may be below 0, and its size."""
    _, e, b, _, address = fields(word)
    unit = 1 << min(e, 52)
    size = 16384 * unit
    start = congruent(address - size + 1, size, (b // 2048 - 1) % 8 * 2048 * unit)
    return start, size


def bounds(word):
    """Base, top and soundness of a word."""
    ie, e, b, low, _ = fields(word)
    cut = min(e, 52)
    unit = 1 << cut
    t = mantissa(ie, b, low)
    start, size = window(word)
    raw_base, raw_top = congruent(start, size, b * unit), congruent(start, size, t * unit)
    base = raw_base % SPACE
    top = congruent(base, SPACE, raw_top) if cut <= 50 else raw_top % (2 * SPACE)
    sound = base + (t - b) % 16384 * unit == top and top <= SPACE
    return base, top, sound


def at(word, address):
    """The word with another address."""
    return word - word % SPACE + address % SPACE


def keeps(word, address):
    """Whether the word with another address has the same base and top."""
    return bounds(at(word, address))[:2] == bounds(word)[:2]


def rounded(base, length):
    """The rounded bounds of a request, its exponent bit, exponent and whether it is exact."""
    top = base + length
    if length < 4096:
        return base, top, 0, 0, 1
    for e in range(53):
        unit = 1 << e + 3
        low, high = base // unit, -(-top // unit)
        if high - low < 1024:
            return low * unit, high * unit, 1, e, int(low * unit == base and high * unit == top)
    raise AssertionError((base, length))


def line_of_bounds(word):
    base, top, sound = bounds(word)
    return f"bounds {word:032x} = {base:016x} {top:017x} {int(sound)}"


def line_of_keeps(word, address):
    return f"keeps {word:032x} {address % SPACE:016x} = {int(keeps(word, address))}"


def line_of_round(base, length):
    low, high, ie, e, exact = rounded(base, length)
    return f"round {base:016x} {length:016x} = {low:016x} {high:017x} {ie} {e} {exact}"


def line_of_memory(word):
    return f"memory {word:032x} = {(word ^ NULL).to_bytes(16, 'little').hex()}"


def word_of(ie, e, b, t, address):
    """A word with all permissions, unsealed: where IE is set, the low three bits of B and T are those of E."""
    b_field, t_field = (b - b % 8 + e % 8, t - t % 8 + e // 8) if ie else (b, t)
    return 0xFFFF << 112 | 0x3FFFF << 91 | ie << 90 | t_field << 78 | b_field << 64 | address % SPACE


def words():
    """Words of each exponent, with B and T at the edges of a window's eighths and addresses around them."""
    for ie, e in [(0, 0)] + [(1, e) for e in range(64)]:
        cut = min(e, 52)
        pairs = [(0, 0), (0x3FF8, 0xFF8), (0x2000, 0x800), (0x800, 0x7F8), (0x1FF8, 0)]
        if ie == 0:
            pairs = pairs + [(b * 2048, t) for b in range(8) for t in (0, 0x7FF, 0xFFF)]
        for b, t in pairs:
            for eighth in (0, 3, 7):
                yield word_of(ie, e, b, t, eighth << cut + 11)
            yield word_of(ie, e, b, t, SPACE - 1)


def addresses(word):
    """Addresses at the edges of a word's window, and of its bounds with their margins."""
    start, size = window(word)
    base, top, _ = bounds(word)
    unit = size // 16384
    return [start - 1, start, start + size - 1, start + size, base - 2048 * unit, top + 4096 * unit, top + 6144 * unit]


def requests():
    """Requests that begin and end around units, powers of two and the ends of the address space."""
    for base, length in [(0, 0), (0, 1), (SPACE - 1, 0), (SPACE - 1, 1), (1, SPACE - 1), (0, SPACE - 1)]:
        yield base, length
    for length in (4095, 4096, 4097):
        for base in (0, 1, 7, 8, 4096, SPACE - length):
            yield base, length
    for e in range(53):
        unit = 1 << e + 3
        for base, length in [
            (0, 1023 * unit),
            (0, 1023 * unit + 1),
            (0, 1023 * unit - 1),
            (1, 1022 * unit),
            (unit, 1022 * unit),
            (unit - 1, 1021 * unit + 2),
            (unit // 2, 513 * unit),
            (SPACE - 512 * unit, 512 * unit),
            (SPACE - 1023 * unit, 1023 * unit - 1),
        ]:
            if 0 <= base and 0 <= length < SPACE and base + length <= SPACE:
                yield base, length


def main():
    seen = set()
    lines = []
    for word in words():
        lines.append(line_of_bounds(word))
        if word % SPACE == SPACE - 1 or word % SPACE == 0:
            lines.extend(line_of_keeps(word, address) for address in addresses(word)[: 7 if word % SPACE else 4])
    for base, length in requests():
        lines.append(line_of_round(base, length))
    for shift in range(0, 128, 4):
        lines.append(line_of_memory(1 << shift))
        lines.append(line_of_memory(NULL ^ (1 << shift)))
    lines.append(line_of_memory(0))
    lines.append(line_of_memory((1 << 128) - 1))
    for line in lines:
        if line not in seen:
            seen.add(line)
            print(line)


if __name__ == "__main__":
    main()
