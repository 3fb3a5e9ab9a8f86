#!/usr/bin/env python3
"""Makes the logs of the limits, which are too long to be kept here: python3 limits.py FOLDER"""
import os
import sys

HIGH = "ffff1ffffc018004"  # the upper half of a word with all permissions and the whole address space
WHOLE, UNSOUND = HIGH + "0" * 16, "ffff1ffffc01a0030000000000000000"
ONE, STRICT, CLEAR = "capcheck 1\n", "capcheck 2\nmode strict\n", "capcheck 2\nmode clear\n"


def roots(more, header=ONE, count=4095):
    """Roots in memory, and these lines."""
    return header + "".join(f"root @{n:015x}0 {WHOLE}\n" for n in range(count)) + more


def moved(address):
    return f"setaddr c1 c1 {address:016x} = 1 {HIGH}{address:016x}\n"


def granules(more, header=ONE, count=2**16, root=""):
    """A root, another one if it is given, a store of a byte to each of the first granules, and these steps."""
    lines = []
    for first in range(0, count, 256):
        lines.append(moved(16 * first + 2048))
        lines += [f"store c1 {16 * n - 2048} 1 00\n" for n in range(256)]
    lines += more
    return f"{header}root c1 {WHOLE}\n{root}" + "".join(lines) + f"end {len(lines)}\n"


def logs(most_roots=4096, one=2**16, two=2**20):
    """The name of each log, and its text, for these limits on roots and on granules in versions 1 and 2."""
    far, near, few = moved(2**40), moved(0), most_roots - 1
    yield "03.9-8-unsound-before-limit", roots(f"root c1 {WHOLE}\nroot c2 {UNSOUND}\nend 0\n", count=few)
    yield "08.1-4096-roots", roots(f"root c1 {WHOLE}\nend 0\n", count=few)
    for mode, header in (("v1", ONE), ("strict", STRICT), ("clear", CLEAR)):
        yield f"08.1-24-4097-roots-{mode}", roots(f"root c1 {WHOLE}\nroot c2 {WHOLE}\nend 0\n", header, few)
    yield "08.2-65536-granules", granules([near, "store c1 0 1 ff\n"], count=one)
    yield "08.2-24-65537-granules-v1", granules([far, "store c1 0 1 00\n"], count=one)
    yield "08.2-24-sc-at-the-limit", granules([far, "sc c0 c1 0\n"], count=one)
    yield "08.2-65537-granules-strict", granules([far, "store c1 0 1 00\n"], STRICT, one)
    yield "08.2-1048576-granules-clear", granules([near, "store c1 0 1 ff\n"], CLEAR, two)
    yield "08.2-24-1048577-granules-strict", granules([far, "store c1 0 1 00\n"], STRICT, two)
    yield "08.2-24-1048577-granules-clear", granules([far, "sc c0 c1 0\n"], CLEAR, two)
    yield "08.7-24-granule-of-a-root-counts", granules([], count=one, root=f"root @{2**40:016x} {WHOLE}\n")
    yield "08.7-granule-of-a-root-stored-to", granules([], count=one, root=f"root @{0:016x} {WHOLE}\n")
    yield "08.10-load-names-no-granule", granules([far, "load c1 0 1 = 00\n"], count=one)
    yield "08.16-20-alignment-before-limit", granules([far, "store c1 1 2 0000\n"], count=one)


def make(folder):
    os.makedirs(folder, exist_ok=True)
    for name, text in logs():
        with open(os.path.join(folder, f"{name}.log"), "w", encoding="ascii") as it:
            it.write(text)


if __name__ == "__main__":
    if len(sys.argv) != 2 or sys.argv[1].startswith("-"):
        print("use: python3 limits.py FOLDER", file=sys.stderr)
        sys.exit(2)
    make(sys.argv[1])
