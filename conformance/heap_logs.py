"""Random logs of allocators. `heap_logs.py PROGRAM COUNT [SEED]` names each on which `PROGRAM heap FILE` prints another
line than the plain judge of heap.py, or ends with another status than 0 for a yes and 1 for a no."""
import os, random, subprocess, sys, tempfile
from collections import Counter
from heap import judge

def made(chance):
    """A log of an allocator that mostly keeps to the rules, at times with a byte changed or cut off."""
    align, size = chance.choice([1, 16, 16, 4096]), chance.choice([64, 0x3000, 0x40000])
    low = chance.randrange(0, 1 << 20) & -align
    lines, live = ["heap 1", f"root {low:016x} {low + chance.choice([16, 64]) * size:017x}"], []
    for _ in range(chance.randrange(60)):
        if live and chance.random() < 0.4:
            lines.append(f"free {live.pop(chance.randrange(len(live))):016x}")
        else:
            at, length = low + (chance.randrange(17 * size) & -align), chance.randrange(size) >> chance.randrange(12)
            lines.append(f"malloc {at:016x} {length:016x}")
            if judge("\n".join(lines + [""]).encode()).endswith("Truncated") or chance.random() < 0.03:
                live.append(at)
            else:
                lines.pop()
    if chance.random() < 0.3 and len(lines) > 2:
        lines.append(chance.choice(lines[2:]))
    data = bytearray("\n".join(lines + [f"end {len(lines) - 2}", ""]).encode())
    if chance.random() < 0.2:
        data[chance.randrange(len(data))] = chance.choice(b"\n 019afmr")
    return bytes(data[:chance.randrange(len(data))] if chance.random() < 0.1 else data)


def compare(program, count, seed):
    chance, differing, kinds = random.Random(seed), 0, Counter()
    with tempfile.TemporaryDirectory() as folder:
        path = os.path.join(folder, "heap.log")
        for _ in range(count):
            data = made(chance)
            with open(path, "wb") as file:
                file.write(data)
            run = subprocess.run([program, "heap", path], capture_output=True, text=True)
            wanted = judge(data)
            kinds[wanted.split()[-1] if wanted.startswith("no") else "yes"] += 1
            if (run.stdout, run.returncode) != (wanted + "\n", int(wanted.startswith("no"))):
                differing += 1
                print(f"{run.stdout!r}, and not {wanted!r}:\n{data.decode('latin-1')}")
    print(f"{count} logs, {differing} differ:", ", ".join(f"{n} {kind}" for kind, n in sorted(kinds.items())))
    return differing


if __name__ == "__main__":
    sys.exit(1 if compare(sys.argv[1], int(sys.argv[2]), int((sys.argv + ["1"])[3])) else 0)
