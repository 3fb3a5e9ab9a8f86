"""A plain judge of allocators' logs, which compares each new object with every live one: `heap.py LOG`."""
import re, sys

NUMBERS = {"BadHeader": 1, "LineTooLong": 2, "BadLine": 3, "Misplaced": 4, "Truncated": 5, "WrongCount": 6,
           "AddressTaken": 26, "OutsideHeap": 27, "Overlaps": 28, "NotLive": 29}
FORM = re.compile(r"(heap) 1|(root) (\w{16}) (\w{17})|(malloc) (\w{16}) (\w{16})|(free) (\w{16})|(end) (0|[1-9][0-9]{0,9})")

def rounded(base, length):
    """The bounds of a request: those in the least unit of which it covers fewer than 1024."""
    if length < 4096:
        return base, base + length
    for unit in (8 << e for e in range(53)):
        low, high = base // unit, -(-(base + length) // unit)
        if high - low < 1024:
            return low * unit, high * unit

def form(line):
    """The word of a line and its numbers; no word where it has no form."""
    found = FORM.fullmatch(line)
    name, *digits = [part for part in found.groups() if part is not None] if found else [None]
    if not all(re.fullmatch("[0-9a-f]+", text) for text in digits):
        return None, []
    values = [int(text, 10 if name == "end" else 16) for text in digits]
    fits = {"root": lambda: values[0] <= values[1] <= 2**64, "end": lambda: values[0] < 2**32}.get(name, lambda: True)()
    return (name, values) if fits else (None, [])

def fault(name, values, live, root):
    """The first test of an event that holds, or None; what lives is changed where none does."""
    if name == "free":
        return None if live.pop(values[0], None) else "NotLive"
    base, top = rounded(*values)
    if values[0] in live or base < root[0] or top > root[1]:
        return "AddressTaken" if values[0] in live else "OutsideHeap"
    if any(max(base, low) < min(top, high) for low, high in live.values()):
        return "Overlaps"
    live[values[0]] = (base, top)

def judge(data):
    lines, live, root, ended, wrong = data.decode("latin-1").split("\n"), {}, None, False, None
    for number, line in enumerate(lines, 1):
        whole = number < len(lines)
        if ended and not whole and not line:
            return f"yes {number - 4} {len(live)}"
        name, values = form(line)
        if ended or len(line) > 95 or not whole:
            wrong = "Misplaced" if ended else "LineTooLong" if len(line) > 95 else "Truncated"
        elif number == 1 and name != "heap" or name is None:
            wrong = "BadHeader" if number == 1 else "BadLine"
        elif number > 1 and ((number == 2) != (name == "root") or name == "heap"):
            wrong = "Misplaced"
        elif name in ("malloc", "free"):
            wrong = fault(name, values, live, root)
        elif name == "end" and values[0] != number - 3:
            wrong = "WrongCount"
        root, ended = values if name == "root" else root, name == "end"
        if wrong:
            return f"no {number} {NUMBERS[wrong]} {wrong}"

if __name__ == "__main__":
    print(judge(open(sys.argv[1], "rb").read()))
