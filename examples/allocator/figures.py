"""Figures of logs of allocators, beyond the first fault: `figures.py LOG ..` prints for each how many objects came to live,
how many have at least 4096 bytes, how many of these have bounds that are not exact, and how many have bounds that cover bytes
of a live neighbour."""
import bisect, os, sys
sys.path.insert(0, os.path.join(os.path.dirname(os.path.abspath(__file__)), "..", "..", "conformance"))
from heap import rounded


def figures(lines):
    starts, live, objects, long, inexact, covering = [], {}, 0, 0, 0, 0

    def covers(one, other):
        """Whether the bounds of the first object cover bytes of the second: counted once."""
        if one[2] < other[0] + other[1] and other[0] < one[3] and not one[4]:
            one[4] = True
            return 1
        return 0
    for line in lines:
        words = line.split()
        if words[0] == "malloc":
            at, length = int(words[1], 16), int(words[2], 16)
            base, top = rounded(at, length)
            objects, long, inexact = objects + 1, long + (length >= 4096), inexact + ((base, top) != (at, at + length))
            if length:
                new, place = [at, length, base, top, False], bisect.bisect(starts, at)
                for near in starts[max(place - 1, 0):place + 1]:
                    covering += covers(new, live[near]) + covers(live[near], new)
                starts.insert(place, at)
                live[at] = new
        elif words[0] == "free" and live.pop(int(words[1], 16), None):
            del starts[bisect.bisect(starts, int(words[1], 16)) - 1]
    return objects, long, inexact, covering


for path in sys.argv[1:]:
    with open(path) as file:
        print(os.path.basename(path), "%d objects, %d of 4096 bytes or more, %d not exact, %d cover a neighbour" % figures(file))
