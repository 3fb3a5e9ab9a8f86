#!/usr/bin/env python3
"""What CONTRIBUTING.md's recipes touch: the files of crates/ that name a kind of step, a version of the log or a store.

    python3 tools/kinds.py [WORD]     prints the files that name a kind, in any spelling. WORD is the kind's word,
                                      `andperm` if none is given
    python3 tools/kinds.py --check    prints where a recipe is not so: it says other numbers of files than name its
                                      example, or leaves out a source file that does, or names one that is not there

The tests and examples among the crates are left out. The status is 1 if --check printed something."""
import glob
import os
import re
import sys

LEFT_OUT = "library_tests worked plain arena".split()
TESTS = ("/src/rows.rt", "/src/surface.rt")
WORDS = "none one two three four five six seven eight nine ten".split()
PARTS = "src specs proofs".split()
SAYS = re.compile(r"named in (\w+) source files?, (\w+) (?:files? )?of definitions and (\w+) of proofs")
os.chdir(os.path.join(os.path.dirname(os.path.abspath(__file__)), ".."))


def spelled(word):
    """A kind's word in any spelling: `setboundsexact`, `SetBoundsExact`, `set_bounds_exact`."""
    parts = "set|bounds|exact|addr|clear|tag|and|perm"
    return "(?i:" + "_?".join(re.findall(f"{parts}|.+?(?={parts}|$)", word)) + ")"


# Each recipe's heading, what its example is named by, and the crate that is the example's own.
RECIPES = [
    ("Adding a step kind", spelled("andperm"), None),
    ("Adding a step of run logs", spelled("exchange"), None),
    ("Adding a version of the log", r"Two(?:Strict|Clear)|capcheck 2|Version(?: |\()2|IsVersion|LogVersion", None),
    ("Adding a store", "LentStore", "tagmem_lent"),
]


def named(pattern, part, own=None):
    """The files of a part of the crates that name it, from crates/ on."""
    found = []
    for path in glob.glob(f"crates/*/{part}/**", recursive=True):
        crate = path.split("/")[1]
        if crate not in LEFT_OUT and crate != own and path.endswith((".rt", ".antt")) and not path.endswith(TESTS):
            with open(path, encoding="utf-8") as it:
                if re.search(pattern, it.read()):
                    found.append(path[len("crates/"):])
    return sorted(found)


def wrong(section, pattern, own):
    """What a recipe says that is not so."""
    found = [named(pattern, part, own) for part in PARTS]
    says = SAYS.search(section)
    numbers = [WORDS.index(it) if it in WORDS else int(it) for it in says.groups()] if says else []
    if numbers != [len(it) for it in found]:
        yield f"it says {numbers}, and files are {[len(it) for it in found]} of {', '.join(PARTS)}"
    paths = [it for it in re.findall(r"`(\w+/[\w/.]+)`", section) if os.path.isdir(f"crates/{it.split('/')[0]}")]
    yield from (f"there is no crates/{it}" for it in paths if not os.path.exists(f"crates/{it}"))
    yield from (f"it doesn't name {it}" for it in found[0] if not any(it == path or it.startswith(f"{path}/") for path in paths))


def check():
    with open("CONTRIBUTING.md", encoding="utf-8") as it:
        sections = dict(re.findall(r"^## (.+)\n((?:(?!## ).*\n)*)", it.read(), re.M))
    said = [f"CONTRIBUTING.md, {heading}: {it}" for heading, pattern, own in RECIPES for it in wrong(sections.get(heading, ""), pattern, own)]
    print(*said, sep="\n", end="\n" if said else "")
    sys.exit(bool(said))


def main(word="andperm"):
    for part in PARTS:
        found = named(spelled(word), part)
        print(f"{part}: {len(found)}", *found, sep="\n  ")


if __name__ == "__main__":
    check() if sys.argv[1:] == ["--check"] else main(*sys.argv[1:])
