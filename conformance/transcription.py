#!/usr/bin/env python3
"""Compares the definitions in Python, conformance/transcribed.py, with docs/STANDARD.md and with capcheck.

    CAPCHECK=crates/capcheck/out/capcheck python3 conformance/transcription.py [LOGS]

- Each definition of the page's core stands there with its number, except those of OTHERS.
- Closed forms are compared with the relations that they stand for, on 10,000 words and requests drawn at random and on the
  vector files of examples/ and conformance/. `capcheck vectors` has to pass on all of them.
- Verdicts and origins on the corpus have to be those of its index. On the examples and on LOGS logs drawn at random (100,
  if none are given) they have to be those of `capcheck judge --origins`.
- What is found is asked of the definitions: whether the verdict is one, whether it names BoundsEscape exactly, and on logs of
  at most 60 steps whether authority never grows and each access lies inside its root.

The status is 1 if anything differs."""
import glob
import os
import random
import re
import subprocess
import sys
import tempfile
import types

from transcribed import *  # noqa: F403

# Definitions that say something of a source, of memory that is lacking or of all bytes: there is nothing to compute.
OTHERS = set("Judged IsAnswerOf IsVerdictOf NoVerdictOf BeginsLog IsBehind NamesEscapes CountsOnly next_count NoVerdictIn MayLackMemory NamesNoGranules".split())
# Types whose values are tuples in Python, and a function for which Python has assignments.
OTHERS |= set("Beginning Recorded Datum put".split())
HIGH = 0xFFFF1FFFFC018004 << 64


def unnamed():
    """The definitions of the core, sections 3 to 18 without the library, that transcribed.py lacks under their number."""
    with open("docs/STANDARD-INDEX.md", encoding="utf-8") as page, open("conformance/transcribed.py", encoding="utf-8") as it:
        index = page.read().rpartition("## Annex: Index")[2]
        here = {number: name for name, number in re.findall(r"^(?:def |class )?(\w+)\b.*  # (\d+\.\d+)$", it.read(), re.M)}
    there = {number: name for name, numbers in re.findall(r"`(\w+)` ((?:\[[\d.]+\](?: and )?)+)", index) for number in re.findall(r"[\d.]+", numbers)}
    core = {number: name for number, name in there.items() if 3 <= int(number.split(".")[0]) <= 18 and not number.startswith("17.")}
    for number in sorted(here.keys() | core.keys()):
        if here.get(number) != core.get(number) and core.get(number) not in OTHERS:
            yield f"{number} is {core.get(number)} in docs/STANDARD.md and {here.get(number)} in conformance/transcribed.py"


# Vectors


def line_of(kind, *numbers):
    """A line of a vector file, as the definitions have it."""
    if kind == "bounds":
        (w,) = numbers
        fields = b_of(w), t_of(w), ie_of(w)
        assert AreBounds(w, base_of(w), top_of(w)) and IsMantissa(*fields, mantissa_of(*fields))
        assert length_of(w) == span_of(b_of(w), mantissa_of(*fields)) * unit_of(w)
        return f"bounds {w:032x} = {base_of(w):016x} {top_of(w):017x} {bit_of(IsSound(w))}"
    if kind == "keeps":
        return f"keeps {numbers[0]:032x} {numbers[1]:016x} = {bit_of(KeepsBounds(*numbers))}"
    if kind == "memory":
        assert stored_word(memory_of(numbers[0])) == numbers[0]
        return f"memory {numbers[0]:032x} = {bytes(memory_of(numbers[0])).hex()}"
    assert not rounded_ie(numbers[1]) or IsLeastExponent(*numbers, rounded_exponent(*numbers))
    return (f"round {numbers[0]:016x} {numbers[1]:016x} = {rounded_base(*numbers):016x} {rounded_top(*numbers):017x} "
            f"{bit_of(rounded_ie(numbers[1]))} {rounded_exponent(*numbers)} {bit_of(IsExact(*numbers))}")


def drawn_lines(count):
    """Lines of words and requests at random, also around the ends of the address space."""
    rng = random.Random(1)
    for n in range(count // 4):
        w = rng.getrandbits(128) if n % 4 else rng.getrandbits(64) << 64 | rng.choice([0, 2**64 - 1, 2**63])
        base, length = rng.getrandbits(64) >> rng.randrange(64), rng.getrandbits(64) >> rng.randrange(64)
        yield from (line_of("bounds", w), line_of("memory", w))
        yield line_of("keeps", w, (address_of(w) + (rng.getrandbits(64) >> rng.randrange(64))) % 2**64)
        yield line_of("round", base, min(length, 2**64 - base, 2**64 - 1))


def compare_vectors(program):
    """What differs on vectors, and how many lines there were."""
    wrong, lines = [], [*drawn_lines(10000)]
    with tempfile.NamedTemporaryFile("w", suffix=".vectors") as it:
        it.write("".join(f"{line}\n" for line in lines))
        it.flush()
        said = subprocess.run([program, "vectors", it.name], capture_output=True, text=True).stdout
    if said != f"pass {len(lines)}\n":
        wrong.append(f"{program} says {said.strip()} of {len(lines)} lines drawn at random")
    for path in sorted(glob.glob("examples/vectors/*.vectors")) + [f"conformance/{name}" for name, answer, _ in index() if answer.startswith("pass")]:
        with open(path, encoding="utf-8") as it:
            for line in it.read().splitlines():
                kind, *numbers = line.split(" = ")[0].split()
                if line_of(kind, *(int(number, 16) for number in numbers)) != line:
                    wrong.append(f"{path}: {line}")
                lines.append(line)
    return wrong, len(lines)


# Logs


def index():
    """The files of the corpus, each with its answer and its origins."""
    with open("conformance/INDEX.tsv", encoding="utf-8") as it:
        rows = [line.split("\t") for line in it.read().splitlines()[1:]]
    return [(name, answer, origins.split() if origins != "-" else []) for name, answer, _, origins in rows]


def judged(data):
    """What `judge --origins` prints by the definitions, and which theorems are refuted by it."""
    verdict, beginning, account = verdict_of(data)
    wrong = [] if IsVerdict(data, verdict, beginning) else ["is no verdict"]
    if not EscapesExactly(data, verdict, beginning, account):
        wrong.append("names BoundsEscape wrongly")
    if beginning[0] in ("Body", "Whole") and len(beginning[3]) <= 60 and not IsGuarded(*beginning[1:]):
        wrong.append("authority grows")
    return [verdict_line(verdict), *(origin_lines(account) if verdict[0] == "Yes" else [])], wrong


def printed(program, data):
    return subprocess.run([program, "judge", "--origins"], input=data, stdout=subprocess.PIPE, check=False).stdout.decode().splitlines()


def near(rng, *places):
    """An address near one of some places, or anywhere."""
    return (rng.choice(places) + rng.choice([0, 0, 0, 1, -1, 8, 16, rng.getrandbits(12), rng.getrandbits(64) >> rng.randrange(64)])) % 2**64


def drawn_step(rng, state):
    """A step on registers 0 to 7, with the result that the machine has, most of the time."""
    step, tagged_ones = types.SimpleNamespace(kind=rng.choice([*OPERANDS])), [n for n in range(1, 8) if state[n].tag]

    def register():
        return rng.choice(tagged_ones) if tagged_ones and rng.random() < 0.9 else rng.randrange(8)

    for name in OPERANDS[step.kind].split():
        cap = state[getattr(step, "authority", getattr(step, "source", 1))]
        base, top, address = base_of(cap.word), top_of(cap.word), address_of(cap.word)
        setattr(step, name, {
            "target": lambda: rng.randrange(1, 8), "source": register, "authority": register,
            "length": lambda: rng.choice([near(rng, 0, 4096), (top - address) % 2**64, near(rng, (top - address) % 2**64)]),
            "address": lambda: near(rng, base, top, address, 2**18 - 4), "mask": lambda: rng.choice([rng.getrandbits(64), 2**64 - 1 - 2 ** rng.randrange(19)]),
            "offset": lambda: rng.choice([0, 0, 16, -16, 8, rng.randrange(-2048, 2048)]), "size": lambda: rng.choice([1, 2, 4, 8])}[name]())
    if step.kind in ("load", "store"):
        step.value = rng.getrandbits(8 * step.size)
    elif step.kind != "sc":
        step.result = untagged_null
    return step


def recorded(rng, rules, state, step):
    """The step with the result or value that the machine has, and now and then another."""
    row = row_by(rules, row_of(state, step))
    if rng.random() < 0.99 and row.records[0] == "Written":
        step.result = row.writes[1]
    elif rng.random() < 0.99 and row.records[0] == "ReadNumber":
        step.value = row.records[2]
    return step


def drawn_log(rng):
    """A log of roots and steps. Most of the steps that strict rules refuse are left out."""
    rules, words = rng.choice(["One", "TwoStrict", "TwoClear"]), [HIGH, HIGH | 2**64 - 1]
    words += [rounded_word(HIGH, near(rng, 0, 4096, 2**32, 2**63), near(rng, 0, 4096, 2**20) >> rng.randrange(64)) for _ in range(3)]
    words += [with_perms(rng.choice(words), rng.getrandbits(16)) for _ in range(2)] + [with_type(rng.choice(words), rng.getrandbits(18)), rng.getrandbits(128)]
    places = [("Register", n) for n in range(1, 8)] + [("Granule", n) for n in (0, 1, 2**28, 2**60 - 1)]
    roots = [DeclaredRoot(place, rng.choice(words)) for place in rng.sample(places, 5) if rng.random() < 0.8]
    roots = [root for root in roots if is_sound(root.word) or rng.random() < 0.02]
    state, steps = start(roots), []
    for _ in range(rng.randrange(40)):
        step = recorded(rng, rules, state, drawn_step(rng, state))
        row = row_by(rules, row_of(state, step))
        if first_of(row.checks) is None or rng.random() < 0.04:
            steps.append(step)
            state = state_with(state, row.writes)
    data = text_of([*body_lines(rules, roots, steps), ("End", len(steps) + (rng.random() < 0.02))])
    if rng.random() < 0.2:
        at = rng.randrange(len(data))
        data = data[:at] + rng.choice([b"", b"\n", b" ", b"0", b"f", b"x" * 96, data[at : at + 1].upper()]) + data[at + rng.randrange(3) :]
    return data


def compare_logs(program, count):
    """What differs on logs, and how many logs there were."""
    wrong, rng, logs = [], random.Random(1), []
    for name, answer, origins in index():
        if name.startswith(("accepted/", "rejected/")):
            with open(f"conformance/{name}", "rb") as it:
                logs.append((name, it.read(), [answer, *(f"origin {it.replace('=', ' ')}" for it in origins)]))
    for path in sorted(glob.glob("examples/*.log")):
        with open(path, "rb") as it:
            data = it.read()
        logs.append((path, data, printed(program, data)))
    for kind in ("moves", "memory", "mixed", "scattered"):
        data = subprocess.run([sys.executable, "bench/random_log.py", kind, "400"], stdout=subprocess.PIPE, check=True).stdout
        logs.append((f"bench/random_log.py {kind} 400", data, printed(program, data)))
    for number in range(count):
        data = drawn_log(rng)
        logs.append((f"log {number} drawn at random", data, printed(program, data)))
    for name, data, wanted in logs:
        said, refuted = judged(data)
        if said != wanted or refuted:
            wrong.append(f"{name}: {' / '.join([*said, *refuted])}, not {' / '.join(wanted)}")
    return wrong, len(logs)


def main(words):
    program = os.environ.get("CAPCHECK") or "crates/capcheck/out/capcheck"
    wrong_lines, lines = compare_vectors(program)
    wrong_logs, logs = compare_logs(program, int(words[0]) if words else 100)
    wrong = [*unnamed(), *wrong_lines, *wrong_logs]
    print("\n".join([*wrong, f"{lines} lines of vectors and {logs} logs by the definitions in Python, {len(wrong)} otherwise"]))
    return 1 if wrong else 0


if __name__ == "__main__":
    os.chdir(os.path.join(os.path.dirname(os.path.abspath(__file__)), ".."))
    sys.exit(main(sys.argv[1:]))
