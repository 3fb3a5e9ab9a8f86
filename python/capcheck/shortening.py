"""A short log with the fault of a long one."""
from __future__ import annotations

import io
import re
import time
from collections.abc import Callable, Iterable, Iterator
from contextlib import suppress
from typing import Any

from . import _abi, lines, runs
from .judges import Judge, _bytes, judge_bytes, why
from .lines import Kind
from .words import NULL, Capability

# The names of the rows of a diagnosis that say what the fault is. Other rows count lines.
_ROWS = frozenset("line source authority holds root length gives recorded request rounded moved representable access needs "
                  "cleared differs".split())


def shorten(log: Any, seconds: float = 5, replayable: bool = False, *, freed: str = "held", owned: bool = False) -> bytes:
    """A short log with the fault of a rejected log: the same refusal, the same refused line and the same diagnosis, except
    for origins and counts. No line of it can be left out, apart from the header, unless `seconds` didn't suffice. The log is
    bytes, another buffer, or a binary file. ValueError if it is accepted. A run log is judged as `capdiag run` judges it, with
    its options `freed` and `owned`, and its lines are the log's own.

    The lines of a log of steps are the log's own if no fewer lines do; otherwise others give the refused line its operands.
    With `replayable` they are the log's own in any case. Replayed on the machine that the log is from, a short log needn't show the same bug:
    the machine may need steps that the judge doesn't."""
    data, until = _bytes(log), time.monotonic() + seconds
    if data.startswith(b"run 1\n"):
        return _shorten_run(data, until, freed, owned)
    if verdict := judge_bytes(data):
        raise ValueError(f"the log is accepted: {verdict}")
    texts, number = io.BytesIO(data).readlines(), verdict.line or 1
    header = texts[:2 if texts[:1] == [b"capcheck 2\n"] else 1][:number - 1]
    before, faulty = texts[len(header):number - 1], b"".join(texts[number - 1:number])
    fault = _fault(b"".join(texts[:number]))

    def has_fault(middle: list[bytes]) -> bool:
        return _fault(b"".join([*header, *middle, faulty])) == fault

    made = [] if replayable else _fewest(_first(_middles(header, before, faulty), has_fault), has_fault, until)
    own = made
    if made or replayable:
        own = _fewest(_first(([], _needed(before, faulty), before), has_fault), has_fault, until)
    return b"".join([*header, *(own if replayable or len(own) <= len(made) else made), faulty])


def _shorten_run(data: bytes, until: float, freed: str, owned: bool) -> bytes:
    """A short run log with the fault of a long one."""
    def fault_of(lines: list[bytes]) -> list[str]:
        return _run_fault(runs.why(b"".join(lines), freed, owned))

    if verdict := runs.judge_bytes(data, freed, owned):
        raise ValueError(f"the log is accepted: {verdict}")
    texts, number = io.BytesIO(data).readlines(), verdict.line or 1
    header = texts[:2][:number - 1]
    before, faulty = texts[len(header):number - 1], b"".join(texts[number - 1:number])
    fault = fault_of(texts[:number])

    def has_fault(middle: list[bytes]) -> bool:
        return fault_of([*header, *middle, faulty]) == fault

    why = runs.why(b"".join([*header, *before, faulty]), freed, owned)
    first = _first(([], _needed_of_run(header, before, faulty, why), before), has_fault)
    return b"".join([*header, *_fewest(first, has_fault, until), faulty])


def _first(middles: Iterable[list[bytes]], has_fault: Callable[[list[bytes]], bool]) -> list[bytes]:
    return next(it for it in middles if has_fault(it))


def _needed_of_run(header: list[bytes], before: list[bytes], faulty: bytes, diagnosis: str) -> list[bytes]:
    """The lines on which the faulty line depends: those that wrote its places last, those of the objects that its diagnosis
    names, and what these depend on."""
    writers: dict[str, int] = {}
    reads: list[set[int]] = []
    addresses: dict[int, dict[str, int]] = {}  # by hart
    hart, hart_line = 0, set[int]()

    def of_hart(place: str) -> str:
        return place if place[0] == "@" or "." in place else f"{hart}.{place}"

    with suppress(ValueError):
        for number, line in enumerate(runs.read(b"".join([*before, faulty]))):
            sources, targets = _places(line, addresses.setdefault(hart, {}))
            reads.append({writers[place] for place in map(of_hart, sources) if place in writers} | hart_line)
            writers |= dict.fromkeys(map(of_hart, targets), number)
            if line.kind == Kind.HART:
                hart, hart_line = line.operands[0], {number}
    if len(reads) <= len(before):  # The faulty line is none that can be read.
        return []
    found, left = set[int](), [len(before)]
    for row in diagnosis.splitlines():
        name, *words = row.split()
        if name in ("object", "freed"):
            left.append(int(words[name == "object"]) - len(header) - 1)
        elif name == "holder" and of_hart(words[0]) in writers:
            left.append(writers[of_hart(words[0])])
    left, found = [it for it in left if it <= len(before)], set(left[1:])
    while left:
        left += (new := reads[left.pop()] - found)
        found |= new
    return [before[number] for number in sorted(found) if number < len(before)]


def _places(line: runs.RunLine, addresses: dict[str, int]) -> tuple[list[str], list[str]]:
    """The places that a line reads, and those that it writes. The addresses of what places hold are kept."""
    kind, it = line.kind, line.operands
    if kind in (Kind.ROOT, Kind.ROOT_AT, Kind.ROOT_SPECIAL):
        sources, written = [], {it[0]: it[1]}
    elif kind == Kind.DERIVE:
        sources, written = [it[1]], {it[0]: it[2]}
    elif kind == Kind.EXCHANGE:
        sources, written = [f"c{it[1]}", f"scr{it[2]}"], {f"c{it[0]}": it[3], f"scr{it[2]}": it[4]}
    elif kind == Kind.INVOKE:
        sources, written = [f"c{it[0]}", f"c{it[1]}"], {"scr0": it[2], "c31": it[3]}
    elif kind in (Kind.DROP, Kind.OBJECT, Kind.FREE):
        place = it[0] if kind == Kind.DROP else f"c{it[0]}"
        return [place], [place]
    elif kind == Kind.FILL:
        sources, written = [], {f"@{it[0]:016x}": it[1]}
    elif kind in (Kind.LC, Kind.SC, Kind.LOAD, Kind.STORE):
        authority, offset = (it[0], it[1]) if kind in (Kind.LOAD, Kind.STORE) else (it[1], it[2])
        granule = f"@{(addresses.get(f'c{authority}', 0) + offset) % 2**64 & ~15:016x}"
        if kind == Kind.LC:
            addresses[f"c{it[0]}"] = it[3].address
        sources = [f"c{authority}", f"c{it[0]}" if kind == Kind.SC else granule]
        return sources, [f"c{it[0]}"] if kind == Kind.LC else [granule] if kind in (Kind.SC, Kind.STORE) else []
    elif kind in (Kind.SEAL, Kind.UNSEAL):
        sources, written = [f"c{it[1]}", f"c{it[2]}"], {f"c{it[0]}": it[3]}
    elif kind.name.lower() in _abi.STEPS:
        sources, written = [f"c{it[1]}"], {f"c{it[0]}": it[-1]}
    else:
        return [], []
    addresses |= {place: cap.address for place, cap in written.items()}
    return sources, list(written)


def _run_fault(diagnosis: str) -> list[str]:
    """The refusal, the faulty line and its diagnosis, without counts, and the numbers of lines and objects."""
    verdict, *rows = diagnosis.splitlines()
    told = [verdict.split()[-1]]
    for row in rows:
        name, *words = row.split(" ")
        if name == "object":
            told.append(" ".join([name, *words[2:5]]))
        elif name in ("freed", "gone") or words[:1] == ["owner"]:
            told.append(" ".join([name, *words[:1]]) if words[:1] == ["owner"] else name)
        elif name == "says":
            told.append(re.sub(r"\b(line|object|is) \d+", r"\1", re.sub(r", as \d+ more do", "", row)))
        elif name not in ("roots", "steps", "granules", "objects"):
            told.append(row)
    return told


def _needed(before: list[bytes], faulty: bytes) -> list[bytes]:
    """The lines on which the operands of the faulty line depend: those that wrote its registers and its memory last, and what
    these depend on."""
    writers: dict[int, int] = {}  # by register, and by granule, whose number is 32 more
    addresses: dict[int, int] = {}
    reads: list[set[int]] = []
    with suppress(ValueError):
        for number, line in enumerate(lines.read(b"".join([*before, faulty]))):
            memory = (addresses.get(line.authority, 0) + line.offset) % 2**64 // 16 + 32
            places = {line.source, line.authority}
            if line.kind in (Kind.LC, Kind.LOAD, Kind.STORE):
                places.add(memory)
            reads.append({writers[place] for place in places if place in writers})
            if line.kind in (Kind.SC, Kind.STORE):
                writers[memory] = number
            elif line.kind == Kind.ROOT_AT:
                writers[line.number // 16 + 32] = number
            elif line.target:
                writers[line.target], addresses[line.target] = number, line.cap.address
    if len(reads) <= len(before):  # The faulty line is none that can be read.
        return []
    found, left = set[int](), [len(before)]
    while left:
        left += (new := reads[left.pop()] - found)
        found |= new
    return [before[number] for number in sorted(found)]


def _fault(log: bytes) -> list[str]:
    """The refusal, the faulty line and its diagnosis, without origins and counts."""
    verdict, *rows = why(log).splitlines()
    words = [row.split(maxsplit=2) for row in rows]
    return [verdict.split()[-1], *(row for row, (name, *more) in zip(rows, words) if name in _ROWS and more[:1] != ["origin"])]


def _middles(header: list[bytes], before: list[bytes], faulty: bytes) -> Iterator[list[bytes]]:
    """Lines that may stand between the header and the faulty line, the fewest first."""
    yield []
    yield [lines.move(1, 0, NULL)]
    yield [lines.end(0)]
    log = b"".join([*header, *before])
    with suppress(ValueError, StopIteration):
        line = next(lines.read(faulty))
        for writer in (line.authority, 31, 30, 29):
            with suppress(ValueError):
                yield _operands(log, line, writer)
    yield [line for line in before if line.startswith(b"root ")]
    yield before


def _operands(log: bytes, line: lines.Line, writer: int) -> list[bytes]:
    """Lines that put into the operands of a line what they hold after a log: roots, and steps for what has no tag. The
    steps write memory by the register `writer`, which has a root of its own if it isn't an operand. ValueError if such a
    step can't be written."""
    with Judge() as judge:
        judge.feed(log)
        registers = {number: judge.register(number) for number in (line.source, line.authority) if number}
        authority = judge.register(line.authority).address
        address = (authority + line.offset) % 2**64 & ~15
        stored = judge.granule(address) if line.kind in (Kind.LC, Kind.LOAD) else NULL
    offset = address - authority if writer in registers else 0
    roots, steps = [], []
    if writer and writer not in registers:
        roots.append(lines.root(writer, Capability.root().set_address(address)))
    for number, cap in registers.items():
        if cap.tag:
            roots.append(lines.root(number, cap))
        elif NULL.set_address(cap.address) == cap:
            steps.append(lines.setaddr(number, 0, cap.address, cap))
        elif cap.sound:
            roots.append(lines.root(number, cap))
            steps.append(lines.cleartag(number, number, cap))
        else:
            beside = offset + (address ^ 16) - address
            steps += [*_stores(writer, beside, cap), lines.lc(number, writer, beside, cap)]
    if stored.tag:
        roots.append(lines.root_at(address, stored))
    elif stored != NULL:
        steps += _stores(writer, offset, stored)
    return [*roots, *steps]


def _stores(register: int, offset: int, cap: Capability) -> list[bytes]:
    """Steps that store the bytes of a capability in memory."""
    return [lines.store(register, offset + at, 8, int.from_bytes(cap.memory[at:at + 8], "little")) for at in (0, 8)]


def _fewest(middle: list[bytes], has_fault: Callable[[list[bytes]], bool], until: float) -> list[bytes]:
    """Leaves out runs of lines, long ones first, while the log keeps its fault."""
    size = max(len(middle) // 2, 1)
    while middle:
        at, count = 0, len(middle)
        while at < len(middle) and time.monotonic() < until:
            fewer = middle[:at] + middle[at + size:]
            if has_fault(fewer):
                middle = fewer
            else:
                at += size
        if size == 1 and len(middle) == count:
            break
        size = max(size // 2, 1)
    return middle
