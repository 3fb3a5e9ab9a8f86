"""The importer: lines of a trace to lines of a run log, as a stream. docs/TRACES.md says what becomes of each."""
from __future__ import annotations

from collections import Counter
from collections.abc import Iterable, Iterator, Sequence
from contextlib import contextmanager
from functools import lru_cache
from typing import Any

from . import _abi
from ._abi import recorders as _recorders, words as _words
from .dialects import PCC
from .lines import Kind
from .recording import Recorder
from .words import NULL

_NULL_HIGH = NULL.word >> 64
_LOW, _WHOLE = 2**64 - 1, 2**64
_UNSEALED, _SENTRY, _TYPE = 0x3FFFF, 0x3FFFE, 0x3FFFF << 91
_KERNEL, _SAVED = 32 + 27, 32 + 26  # The root of what a kernel builds; where a register waits while an access borrows it.
Held = tuple[int, int]  # A tag and a word. The tag -1 is that of an untagged word of which the trace shows too little.


class TraceError(ValueError):
    """A line of a trace that can't be taken: its number, and why."""


def _cap(held: Held) -> _abi.Cap:
    tag, word = held
    return _abi.Cap(_abi.Wide(word >> 64, word & _LOW), tag == 1)


_CALLS = {name: getattr(_recorders, f"capcheck_recorder_{name}") for name in _abi.RECORDER}
_DID, _OVERWROTE = _CALLS["did"], _CALLS["overwrote"]
_PLACES = [_abi.Place(number % 32, 1 if number < 32 else 3) for number in range(64)]
_NOWHERE = _abi.Place(0, 0)


def _name(place: int) -> str:
    return f"c{place}" if place < 32 else f"scr{place - 32}"


def _unsealed(word: int, address: int) -> int:
    return (word | _TYPE) & ~_LOW | address


@lru_cache(2**16)
def _high(base: int, length: int, permissions: int, otype: int, flag: int, sealed: int | None) -> tuple[int, int, int]:
    """The upper half of the word with these fields, and the addresses that it may have: the first, and how many."""
    otype &= _UNSEALED
    if base == 0 and length == _LOW:  # The whole address space, saturated.
        length = _WHOLE
    if sealed is not None and (sealed != 0) != (otype != _UNSEALED):
        raise ValueError("sealed and type differ")
    made = _words.capcheck_root(base, _abi.Wide.of(length), permissions)
    if not made.present:
        raise ValueError("the permissions have a bit that isn't one, or the bounds end above 2**64")
    bounds = _words.capcheck_decode(made.word)
    if (bounds.base, int(bounds.top)) != (base, base + length):
        raise ValueError("these bounds would be rounded")
    kept = _words.capcheck_reach(made.word)
    high = made.word.high & ~(_TYPE >> 64) | otype << 27 | (flag & 1) << 45
    return high, kept.start, _WHOLE if kept.every else kept.size


def word_of(fields: dict[str, int]) -> int:
    """The word with fields: base, length, permissions, and the address or the offset; type and flag. ValueError names them."""
    told = fields.get
    try:
        base = fields["base"]
        high, start, size = _high(base, fields["length"], fields["permissions"], told("type", _UNSEALED), told("flag", 0), told("sealed"))
        address = told("address")
        if address is None:
            address = (base + fields["offset"]) & _LOW
        if (address - start) & _LOW >= size:
            raise ValueError("the address is out of the representable range")
        return high << 64 | address
    except KeyError as missing:
        raise ValueError(f"the field {missing.args[0]} is missing: {_shown(fields)}") from None
    except ValueError as wrong:
        raise ValueError(f"no word has these fields: {_shown(fields)}: {wrong}") from None


def shows(word: int, fields: dict[str, int]) -> bool:
    """Whether a word has these fields."""
    wide = _abi.Wide.of(word)
    bounds, split = _words.capcheck_decode(wide), _words.capcheck_split(wide)
    has = {"base": bounds.base, "length": min((int(bounds.top) - bounds.base) % (2 * _WHOLE), _LOW), "permissions": _words.capcheck_perm_view(wide),
           "type": split.otype, "flag": split.flag, "address": split.address, "offset": (split.address - bounds.base) & _LOW,
           "sealed": int(split.otype != _UNSEALED), "word": word, "high": word >> 64}
    return all(has[name] == (value & _UNSEALED if name == "type" else value) for name, value in fields.items() if name in has)


def _shown(fields: dict[str, int]) -> str:
    return " ".join(f"{name} {value:x}" for name, value in fields.items()) or "none"


def _pieces(address: int, data: bytes) -> Iterator[tuple[int, bytes]]:
    """Aligned parts of 8 bytes at most."""
    while data:
        size = min(8, address & -address or 8)
        while size > len(data):
            size //= 2
        yield address, data[:size]
        address, data = (address + size) & _LOW, data[size:]


class Machine:
    """What a trace has told so far, and the recorder that gets its steps. Places are numbers, as in `dialects`."""

    def __init__(self, recorder: Recorder) -> None:
        self.recorder, self._pointer = recorder, recorder._pointer
        self._value = _abi.Cap()  # What is passed, and its word.
        self._word = self._value.word
        self.held: list[Held] = [(0, NULL.word)] * 64
        self.told = 1  # The registers that a line has told, by bits.
        self._memory: dict[int, tuple[bytes, int, int]] = {}  # Of a granule: its bytes, which of them are told, its tag.
        self.spare = recorder.spare
        self.vague = 0  # The registers of whose words the trace shows too little, by bits.
        self.kernel = self.built = 0  # Whether a kernel ran just now; how many capabilities it built.

    def call(self, name: str, *values: Any) -> None:
        if not _CALLS[name](self._pointer, *values):
            self.recorder._done(False)

    def _passed(self, held: Held) -> _abi.Cap:
        """A capability as C takes it, until the next call: one that is made anew takes longer."""
        tag, both = held
        value, word = self._value, self._word
        value.tag = tag == 1
        word.high = both >> 64
        word.low = both & _LOW
        return value

    def hold(self, place: int, held: Held) -> None:
        if place:
            tag, word = held
            self.held[place] = max(tag, 0), word
            if place < 32:
                self.told |= 1 << place
                self.vague = self.vague & ~(1 << place) | (tag < 0) << place

    # ---- Registers ----

    def root(self, place: int, word: int) -> None:
        self.call("root", _PLACES[place], _abi.Wide.of(word))
        self.hold(place, (1, word))

    def granule_root(self, address: int, word: int) -> None:
        self.call("root", _abi.Place(address, 2), _abi.Wide.of(word))
        self._memory[address] = (word ^ NULL.word).to_bytes(16, "little"), 0xFFFF, 1

    def did(self, kind: int, target: int, source: int, other: int, number: int, held: Held) -> None:
        if not _DID(self._pointer, kind, target, source, other, number, self._passed(held)):
            self.recorder._done(False)
        if target:
            self.held[target] = held
            self.told |= 1 << target
            if self.vague:
                self.vague &= ~(1 << target)

    def wrote(self, target: int, source: int, held: Held) -> None:
        self.call("wrote", _PLACES[target], _PLACES[source], self._passed(held))
        self.hold(target, held)

    def overwrote(self, target: int, integer: int) -> None:
        if not _OVERWROTE(self._pointer, target, integer):
            self.recorder._done(False)
        if target:
            self.held[target] = 0, _NULL_HIGH << 64 | integer
            self.told |= 1 << target
            if self.vague:
                self.vague &= ~(1 << target)

    def fault(self, source: int, held: Held, into: int = 0) -> int:
        """Why a `derive` is refused, by number."""
        tag, word = held
        if tag != 1:
            return 0
        return _words.capcheck_derive_fault(self._passed(self.held[source]), _abi.Wide(word >> 64, word & _LOW), into == PCC)

    def exchanged(self, target: int, source: int | None, special: int, held: Held, special_held: Held) -> None:
        place = _NOWHERE if source is None else _PLACES[source]
        self.call("exchanged", target, place, special - 32, _cap(held), _cap(special_held))
        self.hold(target, held)
        if source is not None:
            self.hold(special, special_held)

    def invoked(self, code: int, datum: int, code_word: int, datum_word: int) -> None:
        self.call("invoked", code, datum, _abi.Wide.of(code_word), _abi.Wide.of(datum_word))
        self.hold(PCC, (1, code_word))
        self.hold(31, (1, datum_word))

    def trapped(self, saved: int | None, saved_held: Held, vector: int, pcc: Held) -> None:
        place = _NOWHERE if saved is None else _PLACES[saved]
        self.call("trapped", place, _cap(saved_held), vector - 32, _cap(pcc))
        if saved is not None:
            self.hold(saved, saved_held)
        self.hold(PCC, pcc)

    def dropped(self, place: int) -> None:
        self.call("dropped", _PLACES[place])
        self.hold(place, (0, self.held[place][1]))

    def granule_dropped(self, address: int) -> None:
        self.call("dropped", _abi.Place(address, 2))
        data, told, _ = self._memory.get(address, (bytes(16), 0, 0))
        self._memory[address] = data, told, 0

    # ---- What a kernel may have built ----

    def derive(self, target: int, sources: Sequence[int], held: Held) -> None:
        """A result without a step: from the first source that can give it. After a trap or a system call, it may be a kernel's."""
        source = next((it for it in sources if not self.fault(it, held, target)), None)
        if source is None and self.kernel:
            source = _KERNEL
            self.built += 1
        elif source is None:
            source = next((it for it in sources if self.held[it][0]), sources[0] if sources else 0)
        self.wrote(target, source, held)

    def expected(self, kind: int, source: int, other: int, number: int) -> int:
        """The word of a step's result, if it has no tag."""
        cap = self._passed(self.held[source])
        if kind in (Kind.SETBOUNDS, Kind.SETBOUNDSEXACT):
            made = _words.capcheck_set_bounds_clear(cap, number, 0)
        elif kind == Kind.SETADDR:
            made = _words.capcheck_set_addr_clear(cap, number)
        elif kind == Kind.ANDPERM:
            made = _words.capcheck_and_perm_clear(cap, number)
        elif kind == Kind.SEAL:
            made = _words.capcheck_seal_clear(cap, _cap(self.held[other]))
        elif kind == Kind.UNSEAL:
            made = _words.capcheck_unseal_clear(cap, _cap(self.held[other]))
        else:
            made = cap
        return made.word.high << 64 | made.word.low

    def step(self, kind: int, target: int, source: int, other: int, number: int, held: Held) -> None:
        """A step, unless a kernel has changed what it reads."""
        if self.kernel and kind not in (Kind.SEAL, Kind.UNSEAL) and self.fault(source, held):
            self.derive(target, (source,), held)
        else:
            self.did(kind, target, source, other, number, held)

    # ---- Memory ----

    def _access(self, name: str, register: tuple[int, ...], authority: int, address: int, *values: Any) -> None:
        """An access. If no line can say it and no register is spare, one is borrowed."""
        offset = (address - self.held[authority][1]) & _LOW
        offset -= _WHOLE if offset >> 63 else 0
        if self.spare or authority < 32 and -2048 <= offset < 2048:
            self.call(name, *register, _PLACES[authority], offset, *values)
            return
        with self._lent(authority, *register) as lent:
            self.recorder.spare = lent
            self.call(name, *register, _PLACES[authority], offset, *values)
            self.recorder.spare = 0

    @contextmanager
    def _lent(self, *used: int) -> Iterator[int]:
        """A register that an access may use: its own value is put back."""
        lent = next(it for it in (31, 30, 29) if it not in used)
        kept = self.held[lent]
        if kept[0]:
            self.call("wrote", _PLACES[_SAVED], _PLACES[lent], _cap(kept))
        yield lent
        if kept[0]:
            self.call("wrote", _PLACES[lent], _PLACES[_SAVED], _cap(kept))
            self.call("dropped", _PLACES[_SAVED])
        elif kept[1] >> 64 == _NULL_HIGH:
            self.call("overwrote", lent, kept[1] & _LOW)
        else:
            self.call("wrote", _PLACES[lent], _PLACES[0], _cap(kept))

    def _fill(self, address: int, data: bytes) -> None:
        """What was loaded and no line wrote is written first."""
        granule, at = address & ~15, address & 15
        held, told, tag = self._memory.get(granule, (bytes(16), 0, 0))
        new = [it for it in range(len(data)) if not told >> at + it & 1]
        if not new:
            return
        made = bytearray(held)
        for it in new:
            made[at + it] = data[it]
            told |= 1 << at + it
        if made != held:
            self.call("filled", granule, bytes(made))
        self._memory[granule] = bytes(made), told, tag

    def loaded(self, authority: int, address: int, data: bytes) -> None:
        for at, part in _pieces(address, data):
            self._fill(at, part)
            self._access("loaded", (), authority, at, len(part), int.from_bytes(part, "little"))

    def stored(self, authority: int, address: int, data: bytes) -> None:
        for at, part in _pieces(address, data):
            self._access("stored", (), authority, at, len(part), int.from_bytes(part, "little"))
            granule, within = at & ~15, at & 15
            held, told, _ = self._memory.get(granule, (bytes(16), 0, 0))
            told |= (1 << len(part)) - 1 << within
            self._memory[granule] = held[:within] + part + held[within + len(part):], told, 0

    def filled(self, address: int, data: bytes) -> None:
        self.call("filled", address, data)
        self._memory[address] = data, 0xFFFF, 0

    def loaded_cap(self, target: int, authority: int, address: int, held: Held) -> None:
        if not held[0] and address % 16 == 0:
            self._fill(address, (held[1] ^ NULL.word).to_bytes(16, "little"))
        self._access("loaded_cap", (target,), authority, address, self._passed(held))
        self.hold(target, held)

    def swapped(self, register: int, authority: int, address: int, held: Held) -> None:
        """A load of a capability into a register, and a store of what was in it."""
        with self._lent(authority, register) as lent:
            self.loaded_cap(lent, authority, address, held)
            self.stored_cap(register, authority, address)
            self.did(Kind.MOVE, register, lent, 0, 0, held)
            self.call("dropped", _PLACES[lent])

    def stored_cap(self, source: int, authority: int, address: int) -> None:
        self._access("stored_cap", (source,), authority, address)
        tag, word = self.held[source]
        self._memory[address & ~15] = (word ^ NULL.word).to_bytes(16, "little"), 0 if self.vague >> source & 1 else 0xFFFF, tag


class Importer:
    """Takes the lines of a trace, one after another, and tells a recorder what they say. `lines`, `instructions` and `unknown`, the
    lines that weren't understood by their first word, count; `at` is the number of the line at which the last instruction
    begins, and `text` that line. `stop_at_unknown` raises TraceError at a line that isn't understood."""

    def __init__(self, recorder: Recorder, *, stop_at_unknown: bool = False) -> None:
        self.machine, self._stop = Machine(recorder), stop_at_unknown
        self.lines = self.instructions = self.at = self._where = 0
        self.text, self.unknown, self.notes = "", Counter[str](), Counter[str]()

    def take(self, lines: Iterable[str]) -> None:
        """The next lines of the trace; each may have its line feed."""
        with self._located():
            self._lines(lines)

    def end(self) -> None:
        """The end of the trace, and of the log."""
        with self._located():
            self._end()
            if self.instructions == 0:
                raise ValueError("the trace has no instruction")
        self.machine.recorder.end()

    @contextmanager
    def _located(self) -> Iterator[None]:
        """Says of an error the line: that of the instruction that is being finished, or the last one that was read."""
        try:
            yield
        except (ValueError, KeyError, TypeError) as wrong:
            raise TraceError(f"line {self._where or self.lines}: {wrong}") from None

    def _end(self) -> None:
        """What is left to record at the end."""

    def _lines(self, lines: Iterable[str]) -> None:
        raise NotImplementedError

    def _unknown(self, text: str, what: str = "") -> None:
        if self._stop:
            raise ValueError(f"not understood: {text.strip()[:200]}")
        self.unknown[what or (text.split() or [""])[0]] += 1

    def told(self) -> list[str]:
        """What is to be said at the end: what wasn't understood, and what a `yes` says less of."""
        said = [f"not understood: {count} that begin with {word!r}" for word, count in self.unknown.most_common()]
        if self.machine.built:
            said.append(f"taken from a kernel, without a check: {self.machine.built} capabilities")
        return said + [f"{what}: {count}" for what, count in self.notes.most_common()]
