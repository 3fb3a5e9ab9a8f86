"""The importer of events: one JSON object a line, with the operands of each instruction. docs/trace.schema.json has their form."""
from __future__ import annotations

import json
import re
from collections.abc import Iterable
from typing import Any

from .dialects import PCC
from .lines import Kind
from .traces import Held, Importer, word_of
from .words import _mask

_STEPS = {it.name.lower(): it for it in (Kind.MOVE, Kind.CLEARTAG, Kind.SETBOUNDS, Kind.SETBOUNDSEXACT, Kind.SETADDR, Kind.ANDPERM, Kind.SEAL,
                                         Kind.UNSEAL)}
_VALUE = re.compile(r"([01]) ([0-9a-f]{32})", re.A)
_GRANULE = re.compile(r"@([0-9a-f]{16})", re.A)
_FIELDS = ("base", "length", "permissions", "type", "flag", "address")
_MISSING = object()
_PLACES = {f"{kind}{number}": first + number for kind, first in (("c", 0), ("scr", 32)) for number in range(32)}
_DECIMAL_OR_HEXADECIMAL = re.compile("0x[0-9a-fA-F]+|-?[0-9]+", re.A)
_JSON: Any = json.JSONDecoder().scan_once  # type: ignore[attr-defined]


class _Event:
    """An object, of which each key is taken once."""

    def __init__(self, given: dict[str, Any]) -> None:
        self.given = given

    def take(self, key: str, default: Any = _MISSING) -> Any:
        try:
            return self.given.pop(key)
        except KeyError:
            if default is _MISSING:
                raise ValueError(f"the key {key!r} is missing") from None
            return default

    def number(self, key: str, default: Any = _MISSING) -> int:
        """A number: as JSON has it, or a string such as "0x1000"."""
        return _number(self.take(key, default), key)

    def data(self, key: str, size: int) -> bytes:
        if (number := self.number(key)) >= 256**size:
            raise ValueError(f"{key} {number:#x} has more than {size} bytes")
        return number.to_bytes(size, "little")

    def place(self, key: str, most: int = 32) -> int:
        """A register, special or not."""
        name = self.take(key)
        place = _PLACES.get(name) if isinstance(name, str) else None
        if place is None:
            raise ValueError(f"{key} {name!r} is no register, such as c3 or scr0")
        if place >= most:
            raise ValueError(f"{key} {name!r} is a special register")
        return place

    def special(self, key: str) -> int:
        if (place := self.place(key, 64)) < 32:
            raise ValueError(f"{key} c{place} is no special register")
        return place

    def value(self, key: str) -> Held:
        """A capability: its tag and word, or its fields."""
        said = self.take(key)
        if isinstance(said, str) and _VALUE.fullmatch(said):
            return int(said[0]), int(said[2:], 16)
        if not isinstance(said, dict):
            raise ValueError(f"{key} {said!r} is neither a tag and a word, as in a log, nor an object of fields")
        if unknown := sorted(set(said) - {"tag", *_FIELDS}):
            raise ValueError(f"{key} has no field {unknown[0]!r}")
        fields = {name: _number(said[name], name) for name in _FIELDS if name in said}
        return _number(said.get("tag", 1), "tag") & 1, word_of(fields)


def _number(said: Any, name: str) -> int:
    if isinstance(said, int):
        return said
    if isinstance(said, str) and _DECIMAL_OR_HEXADECIMAL.fullmatch(said):
        return int(said, 16 if said[:2] == "0x" else 10)
    raise ValueError(f"{name} is no number")


def _object(text: str) -> dict[str, Any]:
    """The object of a line without blanks at its ends."""
    try:
        given, end = _JSON(text, 0)
    except (StopIteration, json.JSONDecodeError):
        given, end = None, 0
    if end == len(text) and isinstance(given, dict):
        return given
    try:
        json.loads(text)
    except json.JSONDecodeError as wrong:
        raise ValueError(f"it isn't a JSON object: {wrong.msg}, column {wrong.colno}") from None
    raise ValueError("it isn't a JSON object")


class Events(Importer):
    """The importer of events."""

    def __init__(self, *words: Any, **named: Any) -> None:
        super().__init__(*words, **named)
        self._last: int | None = None

    def _lines(self, lines: Iterable[str]) -> None:
        for text in lines:
            self.lines += 1
            if text := text.strip():
                self._line(text)

    def _line(self, text: str) -> None:
        given = _object(text)
        event = _Event(given)
        self.at, self.text = self.lines, text
        if "n" in given:
            number = event.number("n")
            if self._last is not None and number != self._last + 1:
                raise ValueError(f"the trace was cut: n {number} doesn't follow {self._last}")
            self._last = number
        do = event.take("do")
        if do in _STEPS:
            self._step(_STEPS[do], event)
        elif (take := getattr(self, f"_take_{do}", None)) is None:
            self._unknown(text, str(do))
            return
        else:
            take(event)
        if given and (more := given.keys() - {"pc", "note"}):
            raise ValueError(f"{do} has no key {min(more)!r}")
        if do != "root":
            self.instructions += 1
        if do == "kernel":
            self.machine.kernel = 1
        elif self.machine.kernel:
            self.machine.kernel -= 1

    def _step(self, kind: Kind, it: _Event) -> None:
        other = number = 0
        if kind in (Kind.SEAL, Kind.UNSEAL):
            other = it.place("other")
        elif kind == Kind.ANDPERM:
            number = _mask(it.number("number"))
        elif kind not in (Kind.MOVE, Kind.CLEARTAG):
            number = it.number("number") % 2**64
        self.machine.step(kind, it.place("target"), it.place("source"), other, number, it.value("value"))

    def _take_root(self, it: _Event) -> None:
        tag, word = it.value("value")
        if not tag:
            raise ValueError("a root has a tag")
        if granule := _GRANULE.fullmatch(str(it.given.get("place"))):
            it.take("place")
            self.machine.granule_root(int(granule[1], 16), word)
        else:
            self.machine.root(it.place("place", 64), word)

    def _take_derive(self, it: _Event) -> None:
        self.machine.derive(it.place("target", 64), (it.place("source", 64),), it.value("value"))

    def _take_integer(self, it: _Event) -> None:
        self.machine.overwrote(it.place("target"), it.number("number") % 2**64)

    def _take_exchange(self, it: _Event) -> None:
        """CJALR and CSpecialRW. A missing source: it only reads; the target c0: it only writes."""
        special = it.special("special") if "special" in it.given else PCC
        target, source = it.place("target"), it.place("source") if it.given.get("source") else it.take("source", None)
        held = it.value("value") if target or "value" in it.given else (0, 0)
        self.machine.exchanged(target, source, special, held, it.value("special_value") if source is not None else (0, 0))

    def _take_invoke(self, it: _Event) -> None:
        self.machine.invoked(it.place("code"), it.place("datum"), it.value("code_value")[1], it.value("datum_value")[1])

    def _take_trap(self, it: _Event) -> None:
        self.machine.trapped(it.special("saved"), it.value("saved_value"), it.special("vector"), it.value("value"))
        self.machine.kernel = 2

    def _take_return(self, it: _Event) -> None:
        self.machine.trapped(None, (0, 0), it.special("saved"), it.value("value"))

    def _take_kernel(self, it: _Event) -> None:
        """A system call: what follows it may be a kernel's."""

    def _address(self, authority: int, it: _Event) -> int:
        if "offset" in it.given:
            return (self.machine.held[authority][1] + it.number("offset")) % 2**64
        return it.number("address") % 2**64

    def _take_load(self, it: _Event) -> None:
        authority = it.place("authority", 64)
        self.machine.loaded(authority, self._address(authority, it), it.data("number", it.number("size")))

    def _take_store(self, it: _Event) -> None:
        authority = it.place("authority", 64)
        self.machine.stored(authority, self._address(authority, it), it.data("number", it.number("size")))

    def _take_lc(self, it: _Event) -> None:
        authority = it.place("authority", 64)
        self.machine.loaded_cap(it.place("target"), authority, self._address(authority, it), it.value("value"))

    def _take_sc(self, it: _Event) -> None:
        authority = it.place("authority", 64)
        self.machine.stored_cap(it.place("source"), authority, self._address(authority, it))

    def _take_drop(self, it: _Event) -> None:
        if granule := _GRANULE.fullmatch(str(it.given.get("place"))):
            it.take("place")
            self.machine.granule_dropped(int(granule[1], 16))
        else:
            self.machine.dropped(it.place("place", 64))

    def _take_fill(self, it: _Event) -> None:
        self.machine.filled(it.number("address"), bytes.fromhex(it.take("memory")))

    def _take_object(self, it: _Event) -> None:
        self.machine.call("object", it.place("target"), it.number("number", 0))

    def _take_free(self, it: _Event) -> None:
        self.machine.call("freed", it.place("target") if "target" in it.given else 0, it.number("number", 0))
