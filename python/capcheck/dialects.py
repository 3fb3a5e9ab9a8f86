"""Dialects of traces: which line is what, by regular expressions with named groups. docs/TRACES.md has the keys."""
from __future__ import annotations

import json
import re
from pathlib import Path
from typing import Any

from .lines import Kind

FOLDER = Path(__file__).resolve().parent / "dialects"
EVENTS = "events"
PCC, DDC = 32, 33  # Places are numbers: c0 to c31, then scr0 to scr31, then x0 to x31, the integers in c0 to c31.
_FIRST = {"c": 0, "scr": 32, "x": 64}
_VALUE = {"tag", "word", "high", "address", "base", "length", "offset", "permissions", "type", "flag", "sealed"}
# What a line may be: the groups that its form must have, and those that it may have.
_LINES: dict[str, tuple[set[str], set[str]]] = {
    "instruction": ({"mnemonic"}, {"hart", "pc", "operands"}), "capability": ({"register"}, _VALUE | {"fields"}),
    "more": (set(), _VALUE | {"fields"}), "integer": ({"register", "value"}, set()), "trap": (set(), {"completed"}), "mode": ({"mode"}, set()),
    "load": ({"at", "value"}, {"size"}), "store": ({"at", "value"}, {"size"}),
    "load_capability": ({"at"}, _VALUE | {"fields"}), "store_capability": ({"at"}, _VALUE | {"fields"}), "nothing": (set(), set()),
}
# The kinds of instructions: the operands of each, where a dialect doesn't say them.
KINDS = {
    **dict.fromkeys(("move", "cleartag", "jump", "invoke"), "1 2"), "derive": "", "pcc": "1", "special": "1 2 3",
    **dict.fromkeys(("setbounds", "setboundsexact", "setaddr", "incoffset", "setoffset", "fromptr", "andperm", "seal", "ccseal", "unseal",
                     "copytype"), "1 2 3"),
    "return": "scr31", "call": "", "access": "",
}
STEPS = {"move": Kind.MOVE, "cleartag": Kind.CLEARTAG, "setbounds": Kind.SETBOUNDS, "setboundsexact": Kind.SETBOUNDSEXACT,
         "setaddr": Kind.SETADDR, "incoffset": Kind.SETADDR, "setoffset": Kind.SETADDR, "fromptr": Kind.SETADDR, "copytype": Kind.SETADDR,
         "andperm": Kind.ANDPERM, "seal": Kind.SEAL, "ccseal": Kind.SEAL, "unseal": Kind.UNSEAL}
# After an instruction of these kinds comes the next one in memory, unless it traps.
STRAIGHT = {*STEPS, "derive", "access", "special"}
_PLACE = re.compile(r"(c|scr|x)([0-9]|[12][0-9]|3[01])", re.A)
_KEYS = {"about", "mode", "roots", "lines", "fields", "keys", "registers", "kinds", "modes"}


class DialectError(ValueError):
    """A dialect that can't be read: what is wrong, and where."""


class _Keys(dict[str, Any]):
    """The fields of keys, in upper and lower case; None for a key that has none."""

    def __missing__(self, key: str) -> str | None:
        return self.setdefault(key, self.get(key.lower()))


def place_of(name: str) -> int | None:
    """The number of a place that is named as in a log, or xN; None if it has no such name."""
    if not (named := _PLACE.fullmatch(name)):
        return None
    return _FIRST[named[1]] + int(named[2])


class Dialect:
    """A dialect that was read: `forms` are the lines' kinds with their expressions, `registers` the places of names, and `kinds`
    the kind of each mnemonic with its operands: positions counted from 0, or places as negative numbers, -1 for place 0."""

    def __init__(self, name: str, given: Any) -> None:
        self.name = name
        self._known(given, "", _KEYS)
        self.clear = self._choice(given, "mode", {"clear": True, "strict": False}, "clear")
        self.roots = {self._place(name, f"roots.{name}"): self._word(word, f"roots.{name}")
                      for name, word in self._object(given, "roots").items()}
        self.registers: dict[str, int | None] = {f"{kind}{number}": first + number for kind, first in _FIRST.items() for number in range(32)}
        for name, place in self._object(given, "registers").items():
            self.registers[name.lower()] = None if place is None else self._place(place, f"registers.{name}")
        self.kinds = {name.lower(): self._kind(words, f"kinds.{name}") for name, words in self._object(given, "kinds").items()}
        self.keys = _Keys()
        for key, field in self._object(given, "keys").items():
            if field not in _VALUE:
                raise self._error(f"keys.{key}", f"{field!r} is no field: {', '.join(sorted(_VALUE))}")
            self.keys[key.lower()] = field
        self.fields = self._form(given.get("fields", r"(?P<key>\w+):(?P<value>[0-9a-f]+)"), "fields", {"key", "value"}, set())
        if self.fields.groups != 2 or self.fields.groupindex["key"] != 1:
            raise self._error("fields", "its groups are key and then value, and no others")
        self.modes = {mode.lower(): tuple(self._place(it, f"modes.{mode}") for it in places) for mode, places in self._object(given, "modes").items()}
        self.forms = [self._line(line, f"lines[{index}]") for index, line in enumerate(given.get("lines", []))]
        if not any(kind == "instruction" for kind, _ in self.forms):
            raise self._error("lines", "no line is an instruction")

    def _error(self, place: str, wrong: str) -> DialectError:
        return DialectError(f"{self.name}: {place}: {wrong}" if place else f"{self.name}: {wrong}")

    def _known(self, given: Any, place: str, keys: set[str]) -> None:
        if not isinstance(given, dict):
            raise self._error(place, "it isn't an object")
        if unknown := sorted(set(given) - keys):
            raise self._error(place, f"unknown key {unknown[0]!r}; the keys are {', '.join(sorted(keys))}")

    def _object(self, given: dict[str, Any], key: str) -> dict[str, Any]:
        if not isinstance(found := given.get(key, {}), dict):
            raise self._error(key, "it isn't an object")
        return found

    def _choice(self, given: dict[str, Any], key: str, choices: dict[str, Any], default: str) -> Any:
        if (said := given.get(key, default)) not in choices:
            raise self._error(key, f"{said!r} is none of {', '.join(choices)}")
        return choices[said]

    def _place(self, name: Any, place: str) -> int:
        if not isinstance(name, str) or (found := place_of(name)) is None:
            raise self._error(place, f"{name!r} is no register: c0 to c31, x0 to x31 for the integers in them, scr0 to scr31")
        return found

    def _word(self, word: Any, place: str) -> int:
        if not isinstance(word, str) or not re.fullmatch("[0-9a-f]{32}", word, re.A):
            raise self._error(place, f"{word!r} isn't a word of 32 hexadecimal digits")
        return int(word, 16)

    def _kind(self, said: Any, place: str) -> tuple[str, tuple[int, ...]]:
        kind, _, operands = said.partition(" ") if isinstance(said, str) else ("", "", "")
        if kind not in KINDS:
            raise self._error(place, f"{said!r} isn't one of {', '.join(KINDS)}, perhaps with operands")
        return kind, tuple(int(it) - 1 if it.isdecimal() and it != "0" else -1 - self._place(it, place)
                           for it in (operands or KINDS[kind]).split())

    def _form(self, form: Any, place: str, must: set[str], may: set[str]) -> re.Pattern[str]:
        try:
            made = re.compile(form, re.I | re.A)
            groups = set(made.groupindex)
            if "mnemonic" in must:  # Each group is there, if only unmatched.
                made = re.compile(form + "".join(f"(?P<{name}>(?!))?" for name in sorted(may - groups)), re.I | re.A)
        except (re.error, TypeError) as error:
            raise self._error(place, f"{error}") from None
        if lacks := sorted(must - groups):
            raise self._error(place, f"the group {lacks[0]!r} is missing")
        if unknown := sorted(groups - must - may):
            raise self._error(place, f"there is no group {unknown[0]!r}; the groups are {', '.join(sorted(must | may))}")
        return made

    def _line(self, line: Any, place: str) -> tuple[str, re.Pattern[str]]:
        self._known(line, place, {"is", "form"})
        if (kind := line.get("is")) not in _LINES:
            raise self._error(f"{place}.is", f"{kind!r} is none of {', '.join(_LINES)}")
        return kind, self._form(line.get("form"), f"{place}.form", *_LINES[kind])


def shipped() -> list[str]:
    """The names of the dialects that ship."""
    return [EVENTS, *sorted(it.stem for it in FOLDER.glob("*.json"))]


def load(named: str) -> Dialect | None:
    """The dialect of a name, or in a file; None for events. DialectError if there is none, or what is wrong in it."""
    if named == EVENTS:
        return None
    file = FOLDER / f"{named}.json"
    if not file.exists():
        file = Path(named)
        if not file.exists():
            raise DialectError(f"there is no dialect {named!r}: name one of {', '.join(shipped())}, or a file")
    try:
        return Dialect(named, json.loads(file.read_text(encoding="utf-8")))
    except json.JSONDecodeError as error:
        raise DialectError(f"{named}: line {error.lineno}, column {error.colno}: {error.msg}") from None
    except UnicodeDecodeError as error:
        raise DialectError(f"{named}: {error}") from None
