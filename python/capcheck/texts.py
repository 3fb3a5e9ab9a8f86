"""The importer of traces in a dialect: what each instruction read and wrote, line by line."""
from __future__ import annotations

import re
from collections.abc import Callable, Iterable, Sequence
from typing import Any, NamedTuple

from . import _abi
from ._abi import words as _words
from .dialects import DDC, PCC, STEPS, STRAIGHT, Dialect
from .lines import Kind
from .recording import Recorder
from .traces import _LOW, _NULL_HIGH, _TYPE, _UNSEALED, Held, Importer, _name, _shown, _unsealed, shows, word_of
from .words import NULL

_MOST_LINES = 2**16  # So many parsed lines are kept.
_ARGUMENT, _LINK, _STACK = 10, 1, 2  # Of RISC-V's calls.
_PLACES = {"pcc": 1, "return": 1, "jump": 2, "invoke": 2, "special": 3}  # So many operands of a kind are registers; two of a step.
_TOKEN, _AUTHORITY = re.compile(r"[^\s,()]+"), re.compile(r"\((\w+)\)")
Operand = tuple[int | None, int | None]  # A place, or a number.


class _Plan(NamedTuple):
    """What an instruction does: its kind and that kind's operands, all operands that are places, the authority of its accesses,
    its mnemonic, and what `did` takes of a usual step."""
    kind: str
    wanted: list[Operand]
    places: list[int]
    authority: int | None
    mnemonic: str
    quick: tuple[int, ...] | None


def _bounds(word: int) -> tuple[int, int]:
    bounds = _words.capcheck_decode(_abi.Wide.of(word))
    return bounds.base, int(bounds.top)


def _quick(kind: str, wanted: list[Operand]) -> tuple[int, ...] | None:
    """Of a step: the kind of line, target, source, authority, whether the source's address is added, and the operand: a
    register, or 0 and a number. None if it needs more than that."""
    if kind not in STEPS or kind in ("setoffset", "fromptr", "copytype", "ccseal") or wanted[0][0] is None or wanted[1][0] is None:
        return None
    operand, number = wanted[2] if len(wanted) > 2 else (None, 0)
    if operand is None and number is None:
        return None
    register = 0 if operand is None else operand % 64
    if kind in ("seal", "unseal"):
        return int(STEPS[kind]), wanted[0][0] % 64, wanted[1][0] % 64, register, 0, 0, 0
    return int(STEPS[kind]), wanted[0][0] % 64, wanted[1][0] % 64, 0, kind == "incoffset", register, number or 0


class _Call(NamedTuple):
    """A call of an allocator that hasn't returned: where to, the stack's address, and what realloc gets: the number of the object, its
    address and its bounds."""
    back: int
    stack: int
    number: int
    address: int
    bounds: tuple[int, int]


class Text(Importer):
    """The importer of a dialect. `hart` is the one that is read, by default that of the first instruction. At the addresses
    `malloc` a function begins that returns a new object, at `free` one that frees its argument, at `realloc` one that does both."""

    def __init__(self, recorder: Recorder, dialect: Dialect, *, hart: str | None = None, malloc: Sequence[int] = (), free: Sequence[int] = (),
                 realloc: Sequence[int] = (), **words: Any) -> None:
        super().__init__(recorder, **words)
        self._dialect, self._hart, self._free, self._realloc = dialect, hart, frozenset(free), frozenset(realloc)
        self._watched = frozenset(malloc) | self._free | self._realloc
        self._call: _Call | None = None
        self._numbers: dict[int, int] = {}  # Of an object by its address.
        self._made = 0
        self._forms = [(kind, form.fullmatch) for kind, form in dialect.forms if kind != "instruction"]
        self._goes_on = next((form for kind, form in self._forms if kind == "more"), None)
        self._begins = next(form for kind, form in dialect.forms if kind == "instruction").fullmatch
        self._parsed: dict[str, tuple[Any, ...]] = {}
        self._joined: dict[tuple[str, str], tuple[Any, ...] | None] = {}
        self._plans: dict[tuple[str, str | None], _Plan] = {}
        self._now: Any = None  # What the instruction does that the next lines belong to, and its address.
        self._pc: int | None = None
        self._effects: list[tuple[Any, ...]] = []
        self._accessed = False  # Whether one of them isn't about a register.
        self._of_another = self._is_open = False  # Whether the last line is a capability, which the next one may go on with.
        self._trapped = False
        self._level = next(iter(dialect.modes.values()), None)  # Where a trap saves PCC, and its vector.
        self._mask: int | None = None
        self._swapped: int | None = None
        self._taken: tuple[Any, ...] | None = None

    # ---- Lines ----

    def _lines(self, lines: Iterable[str]) -> None:
        known, joined, goes_on, begin, take = self._parsed, self._joined, self._goes_on is not None, self._begin, self._take
        is_open, number, last = self._is_open, self.lines, ""
        try:
            for text in lines:
                number += 1
                if is_open and goes_on:
                    effect = joined[last, text] if (last, text) in joined else self._join(last, text)
                    if effect is not None:
                        self._effects[-1] = effect
                        is_open = False
                        continue
                last = text
                parsed = known.get(text) or self._parse(text)
                if parsed[0] == "instruction":
                    is_open, self.lines = False, number
                    begin(parsed, text)
                else:
                    is_open = take(parsed, text)
        finally:
            self._is_open, self.lines = is_open, number

    def _join(self, last: str, text: str) -> tuple[Any, ...] | None:
        """The last capability with what a line goes on with; None if it is another line."""
        effect: tuple[Any, ...] | None = None
        if self._goes_on is not None and (found := self._goes_on(text.rstrip("\r\n"))):
            what, place, fields = self._effects[-1]
            effect = what, place, {name: it for name, it in fields.items() if name != "made"} | self._fields(found.groupdict())
        if last:
            if len(self._joined) == _MOST_LINES:
                self._joined.clear()
            self._joined[last, text] = effect
        return effect

    def _parse(self, text: str) -> tuple[Any, ...]:
        """What a line says: its kind, and of an instruction the hart, the address and what it does."""
        if len(self._parsed) == _MOST_LINES:
            self._parsed.clear()
        line = text.rstrip("\r\n")
        if found := self._begins(line):
            hart, address, mnemonic, operands = found.group("hart", "pc", "mnemonic", "operands")
            if (plan := self._plans.get((mnemonic, operands))) is None:
                plan = self._plans[mnemonic, operands] = self._plan(mnemonic, operands)
            parsed: tuple[Any, ...] = "instruction", hart, None if address is None else int(address, 16), plan
        else:
            parsed = self._read(line)
        self._parsed[text] = parsed
        return parsed

    def _take(self, parsed: tuple[Any, ...], text: str) -> bool:
        """Takes a line that was read and isn't an instruction's. Returns whether it is a capability."""
        kind = parsed[0]
        if kind == "capability" or kind == "integer":
            if self._of_another:
                return False
            self._effects.append(parsed)
            return kind == "capability"
        if kind == "unknown":
            self._unknown(text)
        elif self._of_another or kind in ("nothing", "more"):
            return False
        elif kind == "trap":
            self._finish(None, parsed[1] is not None)
            self._now, self._trapped, self._effects, self._accessed, self.machine.kernel = None, True, [], False, 1
        elif kind == "mode":
            self._level = self._mode(parsed[1])
        else:
            self._effects.append(parsed)
            self._accessed = True
        return False

    def _mode(self, mode: str) -> tuple[int, ...]:
        if len(found := self._dialect.modes.get(mode.lower(), ())) != 2:
            raise ValueError(f"the dialect doesn't say where mode {mode} saves PCC, and its vector")
        return found

    def _read(self, text: str) -> tuple[Any, ...]:
        """What a line says that isn't an instruction's."""
        for kind, form in self._forms:
            if found := form(text):
                break
        else:
            return ("unknown",)
        groups = {name: it for name, it in found.groupdict().items() if it is not None}
        if kind in ("capability", "integer"):
            name = groups.pop("register").lower()
            if name not in self._dialect.registers:
                return ("unknown",)
            place = self._dialect.registers[name]
            if place is None:
                return ("nothing",)
            return kind, place % 64, int(groups["value"], 16) if kind == "integer" else self._fields(groups)
        if kind in ("load", "store"):
            value = groups["value"]
            size = int(groups["size"]) if "size" in groups else (len(value) + 1) // 2
            return kind, int(groups["at"], 16), int(value, 16).to_bytes(size, "little")
        if kind in ("load_capability", "store_capability"):
            return kind, int(groups.pop("at"), 16), self._fields(groups)
        return kind, groups.get("mode", groups.get("completed"))

    def _fields(self, groups: dict[str, str]) -> dict[str, int]:
        known, rest = self._dialect.keys, groups.pop("fields", "")
        found = {known[key]: int(value, 16) for key, value in self._dialect.fields.findall(rest)}
        found.pop(None, None)
        for name, value in groups.items():
            if value is not None:
                found[name] = int(value, 16)
        return found

    def _plan(self, mnemonic: str, operands: str | None) -> _Plan:
        """What an instruction does, by its text."""
        found = [self._operand(it) for it in _TOKEN.findall(operands or "")]
        kind, positions = self._dialect.kinds.get(mnemonic.lower(), ("", ()))
        wanted: list[Any] = [(-1 - it, 0) if it < 0 else found[it] if it < len(found) else None for it in positions]
        authority = _AUTHORITY.search(operands or "")
        place = None if authority is None else self._operand(authority[1])[0]
        if kind == "jump" and place is not None and len(wanted) == 2:
            wanted[1] = place, None
        if kind and (None in wanted or any(it[0] is None for it in wanted[:_PLACES.get(kind, 2 if kind in STEPS else 0)])):
            self.notes[f"operands that weren't understood: {mnemonic} {operands}"] += 1
            kind, wanted = "", []
        places = [it % 64 for it, _ in found if it is not None]
        return _Plan(kind, wanted, places, DDC if place is not None and place >= 64 else place, mnemonic, _quick(kind, wanted))

    def _operand(self, token: str) -> Operand:
        """A place, or a number."""
        if (place := self._dialect.registers.get(token.lower())) is not None:
            return place, None
        try:
            return None, int(token, 0)
        except ValueError:
            return None, None

    # ---- Instructions ----

    def _begin(self, parsed: tuple[Any, ...], text: str) -> None:
        _, hart, pc, plan = parsed
        if hart != self._hart:
            if self._hart is not None:
                self._of_another = True
                self.notes["instructions of other harts, left out"] += 1
                return
            self._hart = hart
        self._of_another = False
        before, last = self._now, self._pc
        self._finish(pc)
        follows = pc is None or last is None or pc - last == 4 or pc - last == 2
        if not follows and before and before.kind in STRAIGHT:
            raise ValueError(f"the trace was cut: {pc:#x} doesn't follow {last:#x}, line {self.at}")
        self._now, self._pc, self._effects, self._accessed = plan, pc, [], False
        self.instructions += 1
        self.at, self.text = self.lines, text
        if not follows and (pc in self._watched or self._call is not None and pc == self._call.back):
            self._object(pc)

    def _object(self, pc: int | None) -> None:
        """Tells of objects, by the addresses of an allocator's functions. What such a function calls itself isn't followed."""
        held, call = self.machine.held, self._call
        tag, word = held[_ARGUMENT]
        address, stack = word & _LOW, held[_STACK][1] & _LOW
        if call is not None and pc == call.back:
            self._call = None
            if tag:
                self._returned(call, address, _bounds(word))
        elif call is not None and stack <= call.stack:
            return
        elif pc in self._free:
            if tag:
                self._numbers.pop(address, None)
                self.machine.call("freed", _ARGUMENT, 0)
        else:
            number = self._numbers.get(address, 0) if tag and pc in self._realloc else 0
            self._call = _Call(held[_LINK][1] & _LOW, stack, number, address, _bounds(word))

    def _returned(self, call: _Call, address: int, bounds: tuple[int, int]) -> None:
        """A call returned a capability: of a new object, or of the one that realloc got."""
        if call.number and address == call.address:
            if bounds[0] < call.bounds[0] or call.bounds[1] < bounds[1]:  # Otherwise it may have its owner already.
                self.machine.call("object", _ARGUMENT, call.number)
            return
        if call.number:
            del self._numbers[call.address]
            self.machine.call("freed", 0, call.number)
        self._made += 1
        self._numbers[address] = self._made
        self.machine.call("object", _ARGUMENT, 0)

    def _end(self) -> None:
        self._finish(None)

    def _held(self, fields: dict[str, int], likely: int | None = None) -> Held:
        """The capability of fields. An untagged one is the likely word, if that has these fields: they don't show all bits."""
        if "tag" not in fields:
            raise ValueError(f"the field tag is missing: {_shown(fields)}")
        tag = fields["tag"] & 1
        if "word" in fields:
            return tag, fields["word"]
        if "high" in fields and "address" in fields:
            mask = self._mask if self._mask is not None else 0 if fields["high"] else _NULL_HIGH
            return tag, (fields["high"] ^ mask) << 64 | fields["address"]
        try:
            if (word := fields.get("made")) is None:
                word = fields["made"] = word_of(fields)
            if tag or likely is None or word == likely or not shows(likely, fields):
                return tag, word
            return 0, likely
        except ValueError:
            if tag or not ("address" in fields or "base" in fields and "offset" in fields):
                raise
        if likely is not None and shows(likely, fields):
            return 0, likely
        self.notes["untagged words whose fields no word has"] += 1
        return -1, _NULL_HIGH << 64 | fields.get("address", (fields.get("base", 0) + fields.get("offset", 0)) & _LOW)

    def _halves(self, fields: dict[str, int], is_it: Callable[[int], bool]) -> None:
        """Sees how the upper half of a word in memory is printed, as it is or with NULL's as 0, by a word that is known."""
        if self._mask is None and "high" in fields and "address" in fields:
            fit = [mask for mask in (0, _NULL_HIGH) if is_it((fields["high"] ^ mask) << 64 | fields["address"])]
            if len(fit) == 1:
                self._mask = fit[0]

    def _finish(self, next_pc: int | None, completed: bool = True) -> None:
        """Records the instruction whose lines have been read, or what came before the first one."""
        machine, effects, self._where = self.machine, self._effects, self.at
        if self._trapped:
            self._trap(next_pc)
        elif self._now is None:
            if not self.instructions:
                self._roots()
        else:
            if self._accessed:
                effects = self._accesses(effects)
            if effects or self._now.kind not in ("", "access"):
                if len(effects) != 1 or machine.kernel or not self._quickly(effects[0]):
                    machine.kernel = 2 if self._now.kind == "call" else machine.kernel
                    self._results(effects, next_pc, completed)
            if machine.kernel:
                machine.kernel -= 1
        self._where = 0

    def _roots(self) -> None:
        """What the registers hold before the first instruction: the dialect's roots, unless the trace says it."""
        machine = self.machine
        held = {place: self._held(value) if what == "capability" else (0, _NULL_HIGH << 64 | value)
                for what, place, value in self._effects if what in ("capability", "integer")}
        for place, word in self._dialect.roots.items():
            held.setdefault(place, (1, word))
        for place, (tag, word) in sorted(held.items()):
            if tag:
                machine.root(place, word)
        for place, value in held.items():
            if not value[0] and place < 32:
                machine.derive(place, (), value)

    def _quickly(self, effect: tuple[Any, ...]) -> bool:
        """Records an instruction that wrote one register, and nothing else, if it is a usual one. What `_results` would do."""
        machine, (what, place, value), (kind, _, _, _, _, quick) = self.machine, effect, self._now
        if what == "integer":
            if place >= 32 or kind != "" and kind != "access":
                return False
            machine.overwrote(place, value)
            return True
        if what != "capability" or quick is None:
            return False
        step, target, source, other, adds, operand, number = quick
        if place != target or machine.vague or operand and not machine.told >> operand & 1:
            return False
        if operand:
            number = machine.held[operand][1]
        if adds:
            number += machine.held[source][1]
        number &= _LOW
        if value.get("tag") == 1 and "base" in value:
            if (word := value.get("made")) is None:
                word = value["made"] = word_of(value)
            held = 1, word
        else:
            held = self._held(value, machine.expected(step, source, other, number))
            if held[0] < 0:
                return False
        machine.did(step, target, source, other, number, held)
        return True

    def _trap(self, next_pc: int | None) -> None:
        self._trapped = False
        if self._level is None:
            return
        machine, pc, (saved, vector) = self.machine, self._pc, self._level
        written = {place: self._held(fields) for what, place, fields in self._effects if what == "capability"}
        tag, word = machine.held[PCC]
        saved_held = written.pop(saved, (tag, word if pc is None else word & ~_LOW | pc))
        tag, word = machine.held[vector]
        machine.trapped(saved, saved_held, vector, written.pop(PCC, (tag, _unsealed(word, word & _LOW if next_pc is None else next_pc))))
        for place, held in written.items():
            machine.derive(place, (), held)

    def _accesses(self, effects: list[tuple[Any, ...]]) -> list[tuple[Any, ...]]:
        """Records the accesses among the lines of an instruction, and returns the other lines."""
        machine, (_, _, places, authority, mnemonic, _) = self.machine, self._now
        rest, self._swapped, self._taken = [], None, None
        for index, effect in enumerate(effects):
            what, at, value = effect
            if what in ("capability", "integer"):
                rest.append(effect)
                continue
            if authority is None:
                raise ValueError(f"{mnemonic}: no operand in parentheses says through which register it accesses memory")
            if what == "load":
                machine.loaded(authority, at, value)
            elif what == "store":
                machine.stored(authority, at, value)
            elif what == "store_capability":
                source = self._stored(places)
                self._halves(value, machine.held[source][1].__eq__)
                if source != self._swapped:
                    machine.stored_cap(source, authority, at)
            else:
                self._loaded_cap(effects, index, places)
        return [it for it in rest if it is not self._taken]

    def _stored(self, places: list[int]) -> int:
        """The register of a store: the last operand before the authority."""
        return places[-2] if len(places) > 1 else 0

    def _loaded_cap(self, effects: list[tuple[Any, ...]], index: int, places: list[int]) -> None:
        machine, authority, (_, at, fields) = self.machine, self._now.authority, effects[index]
        target = places[0]
        self._taken = next((it for it in effects if it[0] in ("capability", "integer") and it[1] == target), None)
        if self._taken is not None and self._taken[0] == "capability":
            shown = self._taken[2]
            self._halves(fields, lambda word: shows(word, shown))
            written = self._held(shown, self._held(fields)[1] if "tag" in fields else None)
        else:
            written = self._held(fields) if "tag" in fields else (0, NULL.word if self._taken is None else _NULL_HIGH << 64 | self._taken[2])
            target = target if self._taken else 0
        if target and target == self._stored(places) and any(it[0] == "store_capability" for it in effects[index:]):
            self._swapped = target
            machine.swapped(target, authority, at, written)
        else:
            machine.loaded_cap(target, authority, at, written)

    def _results(self, effects: list[tuple[Any, ...]], next_pc: int | None, completed: bool) -> None:
        """Records what an instruction wrote into registers. One that trapped has only what it printed."""
        machine, (kind, wanted, places, _, mnemonic, _) = self.machine, self._now
        written = {place: value for what, place, value in effects if what == "capability"}
        if kind in STEPS:
            target = wanted[0][0] % 64
            if target in written:
                self._step(kind, target, wanted, written.pop(target))
        elif kind and (completed or written) and kind not in ("derive", "access", "call"):
            self._changed_pcc(kind, wanted, written, next_pc)
        for place, value in written.items():
            held = self._held(value)
            if held[0] == 0 and held[1] >> 64 == _NULL_HIGH and place < 32:
                machine.overwrote(place, held[1] & _LOW)
                continue
            sources = [it[0] % 64 for it in wanted if it[0] is not None] if kind == "derive" else places[1:] or places
            if kind not in ("derive", "access"):
                self.notes[f"recorded as derived, not known: {mnemonic}"] += 1
            machine.derive(place, sources, held)
        for what, place, value in effects:
            if what == "integer" and place < 32:
                machine.overwrote(place, value)

    def _number(self, operand: Operand) -> int | None:
        """The number of an operand; None if no line told it."""
        place, number = operand
        if place is None:
            return None if number is None else number & _LOW
        return self.machine.held[place % 64][1] & _LOW if place % 64 >= 32 or self.machine.told >> place % 64 & 1 else None

    def _step(self, kind: str, target: int, wanted: list[Operand], fields: dict[str, int]) -> None:
        """Records a step with its own operand."""
        machine, source = self.machine, (wanted[1][0] or 0) % 64
        other, step = 0, STEPS[kind]
        number: Any = 0
        if kind in ("seal", "ccseal", "unseal"):
            other = (wanted[2][0] or 0) % 64
            if kind == "ccseal" and self._held(fields)[1] & _TYPE == machine.held[source][1] & _TYPE:
                step = Kind.MOVE
        elif kind == "copytype":
            number = machine.held[(wanted[2][0] or 0) % 64][1] >> 91 & _UNSEALED
            if number == _UNSEALED:  # NULL, whose address is 2^64 - 1.
                source, number = 0, _LOW
        elif kind == "fromptr" and self._number(wanted[2]) == 0:
            source = 0
        elif kind == "fromptr" and source == 0:
            machine.derive(target, (DDC,), self._held(fields))
            return
        elif len(wanted) > 2:
            number = self._number(wanted[2])
            if number is None:
                self.notes["recorded as derived, no line told their operand"] += 1
                machine.derive(target, (source,), self._held(fields))
                return
            tag, word = machine.held[source]
            if kind == "incoffset":
                number = (word + number) & _LOW
            elif kind in ("setoffset", "fromptr"):
                number = (_words.capcheck_decode(_abi.Wide(word >> 64, word & _LOW)).base + number) & _LOW
        held = self._held(fields, machine.expected(step, source, other, number) if not fields.get("tag") else None)
        if held[0] < 0 or machine.vague >> source & 1:
            machine.derive(target, (source,), held)
        else:
            machine.step(step, target, source, other, number, held)

    def _changed_pcc(self, kind: str, wanted: list[Any], fields: dict[int, dict[str, int]], next_pc: int | None) -> None:
        """Records a jump, a return, an invocation, CSpecialRW, and what is derived from PCC. What it records is no longer in `fields`."""
        machine = self.machine
        written = {place: self._held(value, machine.held[wanted[1][0] % 64][1] if kind == "special" and place == wanted[0][0] else None)
                   for place, value in fields.items()}
        at: Any = [(it[0] or 0) % 64 for it in wanted]
        if kind in ("jump", "special") and at[0] and at[0] not in written:
            raise ValueError(f"what {self._now.mnemonic} wrote into {_name(at[0])} isn't in the trace")
        if kind == "pcc":
            if at[0] in written:
                machine.derive(at[0], (PCC,), written.pop(at[0]))
        elif kind == "special":
            target, special, source = at
            if target or source:
                machine.exchanged(target, source or None, special, written.pop(target, machine.held[0]), written.pop(special, machine.held[source]))
        elif kind == "invoke":
            words = [machine.held[it][1] | _TYPE for it in at]
            code = written.pop(PCC, (1, words[0] if next_pc is None else words[0] & ~_LOW | next_pc))
            machine.invoked(at[0], at[1], code[1], written.pop(31, (1, words[1]))[1])
        else:
            tag, word = machine.held[at[-1]]
            pcc = written.pop(PCC, (tag, _unsealed(word, word & _LOW & ~1 if next_pc is None else next_pc)))
            if kind == "return":
                machine.trapped(None, machine.held[0], at[0], pcc)
            else:
                machine.exchanged(at[0], at[1], PCC, written.pop(at[0], machine.held[0]), pcc)
        for place in fields.keys() - written.keys():
            del fields[place]
