"""Run logs: their lines, their judge, and the objects that own what places hold. Places are written as in a log: c3, scr0,
@0000000000001000. A judge is asked about another hart's register by the hart's number and a dot before it: 2.c3."""
from __future__ import annotations

import ctypes
import os
import re
from collections.abc import Callable, Iterator
from functools import lru_cache
from operator import index
from typing import Any, NamedTuple

from . import _abi, lines
from ._abi import judges as _c, whole_logs as _whole_logs, words as _words
from .judges import _REPORT_SIZE, Rejected, State, _Steps, _bytes, _checked, _expected, pieces
from .lines import Kind, _write
from .words import Capability, Refusal, _address, _capability, _mask, _passed

_NO_PLACE, _REGISTER, _GRANULE, _SPECIAL = 0, 1, 2, 3
_LIVE, _FREED, _NO_SUCH_OBJECT = 1, 2, 0
_HARTS = 2**16
_PLACE = re.compile(r"(c|scr)([0-9]|[12][0-9]|3[01])|@([0-9a-f]{16})", re.A)
_FREED_CHOICES = {"held": (1, 0), "used": (0, 1), "both": (1, 1)}


def _place(place: str) -> _abi.Place:
    if not isinstance(place, str):
        raise TypeError(f"a place is a string, such as 'c3', and not {type(place).__name__}")
    if not (named := _PLACE.fullmatch(place)):
        raise ValueError(f"{place!r} isn't a place of a run log, such as c3, scr0 or @0000000000001000")
    if named[3]:
        return _abi.Place(int(named[3], 16), _GRANULE)
    return _abi.Place(int(named[2]), _REGISTER if named[1] == "c" else _SPECIAL)


def _place_in(judge: Any, place: str) -> tuple[int, _abi.Place]:
    """The hart and the place that a judge is asked about: without a hart's number, the current hart's."""
    if not isinstance(place, str) or "." not in place:
        return _c.capcheck_run_judge_hart(judge), _place(place)
    number, rest = place.split(".", 1)
    if not re.fullmatch("0|[1-9][0-9]{0,4}", number, re.A) or int(number) >= _HARTS or rest.startswith("@"):
        raise ValueError(f"{place!r} isn't a register of a hart, such as 2.c3")
    return int(number), _place(rest)


def _name(place: _abi.Place) -> str | None:
    """A place as a log writes it; None for none."""
    if place.kind == _GRANULE:
        return f"@{place.number:016x}"
    return None if place.kind == _NO_PLACE else f"{'c' if place.kind == _REGISTER else 'scr'}{place.number}"


# ---- Lines ----

class RunLine(NamedTuple):
    """A line of a run log: its kind, and its operands as the function that writes it takes them. `bytes(line)` is the line as
    it is written."""
    kind: Kind
    operands: tuple[Any, ...]
    at: int = 0  # The byte of the log that it begins at.

    def __bytes__(self) -> bytes:
        return write(self)


def version() -> bytes:
    """The first line."""
    return _write("run_version")


def root(place: str, cap: Capability) -> bytes:
    """A root in a register, a special register or a granule."""
    named = _place(place)
    name = {_REGISTER: "root", _SPECIAL: "root_special", _GRANULE: "root_at"}[named.kind]
    return _write(name, named.number, _passed(cap, "cap").word)


def hart(number: int) -> bytes:
    """The registers of the lines after it are those of the hart with a number."""
    return _write("hart", number)


def derive(target: str, source: str, recorded: Capability) -> bytes:
    """A register gets what is derived from a register, special or not."""
    return _write("derive", _place(target), _place(source), _passed(recorded, "recorded"))


def exchange(target: int, source: int, special: int, recorded: Capability, special_recorded: Capability) -> bytes:
    """A register gets what is derived from a special register, and that what is derived from a register."""
    return _write("exchange", target, source, special, _passed(recorded, "recorded"), _passed(special_recorded, "special_recorded"))


def invoke(code: int, datum: int, code_cap: Capability, datum_cap: Capability) -> bytes:
    """A sealed pair is invoked: PCC gets the first word, c31 the second."""
    return _write("invoke", code, datum, _passed(code_cap, "code_cap").word, _passed(datum_cap, "datum_cap").word)


def drop(place: str) -> bytes:
    """The tag of a place goes."""
    return _write("drop", _place(place))


def fill(address: int, cap: Capability) -> bytes:
    """A granule gets a word without a tag, from outside."""
    return _write("fill", address, _passed(cap, "cap").word)


def hand_out(source: int, number: int = 0) -> bytes:
    """What a register holds is a new object's, or also that of the object with a number."""
    return _write("object", source, number)


def free(source: int, number: int = 0) -> bytes:
    """The object that owns a register is freed; or, of the register 0, the object with a number."""
    return _write("free", source, number)


_LINES = {Kind.RUN_VERSION: version, Kind.HART: hart, Kind.DERIVE: derive, Kind.EXCHANGE: exchange, Kind.INVOKE: invoke, Kind.DROP: drop,
          Kind.FILL: fill, Kind.OBJECT: hand_out, Kind.FREE: free}
_ROOTS = (Kind.ROOT, Kind.ROOT_AT, Kind.ROOT_SPECIAL)


def write(line: RunLine) -> bytes:
    """A line as it is written: the inverse of `read`."""
    if line.kind in _ROOTS:
        return root(*line.operands)
    writes: Any = _LINES.get(line.kind) or getattr(lines, line.kind.name.lower())
    return writes(*line.operands)


def _operands(found: _abi.RunLine) -> tuple[Any, ...]:
    """The operands of a line, as the function that writes it takes them."""
    line, kind, cap = found.line, found.line.kind, _capability(found.line.cap)
    if kind in _ROOTS:
        return _name(found.target), cap
    if kind == Kind.DERIVE:
        return _name(found.target), _name(found.source), cap
    if kind == Kind.EXCHANGE:
        return line.target, line.source, line.number, cap, _capability(found.second)
    if kind == Kind.INVOKE:
        return line.source, line.authority, cap, _capability(found.second)
    if kind == Kind.DROP:
        return (_name(found.target),)
    if kind == Kind.FILL:
        return line.number, cap
    if kind in (Kind.OBJECT, Kind.FREE):
        return line.source, line.number
    if kind == Kind.HART:
        return (line.number,)
    if kind == Kind.RUN_VERSION:
        return ()
    if kind == Kind.MODE:
        return (line.number != 0,)
    named = lines.Line._fields
    numbers = [getattr(line, it if it in named else "number") for it, _, _ in _abi.RANGES[Kind(kind).name.lower()]]
    return (*numbers, *([cap] if len(_abi.LINES[Kind(kind).name.lower()]) > len(numbers) else []))


def _made(line: RunLine) -> _abi.RunLine:
    """A step as C takes it: the inverse of `_operands`."""
    made, kind, it = _abi.RunLine(), line.kind, line.operands
    into = made.line
    into.kind = kind
    if kind is Kind.DERIVE:
        made.target, made.source, into.cap = _place(it[0]), _place(it[1]), _passed(it[2], "recorded")
    elif kind is Kind.DROP:
        made.target = _place(it[0])
    elif kind is Kind.INVOKE:
        into.source, into.authority, into.cap, made.second = it[0], it[1], _passed(it[2], "code_cap"), _passed(it[3], "datum_cap")
    else:
        numbers = _abi.RANGES[kind.name.lower()]
        for (name, _, _), value in zip(numbers, it):
            setattr(into, name if name in lines.Line._fields else "number", _mask(value) if name == "mask" else value)
        for name, value in zip(("cap", "second"), it[len(numbers):]):
            setattr(into if name == "cap" else made, name, _passed(value, "cap" if kind is Kind.FILL else "recorded"))
    return made


def read(log: Any) -> Iterator[RunLine]:
    """The lines of a run log: of bytes, another buffer, or a binary file. ValueError at bytes that aren't a line; the order
    of the lines isn't checked."""
    return _read(_bytes(log))


def _read(log: bytes) -> Iterator[RunLine]:
    start, at = ctypes.cast(ctypes.c_char_p(log), ctypes.c_void_p).value or 0, 0
    while at < len(log):
        found = _words.capcheck_read_run_line(start + at, len(log) - at)
        if found.line.length == 0:
            raise ValueError(f"no line at byte {at}: {log[at:at + 96].split(chr(10).encode())[0]!r}")
        yield RunLine(lines._KINDS[found.line.kind], _operands(found), at)
        at += found.line.length


# ---- Judging ----

class RunVerdict(NamedTuple):
    """The verdict on a run log; true if it is accepted. A rejected one has no steps, roots and objects, an accepted one no
    faulty line and no refusal: they are None."""
    yes: bool
    steps: int | None = None
    roots: int | None = None
    objects: int | None = None
    line: int | None = None
    refusal: Refusal | None = None

    def __bool__(self) -> bool:
        return self.yes

    def __str__(self) -> str:
        """As `capdiag run` prints it."""
        if self.refusal is None:
            return f"yes {self.steps} {self.roots} {self.objects}"
        return f"no {self.line} {self.refusal.value} {self.refusal.title}"


class Object(NamedTuple):
    """An object: its extent, the line that allocated it, whether it is live, and how many places hold it."""
    number: int
    line: int
    base: int
    top: int
    live: bool
    held: int

    def __str__(self) -> str:
        """As `capdiag run --owners` prints it."""
        return f"object {self.number} {self.line} {self.base:016x} {self.top:017x} {'live' if self.live else 'freed'} {self.held}"


def _verdict(answer: _abi.RunAnswer) -> RunVerdict:
    if _checked(answer.state) == State.YES:
        return RunVerdict(True, answer.steps, answer.roots, answer.objects)
    return RunVerdict(False, line=answer.line, refusal=Refusal(answer.refusal))


@lru_cache
def _asks(freed: str, owned: bool) -> _abi.Asks:
    if freed not in _FREED_CHOICES:
        raise ValueError(f"freed is 'held', 'used' or 'both', and not {freed!r}")
    if owned not in (True, False):
        raise ValueError(f"owned is True or False, and not {owned!r}")
    return _abi.Asks(*_FREED_CHOICES[freed], bool(owned))


class RunJudge(_Steps):
    """A judge that is fed the bytes of a run log, or its steps, as they are made.

        with RunJudge() as judge:
            judge.feed(log)
            print(judge.end(), *judge.objects(), sep="\\n")

    What is asked of freed objects is `freed`: held, used or both; `owned` asks that each access to a live object goes through
    a capability of that object. `feed` and the steps return whether all lines so far pass. With `raises` they raise Rejected
    at a faulty line instead. Threads may share a judge, one call at a time."""

    def __init__(self, freed: str = "held", owned: bool = False, *, raises: bool = False) -> None:
        asks = _asks(freed, owned)
        self._judge = _abi.RunJudge()
        self._pointer = ctypes.byref(self._judge)
        self._rest, self._raises = b"", raises
        _checked(_c.capcheck_run_judge_open(self._pointer, asks))

    def __enter__(self) -> RunJudge:
        return self

    def __exit__(self, *_: object) -> None:
        self.close()

    def __repr__(self) -> str:
        if not self._judge.held:
            return "<RunJudge: closed>"
        return f"<RunJudge: {'no line so far is faulty' if (verdict := self.verdict) is None else verdict}>"

    def close(self) -> None:
        """Frees the judge's memory. What is fed or asked later raises ValueError."""
        _c.capcheck_run_judge_close(self._pointer)

    def __del__(self) -> None:
        if hasattr(self, "_pointer"):  # It was made.
            self.close()

    @property
    def _open(self) -> Any:
        """The judge as C takes it."""
        if not self._judge.held:
            raise ValueError("the judge is closed")
        return self._pointer

    def _passes(self, state: int) -> bool:
        """Whether all lines so far pass, by a state."""
        if _checked(state) == State.GOES_ON:
            return True
        if self._raises:
            raise Rejected(_verdict(_c.capcheck_run_judge_answer(self._pointer)), self.diagnosis())
        return False

    def feed(self, piece: bytes) -> bool:
        """Passes the next bytes of the log: bytes or another buffer. They may begin and end anywhere in a line: an
        incomplete last line waits for the next bytes."""
        pointer, log = self._open, self._rest + (piece if isinstance(piece, bytes) else memoryview(piece))
        start = ctypes.cast(ctypes.c_char_p(log), ctypes.c_void_p)
        taken = _c.capcheck_run_judge_lines(pointer, start, len(log))
        self._rest = b"" if taken.state == State.NO else log[taken.bytes:]
        return self._passes(taken.state)

    def step(self, line: RunLine) -> bool:
        """Passes a step by its numbers: any line of a run log but the header, roots, hart lines and the end, which `feed` takes."""
        if not isinstance(line, RunLine):
            raise TypeError(f"a step is a RunLine, and not {type(line).__name__}")
        name = line.kind.name.lower()
        if name not in _abi.STEPS and name not in _abi.RUN_STEPS:
            raise ValueError(f"{name} isn't a step")
        return self._pass(name, line)

    def _step(self, name: str, *values: Any) -> bool:
        """A step of a log of steps, as the calls of `Judge` pass it."""
        return self._pass(name, RunLine(Kind[name.upper()], tuple(_capability(it) if isinstance(it, _abi.Cap) else it for it in values)))

    def _pass(self, name: str, line: RunLine) -> bool:
        pointer = self._open
        if self._rest:
            raise ValueError("the last line that was fed is incomplete")
        _abi.check(name, line.operands)
        state = _c.capcheck_run_step(pointer, ctypes.byref(_made(line)))
        if state == State.NO_LINE:
            raise _abi.refused(name, tuple(line.operands))
        return self._passes(state)

    @property
    def verdict(self) -> RunVerdict | None:
        """The verdict if a line so far is faulty; None otherwise."""
        answer = _c.capcheck_run_judge_answer(self._open)
        return None if answer.state == State.GOES_ON else _verdict(answer)

    def end(self) -> RunVerdict:
        """The verdict on the bytes so far as a whole log. More may follow."""
        found = _verdict(_c.capcheck_run_judge_end(self._open))
        if found and self._rest:  # Any byte after the end line is faulty.
            _checked(_c.capcheck_run_judge_line(self._pointer, self._rest + b"\n", len(self._rest) + 1))
            found = _verdict(_c.capcheck_run_judge_end(self._pointer))
        return found

    def diagnosis(self) -> str:
        """What `capdiag run --why` prints of the whole lines so far; after a `yes` without what was asked."""
        text = ctypes.create_string_buffer(_REPORT_SIZE)
        length = _c.capcheck_run_judge_end_report(self._open, text, _REPORT_SIZE)
        return text.raw[:length].decode()

    @property
    def expected(self) -> Capability | int | None:
        """After WRONG_RESULT of one of the twelve steps of logs of steps: what the rules give, a capability or the number that is loaded. Otherwise
        None."""
        return _expected(_c.capcheck_run_judge_expected(self._open))

    def register(self, number: int) -> Capability:
        """What a register holds, 0 to 31; after a faulty line, what it held before that line."""
        if not 0 <= index(number) < 32:
            raise ValueError(f"register {number} isn't from 0 to 31")
        return _capability(_c.capcheck_run_judge_held(self._open, _abi.Place(number, _REGISTER)).cap)

    def granule(self, address: int) -> Capability:
        """The same of the granule (16 aligned bytes of memory) that contains an address."""
        return _capability(_c.capcheck_run_judge_held(self._open, _abi.Place(_address(address), _GRANULE)).cap)

    def held(self, place: str) -> Capability:
        """What a place holds, other than c0; after a faulty line, what it held before that line. A register is the current hart's, or
        that of the hart before its dot, such as 2.c3."""
        return _capability(_c.capcheck_run_judge_held_in(self._open, *_place_in(self._open, place)).cap)

    @property
    def hart(self) -> int:
        """The current hart, whose registers the next line names: that of the last hart line, or 0."""
        return _c.capcheck_run_judge_hart(self._open)

    def harts(self) -> Iterator[int]:
        """The harts that hart lines named, and hart 0, by their numbers."""
        number = _c.capcheck_run_judge_next_hart(self._open, 0)
        while number < _HARTS:
            yield number
            number = _c.capcheck_run_judge_next_hart(self._open, number + 1)

    def owner(self, place: str) -> int | None:
        """The number of the object that owns a place, as `held` names it; None if none does."""
        return _c.capcheck_run_judge_owner_in(self._open, *_place_in(self._open, place)) or None

    def object(self, number: int) -> Object | None:
        """The object with a number; None if none was allocated, or if it was freed and no place holds it."""
        if not 0 <= index(number) < 2**32:
            raise ValueError(f"object {number} isn't from 0 to 2**32 - 1")
        found = _c.capcheck_run_judge_object(self._open, number)
        if found.state == _NO_SUCH_OBJECT:
            return None
        return Object(number, found.line, found.base, int(found.top), found.state == _LIVE, found.held)

    def objects(self) -> Iterator[Object]:
        """The present objects, by their numbers."""
        number = 0
        while number < 2**32 - 1 and (number := _c.capcheck_run_judge_next_object(self._open, number + 1)):
            if (found := self.object(number)) is not None:
                yield found

    def holder(self, number: int) -> str | None:
        """The first place that an object owns: by hart registers and special registers, then granules by address; None if it owns
        none. Another hart's register has its number and a dot before it: 2.c3."""
        if not 0 <= index(number) < 2**32:
            raise ValueError(f"object {number} isn't from 0 to 2**32 - 1")
        place, own = _c.capcheck_run_judge_holder(self._open, number), self.hart
        hart = own if place.kind == _GRANULE else _c.capcheck_run_judge_holder_hart(self._open, number)
        return (name := _name(place)) and (name if hart == own else f"{hart}.{name}")


def judge_bytes(log: Any, freed: str = "held", owned: bool = False) -> RunVerdict:
    """The verdict on a run log in memory: bytes, another buffer, or a binary file, which is read whole. Other threads run
    meanwhile."""
    data = _bytes(log)
    return _verdict(_whole_logs.capcheck_run_judge_bytes(data, len(data), _asks(freed, owned)))


def judge(log: Any, freed: str = "held", owned: bool = False, *, progress: Callable[[int], object] | None = None) -> RunVerdict:
    """The verdict on a file or a pipe: its path, or an open binary file. It is read up to the first faulty line, in pieces. After each
    piece that passes, `progress` is called with how many bytes have been judged; what it raises stops the judge."""
    if isinstance(log, (str, bytes, os.PathLike)):
        with open(log, "rb", buffering=0) as file:
            return judge(file, freed, owned, progress=progress)
    with RunJudge(freed, owned) as judging:
        for piece in pieces(log, progress):
            if not judging.feed(piece):
                break
        return judging.end()


def why(log: Any, freed: str = "held", owned: bool = False) -> str:
    """What `capdiag run --why` prints of a run log of whole lines: the verdict, after a `yes` what was asked, and after a `no` the
    diagnosis. The log is bytes, another buffer, or a binary file."""
    with RunJudge(freed, owned) as judging:
        judging.feed(_bytes(log))
        judging.end()
        text = judging.diagnosis()
    if text.startswith("yes "):
        text += f"asked freed {freed}{' owned' if owned else ''}\n"
    return text
