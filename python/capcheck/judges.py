"""The judge: whether a log's steps have a run from its roots, and if not, which line is faulty."""
from __future__ import annotations

import ctypes
import os
import re
from collections.abc import Callable, Iterator
from enum import IntEnum
from operator import index
from typing import Any, NamedTuple

from . import _abi
from ._abi import freestanding as _freestanding, judges as _c, whole_logs as _whole_logs
from .words import Capability, Refusal, _address, _capability, _formatted, _mask, _passed

_REPORT_SIZE = 3136
_REGISTER, _GRANULE = 1, 2
_EXPECTS_CAPABILITY, _EXPECTS_NUMBER = 1, 2
_MOST_GRANULES = 2**20
_PIECE = 2**18
_PLACE = re.compile(r"c([0-9]|[12][0-9]|3[01])|@([0-9a-f]{16})", re.A)


class State(IntEnum):
    """The states of an answer."""
    GOES_ON = 0
    YES = 1
    NO = 2
    NO_MEMORY = 3
    NO_JUDGE = 4
    NO_LINE = 5

    @property
    def title(self) -> str:
        """The name of the state, such as GoesOn."""
        return _abi.words.capcheck_state_name(self).text.decode()

    @property
    def sentence(self) -> str:
        """What the state means."""
        return _abi.words.capcheck_state_sentence(self).text.decode()

    def __str__(self) -> str:
        return self.title

    def __format__(self, spec: str) -> str:
        return _formatted(self, spec)


_GOES_ON, _NO = int(State.GOES_ON), int(State.NO)  # Faster than the members.


class Verdict(NamedTuple):
    """The verdict on a log; true if the log is accepted. A rejected one has no steps and roots, an accepted one no faulty
    line and no refusal: they are None."""
    yes: bool
    steps: int | None = None
    roots: int | None = None
    line: int | None = None
    refusal: Refusal | None = None

    def __bool__(self) -> bool:
        return self.yes

    def __str__(self) -> str:
        """As `capcheck judge` prints it."""
        if self.refusal is None:
            return f"yes {self.steps} {self.roots}"
        return f"no {self.line} {self.refusal.value} {self.refusal.title}"


class Rejected(Exception):
    """A line of a log is faulty. Only a judge that was made with `raises` raises it."""

    def __init__(self, verdict: Any, diagnosis: str) -> None:
        super().__init__(verdict, diagnosis)
        self.verdict: Any = verdict  # A Verdict, or of a run log a RunVerdict.
        self.diagnosis = diagnosis

    def __str__(self) -> str:
        return self.diagnosis.rstrip("\n")


def _bytes(log: Any) -> bytes:
    """The bytes of a log: of bytes, of another buffer, or of a binary file from where it is."""
    if isinstance(log, bytes):
        return log
    try:
        return memoryview(log).tobytes()
    except TypeError:
        read = getattr(log, "read", None)
    if read is None:
        raise TypeError(f"a log is bytes, a buffer or a binary file, and not {type(log).__name__}")
    if not isinstance(data := read(), (bytes, bytearray)):
        raise TypeError("a log is read from a binary file: open it with mode 'rb'")
    return bytes(data)


def _checked(state: int) -> int:
    """A state in which there is a verdict so far; otherwise raises what it means."""
    if state <= _NO:
        return state
    if state == State.NO_MEMORY:
        raise MemoryError("the judge is out of memory")
    if state == State.NO_JUDGE:
        raise ValueError("the judge is closed")
    raise ValueError("a number of a step is out of range")


def _verdict(answer: _abi.Answer) -> Verdict:
    if _checked(answer.state) == State.YES:
        return Verdict(True, answer.steps, answer.roots)
    return Verdict(False, line=answer.line, refusal=Refusal(answer.refusal))


def _expected(found: _abi.Expected) -> Capability | int | None:
    if found.kind == _EXPECTS_CAPABILITY:
        return _capability(found.cap)
    return found.number if found.kind == _EXPECTS_NUMBER else None


class _Steps:
    """Steps by their numbers: each call does what `feed` does with the line that the function of `lines` writes."""

    def _step(self, name: str, *values: Any) -> bool:
        raise NotImplementedError

    def __copy__(self) -> Any:
        raise TypeError(f"a {type(self).__name__} can't be copied: its handle has one owner")

    def __deepcopy__(self, memo: Any) -> Any:
        return self.__copy__()

    def __reduce__(self) -> Any:
        raise TypeError(f"a {type(self).__name__} can't be pickled: its state is the library's")

    def move(self, target: int, source: int, recorded: Capability) -> bool:
        """A copy of a register."""
        return self._step("move", target, source, _passed(recorded, "recorded"))

    def cleartag(self, target: int, source: int, recorded: Capability) -> bool:
        """A copy without the tag."""
        return self._step("cleartag", target, source, _passed(recorded, "recorded"))

    def setbounds(self, target: int, source: int, length: int, recorded: Capability) -> bool:
        """Bounds of `length` bytes from the address, rounded."""
        return self._step("setbounds", target, source, length, _passed(recorded, "recorded"))

    def setboundsexact(self, target: int, source: int, length: int, recorded: Capability) -> bool:
        """Such bounds, refused if they are rounded."""
        return self._step("setboundsexact", target, source, length, _passed(recorded, "recorded"))

    def setaddr(self, target: int, source: int, address: int, recorded: Capability) -> bool:
        """Another address."""
        return self._step("setaddr", target, source, address, _passed(recorded, "recorded"))

    def andperm(self, target: int, source: int, mask: int, recorded: Capability) -> bool:
        """Permissions are removed: those that the mask lacks."""
        return self._step("andperm", target, source, _mask(mask), _passed(recorded, "recorded"))

    def seal(self, target: int, source: int, authority: int, recorded: Capability) -> bool:
        """A capability is sealed by an authority."""
        return self._step("seal", target, source, authority, _passed(recorded, "recorded"))

    def unseal(self, target: int, source: int, authority: int, recorded: Capability) -> bool:
        """A capability is unsealed by an authority."""
        return self._step("unseal", target, source, authority, _passed(recorded, "recorded"))

    def lc(self, target: int, authority: int, offset: int, recorded: Capability) -> bool:
        """A load of a capability."""
        return self._step("lc", target, authority, offset, _passed(recorded, "recorded"))

    def sc(self, source: int, authority: int, offset: int) -> bool:
        """A store of a capability."""
        return self._step("sc", source, authority, offset)

    def load(self, authority: int, offset: int, size: int, value: int) -> bool:
        """A load of data."""
        return self._step("load", authority, offset, size, value)

    def store(self, authority: int, offset: int, size: int, value: int) -> bool:
        """A store of data."""
        return self._step("store", authority, offset, size, value)


class Judge(_Steps):
    """A judge that is fed the bytes of a log, or its steps, as they are made.

        with Judge() as judge:
            judge.feed(b"capcheck 1\\nroot c1 ffff1ffffc0180040000000000000000\\n")
            if not judge.load(1, 0, 4, 0x12345678):
                print(judge.diagnosis())

    `feed` and the steps return whether all lines so far pass. With `raises` they raise Rejected at a faulty line instead.
    Threads may share a judge, one call at a time."""

    def __init__(self, *, raises: bool = False) -> None:
        self._judge = _abi.Judge()
        self._pointer = ctypes.byref(self._judge)
        self._rest, self._raises = b"", raises
        _checked(_c.capcheck_judge_open(self._pointer))

    def __enter__(self) -> Judge:
        return self

    def __exit__(self, *_: object) -> None:
        self.close()

    def __repr__(self) -> str:
        if not self._judge.held:
            return "<Judge: closed>"
        return f"<Judge: {'no line so far is faulty' if (verdict := self.verdict) is None else verdict}>"

    def close(self) -> None:
        """Frees the judge's memory. What is fed or asked later raises ValueError."""
        _c.capcheck_judge_close(self._pointer)

    def __del__(self) -> None:
        if hasattr(self, "_pointer"):  # It was made.
            self.close()

    @property
    def _open(self) -> Any:
        """The judge as C takes it."""
        if not self._judge.held:
            raise ValueError("the judge is closed")
        return self._pointer

    def _passes(self, state: int) -> bool:
        """Whether all lines so far pass, by a state."""
        if _checked(state) == _GOES_ON:
            return True
        if self._raises:
            raise Rejected(_verdict(_c.capcheck_judge_answer(self._pointer)), self.diagnosis())
        return False

    def feed(self, piece: bytes) -> bool:
        """Passes the next bytes of the log: bytes or another buffer. They may begin and end anywhere in a line: an
        incomplete last line waits for the next bytes."""
        pointer, log = self._open, self._rest + (piece if isinstance(piece, bytes) else memoryview(piece))
        start = ctypes.cast(ctypes.c_char_p(log), ctypes.c_void_p)
        taken = _c.capcheck_judge_lines(pointer, start, len(log))
        self._rest = b"" if taken.state == _NO else log[taken.bytes:]
        return self._passes(taken.state)

    @property
    def verdict(self) -> Verdict | None:
        """The verdict if a line so far is faulty; None otherwise."""
        answer = _c.capcheck_judge_answer(self._open)
        return None if answer.state == State.GOES_ON else _verdict(answer)

    def end(self) -> Verdict:
        """The verdict on the bytes so far as a whole log. More may follow."""
        found = _verdict(_c.capcheck_judge_end(self._open))
        if found and self._rest:  # Any byte after the end line is faulty.
            _checked(_c.capcheck_judge_line(self._pointer, self._rest + b"\n", len(self._rest) + 1))
            found = _verdict(_c.capcheck_judge_end(self._pointer))
        return found

    def diagnosis(self) -> str:
        """What `capdiag why` prints of the whole lines so far."""
        text = ctypes.create_string_buffer(_REPORT_SIZE)
        length = _c.capcheck_judge_end_report(self._open, text, _REPORT_SIZE)
        return text.raw[:length].decode()

    @property
    def expected(self) -> Capability | int | None:
        """After WRONG_RESULT: what the rules give, a capability or the number that is loaded. Otherwise None."""
        return _expected(_c.capcheck_judge_expected(self._open))

    def register(self, number: int) -> Capability:
        """What the model holds in a register, 0 to 31; after a faulty line, what it held before that line."""
        if not 0 <= index(number) < 32:
            raise ValueError(f"register {number} isn't from 0 to 31")
        return _capability(_c.capcheck_judge_register(self._open, number).cap)

    def granule(self, address: int) -> Capability:
        """The same of the granule (16 aligned bytes of memory) that contains an address."""
        return _capability(_c.capcheck_judge_granule(self._open, _address(address)).cap)

    def origin(self, place: str) -> str | None:
        """The place of the root that the tagged capability at a place descends from; None if there is none. Places
        are written as in a log: c3, or @0000000000001000."""
        if not (named := _PLACE.fullmatch(place)):
            raise ValueError(f"{place!r} isn't a place of a log, such as c3 or @0000000000001000")
        number, kind = (int(named[1]), _REGISTER) if named[1] else (int(named[2], 16), _GRANULE)
        found = _c.capcheck_judge_origin(self._open, _abi.Place(number, kind))
        if found.kind == _REGISTER:
            return f"c{found.number}"
        return f"@{found.number:016x}" if found.kind == _GRANULE else None

    def _step(self, name: str, *values: Any) -> bool:
        pointer = self._open
        if self._rest:
            raise ValueError("the last line that was fed is incomplete")
        _abi.check(name, values)
        state = getattr(_c, f"capcheck_judge_{name}")(pointer, *values)
        if state == State.NO_LINE:
            raise _abi.refused(name, values)
        return self._passes(state)


def judge_bytes(log: Any) -> Verdict:
    """The verdict on a log in memory: bytes, another buffer, or a binary file, which is read whole. Other threads run
    meanwhile."""
    data = _bytes(log)
    return _verdict(_whole_logs.capcheck_judge_bytes(data, len(data)))


def pieces(log: Any, progress: Callable[[int], object] | None = None) -> Iterator[bytes]:
    """The bytes of a binary file or a pipe, as they come. After each piece `progress` is called with how many bytes there were."""
    read, taken = getattr(log, "read1", None) or getattr(log, "read", None), 0
    if read is None:
        raise TypeError(f"a log is a path or a binary file, and not {type(log).__name__}")
    while piece := read(_PIECE):
        yield piece
        taken += len(piece)
        if progress is not None:
            progress(taken)


def judge(log: Any, *, progress: Callable[[int], object] | None = None) -> Verdict:
    """The verdict on a file or a pipe: its path, or an open binary file. It is read up to the first faulty line, in pieces. After each
    piece that passes, `progress` is called with how many bytes have been judged; what it raises stops the judge."""
    if isinstance(log, (str, bytes, os.PathLike)):
        with open(log, "rb", buffering=0) as file:
            return judge(file, progress=progress)
    with Judge() as judging:
        for piece in pieces(log, progress):
            if not judging.feed(piece):
                break
        return judging.end()


def why(log: Any, origins: bool = False) -> str:
    """What `capdiag why` prints of a log: the verdict, and after a `no` the diagnosis. With `origins`, what
    `capdiag why --origins` prints. The log is bytes, another buffer, or a binary file."""
    data, granules, room = _bytes(log), 4096, 4096
    while True:
        slots, text = (_abi.Slot * granules)(), ctypes.create_string_buffer(room)
        found = _freestanding.capcheck_judge_why(bool(origins), data, len(data), slots, granules, text, room)
        if found.answer.state != State.NO_MEMORY and found.length <= room:
            return text.raw[:found.length].decode()
        if found.answer.state == State.NO_MEMORY:
            granules = min(8 * granules, _MOST_GRANULES)
        room = max(room, found.length)
