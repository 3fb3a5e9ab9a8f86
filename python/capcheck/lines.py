"""The lines of a log: a function of each kind writes one, and `read` reads a log's. ValueError: a number is out of range."""
from __future__ import annotations

import ctypes
from collections.abc import Iterator
from enum import IntEnum
from typing import Any, NamedTuple

from . import _abi
from ._abi import words as _c
from .judges import _bytes
from .words import Capability, _capability, _formatted, _mask, _passed

_LINE_SIZE = 96
_MANY = 1024


class Kind(IntEnum):
    """The kinds of lines, named like the functions that write them; those of `runs` from 64 up."""
    VERSION = 1
    MODE = 2
    ROOT = 3
    ROOT_AT = 4
    MOVE = 5
    CLEARTAG = 6
    SETBOUNDS = 7
    SETBOUNDSEXACT = 8
    SETADDR = 9
    ANDPERM = 10
    SEAL = 11
    UNSEAL = 12
    LC = 13
    SC = 14
    LOAD = 15
    STORE = 16
    END = 17
    DERIVE = 64
    EXCHANGE = 65
    INVOKE = 66
    DROP = 67
    FILL = 68
    OBJECT = 69
    FREE = 70
    RUN_VERSION = 71
    ROOT_SPECIAL = 72
    HART = 73

    @property
    def word(self) -> str:
        """The word that such a line begins with."""
        return _c.capcheck_kind_name(self).text.decode()

    @property
    def sentence(self) -> str:
        """What such a line is."""
        return _c.capcheck_kind_sentence(self).text.decode()

    def __str__(self) -> str:
        return self.name.lower()

    def __format__(self, spec: str) -> str:
        return _formatted(self, spec)


_KINDS = {it.value: it for it in Kind}


class Line(NamedTuple):
    """A line. What its kind doesn't have is 0, or NULL for `cap`. `bytes(line)` is the line as it is written."""
    kind: Kind
    cap: Capability
    number: int
    offset: int
    target: int
    source: int
    authority: int
    size: int
    at: int = 0  # The byte of the log that it begins at.

    def __bytes__(self) -> bytes:
        return write(self)


def _write(name: str, *values: Any) -> bytes:
    _abi.check(name, values)
    line = ctypes.create_string_buffer(_LINE_SIZE)
    length = getattr(_c, f"capcheck_line_{name}")(line, *values)
    if length == 0:
        raise _abi.refused(name, values)
    return line.raw[:length]


def write(line: Line) -> bytes:
    """A line as it is written: the inverse of `read`."""
    name = line.kind.name.lower()
    if line.kind is Kind.MODE:
        return mode(line.number != 0)
    # What each number of a line is named in the struct that C reads it into.
    values: list[Any] = [getattr(line, it if it in Line._fields else "number") for it, _, _ in _abi.RANGES[name]]
    if line.kind in (Kind.ROOT, Kind.ROOT_AT):
        values.append(line.cap._word)
    elif len(_abi.LINES[name]) > len(values):
        values.append(line.cap._cap)
    return _write(name, *values)


def version(number: int) -> bytes:
    """The first line: version 1 or 2."""
    return _write("version", number)


def mode(clear: bool | str) -> bytes:
    """The second line of a log of version 2: True or "clear" for clear mode, False or "strict" for strict mode."""
    if isinstance(clear, str) and clear in ("clear", "strict"):
        clear = clear == "clear"
    if not isinstance(clear, bool):
        raise TypeError(f"a mode is 'clear' or 'strict', True or False, and not {clear!r}")
    return _write("mode", clear)


def root(target: int, cap: Capability) -> bytes:
    """A root in a register."""
    return _write("root", target, _passed(cap, "cap").word)


def root_at(address: int, cap: Capability) -> bytes:
    """A root in the granule at an address."""
    return _write("root_at", address, _passed(cap, "cap").word)


def move(target: int, source: int, recorded: Capability) -> bytes:
    """A copy of a register."""
    return _write("move", target, source, _passed(recorded, "recorded"))


def cleartag(target: int, source: int, recorded: Capability) -> bytes:
    """A copy without the tag."""
    return _write("cleartag", target, source, _passed(recorded, "recorded"))


def setbounds(target: int, source: int, length: int, recorded: Capability) -> bytes:
    """Bounds of `length` bytes from the address, rounded."""
    return _write("setbounds", target, source, length, _passed(recorded, "recorded"))


def setboundsexact(target: int, source: int, length: int, recorded: Capability) -> bytes:
    """Such bounds, refused if they are rounded."""
    return _write("setboundsexact", target, source, length, _passed(recorded, "recorded"))


def setaddr(target: int, source: int, address: int, recorded: Capability) -> bytes:
    """Another address."""
    return _write("setaddr", target, source, address, _passed(recorded, "recorded"))


def andperm(target: int, source: int, mask: int, recorded: Capability) -> bytes:
    """Permissions are removed: those that the mask lacks."""
    return _write("andperm", target, source, _mask(mask), _passed(recorded, "recorded"))


def seal(target: int, source: int, authority: int, recorded: Capability) -> bytes:
    """A capability is sealed by an authority."""
    return _write("seal", target, source, authority, _passed(recorded, "recorded"))


def unseal(target: int, source: int, authority: int, recorded: Capability) -> bytes:
    """A capability is unsealed by an authority."""
    return _write("unseal", target, source, authority, _passed(recorded, "recorded"))


def lc(target: int, authority: int, offset: int, recorded: Capability) -> bytes:
    """A load of a capability."""
    return _write("lc", target, authority, offset, _passed(recorded, "recorded"))


def sc(source: int, authority: int, offset: int) -> bytes:
    """A store of a capability."""
    return _write("sc", source, authority, offset)


def load(authority: int, offset: int, size: int, value: int) -> bytes:
    """A load of data."""
    return _write("load", authority, offset, size, value)


def store(authority: int, offset: int, size: int, value: int) -> bytes:
    """A store of data."""
    return _write("store", authority, offset, size, value)


def end(steps: int) -> bytes:
    """The last line, with the number of step lines."""
    return _write("end", steps)


def read(log: Any) -> Iterator[Line]:
    """The lines of a log: of bytes, another buffer, or a binary file. ValueError at bytes that aren't a line; the order of the
    lines isn't checked."""
    return _read(_bytes(log))


def _read(log: bytes) -> Iterator[Line]:
    start = ctypes.cast(ctypes.c_char_p(log), ctypes.c_void_p).value or 0
    found, at = (_abi.Line * _MANY)(), 0
    while at < len(log):
        got = _c.capcheck_read_lines(start + at, len(log) - at, found, _MANY)
        for line in found[:got.lines]:
            yield Line(_KINDS[line.kind], _capability(line.cap), line.number, line.offset, line.target, line.source,
                       line.authority, line.size, at)
            at += line.length
        if got.lines == 0:
            raise ValueError(f"no line at byte {at}: {log[at:at + _LINE_SIZE].split(chr(10).encode())[0]!r}")
