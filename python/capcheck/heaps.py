"""Logs of allocators: whether each live object can have a capability whose bounds reach no other object."""
from __future__ import annotations

import ctypes
import os
from typing import Any, NamedTuple

from . import _abi
from ._abi import whole_logs as _whole_logs
from .judges import _bytes, _checked
from .words import Refusal

_MOST_TEXT = 1280


class HeapVerdict(NamedTuple):
    """The verdict on a log of an allocator; true if the log is accepted. A rejected one has no events and live objects, an
    accepted one no faulty line and no refusal: they are None."""
    yes: bool
    events: int | None = None
    live: int | None = None
    line: int | None = None
    refusal: Refusal | None = None

    def __bool__(self) -> bool:
        return self.yes

    def __str__(self) -> str:
        """As `capdiag heap` prints it."""
        if self.refusal is None:
            return f"yes {self.events} {self.live}"
        return f"no {self.line} {self.refusal.value} {self.refusal.title}"


def why(log: Any) -> str:
    """What `capdiag heap --report --why` prints of a log: the verdict, and after a `yes` the report, after a `no` the
    diagnosis. The log is bytes, another buffer, or a binary file, which is read whole. Other threads run meanwhile."""
    data, text = _bytes(log), ctypes.create_string_buffer(_MOST_TEXT)
    start = ctypes.cast(ctypes.c_char_p(data), ctypes.c_void_p)
    found = _whole_logs.capcheck_heap_judge_why(start, len(data), text, _MOST_TEXT)
    _checked(found.answer.state)
    return text.raw[:found.length].decode()


def judge(log: Any) -> HeapVerdict:
    """The verdict on the log of an allocator: a file's path, or what `why` takes."""
    if isinstance(log, (str, os.PathLike)):
        with open(log, "rb") as file:
            return judge(file)
    said, *words = why(log).split("\n", 1)[0].split()
    if said == "yes":
        return HeapVerdict(True, int(words[0]), int(words[1]))
    return HeapVerdict(False, line=int(words[0]), refusal=Refusal(int(words[1])))
