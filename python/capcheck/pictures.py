"""python3 -m capcheck picture: the objects of a run log over time, as a page that draws them and as numbers."""
from __future__ import annotations

import argparse
import base64
import csv
import ctypes
import gzip
import io
import os
import re
from collections.abc import Sequence
from html import escape
from pathlib import Path
from typing import Any, BinaryIO, NamedTuple

from . import _abi, runs
from ._abi import judges as _c
from .judges import _GOES_ON, _checked
from .runs import RunJudge, RunVerdict

_SAMPLES = 1000  # So many times it is asked which freed objects are held, if the log has as many lines.
_PIECE = 2**20
_MOST = 2**28  # So many bytes of a log a page takes.
_PLACE_OF_LOG = '<script id="page-script"'
_EVENT = re.compile(rb"^(?:object c[0-9]+(?: ([0-9]+))?|free (?:c([0-9]+)|([0-9]+)))\n", re.M)


class Extent(NamedTuple):
    """An object of a run: the line that handed it out, the one that freed it, and the one by which no place held it any more; its
    extent, the widest if it grew; and how many places hold it at the end. A line that there isn't is None."""
    number: int
    line: int
    freed: int | None
    gone: int | None
    base: int
    top: int
    held: int


class Step(NamedTuple):
    """After a line: how many bytes are live, how many are freed and held, and how many places hold freed objects."""
    line: int
    live: int
    held: int
    holders: int


class _Object:
    """An object so far."""

    def __init__(self, number: int, line: int, found: _abi.Object) -> None:
        self.number, self.line, self.freed, self.gone = number, line, 0, 0
        self.base, self.top, self.held = found.base, int(found.top), found.held

    def extent(self) -> Extent:
        return Extent(self.number, self.line, self.freed or None, self.gone or None, self.base, self.top, self.held)


class Timeline:
    """The objects and steps of a run log, up to its end or its refused line. `steps` has a thousand at equal distances, of a log that has as many
    lines; fewer if many freed objects are held. The log is a binary file that can be read twice."""

    def __init__(self, log: BinaryIO, freed: str = "held", owned: bool = False) -> None:
        self._objects: list[_Object] = []
        self._held: dict[int, _Object] = {}
        self._live, self._line = 0, 0
        self.steps: list[Step] = []
        begin, count = log.tell(), 0
        while piece := log.read(_PIECE):
            count += piece.count(b"\n")
        log.seek(begin)
        self._every = self._next = max(1, -(-count // _SAMPLES))
        with RunJudge(freed, owned) as judging:
            self._judging, self._pointer = judging, judging._open
            self.verdict = self._read(log)
            if not self.steps or self.steps[-1].line != self._line:
                self._sample()
            for it in self._objects:
                if not it.freed:
                    it.held = self._told(it.number).held
        self.objects = [it.extent() for it in self._objects]

    def _read(self, log: BinaryIO) -> RunVerdict:
        rest = b""
        while piece := log.read(_PIECE):
            whole, feed, rest = (rest + piece).rpartition(b"\n")
            if feed and not self._take(whole + feed):
                break
        else:
            self._judging.feed(rest)
        return self._judging.end()

    def _take(self, piece: bytes) -> bool:
        """Passes whole lines to the judge. Returns whether all so far pass."""
        start, at = ctypes.cast(ctypes.c_char_p(piece), ctypes.c_void_p).value or 0, 0
        for found in _EVENT.finditer(piece):
            first, end = found.span()
            known, register, number = found.groups()
            if register:  # The owner is that before the line.
                if not self._pass(piece, start, at, first):
                    return False
                at, number = first, _c.capcheck_run_judge_owner(self._pointer, _abi.Place(int(register), 1))
            if not self._pass(piece, start, at, first, end):
                return False
            at = end
            if number:
                self._free(int(number))
            else:
                self._hand_out(int(known or 0))
            if self._line >= self._next:
                self._sample()
        return self._pass(piece, start, at, len(piece))

    def _pass(self, piece: bytes, start: int, at: int, end: int, event: int = 0) -> bool:
        """Passes lines without events, and asks at those where it is time; then perhaps the line of an event, which ends there."""
        count = piece.count(b"\n", at, end)
        while self._line + count >= self._next:
            to = at
            for _ in range(self._next - self._line):
                to = piece.index(b"\n", to) + 1
            if not self._lines(start + at, to - at):
                return False
            count -= self._next - self._line
            self._line, at = self._next, to
            self._sample()
        if not self._lines(start + at, (event or end) - at):
            return False
        self._line += count + (event > 0)
        return True

    def _lines(self, start: int, length: int) -> bool:
        state = _c.capcheck_run_judge_lines(self._pointer, start, length).state
        if _checked(state) == _GOES_ON:
            return True
        self._line = _c.capcheck_run_judge_answer(self._pointer).line - 1
        return False

    def _told(self, number: int) -> _abi.Object:
        return _c.capcheck_run_judge_object(self._pointer, number)

    def _hand_out(self, number: int) -> None:
        """The last line allocated an object, or widened the extent of one."""
        found = self._told(number or len(self._objects) + 1)
        if number:
            it = self._objects[number - 1]
            self._live -= it.top - it.base
            it.base, it.top = found.base, int(found.top)
        else:
            it = _Object(len(self._objects) + 1, self._line, found)
            self._objects.append(it)
        self._live += it.top - it.base

    def _free(self, number: int) -> None:
        it = self._objects[number - 1]
        it.freed = self._line
        self._live -= it.top - it.base
        it.held = self._told(number).held
        if it.held:
            self._held[number] = it
        else:
            it.gone = self._line

    def _sample(self) -> None:
        """Asks which freed objects are still held. Where many are, that is asked less often."""
        held = holders = 0
        for number, it in list(self._held.items()):
            it.held = self._told(number).held
            if it.held:
                held, holders = held + it.top - it.base, holders + it.held
            else:
                it.gone = self._line
                del self._held[number]
        self.steps.append(Step(self._line, self._live, held, holders))
        self._next = self._line + max(self._every, len(self._held))


def page(log: bytes, name: str = "", freed: str = "held", owned: bool = False) -> str:
    """A page with a run log in it, which opens at its picture."""
    if len(log) > _MOST:
        raise ValueError(f"the log has {len(log)} bytes, and a page takes {_MOST}")
    file = Path(__file__).with_name("page.html")
    try:
        text = file.read_text(encoding="utf-8")
    except FileNotFoundError:
        raise ValueError(f"the page isn't installed: there is no {file}") from None
    packed = base64.b64encode(gzip.compress(log, 6)).decode()
    asks = {"freed": "" if freed == "held" else freed, "owned": "1" if owned else ""}
    words = "".join(f' data-{key}="{escape(value)}"' for key, value in {"name": name, **asks}.items())
    before, found, after = text.partition(_PLACE_OF_LOG)
    if not found:
        raise ValueError(f"{file} isn't the page")
    return f'{before}<script id="given" type="text/plain"{words}>\n{packed}\n</script>\n{found}{after}'


def _written(file: str, rows: Sequence[Any], fields: Sequence[str]) -> None:
    with open(file, "w", encoding="utf-8", newline="") as text:
        into = csv.writer(text, lineterminator="\n")
        into.writerow(fields)
        into.writerows(rows)


def add_arguments(command: argparse.ArgumentParser) -> None:
    """The words of the command."""
    add = command.add_argument
    add("log", metavar="LOG", nargs="?", help="a run log; without it, standard input")
    add("-o", "--output", metavar="FILE", help="write a page with the log in it, which needs nothing else and opens at the picture")
    add("--csv", metavar="NAME", help="write the numbers into NAME-objects.csv and NAME-steps.csv")


def picture(given: argparse.Namespace, log: BinaryIO) -> tuple[bytes, int]:
    """The command: the verdict, which is printed, and the status 0."""
    if not given.output and not given.csv:
        raise ValueError("name what to write: -o FILE for a page, or --csv NAME for the numbers")
    if not log.seekable():
        log = io.BytesIO(log.read())
    begins = log.read(6) == b"run 1\n"
    log.seek(0)
    if not begins:
        raise ValueError("a picture is of a run log, which begins with 'run 1'")
    if given.csv:
        found = Timeline(log, given.freed, given.owned)
        _written(f"{given.csv}-objects.csv", found.objects, Extent._fields)
        _written(f"{given.csv}-steps.csv", found.steps, Step._fields)
        verdict = found.verdict
    else:
        verdict = runs.judge(log, given.freed, given.owned)
    if given.output:
        log.seek(0)
        Path(given.output).write_text(page(log.read(), os.path.basename(given.log or ""), given.freed, given.owned), encoding="utf-8")
    return f"{verdict}\n".encode(), 0
