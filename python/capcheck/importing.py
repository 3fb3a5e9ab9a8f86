"""python3 -m capcheck trace: a trace, the run log of it, and the verdict."""
from __future__ import annotations

import argparse
import os
import sys
import time
from collections.abc import Iterable, Iterator
from contextlib import ExitStack
from typing import Any, TextIO

from . import dialects
from .events import Events
from .judges import Rejected
from .recording import Recorder
from .runs import RunJudge
from .texts import Text
from .traces import Importer

_QEMU = "The form qemu-cheri is as remembered: it could not be compared with a real trace."
_EVERY = 2**14  # Lines between two looks at the clock.


def add_arguments(command: argparse.ArgumentParser) -> None:
    """The words of the command."""
    command.epilog = _QEMU
    add = command.add_argument
    add("trace", metavar="TRACE", nargs="?", help="a file; without it, standard input")
    add("--dialect", metavar="NAME|FILE", default=dialects.EVENTS,
        help=f"the form of the trace: {', '.join(dialects.shipped())} or a file; by default events")
    add("--judge", action="store_true", help="print the verdict, and after a no the diagnosis and the line of the trace, and not the log")
    add("--log", metavar="FILE", help="write the log into a file, and not to standard output")
    add("--strict", action="store_true", help="stop at a line that isn't understood")
    add("--mode", choices=("clear", "strict"),
        help="whether the machine clears tags or traps if a check fails; by default as the dialect says, of events clear")
    add("--spare", metavar="N", type=int, default=0, help="a register that the program doesn't use")
    add("--hart", metavar="N", help="the hart to read; by default that of the first instruction")
    for name, told in (("malloc", "a function that returns a new object"), ("free", "a function that frees its argument"),
                       ("realloc", "a function that does both, or gives its argument more room")):
        add(f"--{name}", metavar="ADDRESS", action="append", default=[], type=_address, help=f"the address of {told}; may be repeated")


def _address(text: str) -> int:
    return int(text, 0)


def importer(recorder: Recorder, dialect: dialects.Dialect | None, *, stop_at_unknown: bool = False, **words: Any) -> Importer:
    """The importer of a dialect, or of events, which has no `words`: those of Text."""
    if dialect is None:
        if any(words.values()):
            raise ValueError("events have no hart, malloc, free or realloc: they say so themselves")
        return Events(recorder, stop_at_unknown=stop_at_unknown)
    return Text(recorder, dialect, stop_at_unknown=stop_at_unknown, **words)


class ReadFault(OSError):
    """The trace can't be read on."""


class WriteFault(OSError):
    """The log can't be written."""


def _read(trace: TextIO) -> Iterator[str]:
    """The lines of a trace."""
    try:
        yield from trace
    except OSError as fault:
        raise ReadFault(fault) from None


def _shown(lines: Iterable[str], taking: Importer, size: int) -> Iterator[str]:
    """The lines, with their progress on standard error if it is a terminal."""
    if not sys.stderr.isatty():
        yield from lines
        return
    begun, read, told = time.monotonic(), 0, 0.0
    for number, line in enumerate(lines, 1):
        yield line
        read += len(line)
        if number % _EVERY == 0 and (now := time.monotonic()) - told > 0.5:
            told, rate = now, taking.instructions / max(now - begun, 0.001)
            of = f" of {size / 1e6:.0f}" if size else ""
            said = f"{read / 1e6:.0f}{of} MB, {taking.instructions} instructions, {rate:.0f} a second"
            print(f"\r{said} ", end="", file=sys.stderr, flush=True)
    if told:
        print(file=sys.stderr)


def _run(given: argparse.Namespace, dialect: dialects.Dialect | None, trace: TextIO, log: int | None) -> tuple[str, int]:
    """Imports a trace; what is printed, and the status."""
    clear = given.mode == "clear" if given.mode else dialect is None or dialect.clear
    with ExitStack() as stack:
        judge = stack.enter_context(RunJudge(given.freed, given.owned)) if given.judge else None
        recorder = Recorder(log, judge, clear=clear, spare=given.spare)
        taking = importer(recorder, dialect, stop_at_unknown=given.strict, hart=given.hart, malloc=given.malloc, free=given.free,
                          realloc=given.realloc)
        try:
            taking.take(_shown(_read(trace), taking, os.fstat(trace.fileno()).st_size))
            taking.end()
        except Rejected as rejected:
            return f"{rejected.diagnosis}trace {taking.at} {taking.text.strip()}\n", 1
        finally:
            recorder.flush()
            for said in taking.told():
                print(f"capcheck: trace: {said}", file=sys.stderr)
        if judge is None:
            return "", 0
        verdict = judge.end()
        return f"{verdict}\n", int(not verdict)


def trace(given: argparse.Namespace) -> tuple[bytes, int]:
    """The command: what is printed at its end, and its status. The log goes to standard output as it is made."""
    try:
        return _opened(given)
    except ReadFault:
        raise
    except OSError as fault:
        raise WriteFault(fault) from None


def _opened(given: argparse.Namespace) -> tuple[bytes, int]:
    with ExitStack() as stack:
        try:
            dialect = dialects.load(given.dialect)
            source = stack.enter_context(open(given.trace or 0, encoding="utf-8", errors="surrogateescape", closefd=bool(given.trace)))
        except OSError as fault:
            raise ReadFault(fault) from None
        log = None
        if given.log:
            log = stack.enter_context(open(given.log, "wb", buffering=0)).fileno()
        elif not given.judge:
            log = 1
        text, status = _run(given, dialect, source, log)
    return text.encode(errors="surrogateescape"), status
