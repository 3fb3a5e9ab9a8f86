"""python3 -m capcheck explain|judge|why|shorten|trace|many|picture: what the programs print, a short log with the fault of a rejected one,
the run log of a trace, the verdicts on many logs, and a picture of a run."""
from __future__ import annotations

import argparse
import os
import stat
import sys
import time
from typing import Any

from . import Capability, heaps, importing, judge, many, pictures, runs, shorten, version, why


def _add_asks(command: argparse.ArgumentParser) -> None:
    """The options of `capdiag run`."""
    command.add_argument("--freed", choices=("held", "used", "both"), default="held", help="what is asked of freed objects, as in capdiag run")
    command.add_argument("--owned", action="store_true", help="each access to a live object goes through its own capability")


def _arguments() -> argparse.Namespace:
    parser = argparse.ArgumentParser(prog="python3 -m capcheck", description="128-bit CHERI capabilities and their logs")
    parser.add_argument("--version", action="version", version=f"capcheck {version()}")
    commands = parser.add_subparsers(dest="command", required=True)
    command = commands.add_parser("explain", help="print what words mean")
    command.add_argument("words", nargs="+", metavar="WORD", help="32 hexadecimal digits")
    command.add_argument("--tag", action="store_true", help="the words are tagged")
    for name, told in (("judge", "print the verdict on a log"), ("why", "print the verdict and the diagnosis"),
                       ("shorten", "print a short log with the fault of a rejected one")):
        command = commands.add_parser(name, help=told)
        command.add_argument("log", metavar="LOG", nargs="?", help="a file; without it, standard input")
        if name == "why":
            command.add_argument("--origins", action="store_true", help="after a yes, print the origins; run logs and logs of allocators have none")
        _add_asks(command)
    command.add_argument("--seconds", type=float, default=5, help="stop looking for a shorter one after this time")
    command.add_argument("--replayable", action="store_true", help="take lines of the log alone")
    for name, module, told in (("many", many, "judge many logs, side by side"), ("picture", pictures, "draw the objects of a run log over time"),
                               ("trace", importing, "write the run log of a trace, or judge it")):
        module.add_arguments(command := commands.add_parser(name, help=told))
        _add_asks(command)
    return parser.parse_args()


class _Progress:
    """How far a log was judged: a terminal shows it after two seconds, and an interrupt tells it."""

    def __init__(self, log: Any) -> None:
        about = os.fstat(log.fileno())
        self._whole = f" of {self._amount(about.st_size)}" if stat.S_ISREG(about.st_mode) else ""
        self._taken, self._is_shown, self._due = 0, False, time.monotonic() + 2

    @staticmethod
    def _amount(count: int) -> str:
        return f"{count // 1000} kB" if count < 10**7 else f"{count // 10**6} MB"

    def __str__(self) -> str:
        return f"{self._amount(self._taken)}{self._whole}"

    def __call__(self, taken: int) -> None:
        self._taken = taken
        if time.monotonic() >= self._due and sys.stderr.isatty():
            self._is_shown, self._due = True, time.monotonic() + 0.5
            print(f"\rcapcheck: {self}", end="\x1b[K", file=sys.stderr, flush=True)

    def judged(self, call: Any, *words: Any, **more: Any) -> Any:
        """What a judge answers, which is told of it."""
        try:
            return call(*words, **more, progress=self)
        except KeyboardInterrupt:
            raise KeyboardInterrupt(f" after {self}") from None
        finally:
            if self._is_shown:
                print("\r\x1b[K", end="", file=sys.stderr, flush=True)


def _printed(given: argparse.Namespace, log: Any) -> tuple[bytes, int]:
    """What is printed of a log, and the status."""
    if given.command == "picture":
        return pictures.picture(given, log)
    asks = {"freed": given.freed, "owned": given.owned}
    if given.command == "shorten":
        return shorten(log, given.seconds, given.replayable, **asks), 0
    begin, explains = log.peek(8), given.command == "why"
    if begin.startswith(b"run 1\n"):
        text = runs.why(log, **asks) if explains else f"{_Progress(log).judged(runs.judge, log, **asks)}\n"
    elif begin.startswith(b"heap 1\n"):
        text = heaps.why(log) if explains else f"{heaps.judge(log)}\n"
    else:
        text = why(log, given.origins) if explains else f"{_Progress(log).judged(judge, log)}\n"
    return text.encode(), int(not text.startswith("yes"))


def _read(given: argparse.Namespace) -> tuple[bytes, int]:
    """The same of the log that is named, or of standard input."""
    if given.log is None:
        return _printed(given, sys.stdin.buffer)
    with open(given.log, "rb") as log:
        return _printed(given, log)


def _failed(status: int, why_it_failed: object) -> int:
    print(f"capcheck: {why_it_failed}", file=sys.stderr)
    return status


def main() -> int:
    """The statuses of `capcheck` and `capdiag`. 0: all is printed, and a log that was to be judged is accepted. 1: it is
    rejected; for `shorten`, accepted. 2: an argument is wrong. 3: reading, writing or an allocation failed. 130: an interrupt."""
    given = _arguments()
    try:
        if given.command == "explain":
            text, status = "\n".join(Capability.parse(word, given.tag).explain() for word in given.words).encode(), 0
        elif given.command == "trace":
            text, status = importing.trace(given)
        elif given.command == "many":
            text, status = many.many(given)
        else:
            text, status = _read(given)
    except ValueError as wrong:
        return _failed(1 if given.command == "shorten" else 2, wrong)
    except MemoryError:
        return _failed(3, "no memory")
    except KeyboardInterrupt as at:
        return _failed(130, f"interrupted{at}")
    except importing.WriteFault as fault:
        return _failed(3, f"write fault: {fault}")
    except OSError as fault:
        return _failed(3, f"read fault: {fault}")
    try:
        with open(1, "wb", closefd=False) as output:
            output.write(text)
    except OSError as fault:
        return _failed(3, f"write fault: {fault}")
    return status


if __name__ == "__main__":
    sys.exit(main())
