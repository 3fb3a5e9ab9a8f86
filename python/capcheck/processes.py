"""Work that processes share out among themselves, while it is still being listed."""
from __future__ import annotations

import marshal
import os
import select
import signal
import sys
from collections.abc import Callable, Iterable, Iterator
from contextlib import ExitStack
from typing import Any, NoReturn


def shared(batches: Iterator[list[str]], processes: int, call: Callable[[list[str]], Iterable[Any]]) -> Iterator[Any]:
    """What a call gives of batches of names, as it comes. Each batch goes to the process that is ready first. What passes is what marshal
    writes. The names lie in a file, and a pipe, of which each process reads, tells where each batch is."""
    with ExitStack() as stack:
        names, (todo, tells) = _file(), os.pipe()
        for it in (names, todo):
            stack.callback(os.close, it)
        told = stack.enter_context(open(tells, "wb", buffering=0))
        of = dict[int, int]()  # The process that writes to each pipe.
        stack.callback(_end, of)
        before = signal.pthread_sigmask(signal.SIG_BLOCK, [signal.SIGINT])  # An interrupt ends this process, which ends the others.
        try:
            for _ in range(processes):
                pipe, done = os.pipe()
                if not (process := os.fork()):
                    for it in (tells, pipe, *of):
                        os.close(it)
                    _work(names, todo, done, call)
                of[pipe] = process
                os.close(done)
        finally:
            signal.pthread_sigmask(signal.SIG_SETMASK, before)
        batch, at = next(batches, None), 0
        while of:
            ready, room, _ = select.select(list(of), [told] if batch else [], [])
            if room:
                length = os.write(names, os.fsencode("\0".join(batch or ())))
                told.write(at.to_bytes(8, "little") + length.to_bytes(8, "little"))
                at += length
                if not (batch := next(batches, None)):
                    told.close()
            for pipe in ready:
                if data := _next(pipe):
                    yield marshal.loads(data)
                    continue
                os.close(pipe)
                if status := os.waitpid(of.pop(pipe), 0)[1]:
                    # The system ended it, for lack of memory, or it has told of its exception.
                    raise MemoryError() if os.WIFSIGNALED(status) else RuntimeError("a process has failed")


def _file() -> int:
    """A file without a name."""
    if hasattr(os, "memfd_create"):  # Not in a Python that was built for a system before glibc 2.27.
        return os.memfd_create("names")
    from tempfile import TemporaryFile
    with TemporaryFile() as file:
        return os.dup(file.fileno())


def _work(names: int, todo: int, done: int, call: Callable[[list[str]], Iterable[Any]]) -> NoReturn:
    """What a process does."""
    status = 1
    try:
        with open(done, "wb") as pipe:
            while where := os.read(todo, 16):
                at, length = (int.from_bytes(it, "little") for it in (where[:8], where[8:]))
                for it in call(os.fsdecode(os.pread(names, length, at)).split("\0")):
                    data = marshal.dumps(it)
                    pipe.write(len(data).to_bytes(8, "little") + data)
                    pipe.flush()
        status = 0
    except BrokenPipeError:  # The first process has ended.
        pass
    except Exception:
        sys.excepthook(*sys.exc_info())
    finally:
        os._exit(status)


def _next(pipe: int) -> bytes:
    """What a process passes on next; nothing if it has ended."""
    length, data = int.from_bytes(os.read(pipe, 8), "little"), b""
    while len(data) < length and (piece := os.read(pipe, length - len(data))):
        data += piece
    return data if len(data) == length else b""


def _end(of: dict[int, int]) -> None:
    """Ends the processes that still run."""
    for pipe, process in of.items():
        os.close(pipe)
        os.kill(process, signal.SIGKILL)
        os.waitpid(process, 0)
