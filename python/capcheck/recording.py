"""A recorder of run logs, for an emulator in Python: it is told what an instruction did, and writes the lines."""
from __future__ import annotations

import ctypes
import os
from operator import index
from typing import Any, Protocol

from . import _abi
from ._abi import judges as _judges, recorders as _c
from .judges import Rejected, State
from .lines import Kind
from .runs import RunJudge, _place, _verdict
from .words import Capability, _mask, _passed

_NOWHERE = _abi.Place(0, 0)
_libc = ctypes.CDLL(None, use_errno=True)  # Its streams, into which the library writes lines.
_libc.fdopen.restype, _libc.fdopen.argtypes = ctypes.c_void_p, (ctypes.c_int, ctypes.c_char_p)
_libc.ferror.argtypes = _libc.fflush.argtypes = _libc.fclose.argtypes = (ctypes.c_void_p,)


def _opened(descriptor: int) -> int:
    """A stream over a copy of a file descriptor."""
    copy = os.dup(descriptor)
    if (stream := _libc.fdopen(copy, b"wb")) is None:
        fault = ctypes.get_errno()
        os.close(copy)
        raise OSError(fault, os.strerror(fault))
    return stream


class Written(Protocol):
    """What lines are written into: a binary file, or any object with its `write`."""

    def write(self, line: bytes, /) -> Any: ...


def _number(value: int, name: str) -> int:
    if not 0 <= index(value) < 2**64:
        raise ValueError(f"{name} {value} isn't from 0 to 2**64 - 1")
    return index(value)


def _offset(value: int) -> int:
    if not -2**63 <= index(value) < 2**63:
        raise ValueError(f"offset {value} isn't from -2**63 to 2**63 - 1")
    return index(value)


def _register(place: str | int, name: str) -> _abi.Place:
    """A register by its number, or a place as a log writes it."""
    return _place(place) if isinstance(place, str) else _abi.Place(_number(place, name), 1)


class Recorder:
    """Records a run log, and may judge it at once. docs/RECORDING.md has the call for each instruction.

        with open("run.log", "wb") as file, RunJudge() as judge:
            recorder = Recorder(file, judge, clear=True)
            recorder.root("c1", root)
            recorder.did(Kind.SETADDR, 2, 1, root.set_address(0x1000), number=0x1000)
            recorder.end()

    Each line is passed to the judge, which has no lines yet, and then written into the file; one of the two may be left out. The file
    is a binary file, any object with its `write`, or the number of a file descriptor: this is the fastest, and what was written may be in
    a buffer until `end`, `flush` or an error.
    `spare` is a register that the program doesn't use, for accesses through special registers and beyond offsets of 12 bits.
    A register is a number, or a place as in a log, such as "scr0". The arguments are in the order of the line.

    Rejected is raised if the judge refuses a line: the file has this line. MemoryError is raised if the judge is out of
    memory: `again` goes on, and nothing is lost. ValueError is raised if a number is out of range, and after the end; what
    the file's `write` raises is raised. After any of these but MemoryError the recording may be over, and then later calls raise,
    too."""

    def __init__(self, file: Written | int | None = None, judge: RunJudge | None = None, *, clear: bool = False, spare: int = 0) -> None:
        self._recorder = _abi.Recorder()
        self._pointer = ctypes.byref(self._recorder)
        self._judge, self._fault, self._stream = judge, None, None
        self._registers: dict[int, _abi.RecorderRegisters] = {}  # Of each hart but 0.
        if judge is not None and judge._rest:
            raise ValueError("the last line that the judge was fed is incomplete")
        if isinstance(file, int):
            self._stream = _opened(file)
            self._write = ctypes.cast(_c.capcheck_recorder_to_file, _abi.RecorderWrite)
        else:
            self._write = _abi.RecorderWrite(0) if file is None else _abi.RecorderWrite(self._writing(file))
        judging = None if judge is None else judge._open
        self._done(_c.capcheck_recorder_start(self._pointer, judging, self._write, self._stream, bool(clear)))
        self.spare = spare

    def _writing(self, file: Written) -> Any:
        """The function by which C writes a line."""
        write = file.write

        def written(_: int, line: int, length: int) -> bool:
            try:
                write(ctypes.string_at(line, length))
                return True
            except BaseException as fault:
                self._fault = fault
                return False

        return written

    def flush(self) -> None:
        """Writes what is in the buffer of a file descriptor."""
        if self._stream is not None and _libc.fflush(self._stream):
            raise OSError(fault := ctypes.get_errno(), os.strerror(fault))

    def __del__(self) -> None:
        if (stream := self.__dict__.pop("_stream", None)) is not None:
            _libc.fclose(stream)

    def _done(self, goes_on: bool) -> None:
        """Returns if the recording goes on; otherwise raises what it failed by."""
        if goes_on:
            return
        if self._stream is not None and _libc.ferror(self._stream):
            raise OSError(number := ctypes.get_errno(), os.strerror(number))
        fault, self._fault = self._fault, None
        if fault is not None:
            raise fault
        state, error = self._recorder.state, self._recorder.error.decode()
        if state == State.NO_MEMORY:
            raise MemoryError("the judge is out of memory: again() passes the line again")
        if state == State.NO and self._judge is not None and self._judge._judge.held:
            raise Rejected(_verdict(_judges.capcheck_run_judge_answer(self._judge._open)), self._judge.diagnosis())
        raise ValueError(error)

    def __repr__(self) -> str:
        return f"<Recorder: {self._recorder.error.decode() or f'{self.lines} lines'}>"

    def __copy__(self) -> Recorder:
        raise TypeError("a Recorder can't be copied")

    def __reduce__(self) -> Any:
        raise TypeError("a Recorder can't be copied or pickled")

    @property
    def lines(self) -> int:
        """How many lines were passed on: the number of the last one."""
        return self._recorder.lines

    @property
    def spare(self) -> int:
        """The register that the program doesn't use; 0 for none."""
        return self._recorder.spare

    @spare.setter
    def spare(self, number: int) -> None:
        if not 0 <= index(number) < 32:
            raise ValueError(f"spare {number} isn't from 0 to 31")
        self._recorder.spare = number

    def root(self, place: str | int, cap: Capability) -> None:
        """A root, before the first step: a tagged capability in a register, a special register or a granule."""
        self._done(_c.capcheck_recorder_root(self._pointer, _register(place, "place"), _passed(cap, "cap").word))

    def end(self) -> None:
        """The end line. No call may follow."""
        self._done(_c.capcheck_recorder_end(self._pointer))
        self.flush()

    def again(self) -> None:
        """After MemoryError: passes the line again, and what follows it of the same call."""
        self._done(_c.capcheck_recorder_again(self._pointer))

    def hart(self, number: int) -> None:
        """Names the hart, 0 to 65535, whose registers the calls from now on mean, roots too: at first hart 0. A program's recorder takes
        a hart for each thread."""
        registers = self._registers.setdefault(_number(number, "hart"), _abi.RecorderRegisters())
        self._done(_c.capcheck_recorder_hart(self._pointer, number, registers))

    def thread_ended(self) -> None:
        """The current hart's thread ended: a `drop` for each of its registers that holds a tag. Without it, what they hold stays held."""
        self._done(_c.capcheck_recorder_thread_ended(self._pointer))

    def did(self, kind: Kind, target: int, source: int, value: Capability, *, number: int = 0, other: int = 0) -> None:
        """An instruction did a step, Kind.MOVE to Kind.UNSEAL: `number` is its length, address or mask, as the instruction had
        it, and `other` the authority of a seal or an unseal."""
        numbers = _number(target, "target"), _number(source, "source"), _number(other, "other")
        operand = _mask(number) if kind == Kind.ANDPERM else _number(number, "number")
        if not 0 <= index(kind) < 256:
            raise ValueError(f"kind {kind} is no kind of line")
        self._done(_c.capcheck_recorder_did(self._pointer, kind, *numbers, operand, _passed(value, "value")))

    def wrote(self, target: str | int, source: str | int, value: Capability) -> None:
        """An instruction without a step of its own wrote a register, from the one that gives bounds and permissions."""
        places = _register(target, "target"), _register(source, "source")
        self._done(_c.capcheck_recorder_wrote(self._pointer, *places, _passed(value, "value")))

    def overwrote(self, target: int, integer: int) -> None:
        """An integer overwrote a register."""
        self._done(_c.capcheck_recorder_overwrote(self._pointer, _number(target, "target"), _number(integer, "integer")))

    def dropped(self, place: str | int) -> None:
        """The tag of a register, a special register or a granule went."""
        self._done(_c.capcheck_recorder_dropped(self._pointer, _register(place, "place")))

    def exchanged(self, target: int, source: int | None, special: int, value: Capability, special_value: Capability) -> None:
        """CJALR and CSpecialRW: the target got `value` from a special register, and that `special_value` from the source. A jump
        that links nothing has the target 0, and a CSpecialRW that only reads the source None."""
        place = _NOWHERE if source is None else _register(source, "source")
        self._done(_c.capcheck_recorder_exchanged(self._pointer, _number(target, "target"), place, _number(special, "special"),
                                                  _passed(value, "value"), _passed(special_value, "special_value")))

    def invoked(self, code: int, datum: int, code_cap: Capability, datum_cap: Capability) -> None:
        """CInvoke: PCC and c31 got the words of the registers that were invoked, without their seals."""
        self._done(_c.capcheck_recorder_invoked(self._pointer, _number(code, "code"), _number(datum, "datum"),
                                                _passed(code_cap, "code_cap").word, _passed(datum_cap, "datum_cap").word))

    def trapped(self, saved: int | None, saved_value: Capability, vector: int, pcc: Capability) -> None:
        """A trap: the special register `saved` got `saved_value` from PCC, and PCC got `pcc` from the special register `vector`.
        The return from a trap: `saved` is None, and `vector` the register that was saved to."""
        place = _NOWHERE if saved is None else _abi.Place(_number(saved, "saved"), 3)
        self._done(_c.capcheck_recorder_trapped(self._pointer, place, _passed(saved_value, "saved_value"), _number(vector, "vector"),
                                                _passed(pcc, "pcc")))

    def loaded_cap(self, target: int, authority: str | int, offset: int, value: Capability) -> None:
        """LC, at the authority's address plus an offset. The value is the one after the check of Load Capability."""
        self._done(_c.capcheck_recorder_loaded_cap(self._pointer, _number(target, "target"), _register(authority, "authority"),
                                                   _offset(offset), _passed(value, "value")))

    def stored_cap(self, source: int, authority: str | int, offset: int) -> None:
        """SC."""
        self._done(_c.capcheck_recorder_stored_cap(self._pointer, _number(source, "source"), _register(authority, "authority"),
                                                   _offset(offset)))

    def loaded(self, authority: str | int, offset: int, size: int, value: int) -> None:
        """A load of data, of 1, 2, 4 or 8 bytes: a number of that many bytes, as memory has it."""
        self._done(_c.capcheck_recorder_loaded(self._pointer, _register(authority, "authority"), _offset(offset), _number(size, "size"),
                                               _number(value, "value")))

    def stored(self, authority: str | int, offset: int, size: int, value: int) -> None:
        """A store of data."""
        self._done(_c.capcheck_recorder_stored(self._pointer, _register(authority, "authority"), _offset(offset), _number(size, "size"),
                                               _number(value, "value")))

    def filled(self, address: int, memory: bytes) -> None:
        """A kernel or a device wrote into a granule: its sixteen bytes now."""
        if len(memory) != 16:
            raise ValueError(f"a granule has 16 bytes, and not {len(memory)}")
        self._done(_c.capcheck_recorder_filled(self._pointer, _number(address, "address"), bytes(memory)))

    def object(self, source: int, number: int = 0) -> None:
        """What a register holds is a new object's, or also that of the object with a number."""
        self._done(_c.capcheck_recorder_object(self._pointer, _number(source, "source"), _number(number, "number")))

    def freed(self, source: int, number: int = 0) -> None:
        """The object that owns a register is freed; or, of the register 0, the object with a number."""
        self._done(_c.capcheck_recorder_freed(self._pointer, _number(source, "source"), _number(number, "number")))

    def line(self, line: bytes) -> None:
        """Records a step by its line. Integers in the registers that it reads are told before."""
        line = bytes(line)
        self._done(_c.capcheck_recorder_line(self._pointer, line, len(line)))
