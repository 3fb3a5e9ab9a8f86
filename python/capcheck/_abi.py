"""The calls and structs of the C headers, by ctypes. python/abi_check.py compares them with the headers."""
from __future__ import annotations

import ctypes as c
import os
from operator import index
from pathlib import Path

u8, u16, u32, u64, i16, i64 = c.c_uint8, c.c_uint16, c.c_uint32, c.c_uint64, c.c_int16, c.c_int64
size, flag, text, pointer = c.c_size_t, c.c_bool, c.c_char_p, c.c_void_p


class Wide(c.Structure):  # capcheck_word and capcheck_wide
    _fields_ = [("high", u64), ("low", u64)]

    @classmethod
    def of(cls, number: int) -> Wide:
        return cls(number >> 64, number & 0xFFFFFFFFFFFFFFFF)

    def __int__(self) -> int:
        return self.high << 64 | self.low


class Cap(c.Structure):
    _fields_ = [("word", Wide), ("tag", u8)]


class Fields(c.Structure):
    _fields_ = [("address", u64), ("otype", u32), ("perms", u16), ("b", u16), ("t", u16), ("e", u8), ("ie", u8),
                ("flag", u8), ("reserved", u8)]


class OptionalWord(c.Structure):
    _fields_ = [("word", Wide), ("present", u8)]


class Bounds(c.Structure):
    _fields_ = [("base", u64), ("top", Wide)]


class Rounded(c.Structure):
    _fields_ = [("base", u64), ("top", Wide), ("b", u16), ("t", u16), ("e", u8), ("ie", u8), ("exact", u8)]


class Range(c.Structure):
    _fields_ = [("start", u64), ("size", u64), ("every", u8)]


class Name(c.Structure):
    _fields_ = [("text", c.c_char * 24)]


class Sentence(c.Structure):
    _fields_ = [("text", c.c_char * 96)]


class Made(c.Structure):
    _fields_ = [("cap", Cap), ("refusal", u8)]


class Access(c.Structure):
    _fields_ = [("address", u64), ("refusal", u8)]


class Line(c.Structure):
    _fields_ = [("cap", Cap), ("number", u64), ("length", size), ("offset", i16), ("kind", u8), ("target", u8),
                ("source", u8), ("authority", u8), ("size", u8)]


class Place(c.Structure):
    _fields_ = [("number", u64), ("kind", u8)]


class RunLine(c.Structure):
    _fields_ = [("line", Line), ("second", Cap), ("target", Place), ("source", Place)]


class Read(c.Structure):
    _fields_ = [("lines", u64), ("bytes", u64)]


class Answer(c.Structure):
    _fields_ = [("line", u64), ("steps", u32), ("roots", u32), ("state", u8), ("refusal", u8)]


class Judge(c.Structure):
    _fields_ = [("at", pointer), ("held", flag)]


class Taken(c.Structure):
    _fields_ = [("bytes", u64), ("state", u8)]


class OptionalCap(c.Structure):
    _fields_ = [("cap", Cap), ("present", u8)]


class Expected(c.Structure):
    _fields_ = [("cap", Cap), ("number", u64), ("size", u8), ("kind", u8)]


class RunJudge(c.Structure):
    _fields_ = [("at", pointer), ("held", flag)]


class Asks(c.Structure):
    _fields_ = [("held", u8), ("used", u8), ("owned", u8)]


class RunAnswer(c.Structure):
    _fields_ = [("line", u64), ("steps", u32), ("roots", u32), ("objects", u32), ("state", u8), ("refusal", u8)]


class Object(c.Structure):
    _fields_ = [("base", u64), ("top", Wide), ("held", u64), ("line", u64), ("state", u8)]


class HeapAnswer(c.Structure):
    _fields_ = [("line", u64), ("live", u64), ("events", u32), ("state", u8), ("refusal", u8)]


class HeapWhy(c.Structure):
    _fields_ = [("answer", HeapAnswer), ("length", u64)]


RecorderWrite = c.PYFUNCTYPE(flag, pointer, pointer, size)


class RecorderRegisters(c.Structure):
    _fields_ = [("integers", u64 * 32), ("logged", Cap * 64), ("unread", u32), ("begun", u8)]


class Recorder(c.Structure):
    _fields_ = [("error", c.c_char * 192), ("lines", u64), ("spare", u64), ("state", u8), ("phase", u8), ("steps", u64), ("hart", u64),
                ("first", RecorderRegisters), ("others", c.POINTER(RecorderRegisters)), ("judge", c.POINTER(RunJudge)),
                ("write", RecorderWrite), ("to", pointer), ("waiting", size), ("queue", c.c_char * 96 * 7)]


class Slot(c.Structure):
    _fields_ = [("fields", u64 * 4)]


class Why(c.Structure):
    _fields_ = [("answer", Answer), ("length", u64)]


# The numbers of a step, as its call takes them after the buffer or the judge: the name of each, its type, the least that it
# may be, and the one above the greatest. A capability comes after the numbers.
_TARGET, _SOURCE, _AUTHORITY = ("target", u64, 1, 32), ("source", u64, 0, 32), ("authority", u64, 0, 32)
_OFFSET, _SIZE, _VALUE = ("offset", i64, -2048, 2048), ("size", u64, 1, 9), ("value", u64, 0, 2**64)
_NUMBERS: dict[str, tuple] = {
    "version": (("number", u64, 1, 3),), "mode": (("clear", u8, 0, 2),), "root": (_TARGET,),
    "root_at": (("address", u64, 0, 2**64),), "end": (("steps", u64, 0, 2**32),),
    "move": (_TARGET, _SOURCE), "cleartag": (_TARGET, _SOURCE),
    "setbounds": (_TARGET, _SOURCE, ("length", u64, 0, 2**64)),
    "setboundsexact": (_TARGET, _SOURCE, ("length", u64, 0, 2**64)),
    "setaddr": (_TARGET, _SOURCE, ("address", u64, 0, 2**64)), "andperm": (_TARGET, _SOURCE, ("mask", u64, 0, 2**64)),
    "seal": (_TARGET, _SOURCE, _AUTHORITY), "unseal": (_TARGET, _SOURCE, _AUTHORITY),
    "lc": (_TARGET, _AUTHORITY, _OFFSET), "sc": (_SOURCE, _AUTHORITY, _OFFSET),
    "load": (_AUTHORITY, _OFFSET, _SIZE, _VALUE), "store": (_AUTHORITY, _OFFSET, _SIZE, _VALUE),
}
RANGES = {name: [(it, least, limit) for it, _, least, limit in numbers] for name, numbers in _NUMBERS.items()}
_NO_CAPABILITY = ("version", "mode", "root", "root_at", "end", "sc", "load", "store")
# The types that the call of each line takes.
LINES: dict[str, tuple] = {
    name: (*(kind for _, kind, _, _ in numbers), *([] if name in _NO_CAPABILITY else [Cap]))
    for name, numbers in _NUMBERS.items()}
LINES["root"] += (Wide,)
LINES["root_at"] += (Wide,)
# The same of the lines that only run logs have, in which capabilities, words and places come after the numbers or are all.
_SPECIAL, _OBJECT = ("special", u64, 0, 32), ("object", u64, 0, 2**32)
_RUN_NUMBERS: dict[str, tuple] = {
    "run_version": (), "root_special": (_SPECIAL,), "hart": (("hart", u64, 0, 2**16),), "derive": (), "exchange": (_TARGET, _SOURCE, _SPECIAL),
    "invoke": (("code", u64, 0, 32), ("datum", u64, 0, 32)), "drop": (), "fill": (("address", u64, 0, 2**64),),
    "object": (("source", u64, 1, 32), _OBJECT), "free": (_SOURCE, _OBJECT),
}
RANGES |= {name: [(it, least, limit) for it, _, least, limit in numbers] for name, numbers in _RUN_NUMBERS.items()}
_REST = {"root_special": (Wide,), "derive": (Place, Place, Cap), "exchange": (Cap, Cap), "invoke": (Wide, Wide), "drop": (Place,),
         "fill": (Wide,)}
RUN_LINES: dict[str, tuple] = {name: (*(kind for _, kind, _, _ in numbers), *_REST.get(name, ()))
                               for name, numbers in _RUN_NUMBERS.items()}
RUN_STEPS = {name: types for name, types in RUN_LINES.items() if name not in ("run_version", "root_special", "hart")}
STEPS = {name: types for name, types in LINES.items() if name not in ("version", "mode", "root", "root_at", "end")}
# The result and the arguments of each call, by its name without `capcheck_`, `capcheck_line_` or `capcheck_judge_`.
WORDS: dict[str, tuple] = {
    "version": (Name,), "null": (Wide,), "split": (Fields, Wide), "join": (OptionalWord, Fields),
    "to_memory": (None, Wide, text), "from_memory": (Wide, text), "read_word": (OptionalWord, text, size),
    "explain": (u64, Cap, text, size), "mantissa": (u16, Wide),
    "decode": (Bounds, Wide), "sound": (flag, Wide), "length": (Wide, Wide), "round": (Rounded, u64, u64),
    "round_length": (Wide, u64), "align_mask": (u64, u64), "least_law": (flag, Wide, u64, u64), "reach": (Range, Wide),
    "keeps_bounds": (flag, Wide, u64), "with_bounds": (Wide, Wide, u64, u64), "perm_view": (u32, Wide),
    "root": (OptionalWord, u64, Wide, u32), "sealed": (flag, Wide),
    "refusal_name": (Name, u8), "refusal_sentence": (Sentence, u8), "state_name": (Name, u8),
    "state_sentence": (Sentence, u8), "kind_name": (Name, u8), "kind_sentence": (Sentence, u8),
    "set_bounds": (Made, Cap, u64, u8), "set_addr": (Made, Cap, u64), "and_perm": (Made, Cap, u64),
    "seal": (Made, Cap, Cap), "unseal": (Made, Cap, Cap),
    "set_bounds_clear": (Cap, Cap, u64, u8), "set_addr_clear": (Cap, Cap, u64), "and_perm_clear": (Cap, Cap, u64),
    "seal_clear": (Cap, Cap, Cap), "unseal_clear": (Cap, Cap, Cap), "clear_tag": (Cap, Cap), "derive_fault": (u8, Cap, Wide, u8),
    "may_load": (Access, Cap, i64, u64), "may_store": (Access, Cap, i64, u64), "may_load_cap": (Access, Cap, i64),
    "may_store_cap": (Access, Cap, i64, Cap), "loaded": (Cap, Cap, Cap),
    "read_line": (Line, pointer, size), "read_lines": (Read, pointer, size, c.POINTER(Line), size),
    "read_run_line": (RunLine, pointer, size),
}
_judge = c.POINTER(Judge)
JUDGE: dict[str, tuple] = {
    "open": (u8, _judge), "line": (u8, _judge, text, size), "lines": (Taken, _judge, pointer, size),
    "answer": (Answer, _judge), "end": (Answer, _judge), "register": (OptionalCap, _judge, u64),
    "granule": (OptionalCap, _judge, u64), "origin": (Place, _judge, Place), "expected": (Expected, _judge),
    "step": (u8, _judge, c.POINTER(Line)), "end_report": (u64, _judge, text, size), "close": (None, _judge),
}
_run_judge = c.POINTER(RunJudge)
RUN_JUDGE: dict[str, tuple] = {
    "open": (u8, _run_judge, Asks), "line": (u8, _run_judge, text, size), "lines": (Taken, _run_judge, pointer, size),
    "answer": (RunAnswer, _run_judge), "end": (RunAnswer, _run_judge), "held": (OptionalCap, _run_judge, Place),
    "owner": (u32, _run_judge, Place), "object": (Object, _run_judge, u32), "next_object": (u32, _run_judge, u32),
    "hart": (u32, _run_judge), "next_hart": (u32, _run_judge, u32), "held_in": (OptionalCap, _run_judge, u32, Place),
    "owner_in": (u32, _run_judge, u32, Place), "holder_hart": (u32, _run_judge, u32),
    "holder": (Place, _run_judge, u32), "expected": (Expected, _run_judge), "end_report": (u64, _run_judge, text, size),
    "close": (None, _run_judge),
}
_recorder = c.POINTER(Recorder)
RECORDER: dict[str, tuple] = {
    "start": (flag, _recorder, _run_judge, RecorderWrite, pointer, u8), "root": (flag, _recorder, Place, Wide),
    "end": (flag, _recorder), "again": (flag, _recorder), "did": (flag, _recorder, u8, u64, u64, u64, u64, Cap),
    "wrote": (flag, _recorder, Place, Place, Cap), "overwrote": (flag, _recorder, u64, u64), "dropped": (flag, _recorder, Place),
    "exchanged": (flag, _recorder, u64, Place, u64, Cap, Cap), "invoked": (flag, _recorder, u64, u64, Wide, Wide),
    "trapped": (flag, _recorder, Place, Cap, u64, Cap), "loaded_cap": (flag, _recorder, u64, Place, i64, Cap),
    "stored_cap": (flag, _recorder, u64, Place, i64), "loaded": (flag, _recorder, Place, i64, u64, u64),
    "stored": (flag, _recorder, Place, i64, u64, u64), "filled": (flag, _recorder, u64, text), "object": (flag, _recorder, u64, u64),
    "freed": (flag, _recorder, u64, u64), "hart": (flag, _recorder, u64, c.POINTER(RecorderRegisters)), "thread_ended": (flag, _recorder),
    "line": (flag, _recorder, text, size), "to_file": (flag, pointer, text, size),
}


def _load(name: str, kind: type[c.CDLL], **how: bool) -> c.CDLL:
    """Opens a library: in the folder CAPCHECK_LIB if that is set; otherwise next to this file, in the lib of the PREFIX that
    this file is installed below, or where the system finds it."""
    here, given = Path(__file__).resolve().parent, os.environ.get("CAPCHECK_LIB")
    for folder in (Path(given),) if given else (here, here / "../../../lib"):
        if (path := folder / f"{name}.so.1").exists():
            return kind(str(path), **how)
    if given:
        raise ImportError(f"CAPCHECK_LIB is {given}, where there is no {name}.so.1")
    try:
        return kind(f"{name}.so.1", **how)
    except OSError as error:
        raise ImportError(f"{error}: set CAPCHECK_LIB to the folder of the libraries") from None


def _declare(library: c.CDLL, prefix: str, calls: dict[str, tuple]) -> None:
    for name, (result, *arguments) in calls.items():
        function = getattr(library, prefix + name)
        function.restype, function.argtypes = result, arguments


# A PyDLL keeps the interpreter's lock during a call: a short call costs less, and no two threads call a judge at once.
words = _load("libcapcheck_c", c.PyDLL)
judges = _load("libcapcheck_judge", c.PyDLL)
# A CDLL releases it: for calls that judge a whole log and have no state.
whole_logs = _load("libcapcheck_judge", c.CDLL)
freestanding = _load("libcapcheck_freestanding", c.CDLL)
recorders = _load("libcapcheck_recorder", c.PyDLL, use_errno=True)  # A line that can't be written has a reason.


def shown(number: int) -> str:
    """A limit as people write it."""
    return "2**64 - 1" if number == 2**64 - 1 else "2**32 - 1" if number == 2**32 - 1 else str(number)


def check(name: str, values: tuple) -> None:
    """Refuses a number of a line or a step that is out of its range."""
    for (argument, least, limit), value in zip(RANGES[name], values):
        if not least <= index(value) < limit:
            raise ValueError(f"{name}: {argument} {value} isn't from {least} to {shown(limit - 1)}")


def refused(name: str, values: tuple) -> ValueError:
    """What is wrong with numbers that are in the ranges above, and that the call for a line or a step refuses."""
    if name in ("root_at", "fill"):
        return ValueError(f"{name}: address {values[0]:#x} isn't a multiple of 16")
    if name in ("derive", "drop"):
        return ValueError(f"{name}: a place is out of range")
    if name == "free":
        return ValueError(f"free: it names a register, 1 to 31, or an object by its number with the register 0: {values}")
    if name in ("load", "store") and values[2] not in (1, 2, 4, 8):
        return ValueError(f"{name}: size {values[2]} isn't 1, 2, 4 or 8")
    if name in ("load", "store"):
        return ValueError(f"{name}: value {values[3]:#x} has more than {values[2]} bytes")
    return ValueError(f"{name}: a number is out of range: {values}")


_declare(words, "capcheck_", WORDS)
_declare(words, "capcheck_line_", {name: (size, text, *numbers) for name, numbers in (LINES | RUN_LINES).items()})
_declare(judges, "capcheck_judge_", JUDGE)
_declare(judges, "capcheck_judge_", {name: (u8, _judge, *numbers) for name, numbers in STEPS.items()})
_declare(judges, "capcheck_run_judge_", RUN_JUDGE)
_declare(judges, "capcheck_run_", {"step": (u8, _run_judge, c.POINTER(RunLine))})
_declare(recorders, "capcheck_recorder_", RECORDER)
_declare(whole_logs, "capcheck_judge_", {"bytes": (Answer, pointer, size)})
_declare(whole_logs, "capcheck_run_judge_", {"bytes": (RunAnswer, pointer, size, Asks)})
_declare(whole_logs, "capcheck_heap_judge_", {"why": (HeapWhy, pointer, size, text, size)})
_declare(freestanding, "capcheck_judge_", {"why": (Why, flag, text, size, c.POINTER(Slot), size, text, size)})
