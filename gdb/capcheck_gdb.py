"""Capabilities in GDB: source this file. docs/GDB.md has examples.

  capcheck[/v][/N] EXPRESSION  print a capability, or N of them; see `help capcheck`
  capcheck-report JUDGE        print why a judge of the program refused a line
  capcheck-judge JUDGE ..      ask a judge of the program; see `help capcheck-judge`
  capcheck-owner JUDGE PLACE   print the object that owns a place, by a judge of run logs
  capcheck-objects JUDGE       print the objects that are live or held, each with the first place that holds it
  print EXPRESSION             prints the structs of the C headers with their bounds
  $cap_base(EXPRESSION) and so on, for conditions of breakpoints; see `help function`
"""
import contextlib
import os
import re
import struct
import sys

import gdb
import gdb.printing

_here = os.path.dirname(os.path.abspath(__file__))
sys.path[:0] = [it for it in (_here, os.path.join(_here, "../python")) if os.path.isdir(f"{it}/capcheck")]
from capcheck import Capability, Kind, Object, Refusal, RunVerdict  # noqa: E402
from capcheck._abi import Place  # noqa: E402
from capcheck.judges import State, _EXPECTS_CAPABILITY, _EXPECTS_NUMBER, _REPORT_SIZE  # noqa: E402
from capcheck.runs import _GRANULE, _LIVE, _NO_SUCH_OBJECT, _REGISTER, _SPECIAL, _name as _named  # noqa: E402

_STRUCTS = (gdb.TYPE_CODE_STRUCT, gdb.TYPE_CODE_UNION)
_REFERENCES = (gdb.TYPE_CODE_REF, gdb.TYPE_CODE_RVALUE_REF)
_INTEGERS = (gdb.TYPE_CODE_INT, gdb.TYPE_CODE_ENUM)


def _fields(kind):
    """The names of a struct's or a union's fields."""
    return {field.name for field in kind.fields()} if kind.code in _STRUCTS else set()


def _whole(value):
    """A number of up to 128 bits, or a word of two halves."""
    if {"high", "low"} <= _fields(value.type.strip_typedefs()):
        return int(value["high"]) << 64 | int(value["low"])
    return int(value.format_string(format="x"), 16)  # int() takes 64 bits


def _is_word(kind):
    return {"high", "low"} <= _fields(kind) or (kind.code in _INTEGERS and kind.sizeof == 16)


def _of_struct(value, fields):
    """The capability of a struct, and whether it has a tag; None if there is none in it."""
    if {"word", "tag"} <= fields and _is_word(value["word"].type.strip_typedefs()):
        return Capability(_whole(value["word"]), int(value["tag"]) != 0), True
    if {"cr_pesbt", "_cr_cursor", "cr_tag"} <= fields:  # cheri-compressed-cap
        return Capability(int(value["cr_pesbt"]) << 64 | int(value["_cr_cursor"]), int(value["cr_tag"]) != 0), True
    if "cap" in fields:  # a result; another struct's field of this name may be a number
        return _of_struct(value["cap"], _fields(value["cap"].type.strip_typedefs()))
    if "word" in fields or {"high", "low"} <= fields:
        word = value["word"] if "word" in fields else value
        return (Capability(_whole(word)), False) if _is_word(word.type.strip_typedefs()) else None
    if "uint128" in fields:  # a register
        return Capability(_whole(value["uint128"])), False
    return None


def capability_of(value):
    """The capability that a value holds, or that the 16 bytes of memory at an address hold, and whether its tag is known."""
    kind = value.type.strip_typedefs()
    if kind.code in _REFERENCES:
        return capability_of(value.referenced_value())
    if found := _of_struct(value, _fields(kind)):
        return found
    if kind.code in _INTEGERS and kind.sizeof == 16:
        return Capability(_whole(value)), False
    if kind.code == gdb.TYPE_CODE_PTR and kind.target().strip_typedefs().code in _STRUCTS:
        if found := _of_struct(value.dereference(), _fields(kind.target().strip_typedefs())):
            return found
    return Capability.from_memory(_memory(_place(value, 16), 16)), False


def _place(value, size):
    """The address that a value is, or at which an array of as many bytes lies."""
    kind = value.type.strip_typedefs()
    if kind.code == gdb.TYPE_CODE_ARRAY:
        if kind.sizeof < size:
            raise gdb.GdbError(f"a value of type {value.type} has {kind.sizeof} bytes, and not {size}")
        value = value.address
    elif kind.code not in (gdb.TYPE_CODE_PTR, *_INTEGERS):
        raise gdb.GdbError(f"a value of type {value.type} has no capability")
    return int(value) % 2**64


def _memory(address, size):
    return gdb.selected_inferior().read_memory(address, size).tobytes()


def several(value, count):
    """As many capabilities, each with the name of its place: elements of an array, or granules from an address on."""
    kind = value.type.strip_typedefs()
    if kind.code in (gdb.TYPE_CODE_ARRAY, gdb.TYPE_CODE_PTR):
        if kind.code == gdb.TYPE_CODE_ARRAY and kind.target().strip_typedefs().code in _STRUCTS:
            count = min(count, kind.range()[1] + 1)
        element = kind.target().strip_typedefs()
        if element.code in _STRUCTS and _of_struct(value[0], _fields(element)):
            return [(f"[{number}]", *capability_of(value[number])) for number in range(count)]
    address = _place(value, 16 * count)
    return [(f"{address + 16 * it:#x}", Capability.from_memory(_memory(address + 16 * it, 16)), False) for it in range(count)]


@contextlib.contextmanager
def _plain_errors():
    """GDB prints an error of an expression as its own commands do, without the place in this file."""
    try:
        yield
    except gdb.error as error:
        raise gdb.GdbError(str(error)) from None


def _short(cap, tagged):
    """As CHERI's debuggers print it; of an unknown tag nothing is said."""
    return str(cap if tagged else Capability(cap.word, True))


def _in_one_line(cap, tagged):
    return f"{int(cap.tag) if tagged else '-'} {cap.digits} {_short(cap, tagged)}"


class Explain(gdb.Command):
    """Print a capability: capcheck[/v][/N] EXPRESSION

EXPRESSION is the 32 hexadecimal digits of a word, with its tag, 0 or 1, before them or not; or any expression:
  a struct of capcheck.h, or cheri-compressed-cap's, or a pointer to one
  an address or another pointer, also a void *: the 16 bytes of memory there
  an array of at least 16 bytes: its first 16
  a number or a register of 128 bits: the word in the register layout
It prints the tag (- if it isn't known), the word, the address, the permissions and the bounds.
With /v it prints what `capcheck explain` prints, too. With a number, such as /4, it prints as many elements of an array of
structs, or as many granules of memory, each after its place."""

    def __init__(self):
        super().__init__("capcheck", gdb.COMMAND_DATA, gdb.COMPLETE_EXPRESSION)

    def invoke(self, text, from_tty):
        flags, what = re.fullmatch(r"((?:/(?:v|[0-9]+)\b)*)\s*(.*)", text.strip()).groups()
        counts = [int(it) for it in re.findall("[0-9]+", flags)]
        if not what or what.startswith("/") or 0 in counts:
            raise gdb.GdbError("capcheck[/v][/N] EXPRESSION: see help capcheck")
        digits = re.fullmatch(r"(?:([01])[ :])?((?:0x)?[0-9a-fA-F]{16}[ _:]?(?:0x)?[0-9a-fA-F]{16})", what)
        if digits:
            found = [("", Capability.parse(re.sub("0x", "", digits[2]), digits[1] == "1"), digits[1] is not None)]
        else:
            with _plain_errors():
                value = gdb.parse_and_eval(what)
                found = several(value, counts[-1]) if counts else [("", *capability_of(value))]
        for place, cap, tagged in found:
            print(f"{place}: " if place else "", _in_one_line(cap, tagged), sep="")
            if "/v" in flags:
                print(cap.explain(), end="")


@contextlib.contextmanager
def _alone():
    """Calls of the program's functions let no other thread run, and leave nothing on the stack if one fails."""
    before = {name: gdb.parameter(name) for name in ("scheduler-locking", "unwindonsignal")}
    gdb.execute("set unwindonsignal on", to_string=True)
    with contextlib.suppress(gdb.error):
        gdb.execute("set scheduler-locking on", to_string=True)
    try:
        yield
    finally:
        gdb.execute(f"set unwindonsignal {'on' if before['unwindonsignal'] else 'off'}", to_string=True)
        with contextlib.suppress(gdb.error):
            gdb.execute(f"set scheduler-locking {before['scheduler-locking']}", to_string=True)


def _call(name, *numbers):
    """What a function of the program's library returns for numbers, as a number."""
    types = ", ".join(["unsigned long"] * len(numbers))
    return int(gdb.parse_and_eval(f"((unsigned long (*)({types})){name})({', '.join(map(str, numbers))})"))


class Asked:
    """A judge of the program, asked through its own library, which has room for the answers: nothing is allocated."""

    def __init__(self, value):
        kind = value.type.strip_typedefs()
        if kind.code in _REFERENCES:
            value = value.referenced_value()
        elif kind.code == gdb.TYPE_CODE_PTR and kind.target().strip_typedefs().code in _STRUCTS:
            value = value.dereference()
        self.prefix = value.type.strip_typedefs().unqualified().name
        if self.prefix not in ("capcheck_judge", "capcheck_run_judge") or value.address is None:
            raise gdb.GdbError(f"a value of type {kind} is no judge: name a capcheck_judge, or a pointer to one")
        if gdb.selected_thread() is None:
            raise gdb.GdbError("the program isn't running: its own library has to answer")
        if int.from_bytes(_memory(int(value["held"].address), 1), "little") != 1:
            raise gdb.GdbError("the judge isn't open")
        _memory(int(value["at"]), 64)  # What was never opened rarely points anywhere.
        self.at = int(value.address)

    @contextlib.contextmanager
    def _asking(self):
        """The room for an answer. A question that fails leaves the judge as it was."""
        before = _memory(self.at, 16)
        try:
            with _alone():
                yield _call("capcheck_judge_text", 0)
        except gdb.error:
            with contextlib.suppress(gdb.error):  # A core file can't be written.
                gdb.selected_inferior().write_memory(self.at, before)
            raise

    def answer(self, name, size, *numbers):
        """The bytes of the struct that a question returns."""
        with self._asking() as room:
            _call(f"{self.prefix}_{name}", room, self.at, *numbers)
            return _memory(room, size)

    def verdict(self, name):
        """An answer, as `print` shows it."""
        if self.prefix == "capcheck_run_judge":
            return _run_answer_text(*struct.unpack("<QIIIBB", self.answer(name, 22)))
        return _answer_text(*struct.unpack("<QIIBB", self.answer(name, 18)))

    def number(self, name, *numbers):
        """The number that a question returns."""
        with _alone():
            return _call(f"{self.prefix}_{name}", self.at, *numbers) % 2**32

    def owner(self, place, hart=None):
        """The number of the object that owns a place, which is passed in two registers; 0 if none does. A register is the current
        hart's, or a given hart's."""
        return self.number("owner", place.number, place.kind) if hart is None else self.number("owner_in", hart, place.number, place.kind)

    def object(self, number, freed=False):
        """An object with its first holder; None if there is none, or if only freed ones are wanted and it is live."""
        base, high, low, held, line, state = struct.unpack("<QQQQQB", self.answer("object", 41, number))
        if state == _NO_SUCH_OBJECT or (freed and state == _LIVE):
            return None
        with self._asking():  # A place comes in two registers, as a judge would: that type is there.
            called = "((capcheck_run_judge (*)(unsigned long, unsigned long))capcheck_run_judge_holder)"
            there = gdb.parse_and_eval(f"{called}({self.at}, {number})")
        place = Place(int(there["at"]), int(there["held"]))
        hart = self.number("holder_hart", number)
        other = f"{hart}." if place.kind in (_REGISTER, _SPECIAL) and hart != self.number("hart") else ""
        return f"{Object(number, line, base, high << 64 | low, state == _LIVE, held)} {other}{_named(place) or 'no place'}"

    def capability(self, name, number):
        """What a register, a special register or a granule holds."""
        if self.prefix == "capcheck_run_judge":
            kind = {"register": _REGISTER, "granule": _GRANULE, "special": _SPECIAL}[name]
            name, numbers = "held", (number, kind)
        elif name == "special":
            raise gdb.GdbError("only a judge of run logs has special registers")
        else:
            numbers = (number,)
        high, low, tag = struct.unpack("<QQB", self.answer(name, 17, *numbers))
        return Capability(high << 64 | low, tag == 1)

    def expected(self):
        high, low, tag, number, size, kind = struct.unpack("<QQB7xQBB", self.answer("expected", 34))
        if kind == _EXPECTS_CAPABILITY:
            return _in_one_line(Capability(high << 64 | low, tag == 1), True)
        return f"{number:#0{2 * size + 2}x}" if kind == _EXPECTS_NUMBER else "nothing: no line records another result than the rules give"

    def report(self):
        with self._asking() as room:
            return _memory(room, _call(f"{self.prefix}_report", self.at, room, _REPORT_SIZE)).decode()


class Report(gdb.Command):
    """Print why a judge refused a line: capcheck-report JUDGE

JUDGE is a capcheck_judge or a capcheck_run_judge of the program, or a pointer to one. The program's own library writes what
`capdiag why` or `capdiag run --why` prints of the lines so far, so the program has to be linked with libcapcheck_judge and run. It calls no malloc."""

    def __init__(self):
        super().__init__("capcheck-report", gdb.COMMAND_DATA, gdb.COMPLETE_EXPRESSION)

    def invoke(self, text, from_tty):
        with _plain_errors():
            print(Asked(gdb.parse_and_eval(text)).report() or "no line is faulty\n", end="")


class AskJudge(gdb.Command):
    """Ask a judge of the program: capcheck-judge JUDGE QUESTION

JUDGE is a capcheck_judge or a capcheck_run_judge of the program, or a pointer to one. QUESTION is one of
  register N      what the model holds in a register, 0 to 31
  special N       of a capcheck_run_judge: what it holds in a special register, 0 to 31
  granule A       what it holds in the 16 aligned bytes that contain the address A
  expected        after a `no` for WrongResult, what the rules give
  end             the verdict on the lines so far as a whole log
After a faulty line, the first three are as before that line. An address of 16 digits is hexadecimal."""

    def __init__(self):
        super().__init__("capcheck-judge", gdb.COMMAND_DATA, gdb.COMPLETE_EXPRESSION)

    def invoke(self, text, from_tty):
        asked = re.fullmatch(r"(.+?)\s+(?:(register|special|granule)\s+(.+)|(expected|end))", text.strip())
        if not asked:
            raise gdb.GdbError("capcheck-judge JUDGE register N | special N | granule A | expected | end")
        with _plain_errors():
            judge = Asked(gdb.parse_and_eval(asked[1]))
            if asked[4]:
                print(judge.expected() if asked[4] == "expected" else judge.verdict("end"))
                return
            number = _number(asked[3], asked[2] == "granule")
            if asked[2] != "granule":
                _is_register(number)
            print(_in_one_line(judge.capability(asked[2], number), True))


def _number(text, is_address):
    """A number that GDB knows; an address may be written as logs and diagnoses write it, by its 16 digits."""
    if is_address and re.fullmatch("[0-9a-f]{16}", text.strip()):
        return int(text, 16)
    return int(gdb.parse_and_eval(text).cast(gdb.lookup_type("unsigned long")))


def _is_register(number, least=0):
    if not least <= number < 32:
        raise gdb.GdbError(f"there is no register {number}: they are {least} to 31")


def _run_judge(text):
    judge = Asked(gdb.parse_and_eval(text))
    if judge.prefix != "capcheck_run_judge":
        raise gdb.GdbError("a judge of run logs is a capcheck_run_judge")
    return judge


class Owner(gdb.Command):
    """Print the object that owns a place: capcheck-owner JUDGE PLACE

JUDGE is a capcheck_run_judge of the program, or a pointer to one. PLACE is a register such as c3, a special register such as
scr0, each of the current hart, 2.c3 of hart 2, or @ and an address, of which 16 digits are hexadecimal. It prints the object as `capdiag run --owners` does, with the first place that holds it. After a
faulty line, all is as before that line."""

    def __init__(self):
        super().__init__("capcheck-owner", gdb.COMMAND_DATA, gdb.COMPLETE_EXPRESSION)

    def invoke(self, text, from_tty):
        asked = re.fullmatch(r"(.+?)\s+(?:(?:([0-9]+)\.)?(c|scr)([0-9]+)|@(.+))", text.strip())
        if not asked:
            raise gdb.GdbError("capcheck-owner JUDGE c3 | scr0 | 2.c3 | @ADDRESS")
        with _plain_errors():
            judge, hart = _run_judge(asked[1]), asked[2] and int(asked[2])
            if asked[5]:
                place = Place(_number(asked[5], True), _GRANULE)
            else:
                place = Place(int(asked[4]), _REGISTER if asked[3] == "c" else _SPECIAL)
                _is_register(place.number, 1 if asked[3] == "c" else 0)
                if hart and hart > 65535:
                    raise gdb.GdbError(f"there is no hart {hart}: they are 0 to 65535")
            number = judge.owner(place, hart)
            print(judge.object(number) if number else "no object")


class Objects(gdb.Command):
    """Print the objects that are live or held: capcheck-objects JUDGE [freed]

JUDGE is a capcheck_run_judge of the program, or a pointer to one. Each is printed as by capcheck-owner. With freed, only those
that were freed and that a place still holds."""

    def __init__(self):
        super().__init__("capcheck-objects", gdb.COMMAND_DATA, gdb.COMPLETE_EXPRESSION)

    def invoke(self, text, from_tty):
        with _plain_errors():
            asked = re.fullmatch(r"(.+?)(\s+freed)?", text.strip())
            judge, number = _run_judge(asked[1] if asked else text), 0
            while number < 2**32 - 1 and (number := judge.number("next_object", number + 1)):
                if found := judge.object(number, bool(asked and asked[2])):
                    print(found)


class Number(gdb.Function):
    def __init__(self, name, doc):
        self.__doc__ = f"$cap_{name}(EXPRESSION): {doc}"
        super().__init__(f"cap_{name}")
        self.name = name

    def invoke(self, value):
        with _plain_errors():
            found = int(getattr(capability_of(value)[0], self.name))
        return gdb.Value(found if found < 2**64 else float(found))


def _refused(value, otherwise):
    refusal = int(value["refusal"])
    return otherwise(value) if refusal == 0 else f"refused: {Refusal(refusal).title}"


def _present(value):
    return _short(*capability_of(value)) if int(value["present"]) else "none"


def _answer_text(line, steps, roots, state, refusal):
    if state == State.YES:
        return f"yes {steps} {roots}"
    return f"no {line} {refusal} {Refusal(refusal).title}" if state == State.NO else State(state).title


def _run_answer_text(line, steps, roots, objects, state, refusal):
    if state == State.YES:
        return str(RunVerdict(True, steps, roots, objects))
    return str(RunVerdict(False, line=line, refusal=Refusal(refusal))) if state == State.NO else State(state).title


def _run_answer(value):
    return _run_answer_text(*(int(value[name]) for name in ("line", "steps", "roots", "objects", "state", "refusal")))


def _object(value):
    if int(value["state"]) == _NO_SUCH_OBJECT:
        return "no object"
    live = "live" if int(value["state"]) == _LIVE else "freed"
    return f"{int(value['base']):#x}-{_whole(value['top']):#x} {live}, held by {int(value['held'])}, line {int(value['line'])}"


def _answer(value):
    return _answer_text(*(int(value[name]) for name in ("line", "steps", "roots", "state", "refusal")))


def _judge(value):
    """The verdict so far. An older GDB can't call the program's library while it prints."""
    if int(value["held"]) != 1:
        return "not open"
    if int(gdb.VERSION.split(".")[0]) >= 13:
        with contextlib.suppress(gdb.error, gdb.GdbError):
            return Asked(value).verdict("answer")
    return "open"


def _expected(value):
    if int(value["kind"]) == _EXPECTS_CAPABILITY:
        return _short(*capability_of(value["cap"]))
    return f"{int(value['number']):#x}" if int(value["kind"]) == _EXPECTS_NUMBER else "nothing"


def _place_text(value):
    return _named(Place(int(value["number"]), int(value["kind"]))) or "no place"


def _rounded(value):
    return f"{int(value['base']):#x}-{_whole(value['top']):#x}" + ("" if int(value["exact"]) else " (rounded)")


def _range(value):
    return "every address" if int(value["every"]) else f"{int(value['size']):#x} addresses from {int(value['start']):#x}"


def _fields_text(value):
    names = ("address", "otype", "perms", "b", "t", "e", "ie", "flag", "reserved")
    return " ".join(f"{name} {int(value[name]):#x}" for name in names)


def _line(value):
    if int(value["kind"]) == 0:
        return "no line"
    registers = " ".join(f"{name} c{int(value[name])}" for name in ("target", "source", "authority"))
    numbers = f"number {int(value['number']):#x} offset {int(value['offset'])} size {int(value['size'])}"
    return f"{Kind(int(value['kind'])).name.lower()} {registers} {numbers} cap {_short(*capability_of(value['cap']))}"


def _recorder(value):
    error = value["error"].string()
    return f"{int(value['lines'])} lines" + (f": {error}" if error else "")


# How the structs of the headers are printed.
_PRINTED = {
    "capcheck_cap": lambda value: _short(*capability_of(value)),
    "capcheck_word": lambda value: _short(*capability_of(value)),
    "cc128_cap": lambda value: _short(*capability_of(value)),
    "capcheck_wide": lambda value: f"{_whole(value):#x}",
    "capcheck_bounds": lambda value: f"{int(value['base']):#x}-{_whole(value['top']):#x}",
    "capcheck_optional_word": _present,
    "capcheck_optional_cap": _present,
    "capcheck_made": lambda value: _refused(value, lambda made: _short(*capability_of(made["cap"]))),
    "capcheck_access": lambda value: _refused(value, lambda access: f"{int(access['address']):#x}"),
    "capcheck_answer": _answer,
    "capcheck_judge": _judge,
    "capcheck_run_answer": _run_answer,
    "capcheck_run_judge": _judge,
    "capcheck_object": _object,
    "capcheck_recorder": _recorder,
    "capcheck_expected": _expected,
    "capcheck_place": _place_text,
    "capcheck_rounded": _rounded,
    "capcheck_range": _range,
    "capcheck_fields": _fields_text,
    "capcheck_line": _line,
}


class Printer:
    def __init__(self, value, name):
        self.value, self.name = value, name

    def to_string(self):
        try:
            return _PRINTED[self.name](self.value)
        except ValueError:  # a number that no enum has: the struct was never filled
            return "not initialised"


class Printers(gdb.printing.PrettyPrinter):
    def __init__(self):
        super().__init__("capcheck")

    def __call__(self, value):
        name = value.type.strip_typedefs().unqualified().name
        return Printer(value, name) if name in _PRINTED else None


Explain()
Report()
AskJudge()
Owner()
Objects()
for _name, _doc in (("base", "its least address"), ("top", "the first address after its bounds"),
                    ("length", "the number of bytes in its bounds"), ("address", "where it points"),
                    ("permissions", "its permissions in the architectural view"), ("otype", "its object type"),
                    ("sound", "1 if its word is sound"), ("sealed", "1 if it is sealed"),
                    ("in_bounds", "1 if its address is in its bounds")):
    Number(_name, _doc)
gdb.printing.register_pretty_printer(None, Printers(), replace=True)
