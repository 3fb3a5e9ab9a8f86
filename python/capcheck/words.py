"""Capabilities: their words, bounds and permissions, and what each operation gives."""
from __future__ import annotations

import ctypes
from dataclasses import dataclass
from enum import IntEnum, IntFlag
from operator import index
from typing import Any, NamedTuple

from . import _abi
from ._abi import Wide, words as _c

_OTYPE_UNSEALED, _OTYPE_SENTRY, _OTYPE_LEAST_RESERVED = 0x3FFFF, 0x3FFFE, 0x3FFFC
_EXPLAIN_SIZE = 512


def _formatted(number: IntEnum | IntFlag, spec: str) -> str:
    """A number of an enum by its name, or as a number if the format is one of numbers."""
    return format(int(number) if spec[-1:] in tuple("bcdnoxX") else str(number), spec)


class Permissions(IntFlag):
    """Permissions in the architectural view."""
    GLOBAL = 0x1
    EXECUTE = 0x2
    LOAD = 0x4
    STORE = 0x8
    LOAD_CAPABILITY = 0x10
    STORE_CAPABILITY = 0x20
    STORE_LOCAL_CAPABILITY = 0x40
    SEAL = 0x80
    CINVOKE = 0x100
    UNSEAL = 0x200
    ACCESS_SYSTEM_REGISTERS = 0x400
    SET_CID = 0x800
    USER_0 = 0x8000
    USER_1 = 0x10000
    USER_2 = 0x20000
    USER_3 = 0x40000
    USER_PERMISSIONS = 0x78000
    ALL_PERMISSIONS = 0x78FFF

    @property
    def letters(self) -> str:
        """The letters that CHERI's debuggers print: r, w and x for data and code, R and W for capabilities."""
        return "".join(letter for letter, permission in _LETTERS if permission in self)

    # The same in every version of Python.
    def __invert__(self) -> Permissions:
        return Permissions(int(Permissions.ALL_PERMISSIONS) & ~int(self))

    def __str__(self) -> str:
        return "|".join(it.name or "" for it in _SINGLE if int(it) & int(self)) or "0"

    def __repr__(self) -> str:
        return f"<Permissions {self}: {int(self):#x}>"

    def __format__(self, spec: str) -> str:
        return _formatted(self, spec)


_SINGLE = [it for it in Permissions.__members__.values() if int(it) & int(it) - 1 == 0]

_LETTERS = (("r", Permissions.LOAD), ("w", Permissions.STORE), ("x", Permissions.EXECUTE),
            ("R", Permissions.LOAD_CAPABILITY), ("W", Permissions.STORE_CAPABILITY))


class Refusal(IntEnum):
    """Why an operation, an access or a line is refused. The numbers are those of a verdict."""
    BAD_HEADER = 1
    LINE_TOO_LONG = 2
    BAD_LINE = 3
    MISPLACED = 4
    TRUNCATED = 5
    WRONG_COUNT = 6
    PLACE_TAKEN = 7
    UNSOUND_ROOT = 8
    SOURCE_UNTAGGED = 9
    SOURCE_SEALED = 10
    BOUNDS_ESCAPE = 11
    NOT_EXACT = 12
    NOT_REPRESENTABLE = 13
    AUTHORITY_UNTAGGED = 14
    AUTHORITY_SEALED = 15
    AUTHORITY_PERMISSION = 16
    AUTHORITY_BOUNDS = 17
    TYPE_OUT_OF_RANGE = 18
    TYPE_MISMATCH = 19
    MISALIGNED = 20
    STORE_CAP_PERMISSION = 21
    STORE_LOCAL_PERMISSION = 22
    WRONG_RESULT = 23
    LIMIT_PASSED = 24
    BAD_MODE = 25
    ADDRESS_TAKEN = 26
    OUTSIDE_HEAP = 27
    OVERLAPS = 28
    NOT_LIVE = 29
    UNSOUND_RESULT = 30
    BEYOND_SOURCE = 31
    SEAL_CHANGED = 32
    NOT_INVOKABLE = 33
    NO_CAPABILITY = 34
    HAS_OWNER = 35
    STILL_HELD = 36
    NO_OWNER = 37
    ALREADY_FREED = 38
    OWNER_FREED = 39
    NO_OBJECT = 40
    NOT_OWNED = 41
    BAD_ARGUMENT = 255

    @property
    def title(self) -> str:
        """The name that a verdict prints, such as BoundsEscape."""
        return _c.capcheck_refusal_name(self).text.decode()

    @property
    def sentence(self) -> str:
        """What the refusal means."""
        return _c.capcheck_refusal_sentence(self).text.decode()

    def __str__(self) -> str:
        return self.title

    def __format__(self, spec: str) -> str:
        return _formatted(self, spec)


class Refused(Exception):
    """An operation or an access is refused: a machine that traps would trap here."""

    def __init__(self, refusal: Refusal) -> None:
        super().__init__(refusal)
        self.refusal = refusal

    def __str__(self) -> str:
        return self.refusal.title


class Fields(NamedTuple):
    """The fields of a word, as encoded in it. `t` has the low 12 bits of T."""
    address: int
    otype: int
    perms: int
    b: int
    t: int
    e: int
    ie: int
    flag: int
    reserved: int


@dataclass(frozen=True)
class Range:
    """A representable range, `size` addresses from `start` on, modulo 2**64: `address in range` says whether an address
    keeps the bounds."""
    start: int
    size: int

    def __contains__(self, address: object) -> bool:
        return isinstance(address, int) and 0 <= address < 2**64 and (address - self.start) % 2**64 < self.size


class Rounded(NamedTuple):
    """A request for bounds after rounding, with the fields that encode it."""
    base: int
    top: int
    exact: bool
    ie: bool
    e: int
    b: int
    t: int

    @property
    def length(self) -> int:
        """The top minus the base."""
        return self.top - self.base


def _number(value: int, bits: int, name: str) -> int:
    """Refuses a number that ctypes would cut."""
    if not 0 <= (number := index(value)) < 1 << bits:
        raise ValueError(f"{name} {value} isn't from 0 to 2**{bits} - 1")
    return number


def _address(value: int) -> int:
    return _number(value, 64, "address")


def _length(value: int) -> int:
    return _number(value, 64, "length")


def _mask(value: int) -> int:
    """A mask; a negative one, such as ~8, has all higher bits."""
    return _number(value if value >= 0 else value + 2**64, 64, "mask")


def _offset(value: int) -> int:
    if not -2048 <= index(value) < 2048:
        raise ValueError(f"offset {value} isn't from -2048 to 2047")
    return value


def _size(value: int) -> int:
    if index(value) not in (1, 2, 4, 8):
        raise ValueError(f"size {value} isn't 1, 2, 4 or 8")
    return value


def _passed(cap: Capability, name: str) -> _abi.Cap:
    """A capability as C takes it."""
    if not isinstance(cap, Capability):
        raise TypeError(f"{name} is a Capability, and not {type(cap).__name__}")
    return cap._cap


class Capability:
    """A capability: its word in the register layout, and its tag. It is immutable, and compares by both. An operation on an
    untagged one checks nothing, as on the machine."""

    __slots__ = ("word", "tag")
    __match_args__ = ("word", "tag")
    word: int
    tag: bool

    def __init__(self, word: int, tag: bool = False) -> None:
        object.__setattr__(self, "word", _number(word, 128, "word"))
        object.__setattr__(self, "tag", bool(_number(tag, 1, "tag")))

    def __setattr__(self, name: str, value: object) -> None:
        raise AttributeError(f"a Capability is immutable: {name} can't be set; see replace")

    def __delattr__(self, name: str) -> None:
        raise AttributeError(f"a Capability is immutable: {name} can't be deleted")

    def __eq__(self, other: object) -> bool:
        if not isinstance(other, Capability):
            return NotImplemented
        return (self.word, self.tag) == (other.word, other.tag)

    def __hash__(self) -> int:
        return hash((self.word, self.tag))

    def __reduce__(self) -> tuple[Any, ...]:
        return Capability, (self.word, self.tag)

    # ---- Making one ----

    @classmethod
    def parse(cls, text: str, tag: bool | None = None) -> Capability:
        """Reads a word of 32 hexadecimal digits. A tag, 0 or 1, and a space may come before them, as a log and GDB print
        it; otherwise the tag is `tag`, by default False. 0x before the digits, and spaces, underscores and colons among
        them, are skipped."""
        said = text.strip().lower()
        if said[:2] in ("0 ", "1 ", "- "):
            tag = (said[0] == "1" if said[0] != "-" else False) if tag is None else tag
            said = said[2:].lstrip()
        digits = said.removeprefix("0x")
        for blank in " _:":
            digits = digits.replace(blank, "")
        found = _c.capcheck_read_word(digits.encode(), len(digits.encode()))
        if not found.present:
            raise ValueError(f"{text!r} isn't a word of 32 hexadecimal digits")
        return cls(int(found.word), bool(tag))

    @classmethod
    def from_memory(cls, data: bytes, tag: bool = False) -> Capability:
        """The capability of 16 bytes of memory, lowest address first."""
        if len(data) != 16:
            raise ValueError(f"a capability takes 16 bytes of memory, not {len(data)}")
        return cls(int(_c.capcheck_from_memory(bytes(data))), tag)

    @classmethod
    def root(cls, base: int = 0, length: int = 2**64, permissions: int = Permissions.ALL_PERMISSIONS) -> Capability:
        """A tagged, unsealed root with the rounded bounds of `length` bytes from `base`."""
        found = _c.capcheck_root(_number(base, 64, "base"), Wide.of(_number(length, 65, "length")),
                                 _number(permissions, 32, "permissions"))
        if not found.present:
            if base + length > 2**64:
                raise ValueError(f"base {base:#x} + length {length:#x} is above 2**64")
            raise ValueError(f"permissions {permissions:#x} has a bit that isn't in ALL_PERMISSIONS")
        return cls(int(found.word), True)

    @classmethod
    def from_fields(cls, fields: Fields, tag: bool = False) -> Capability:
        """The capability of fields: the inverse of `fields`."""
        widths = {"address": 64, "otype": 18, "perms": 16, "b": 14, "t": 12, "e": 6, "ie": 1, "flag": 1, "reserved": 2}
        found = _c.capcheck_join(_abi.Fields(*(_number(value, widths[name], name)
                                               for name, value in fields._asdict().items())))
        if not found.present:
            raise ValueError("with ie, b and t are multiples of 8; without it, e is 0: " + str(fields))
        return cls(int(found.word), tag)

    def replace(self, *, tag: bool | None = None, **fields: int) -> Capability:
        """The same with other `fields`, or another tag. Nothing is checked: a test makes a forged capability with it."""
        if unknown := set(fields) - set(Fields._fields):
            raise TypeError(f"a word has no field {unknown.pop()!r}")
        return Capability.from_fields(self.fields._replace(**fields), self.tag if tag is None else tag)

    # ---- What it says ----

    @property
    def _word(self) -> Wide:
        return Wide(self.word >> 64, self.word & 0xFFFFFFFFFFFFFFFF)

    @property
    def _cap(self) -> _abi.Cap:
        return _abi.Cap(self._word, self.tag)

    @property
    def digits(self) -> str:
        """The word as 32 hexadecimal digits."""
        return f"{self.word:032x}"

    @property
    def memory(self) -> bytes:
        """The 16 bytes of the word in memory, lowest address first."""
        data = ctypes.create_string_buffer(16)
        _c.capcheck_to_memory(self._word, data)
        return data.raw

    @property
    def fields(self) -> Fields:
        """The fields of the word."""
        found = _c.capcheck_split(self._word)
        return Fields(*(getattr(found, name) for name in Fields._fields))

    @property
    def mantissa(self) -> int:
        """T, the mantissa of the top: all 14 bits."""
        return _c.capcheck_mantissa(self._word)

    @property
    def address(self) -> int:
        """Where it points."""
        return self.word & 0xFFFFFFFFFFFFFFFF

    @property
    def bounds(self) -> tuple[int, int]:
        """The base and the top: the addresses from the base up to, but not including, the top."""
        found = _c.capcheck_decode(self._word)
        return found.base, int(found.top)

    @property
    def offset(self) -> int:
        """The address minus the base; negative if the address is below it."""
        return self.address - self.base

    @property
    def base(self) -> int:
        """The least address in the bounds."""
        return self.bounds[0]

    @property
    def top(self) -> int:
        """The first address after the bounds, at most 2**64 if the word is sound."""
        return self.bounds[1]

    @property
    def length(self) -> int:
        """The top minus the base; 0 if the word isn't sound."""
        return int(_c.capcheck_length(self._word))

    @property
    def sound(self) -> bool:
        """Whether the top is the base plus the length, and at most 2**64."""
        return _c.capcheck_sound(self._word)

    @property
    def in_bounds(self) -> bool:
        """Whether the address is in the bounds."""
        base, top = self.bounds
        return base <= self.address < top

    @property
    def permissions(self) -> Permissions:
        """The permissions in the architectural view."""
        return Permissions(_c.capcheck_perm_view(self._word))

    @property
    def otype(self) -> int:
        """The object type."""
        return _c.capcheck_split(self._word).otype

    @property
    def sealed(self) -> bool:
        """Whether the object type isn't that of an unsealed word."""
        return _c.capcheck_sealed(self._word)

    @property
    def otype_kind(self) -> str:
        """The kind of its object type, as `capcheck explain` prints it: unsealed, sealed or reserved."""
        otype = self.otype
        return "unsealed" if otype == _OTYPE_UNSEALED else "reserved" if otype >= _OTYPE_LEAST_RESERVED else "sealed"

    @property
    def representable(self) -> Range:
        """The addresses that keep the bounds."""
        found = _c.capcheck_reach(self._word)
        return Range(0, 2**64) if found.every else Range(found.start, found.size)

    def keeps_bounds(self, address: int) -> bool:
        """Whether the word with this address has the same bounds."""
        return _c.capcheck_keeps_bounds(self._word, _address(address))

    def contains(self, base: int, length: int) -> bool:
        """Whether the word is sound and its bounds contain `length` bytes from `base`."""
        return _c.capcheck_least_law(self._word, _number(base, 64, "base"), _length(length))

    def explain(self) -> str:
        """What `capcheck explain` prints of it."""
        text = ctypes.create_string_buffer(_EXPLAIN_SIZE)
        length = _c.capcheck_explain(self._cap, text, _EXPLAIN_SIZE)
        return text.raw[:length].decode()

    def __str__(self) -> str:
        """As CHERI's debuggers print it: 0x1000 [rwxRW,0x1000-0x1fff], then what is unusual about it."""
        base, top = self.bounds
        sealed, sentry = self.sealed, self.otype == _OTYPE_SENTRY
        notes = [note for note, holds in (("untagged", not self.tag), ("sentry", sentry),
                                          ("sealed", sealed and not sentry), ("unsound", not self.sound)) if holds]
        return f"{self.address:#x} [{self.permissions.letters},{base:#x}-{top:#x}]" + (f" ({','.join(notes)})" if notes else "")

    def __repr__(self) -> str:
        return f"<Capability {int(self.tag)} {self.digits} {self}>"

    def __format__(self, spec: str) -> str:
        return format(str(self), spec)

    # ---- Operations: each raises Refused if a check fails. Those in `_clear` clear the tag of the result instead ----

    def set_bounds(self, length: int, exact: bool = False) -> Capability:
        """Narrows the bounds to `length` bytes from the address, rounded; if `exact`, rounding is refused."""
        return _made(_c.capcheck_set_bounds(self._cap, _length(length), bool(exact)))

    def set_address(self, address: int) -> Capability:
        """Sets the address, which has to be in the representable range."""
        return _made(_c.capcheck_set_addr(self._cap, _address(address)))

    def __add__(self, count: int) -> Capability:
        """The address moved by a number of bytes, modulo 2**64 (CIncOffset)."""
        return self.set_address((self.address + index(count)) % 2**64)

    def __sub__(self, count: int) -> Capability:
        """The address moved down."""
        return self + -index(count)

    def and_permissions(self, mask: int) -> Capability:
        """Removes the permissions that the mask lacks."""
        return _made(_c.capcheck_and_perm(self._cap, _mask(mask)))

    def seal(self, authority: Capability) -> Capability:
        """Seals it with the authority's address as its object type."""
        return _made(_c.capcheck_seal(self._cap, _passed(authority, "authority")))

    def unseal(self, authority: Capability) -> Capability:
        """Unseals it by an authority whose address is its object type."""
        return _made(_c.capcheck_unseal(self._cap, _passed(authority, "authority")))

    def derive_fault(self, made: Capability, into_pcc: bool = False) -> Refusal | None:
        """Why a run log's `derive` of a word from this capability is refused; None if it isn't. Only into PCC a sentry opens. An
        untagged word is never refused."""
        number = _c.capcheck_derive_fault(self._cap, _passed(made, "made").word, bool(into_pcc)) if made.tag else 0
        return Refusal(number) if number else None

    def set_bounds_clear(self, length: int, exact: bool = False) -> Capability:
        """As `set_bounds`, on a machine that clears the tag if a check fails."""
        return _capability(_c.capcheck_set_bounds_clear(self._cap, _length(length), bool(exact)))

    def set_address_clear(self, address: int) -> Capability:
        """As `set_address`, on a machine that clears the tag if a check fails."""
        return _capability(_c.capcheck_set_addr_clear(self._cap, _address(address)))

    def and_permissions_clear(self, mask: int) -> Capability:
        """As `and_permissions`, on a machine that clears the tag if a check fails."""
        return _capability(_c.capcheck_and_perm_clear(self._cap, _mask(mask)))

    def seal_clear(self, authority: Capability) -> Capability:
        """As `seal`, on a machine that clears the tag if a check fails."""
        return _capability(_c.capcheck_seal_clear(self._cap, _passed(authority, "authority")))

    def unseal_clear(self, authority: Capability) -> Capability:
        """As `unseal`, on a machine that clears the tag if a check fails."""
        return _capability(_c.capcheck_unseal_clear(self._cap, _passed(authority, "authority")))

    def clear_tag(self) -> Capability:
        """The same word without the tag."""
        return _capability(_c.capcheck_clear_tag(self._cap))

    def with_bounds(self, base: int, length: int) -> Capability:
        """The word with the rounded bounds of a request, untagged, since nothing is checked."""
        return Capability(int(_c.capcheck_with_bounds(self._word, _number(base, 64, "base"), _length(length))))

    # ---- Accesses with this capability as the authority: the address, or Refused ----

    def may_load(self, offset: int, size: int) -> int:
        """Checks a load of 1, 2, 4 or 8 bytes at the address plus the offset, -2048 to 2047."""
        return _accessed(_c.capcheck_may_load(self._cap, _offset(offset), _size(size)))

    def may_store(self, offset: int, size: int) -> int:
        """Checks a store of as many bytes."""
        return _accessed(_c.capcheck_may_store(self._cap, _offset(offset), _size(size)))

    def may_load_capability(self, offset: int) -> int:
        """Checks a load of a capability."""
        return _accessed(_c.capcheck_may_load_cap(self._cap, _offset(offset)))

    def may_store_capability(self, offset: int, stored: Capability) -> int:
        """Checks a store of this capability."""
        return _accessed(_c.capcheck_may_store_cap(self._cap, _offset(offset), _passed(stored, "stored")))

    def loaded(self, stored: Capability) -> Capability:
        """What a load of this stored capability puts into the register."""
        return _capability(_c.capcheck_loaded(self._cap, _passed(stored, "stored")))


NULL = Capability(int(_c.capcheck_null()))


def _capability(found: _abi.Cap) -> Capability:
    made, word = object.__new__(Capability), found.word  # Its numbers need no check.
    object.__setattr__(made, "word", word.high << 64 | word.low)
    object.__setattr__(made, "tag", found.tag != 0)
    return made


def _made(found: _abi.Made) -> Capability:
    if found.refusal:
        raise Refused(Refusal(found.refusal))
    return _capability(found.cap)


def _accessed(found: _abi.Access) -> int:
    if found.refusal:
        raise Refused(Refusal(found.refusal))
    return found.address


def round_bounds(base: int, length: int) -> Rounded:
    """The bounds that a request for `length` bytes from `base` gets."""
    found = _c.capcheck_round(_number(base, 64, "base"), _length(length))
    return Rounded(found.base, int(found.top), bool(found.exact), bool(found.ie), found.e, found.b, found.t)


def representable_length(length: int) -> int:
    """The least length, from `length` on, that bounds can have exactly (CRRL): at most 2**64."""
    return int(_c.capcheck_round_length(_length(length)))


def alignment_mask(length: int) -> int:
    """The mask that a base keeps if that length is exact there (CRAM)."""
    return _c.capcheck_align_mask(_length(length))


def version() -> str:
    """The version of the libraries."""
    return _c.capcheck_version().text.decode()
