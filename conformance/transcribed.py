#!/usr/bin/env python3
"""The definitions of docs/STANDARD.md in Python, each with its number there, for readers who don't read Rattle's language.

They are written from the page alone, and `python3 conformance/transcription.py` compares them with the programs. If the page says
that there is something, such as states, a line or a beginning, a function finds it (`states_of`, `line_from`, `verdict_of`), and
the definition then says whether what was found is right. A state is a dictionary: a place that it lacks holds untagged NULL.
States and accounts are changed in place. A refusal is its name. A place, a line or a beginning is the name of its form and what
the form has."""
import collections
import functools
import types

null_word = 0x1FFFFC0180040000000000000000  # 16.13

# The word
def ie_of(w): return w // 2**90 % 2 == 1  # 16.5
def t_field(w): return w // 2**78 % 2**12  # 16.6
def b_field(w): return w // 2**64 % 2**14  # 16.7
def address_of(w): return w % 2**64  # 16.8
def flag_of(w): return w // 2**109 % 2 == 1  # 16.3
def reserved_of(w): return w // 2**110 % 2**2  # 16.2
def bit_of(flag): return 1 if flag else 0  # 16.12
def e_of(w): return t_field(w) % 8 * 8 + b_field(w) % 8 if ie_of(w) else 0  # 16.9
def b_of(w): return b_field(w) // 8 * 8 if ie_of(w) else b_field(w)  # 16.10
def t_of(w): return t_field(w) // 8 * 8 if ie_of(w) else t_field(w)  # 16.11
def low_bytes(count, n): return [n // 256**i % 256 for i in range(count)]  # 16.16
def number_of(data): return sum(256**i * x for i, x in enumerate(data))  # 16.17
def memory_of(w): return low_bytes(16, w ^ null_word)  # 16.14
def stored_word(data): return number_of(data) ^ null_word  # 16.15


# Bounds. What may begin below 0 is given 2^66 higher.
def IsResidue(low, size, value, x): return low <= x < low + size and x % size == value % size  # 15.5
def span_of(b, t): return (t + 2**14 - b) % 2**14  # 15.4


def IsMantissa(b, low, ie, t):  # 15.3
    return t < 2**14 and t % 2**12 == low and 2**12 * bit_of(ie) <= span_of(b, t) < 2**12 * bit_of(ie) + 2**12


def span_at(b, low, ie): return 2**12 * bit_of(ie) + (low + 2**14 - b) % 2**12  # 15.19
def mantissa_of(b, low, ie): return (b + span_at(b, low, ie)) % 2**14
def cut_exponent_of(w): return min(e_of(w), 52)  # 15.6
def unit_of(w): return 2 ** cut_exponent_of(w)  # 15.7
def window_size(w): return 2 ** (cut_exponent_of(w) + 14)  # 15.8


def IsWindow(w, start):  # 15.2
    return (start <= address_of(w) + 2**66 < start + window_size(w)
            and start % window_size(w) == (b_of(w) // 2**11 + 7) % 8 * 2**11 * unit_of(w) % window_size(w))


def AreBounds(w, base, top):  # 15.1
    mantissa = mantissa_of(b_of(w), t_of(w), ie_of(w))
    size, near = window_size(w), address_of(w) + 2**66
    offset = (b_of(w) // 2**11 + 7) % 8 * 2**11 * unit_of(w)
    start = near - (near - offset) % size
    raw_base, raw_top = (start + (value * unit_of(w) - start) % size for value in (b_of(w), mantissa))
    if not (IsMantissa(b_of(w), t_of(w), ie_of(w), mantissa) and IsWindow(w, start)
            and IsResidue(start, size, b_of(w) * unit_of(w), raw_base) and IsResidue(start, size, mantissa * unit_of(w), raw_top)):
        return False
    if cut_exponent_of(w) <= 50:
        return base == raw_base % 2**64 and IsResidue(base, 2**64, raw_top, top)
    return base == raw_base % 2**64 and top == raw_top % 2**65


def windows_at(e, b, address): return ((address + 2**66) // 2 ** (e + 11) + 1 - b // 2**11) // 8  # 15.18
def raw_base_at(e, b, address): return (2**14 * windows_at(e, b, address) + b) * 2**e  # 15.11
def top_at(e, raw_base, length): return raw_base % 2**64 + length if e <= 50 else (raw_base + length) % 2**65  # 15.12
def length_of(w): return (2**12 * bit_of(ie_of(w)) + (t_of(w) + 2**14 - b_of(w)) % 2**12) * 2 ** cut_exponent_of(w)  # 15.13
def base_of(w): return raw_base_at(cut_exponent_of(w), b_of(w), address_of(w)) % 2**64  # 15.9
def top_of(w): return top_at(cut_exponent_of(w), raw_base_at(cut_exponent_of(w), b_of(w), address_of(w)), length_of(w))  # 15.10
def IsSound(w): return base_of(w) + length_of(w) == top_of(w) and top_of(w) <= 2**64  # 15.15
def is_sound(w): return IsSound(w)  # 15.14
def IsInside(base, top, outer_base, outer_top): return outer_base <= base and top <= outer_top  # 15.16
def with_address(w, a): return w - address_of(w) + a  # 15.17
def KeepsBounds(w, a): return base_of(with_address(w, a)) == base_of(w) and top_of(with_address(w, a)) == top_of(w)
def is_kept_at(w, a): return KeepsBounds(w, a)  # 12.19


# Rounding
def div_up(n, v): return (n + v - 1) // v  # 14.3
def units_of(base, length, e): return div_up(base + length, 2 ** (e + 3)) - base // 2 ** (e + 3)  # 14.2


def IsLeastExponent(base, length, e):  # 14.1
    return e <= 52 and units_of(base, length, e) < 1024 and all(units_of(base, length, k) >= 1024 for k in range(e))


def rounded_ie(length): return length >= 4096  # 14.4
def first_exponent(base, length, count, e): return next((k for k in range(e, e + count) if units_of(base, length, k) < 1024), e + count)  # 14.6
def rounded_exponent(base, length): return first_exponent(base, length, 52, 0) if rounded_ie(length) else 0  # 14.5


def rounded_base(base, length):  # 14.7
    unit = 2 ** (rounded_exponent(base, length) + 3)
    return base // unit * unit if rounded_ie(length) else base


def rounded_top(base, length):  # 14.8
    unit = 2 ** (rounded_exponent(base, length) + 3)
    return div_up(base + length, unit) * unit if rounded_ie(length) else base + length


def IsExact(base, length): return rounded_base(base, length) == base and rounded_top(base, length) == base + length
def is_exact(base, length): return IsExact(base, length)  # 12.18
def rounded_b(base, length): return rounded_base(base, length) // 2 ** rounded_exponent(base, length) % 2**14  # 14.9
def rounded_t(base, length): return rounded_top(base, length) // 2 ** rounded_exponent(base, length) % 2**14  # 14.10


def HasRounding(ie, e, b, t, base, length):  # 14.13
    return (ie, e, b, t) == (rounded_ie(length), rounded_exponent(base, length), rounded_b(base, length), rounded_t(base, length))


def bounded_word(w, ie, e, b, t, address):  # 14.12
    return w // 2**91 * 2**91 + bit_of(ie) * 2**90 + (t % 2**12 + e // 8) * 2**78 + (b + e % 8) * 2**64 + address


def rounded_word(w, base, length):  # 14.11
    return bounded_word(w, rounded_ie(length), rounded_exponent(base, length), rounded_b(base, length), rounded_t(base, length), base)


# Permissions and object types
permit_global = 0  # 13.1
permit_load = 2  # 13.2
permit_store = 3  # 13.3
permit_load_capability = 4  # 13.4
permit_store_capability = 5  # 13.5
permit_store_local_capability = 6  # 13.6
permit_seal = 7  # 13.7
permit_unseal = 9  # 13.8
unsealed_type = 0x3FFFF  # 13.14
greatest_type = 0x3FFFB  # 13.15
def perms_of(w): return w // 2**112 % 2**16  # 16.1
def otype_of(w): return w // 2**91 % 2**18  # 16.4
def perm_view_of(w): return perms_of(w) % 2**12 + perms_of(w) // 2**12 * 2**15  # 13.10
def perms_from_view(view): return view % 2**12 + view // 2**15 % 2**4 * 2**12  # 13.11
def has_permission(w, permission): return perm_view_of(w) // 2**permission % 2 == 1  # 13.9
def with_perms(w, perms): return perms * 2**112 + w % 2**112  # 13.12
def is_sealed(w): return otype_of(w) != unsealed_type  # 13.13
def with_type(w, otype): return w // 2**109 * 2**109 + otype * 2**91 + w % 2**91  # 13.16


# Operations. A capability has a tag and its word's number.
Cap = collections.namedtuple("Cap", "tag word")
untagged_null = Cap(False, null_word)  # 9.6
def tagged(word): return Cap(True, word)  # 9.5
def cleared(cap): return Cap(False, cap.word)  # 12.15
def with_word(cap, w): return Cap(cap.tag, w)  # 12.16
def covers(w, base, top): return IsInside(base, top, base_of(w), top_of(w))  # 12.17
def on_tagged(source, checks): return checks if source.tag else []  # 12.13
def first_of(checks): return next((refusal for test, refusal in checks if test), None)  # 5.1


def authority_checks(authority, permission, base, top):  # 12.11
    return [(not authority.tag, "AuthorityUntagged"), (is_sealed(authority.word), "AuthoritySealed"),
            (not has_permission(authority.word, permission), "AuthorityPermission"), (not covers(authority.word, base, top), "AuthorityBounds")]


def type_authority_checks(authority, permission):  # 12.12
    return authority_checks(authority, permission, address_of(authority.word), address_of(authority.word) + 1)


def set_bounds_checks(source, length, exact):  # 12.1
    base = address_of(source.word)
    return on_tagged(source, [(is_sealed(source.word), "SourceSealed"),
                              (not covers(source.word, rounded_base(base, length), rounded_top(base, length)), "BoundsEscape"),
                              (exact and not is_exact(base, length), "NotExact")])


def set_bounds_result(source, length): return with_word(source, rounded_word(source.word, address_of(source.word), length))  # 12.2


def set_addr_checks(source, address):  # 12.3
    return on_tagged(source, [(is_sealed(source.word), "SourceSealed"), (not is_kept_at(source.word, address), "NotRepresentable")])


def set_addr_result(source, address): return with_word(source, with_address(source.word, address))  # 12.4
def and_perm_checks(source): return on_tagged(source, [(is_sealed(source.word), "SourceSealed")])  # 12.5


def and_perm_result(source, mask):  # 12.6
    return with_word(source, with_perms(source.word, perms_from_view(perm_view_of(source.word) & mask)))


def seal_checks(source, authority):  # 12.7
    return type_authority_checks(authority, permit_seal) + [(greatest_type < address_of(authority.word), "TypeOutOfRange"),
                                                           (not source.tag, "SourceUntagged"), (is_sealed(source.word), "SourceSealed")]


def seal_result(source, authority): return with_word(source, with_type(source.word, address_of(authority.word) % 2**18))  # 12.8


def unseal_checks(source, authority):  # 12.9
    is_type = otype_of(source.word) == address_of(authority.word) and otype_of(source.word) <= greatest_type
    return type_authority_checks(authority, permit_unseal) + [(not source.tag, "SourceUntagged"), (not is_type, "TypeMismatch")]


def perms_with_common_global(w, other):  # 12.20
    return perms_of(w) // 2 * 2 + bit_of(has_permission(w, permit_global) and has_permission(other, permit_global))


def unseal_result(source, authority):  # 12.10
    perms = perms_with_common_global(source.word, authority.word)
    return with_word(source, with_type(with_perms(source.word, perms), unsealed_type))


def clear_result(checks, result): return cleared(result) if first_of(checks) is not None else result  # 12.14


# Accesses. A kind is LoadData, StoreData, LoadCap, or StoreCap with what is stored.
def permission_for(kind): return permit_store if kind[0] in ("StoreData", "StoreCap") else permit_load  # 11.3
def access_address(w, offset): return (address_of(w) + offset % 2**64) % 2**64  # 11.2


def stored_checks(w, kind):  # 11.4
    if kind[0] != "StoreCap":
        return []
    is_local = not has_permission(kind[1].word, permit_global)
    return [(kind[1].tag and not has_permission(w, permit_store_capability), "StoreCapPermission"),
            (kind[1].tag and is_local and not has_permission(w, permit_store_local_capability), "StoreLocalPermission")]


def access_checks(authority, kind, offset, size):  # 11.1
    address = access_address(authority.word, offset)
    return (authority_checks(authority, permission_for(kind), address, address + size)
            + [(address % size != 0, "Misaligned")] + stored_checks(authority.word, kind))


def loaded_result(authority, stored): return stored._replace(tag=stored.tag and has_permission(authority.word, permit_load_capability))  # 11.5


# States, by the key of a place
class State(dict):  # 9.1
    def __missing__(self, key):
        return untagged_null


DeclaredRoot = collections.namedtuple("DeclaredRoot", "place word")  # 9.3
Access = collections.namedtuple("Access", "authority address size permission")  # 9.10
Row = collections.namedtuple("Row", "checks writes parent records access")  # 9.8
def granule_key(granule): return granule + 32  # 9.19
def key_of(place): return place[1] if place[0] == "Register" else granule_key(place[1])  # 9.2
def overwritten(data, at, new): return data[:at] + new + data[at + len(new) :]  # 9.13


def start(roots):  # 9.4
    return State({key_of(root.place): tagged(root.word) for root in roots})


def value_at(state, address, size):  # 9.11
    return number_of(memory_of(state[key_of(("Granule", address // 16))].word)[address % 16 :][:size])


def with_value(cap, at, size, value):  # 9.12
    return with_word(cleared(cap), stored_word(overwritten(memory_of(cap.word), at, low_bytes(size, value))))


# The twelve steps. A step has its kind, and the operands of its line.
def operation(step, checks, result):  # 18.23
    return Row(checks, (("Register", step.target), result), ("Register", step.source), ("Written", step.result), None)


def address_through(state, authority, offset): return access_address(state[authority].word, offset)  # 18.25
def granule_through(state, authority, offset): return address_through(state, authority, offset) // 16  # 18.26


def access_through(state, register, kind, offset, size):  # 18.24
    access = Access(register, address_through(state, register, offset), size, permission_for(kind))
    return Row(access_checks(state[register], kind, offset, size), None, None, ("Nothing",), access)


def row_of(state, step):  # 18.22
    if step.kind in ("lc", "sc", "load", "store"):
        return row_of_access(state, step)
    source = state[step.source]
    if step.kind == "move":
        return operation(step, [], source)
    if step.kind == "cleartag":
        return operation(step, [], cleared(source))
    if step.kind in ("setbounds", "setboundsexact"):
        return operation(step, set_bounds_checks(source, step.length, step.kind == "setboundsexact"), set_bounds_result(source, step.length))
    if step.kind == "setaddr":
        return operation(step, set_addr_checks(source, step.address), set_addr_result(source, step.address))
    if step.kind == "andperm":
        return operation(step, and_perm_checks(source), and_perm_result(source, step.mask))
    authority = state[step.authority]
    if step.kind == "seal":
        return operation(step, seal_checks(source, authority), seal_result(source, authority))
    return operation(step, unseal_checks(source, authority), unseal_result(source, authority))


def row_of_access(state, step):
    address = address_through(state, step.authority, step.offset)
    granule = ("Granule", granule_through(state, step.authority, step.offset))
    if step.kind == "lc":
        row = access_through(state, step.authority, ("LoadCap",), step.offset, 16)
        result = loaded_result(state[step.authority], state[key_of(granule)])
        return row._replace(writes=(("Register", step.target), result), parent=granule, records=("Written", step.result))
    if step.kind == "sc":
        row = access_through(state, step.authority, ("StoreCap", state[step.source]), step.offset, 16)
        return row._replace(writes=(granule, state[step.source]), parent=("Register", step.source))
    if step.kind == "load":
        row = access_through(state, step.authority, ("LoadData",), step.offset, step.size)
        return row._replace(records=("ReadNumber", step.value, value_at(state, address, step.size)))
    row = access_through(state, step.authority, ("StoreData",), step.offset, step.size)
    return row._replace(writes=(granule, with_value(state[key_of(granule)], address % 16, step.size, step.value)))


def clear_row(access, row):  # 9.16
    return row if access else row._replace(checks=[], writes=(row.writes[0], clear_result(row.checks, row.writes[1])))


def row_by(rules, row): return clear_row(row.access, row) if rules == "TwoClear" else row  # 9.15


def agrees(writes, records):  # 9.17
    if records[0] == "Written":
        return records[1] == writes[1]
    return records[0] == "Nothing" or records[1] == records[2]


def state_with(state, writes):  # 9.18
    """The state after a write. The old one is changed, since nothing reads it again."""
    if writes:
        state[key_of(writes[0])] = writes[1]
    return state


# Runs and descent
def Leads(rules, state, step):  # 9.14
    """Whether the step leads to a state, which the old one then is."""
    row = row_by(rules, row_of(state, step))
    return first_of(row.checks) is None and agrees(row.writes, row.records) and state_with(state, row.writes) is state


def IsRun(rules, state, steps):  # 7.1
    """Whether there are states that are a run of the steps from this one."""
    return all(Leads(rules, state, step) for step in steps)


def state_at(states, moment): return states[moment]  # 7.9


def states_of(rules, roots, steps):
    """The states of a run, from the first on."""
    states = [start(roots)]
    for step in steps:
        states.append(state_with(State(states[-1]), row_by(rules, row_of(states[-1], step)).writes))
    return states


def parent_of(row, after, key):  # 7.8
    """The place that a place's capability comes from in a step with this row."""
    if row.writes and key_of(row.writes[0]) == key:
        return key_of(row.parent) if after[key].tag and row.parent else None
    return key


def Descends(rows, states, moment, key):  # 7.7
    """The key from which a place descends, or None."""
    while moment and key is not None:
        key, moment = parent_of(rows[moment - 1], state_at(states, moment), key), moment - 1
    return key


def ReachesNoMore(w, other):  # 7.4
    return (IsInside(base_of(w), top_of(w), base_of(other), top_of(other))
            and all(has_permission(other, permission) for permission in range(32) if has_permission(w, permission)))


def DescendsFrom(roots, rows, states, moment, key):  # 7.6
    """The one root from which a place descends."""
    (root,) = [root for root in roots if key_of(root.place) == Descends(rows, states, moment, key)]
    return root


def AuthorityNeverGrows(roots, rows, states):  # 7.2
    return all(ReachesNoMore(cap.word, DescendsFrom(roots, rows, states, moment, key).word)
               for moment, state in enumerate(states) for key, cap in state.items() if cap.tag)


def LiesInside(access, root):  # 7.5
    return IsInside(access.address, access.address + access.size, base_of(root.word), top_of(root.word)) and has_permission(root.word, access.permission)


def AccessesLieInside(roots, rows, states):  # 7.3
    return all(LiesInside(row.access, DescendsFrom(roots, rows, states, moment, row.access.authority)) for moment, row in enumerate(rows) if row.access)


def IsGuarded(rules, roots, steps):  # 4.11
    states = states_of(rules, roots, steps)
    rows = [row_of(state_at(states, moment), step) for moment, step in enumerate(steps)]
    return AuthorityNeverGrows(roots, rows, states) and AccessesLieInside(roots, rows, states)


# Accounts and limits. An account is changed by its next root or step.
def most_granules(rules): return 65536 if rules == "One" else 1048576  # 8.2
most_roots = 4096  # 8.1
most_steps = 4294967295  # 8.3


class Account(types.SimpleNamespace):  # 8.4
    """What the checks of a line see. `named` are the granules that were named."""


def limits_of(rules): return types.SimpleNamespace(roots=most_roots, granules=most_granules(rules))  # 8.19


def no_account(rules, limits):  # 8.5
    return Account(rules=rules, limits=limits, state=start([]), origin={}, roots=0, steps=0, named=set())


def granule_of(place): return place[1] if place[0] == "Granule" else None  # 8.11
def named_by(row): return granule_of(row.writes[0]) if row.writes else None  # 8.10


def row_in(account, step): return row_by(account.rules, row_of(account.state, step))  # 8.17


def naming(account, granule):  # 8.9
    if granule is not None:
        account.named.add(granule)


def is_new(account, named): return named is not None and named not in account.named  # 8.12
def named_by_line(account, line):  # 3.14
    """The granule that a line names."""
    if line[0] == "Step":
        return named_by(row_in(account, line[1]))
    return granule_of(line[1].place) if line[0] == "Root" else None


def passes_granule_limit(account, granule): return is_new(account, granule) and account.limits.granules <= len(account.named)  # 8.13


def with_root(account, root):  # 8.7
    naming(account, granule_of(root.place))
    account.state[key_of(root.place)] = tagged(root.word)
    account.origin[key_of(root.place)] = root.place
    account.roots += 1
    return account


def with_step(account, step):  # 8.8
    row = row_in(account, step)
    naming(account, named_by(row))
    account.origin = origins_after(account.origin, row)
    account.state = state_with(account.state, row.writes)
    account.steps += 1
    return account


def origins_after(origins, row):  # 8.14
    """What `parent_of` gives for the place that the row writes. Each other place is its own parent."""
    if row.writes:
        origins[key_of(row.writes[0])] = origins.get(key_of(row.parent)) if row.writes[1].tag and row.parent else None
    return origins


def account_after(rules, roots, steps):  # 8.6
    return functools.reduce(with_step, steps, functools.reduce(with_root, roots, no_account(rules, limits_of(rules))))


def root_checks(account, place, word):  # 8.15
    return [(account.state[key_of(place)].tag, "PlaceTaken"), (not is_sound(word), "UnsoundRoot"),
            (account.limits.roots <= account.roots or passes_granule_limit(account, granule_of(place)), "LimitPassed")]


def step_checks(account, step):  # 8.16
    row = row_in(account, step)
    return row.checks + [(not agrees(row.writes, row.records), "WrongResult"),
                        (most_steps <= account.steps or passes_granule_limit(account, named_by(row)), "LimitPassed")]


# Lines: the name of a form, and what it has
# Which operands the words of a step have after its name, in their order.
OPERANDS = {"move": "target source", "cleartag": "target source", "setbounds": "target source length", "setboundsexact": "target source length",
            "setaddr": "target source address", "andperm": "target source mask", "seal": "target source authority", "unseal": "target source authority",
            "lc": "target authority offset", "sc": "source authority offset", "load": "authority offset size", "store": "authority offset size"}


def register_spelling(n): return f"c{n}"  # 18.10
def place_spelling(place): return register_spelling(place[1]) if place[0] == "Register" else "@" + hex_digits(16, 16 * place[1])  # 18.4
def hex_digits(count, n): return "".join("0123456789abcdef"[n // 16**k % 16] for k in reversed(range(count)))  # 18.9
def tag_spelling(tag): return "1" if tag else "0"  # 18.8
def mode_spelling(mode): return {"Strict": "strict", "Clear": "clear"}[mode]  # 18.3
def result_words(result): return ["=", tag_spelling(result.tag), hex_digits(32, result.word)]  # 18.7
def register_words(name, target, source, more, result): return [name, register_spelling(target), register_spelling(source), *more, *result_words(result)]  # 18.6


def step_words(step):  # 18.5
    if step.kind == "sc":
        return ["sc", register_spelling(step.source), register_spelling(step.authority), str(step.offset)]
    if step.kind in ("load", "store"):
        value = ["="] * (step.kind == "load") + [hex_digits(2 * step.size, step.value)]
        return [step.kind, register_spelling(step.authority), str(step.offset), str(step.size), *value]
    if step.kind == "lc":
        return register_words("lc", step.target, step.authority, [str(step.offset)], step.result)
    name = OPERANDS[step.kind].split()[2:]
    more = [register_spelling(step.authority) if it == "authority" else hex_digits(16, getattr(step, it)) for it in name]
    return register_words(step.kind, step.target, step.source, more, step.result)


def line_words(form, *parts):  # 18.2
    return {"Version": lambda version: ["capcheck", str(version)], "Mode": lambda mode: ["mode", mode_spelling(mode)],
            "Root": lambda root: ["root", place_spelling(root.place), hex_digits(32, root.word)], "Step": step_words,
            "End": lambda steps: ["end", str(steps)]}[form](*parts)


def spelling(line): return " ".join(line_words(*line)).encode()  # 18.1
def Spells(data, line): return IsInRange(*line) and data == spelling(line)  # 3.6
def text_of(lines): return b"".join(spelling(line) + b"\n" for line in lines)  # 3.5


def IsRegister(n): return 0 <= n <= 31  # 18.27
def IsTarget(n): return 1 <= n <= 31  # 18.14
def IsOffset(z): return -2048 <= z <= 2047  # 18.15
def IsDataSize(size): return size in (1, 2, 4, 8)  # 18.18
def IsDataValue(size, value): return 0 <= value < 256**size  # 18.19
def IsDatum(size, value): return IsDataSize(size) and IsDataValue(size, value)  # 18.16
def IsWord(n): return 0 <= n < 2**128  # 18.28
def IsNumber(n): return 0 <= n < 2**64  # 18.29
def IsVersion(version): return version in (1, 2)  # 18.30
def IsPlace(place): return IsTarget(place[1]) if place[0] == "Register" else 0 <= place[1] < 2**60  # 18.12


def IsStepInRange(step):  # 18.13
    ranges = {"target": IsTarget, "source": IsRegister, "authority": IsRegister, "offset": IsOffset,
              "result": lambda cap: IsWord(cap.word), "size": lambda size: IsDatum(size, step.value)}
    names = [*OPERANDS[step.kind].split(), *["result"][: hasattr(step, "result")]]
    return all(ranges.get(name, IsNumber)(getattr(step, name)) for name in names)


def IsInRange(form, *parts):  # 18.11
    return {"Version": IsVersion, "Mode": lambda mode: True, "End": lambda steps: 0 <= steps < 2**32,
            "Root": lambda root: IsPlace(root.place) and IsWord(root.word), "Step": IsStepInRange}[form](*parts)


def has_form(rules, line): return line[0] not in ("Version", "Mode") or rules != "One" or line == ("Version", 1)  # 3.8
def SpellsBy(rules, data, line): return line is not None and Spells(data, line) and has_form(rules, line)  # 3.7


def step_from(kind, words):
    """The step that words may spell."""
    step = types.SimpleNamespace(kind=kind)
    for name in OPERANDS[kind].split():
        word = words.pop(0)
        number = int(word[1:]) if name in ("target", "source", "authority") else int(word, 10 if name in ("offset", "size") else 16)
        setattr(step, name, number)
    if kind in ("load", "store"):
        step.value = int(words[-1], 16)
    elif kind != "sc":
        step.result = Cap(words[-2] == "1", int(words[-1], 16))
    return step


def line_from(data):
    """The one line that the bytes spell, or None: what their words may mean, if its spelling is these bytes."""
    try:
        head, *words = data.decode("ascii").split(" ")
        if head == "root":
            place = ("Granule", int(words[0][1:], 16) // 16) if words[0][0] == "@" else ("Register", int(words[0][1:]))
            line = ("Root", DeclaredRoot(place, int(words[1], 16)))
        elif head in OPERANDS:
            line = ("Step", step_from(head, words))
        else:
            line = {"capcheck": lambda: ("Version", int(words[0])), "mode": lambda: ("Mode", words[0].capitalize()), "end": lambda: ("End", int(words[0]))}[head]()
        return line if Spells(data, line) else None
    except (ValueError, KeyError, IndexError):
        return None


# The log and its verdict. A beginning is Empty, NoMode, or Body or Whole with its rules, roots and steps.
def header_lines(rules): return [("Version", 1)] if rules == "One" else [("Version", 2), ("Mode", rules[3:])]  # 3.4


def body_lines(rules, roots, steps):  # 3.3
    return header_lines(rules) + [("Root", root) for root in roots] + [("Step", step) for step in steps]


def lines_of(form, *body):  # 4.5
    if form in ("Empty", "NoMode"):
        return [("Version", 2)] if form == "NoMode" else []
    return body_lines(*body) + ([("End", len(body[2]))] if form == "Whole" else [])


def RunsBy(rules, roots, steps):  # 3.2
    return (all(IsInRange(*line) for line in body_lines(rules, roots, steps)) and len({key_of(root.place) for root in roots}) == len(roots)
            and all(is_sound(root.word) for root in roots) and len(roots) <= most_roots and len(steps) <= most_steps
            and len(account_after(rules, roots, steps).named) <= most_granules(rules) and IsRun(rules, start(roots), steps))


def IsAccepted(form, *body): return form in ("Empty", "NoMode") or RunsBy(*body)  # 4.6
def IsLogOf(data, rules, roots, steps): return data == text_of([*body_lines(rules, roots, steps), ("End", len(steps))]) and RunsBy(rules, roots, steps)  # 3.1
def HasNoFeed(data): return 10 not in data  # 3.17
def IsCut(data): return len(data) <= 95 and HasNoFeed(data)  # 3.18
def IsTooLong(data): return len(data) >= 96 and HasNoFeed(data[:96])  # 3.19
def IsLine(data, line, rest): return data == line + b"\n" + rest and HasNoFeed(line) and len(line) <= 95  # 3.16


def FrontIs(data, at_too_long, at_cut, at_line):  # 3.15
    if IsTooLong(data):
        return at_too_long
    if IsCut(data):
        return at_cut
    line, _, rest = data.partition(b"\n")
    assert IsLine(data, line, rest)
    return at_line(line)


def line_checks(account, line):  # 3.13
    if line[0] == "Root":
        return [(account.steps > 0, "Misplaced")] + root_checks(account, line[1].place, line[1].word)
    if line[0] == "Step":
        return step_checks(account, line[1])
    return [(line[1] != account.steps, "WrongCount")] if line[0] == "End" else [(True, "Misplaced")]


def RefusesLine(account, data):  # 4.9
    line = line_from(data)
    return first_of(line_checks(account, line)) if SpellsBy(account.rules, data, line) else "BadLine"


def RefusesWhole(form, account, data):  # 4.8
    line = line_from(data) or ("",)
    if form == "Body":
        return RefusesLine(account, data)
    return None if line[0] == {"Empty": "Version", "NoMode": "Mode"}[form] else {"Empty": "BadHeader", "NoMode": "BadMode"}[form]


def Refuses(form, account, rest):  # 4.7
    """The refusal of what follows a beginning with this account, or None."""
    if form == "Whole":
        return "Misplaced" if rest else None
    return FrontIs(rest, "LineTooLong", "Truncated", lambda line: RefusesWhole(form, account, line))


def IsYes(data, steps, roots, beginning):  # 4.2
    form, *body = beginning
    return form == "Whole" and IsLogOf(data, *body) and steps == len(body[2]) and roots == len(body[1])


def IsFirstFault(data, number, refusal, beginning):  # 4.3
    form, *body = beginning
    text = text_of(lines_of(form, *body))
    account = account_after(*body) if form == "Body" else None
    return (data.startswith(text) and IsAccepted(form, *body) and number == len(lines_of(form, *body)) + 1
            and Refuses(form, account, data[len(text) :]) == refusal)


def IsVerdict(data, verdict, beginning):  # 4.1
    """Whether a verdict is that of the bytes, by this beginning."""
    return (IsYes if verdict[0] == "Yes" else IsFirstFault)(data, *verdict[1:], beginning)


def verdict_of(data):
    """The verdict of some bytes with the beginning that it rests on and its account: lines are read in turn."""
    form, body, account, at = "Empty", [], None, 0
    while True:
        refusal = Refuses(form, account, data[at : at + 96])
        if refusal:
            return ("No", len(lines_of(form, *body)) + 1, refusal), (form, *body), account
        if form == "Whole":
            return ("Yes", len(body[2]), len(body[1])), (form, *body), account
        text = data[at : data.index(10, at)]
        name, part = line_from(text)
        at += len(text) + 1
        if name in ("Version", "Mode"):
            form = "NoMode" if part == 2 else "Body"
            body = [] if part == 2 else ["One" if part == 1 else f"Two{part}", [], []]
            account = None if part == 2 else no_account(body[0], limits_of(body[0]))
        elif name == "End":
            form = "Whole"
        else:
            account = with_root(account, part) if name == "Root" else with_step(account, part)
            body[1 if name == "Root" else 2].append(part)


def HasRoomFor(cap, length): return IsInside(address_of(cap.word), address_of(cap.word) + length, base_of(cap.word), top_of(cap.word))  # 4.16
def asked_by(step): return (step.source, step.length) if step.kind in ("setbounds", "setboundsexact") else None  # 4.15


def AsksBeyond(state, asked):  # 4.14
    return asked is not None and state[asked[0]].tag and not is_sealed(state[asked[0]].word) and not HasRoomFor(state[asked[0]], asked[1])


def FaultEscapes(form, account, rest):  # 4.13
    """Whether the line after a beginning with this account asks, under strict rules, for bounds beyond those of its source."""
    line = line_from(rest.partition(b"\n")[0]) if form == "Body" and not HasNoFeed(rest[:96]) else None
    return line is not None and line[0] == "Step" and account.rules != "TwoClear" and AsksBeyond(account.state, asked_by(line[1]))


def EscapesExactly(data, verdict, beginning, account):  # 4.12
    rest = data[len(text_of(lines_of(*beginning))) :]
    return verdict[0] == "Yes" or (verdict[2] == "BoundsEscape") == FaultEscapes(beginning[0], account, rest)


refusal_names = ["", *(  # 18.32
    "BadHeader LineTooLong BadLine Misplaced Truncated WrongCount PlaceTaken UnsoundRoot SourceUntagged SourceSealed BoundsEscape NotExact "
    "NotRepresentable AuthorityUntagged AuthoritySealed AuthorityPermission AuthorityBounds TypeOutOfRange TypeMismatch Misaligned "
    "StoreCapPermission StoreLocalPermission WrongResult LimitPassed BadMode AddressTaken OutsideHeap Overlaps NotLive UnsoundResult "
    "BeyondSource SealChanged NotInvokable NoCapability HasOwner StillHeld NoOwner AlreadyFreed OwnerFreed NoObject NotOwned").split()]
def refusal_name_at(number): return refusal_names[number] if number < len(refusal_names) else ""  # 18.31
def refusal_number(refusal): return refusal_names.index(refusal)  # 18.20
def refusal_name(refusal): return refusal_name_at(refusal_number(refusal))  # 18.21


def verdict_line(verdict):  # 4.10
    return f"yes {verdict[1]} {verdict[2]}" if verdict[0] == "Yes" else f"no {verdict[1]} {refusal_number(verdict[2])} {refusal_name(verdict[2])}"


def origin_lines(account):
    """The origins of the last state: registers by number, then granules by address."""
    keys = sorted(key for key, cap in account.state.items() if cap.tag)
    places = [("Register", key) if key < 32 else ("Granule", key - 32) for key in keys]
    return [f"origin {place_spelling(place)} {place_spelling(account.origin[key])}" for key, place in zip(keys, places)]
