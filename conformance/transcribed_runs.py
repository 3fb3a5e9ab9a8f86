#!/usr/bin/env python3
"""The definitions of run logs in Python: cap_run_log's RunLines, cap_run's RunChecks and RunChanges, and the verdict.

They stand on conformance/transcribed.py, as the crates stand on those below them. A run is changed in place. A place is the name of its form
and its number; `key_of_run` is its key. Called as a program it judges a run log, as `capdiag run` does:

    python3 conformance/transcribed_runs.py [--freed held|used|both] [--owned] [--owners] [FILE]"""
import sys
import types

from transcribed import *  # noqa: F403

first_special = 2**60 + 32  # the key of scr0
unsealed_type, sentry_type = 0x3FFFF, 0x3FFFE
most = 4294967295  # of roots, of steps, of hart lines, and of granules
RUN_REFUSALS = {number: refusal_names[number] for number in (28, *range(30, 42))}  # those that version 2 doesn't have


# Lines: a name, and what it has


def run_place_spelling(place): return {"General": "c%d", "Special": "scr%d"}[place[0]] % place[1] if place[0] != "Granule" else "@" + hex_digits(16, 16 * place[1])
def result_text(cap): return f"{tag_spelling(cap.tag)} {hex_digits(32, cap.word)}"


def run_step_words(form, *parts):
    spell = {
        "Derive": lambda target, source, result: ["derive", run_place_spelling(target), run_place_spelling(source), "=", result_text(result)],
        "Exchange": lambda target, source, special, result, special_result: [
            "exchange", f"c{target}", f"c{source}", f"scr{special}", "=", result_text(result), result_text(special_result)],
        "Invoke": lambda code, datum, code_word, datum_word: ["invoke", f"c{code}", f"c{datum}", "=", hex_digits(32, code_word), hex_digits(32, datum_word)],
        "Drop": lambda place: ["drop", run_place_spelling(place)],
        "Fill": lambda granule, word: ["fill", run_place_spelling(("Granule", granule)), hex_digits(32, word)],
        "Object": lambda register: ["object", f"c{register}"],
        "Widen": lambda register, number: ["object", f"c{register}", str(number)],
        "FreeOwner": lambda register: ["free", f"c{register}"],
        "FreeNumber": lambda number: ["free", str(number)],
    }
    return spell[form](*parts)


def run_line_words(form, *parts):
    if form == "Version":
        return ["run", "1"]
    if form == "Plain":
        return ["capcheck", str(parts[0])]
    if form == "Root":
        return ["root", run_place_spelling(parts[0]), hex_digits(32, parts[1])]
    if form == "Hart":
        return ["hart", str(parts[0])]
    return run_step_words(*parts[0]) if form == "Run" else line_words(form, *parts)


def run_spelling(line): return " ".join(run_line_words(*line)).encode()
def IsRunPlace(place): return {"General": IsTarget, "Special": IsRegister, "Granule": lambda n: 0 <= n < 2**60}[place[0]](place[1])
def IsRunRegister(least, place): return place[0] in ("General", "Special") and (least if place[0] == "General" else 0) <= place[1] <= 31
def IsObjectNumber(n): return 1 <= n < 2**32


def IsRunStepInRange(form, *parts):
    within = {
        "Derive": lambda target, source, result: IsRunRegister(1, target) and IsRunRegister(0, source) and IsWord(result.word),
        "Exchange": lambda target, source, special, one, two: IsTarget(target) and IsRegister(source) and IsRegister(special) and IsWord(one.word) and IsWord(two.word),
        "Invoke": lambda code, datum, one, two: IsRegister(code) and IsRegister(datum) and IsWord(one) and IsWord(two),
        "Drop": IsRunPlace,
        "Fill": lambda granule, word: 0 <= granule < 2**60 and IsWord(word),
        "Object": IsTarget,
        "Widen": lambda register, number: IsTarget(register) and IsObjectNumber(number),
        "FreeOwner": IsTarget,
        "FreeNumber": IsObjectNumber,
    }
    return within[form](*parts)


def IsRunLineInRange(form, *parts):
    if form in ("Version", "Plain"):
        return form == "Version" or IsVersion(parts[0])
    if form == "Root":
        return IsRunPlace(parts[0]) and IsWord(parts[1])
    if form == "Hart":
        return 0 <= parts[0] < 2**16
    return IsRunStepInRange(*parts[0]) if form == "Run" else IsInRange(form, *parts)


def place_from(word):
    if word[0] == "@":
        return ("Granule", int(word[1:], 16) // 16)
    return ("Special", int(word[3:])) if word.startswith("scr") else ("General", int(word[1:]))


def run_step_from(head, words):
    """The step that only runs have that words may spell."""
    cap = lambda tag, word: Cap(tag == "1", int(word, 16))  # noqa: E731
    number = lambda word: int(word.lstrip("scr"))  # noqa: E731
    if head == "derive":
        return ("Derive", place_from(words[0]), place_from(words[1]), cap(*words[3:5]))
    if head == "exchange":
        return ("Exchange", number(words[0]), number(words[1]), number(words[2]), cap(*words[4:6]), cap(*words[6:8]))
    if head == "invoke":
        return ("Invoke", number(words[0]), number(words[1]), int(words[3], 16), int(words[4], 16))
    if head == "drop":
        return ("Drop", place_from(words[0]))
    if head == "fill":
        return ("Fill", place_from(words[0])[1], int(words[1], 16))
    if head == "object":
        return ("Widen", number(words[0]), int(words[1])) if len(words) > 1 else ("Object", number(words[0]))
    return ("FreeOwner", number(words[0])) if words[0][0] == "c" else ("FreeNumber", int(words[0]))


def run_line_from(data):
    """The one line of a run log that the bytes spell, or None."""
    try:
        head, *words = data.decode("ascii").split(" ")
        if head == "run":
            line = ("Version",)
        elif head == "hart":
            line = ("Hart", int(words[0]))
        elif head == "root":
            line = ("Root", place_from(words[0]), int(words[1], 16))
        elif head in ("derive", "exchange", "invoke", "drop", "fill", "object", "free"):
            line = ("Run", run_step_from(head, words))
        else:
            line = ("Plain", int(words[0])) if head == "capcheck" else line_from(data)
        return line if line and IsRunLineInRange(*line) and run_spelling(line) == data else None
    except (ValueError, KeyError, IndexError, TypeError):
        return None


# The run


def away_key(hart, register): return first_special + 64 * (hart + 1) + register
def near_key(register): return register if register < 32 else first_special + register - 32
def key_in(run, hart, register): return near_key(register) if hart == run.hart else away_key(hart, register)


def place_key(place): return {"General": 0, "Special": first_special, "Granule": 32}[place[0]] + place[1]


class Object(types.SimpleNamespace):
    """An object: its extent from base to top, the moment when it was handed out, that when it was freed or None."""


class Run(types.SimpleNamespace):
    """What places hold, the number of the object that owns each, the present objects, and what the limits are measured by."""


def no_run(asks): return Run(asks=asks, rules="TwoStrict", limits=types.SimpleNamespace(roots=most, granules=most), state=State(), owners={}, objects={}, count=0, hart=0, harts={0}, hart_lines=0, roots=0, steps=0, named=set())
def moment(run): return run.steps + run.hart_lines + 1
def owned_by(run, number): return sum(owner == number for owner in run.owners.values())
def is_empty(w): return top_of(w) <= base_of(w)
def owner_for(cap, owner): return owner if cap.tag and not is_empty(cap.word) else None
def is_present(run, number): return run.objects[number].freed is None or owned_by(run, number) > 0


def stepped(run):
    run.steps += 1
    for number in [it for it in run.objects if not is_present(run, it)]:
        del run.objects[number]


def own(run, key, owner):
    run.owners.pop(key, None)
    if owner_for(run.state[key], owner) is not None:
        run.owners[key] = owner


def put(run, key, cap, owner):
    run.state[key] = cap
    own(run, key, owner)


def run_step(run, form, *parts):
    """`run_after`: what is written has the owner that its source had before."""
    owners, state = dict(run.owners), run.state
    if form == "Derive":
        put(run, place_key(parts[0]), parts[2], owners.get(place_key(parts[1])))
    elif form == "Exchange":
        target, source, special, result, special_result = parts
        put(run, target, result, owners.get(first_special + special))
        put(run, first_special + special, special_result, owners.get(source))
    elif form == "Invoke":
        code, datum, code_word, datum_word = parts
        put(run, first_special, tagged(code_word), owners.get(code))
        put(run, 31, tagged(datum_word), owners.get(datum))
    elif form == "Drop":
        put(run, place_key(parts[0]), cleared(state[place_key(parts[0])]), None)
    elif form == "Fill":
        run.named.add(parts[0])
        put(run, granule_key(parts[0]), Cap(False, parts[1]), None)
    elif form == "Object":
        w = state[parts[0]].word
        run.count += 1
        run.objects[run.count] = Object(base=base_of(w), top=top_of(w), handed=moment(run), freed=None)
        own(run, parts[0], run.count)
    elif form == "Widen":
        w, it = state[parts[0]].word, run.objects[parts[1]]
        it.base, it.top = min(it.base, base_of(w)), max(it.top, top_of(w))
        own(run, parts[0], parts[1])
    else:
        number = owners[parts[0]] if form == "FreeOwner" else parts[0]
        run.objects[number].freed = moment(run)
    stepped(run)


def usual_step(run, step):
    """`usual_after`: a place has the owner that its parent had."""
    row = row_by(run.rules, row_of(run.state, step))
    owner = run.owners.get(key_of(row.parent)) if row.parent else None
    named = named_by(row)
    if named is not None:
        run.named.add(named)
    if row.writes:
        put(run, key_of(row.writes[0]), row.writes[1], owner)
    stepped(run)


def hart_line(run, hart):
    """`hart_after`: what the registers of the current hart hold goes to keys of their own, and the next hart's comes from its own."""
    if hart != run.hart:
        for table in (run.state, run.owners):
            for register in range(64):
                near, away = near_key(register), away_key(run.hart, register)
                for to, of in ((away, near), (near, away_key(hart, register))):
                    if of in table:
                        table[to] = table.pop(of)
    run.hart, run.hart_lines = hart, run.hart_lines + 1
    run.harts.add(hart)


# Why lines are refused


def shares(base, top, it): return max(base, it.base) < min(top, it.top)


def meets(run, left_out, freed, base, top):
    return any(number != left_out and (it.freed is not None) == freed and shares(base, top, it) for number, it in run.objects.items())


def step_limit(run): return [(run.steps >= most, "LimitPassed")]
def limit_checks(run, granule): return [(run.steps >= most or passes_granule_limit(run, granule), "LimitPassed")]


def extent_checks(run, left_out, base, top):
    return [(meets(run, left_out, False, base, top), "Overlaps"), (run.asks.held and meets(run, left_out, True, base, top), "StillHeld")]


def number_checks(run, number):
    return [(not 1 <= number <= run.count, "NoObject"), (number not in run.objects or run.objects[number].freed is not None, "AlreadyFreed")]


def capability_checks(run, register):
    cap = run.state[register]
    return [(not cap.tag or is_sealed(cap.word), "NoCapability"), (register in run.owners, "HasOwner")]


def keeps_seal(source, w, opens):
    """Whether a derived word has its source's seal, or opens a sentry into PCC at its entry."""
    if not is_sealed(source):
        return otype_of(w) in (unsealed_type, sentry_type)
    entry = [with_address(with_type(source, unsealed_type), a) for a in (address_of(source), address_of(source) // 2 * 2)]
    return w == source or opens and otype_of(source) == sentry_type and w in entry


def derive_checks(source, result, opens):
    if not result.tag:
        return []
    w = result.word
    return [(not source.tag, "SourceUntagged"), (not is_sound(w), "UnsoundResult"), (not ReachesNoMore(w, source.word), "BeyondSource"),
            (not keeps_seal(source.word, w, opens), "SealChanged")]


def invoke_checks(code, datum, code_word, datum_word):
    sealed_pair = (is_sealed(code.word) and is_sealed(datum.word) and otype_of(code.word) == otype_of(datum.word) and otype_of(code.word) <= 0x3FFFB
                   and has_permission(code.word, 8) and has_permission(datum.word, 8) and has_permission(code.word, 1) and not has_permission(datum.word, 1))
    opened = with_type(code.word, unsealed_type)
    entry = [with_address(opened, a) for a in (address_of(opened), address_of(opened) // 2 * 2)]
    return [(not code.tag or not datum.tag, "AuthorityUntagged"), (not sealed_pair, "NotInvokable"),
            (code_word not in entry or datum_word != with_type(datum.word, unsealed_type), "WrongResult")]


def run_checks(run, form, *parts):
    """`run_end`: the checks of a step that only runs have."""
    state = run.state
    if form == "Derive":
        target, source, result = parts
        return derive_checks(state[place_key(source)], result, place_key(target) == first_special) + step_limit(run)
    if form == "Exchange":
        target, source, special, result, special_result = parts
        key = first_special + special
        return derive_checks(state[key], result, False) + derive_checks(state[source], special_result, special == 0) + step_limit(run)
    if form == "Invoke":
        return invoke_checks(state[parts[0]], state[parts[1]], *parts[2:]) + step_limit(run)
    if form == "Drop":
        return step_limit(run)
    if form == "Fill":
        return limit_checks(run, parts[0])
    if form == "Object":
        w = state[parts[0]].word
        return capability_checks(run, parts[0]) + extent_checks(run, None, base_of(w), top_of(w)) + step_limit(run)
    if form == "Widen":
        w, it = state[parts[0]].word, run.objects.get(parts[1])
        base, top = (min(it.base, base_of(w)), max(it.top, top_of(w))) if it else (0, 0)
        return capability_checks(run, parts[0]) + number_checks(run, parts[1]) + extent_checks(run, parts[1], base, top) + step_limit(run)
    if form == "FreeOwner":
        owner = run.owners.get(parts[0])
        return [(not state[parts[0]].tag, "NoCapability"), (owner is None, "NoOwner")] + number_checks(run, owner or 0) + step_limit(run)
    return number_checks(run, parts[0]) + step_limit(run)


def usual_checks(run, step):
    """`usual_end`: what is asked of an access comes after its own checks."""
    row = row_by(run.rules, row_of(run.state, step))
    asked, access = [], row.access
    if access:
        owner = run.owners.get(access.authority)
        end = access.address + access.size
        asked = [(run.asks.used and owner is not None and run.objects[owner].freed is not None, "OwnerFreed"),
                 (run.asks.owned and owner is None and meets(run, None, False, access.address, end), "NotOwned")]
    return row.checks + asked + [(not agrees(row.writes, row.records), "WrongResult")] + limit_checks(run, named_by(row))


def root_run_checks(run, place, word):
    granule = place[1] if place[0] == "Granule" else None
    return [(run.steps > 0, "Misplaced"), (run.state[place_key(place)].tag, "PlaceTaken"), (not is_sound(word), "UnsoundRoot"),
            (run.roots >= run.limits.roots or passes_granule_limit(run, granule), "LimitPassed")]


def run_line_checks(run, line):
    if line[0] == "Root":
        return root_run_checks(run, *line[1:])
    if line[0] in ("Step", "Run"):
        return usual_checks(run, line[1]) if line[0] == "Step" else run_checks(run, *line[1])
    if line[0] == "Hart":
        return [(run.hart_lines >= most, "LimitPassed")]
    return [(line[1] != run.steps, "WrongCount")] if line[0] == "End" else [(True, "Misplaced")]


def run_line_after(run, line):
    if line[0] == "Mode":
        run.rules = f"Two{line[1]}"
    elif line[0] == "Root":
        place, word = line[1:]
        if place[0] == "Granule":
            run.named.add(place[1])
        run.state[place_key(place)] = tagged(word)
        run.roots += 1
    elif line[0] == "Hart":
        hart_line(run, line[1])
    elif line[0] == "Step":
        usual_step(run, line[1])
    elif line[0] == "Run":
        run_step(run, *line[1])


def run_refusal(run, due, text):
    """Why a whole line is refused, by what the next line has to be; the line otherwise."""
    line = run_line_from(text)
    if due in ("Version", "Mode"):
        return (None if line and line[0] == due else {"Version": "BadHeader", "Mode": "BadMode"}[due]), line
    return (first_of(run_line_checks(run, line)) if line else "BadLine"), line


def run_verdict(data, asks):
    """The verdict on a run log, with the run that its lines lead to."""
    run, due, number, at = no_run(asks), "Version", 1, 0
    while True:
        rest = data[at : at + 96]
        if due == "End":
            return (("Yes", run.steps, run.roots, run.count) if not rest else ("No", number, "Misplaced")), run
        refusal, line = FrontIs(rest, ("LineTooLong", None), ("Truncated", None), lambda text: run_refusal(run, due, text))
        if refusal:
            return ("No", number, refusal), run
        run_line_after(run, line)
        due = {"Version": "Mode", "End": "End"}.get(line[0], "Body")
        number, at = number + 1, data.index(10, at) + 1


def verdict_text(verdict):
    if verdict[0] == "Yes":
        return "yes {} {} {}\n".format(*verdict[1:])
    return f"no {verdict[1]} {refusal_number(verdict[2])} {verdict[2]}\n"


def register_text(hart, register):
    """A register of a hart, with the number of the hart before it unless that is 0."""
    return (f"{hart}." if hart else "") + (f"c{register}" if register < 32 else f"scr{register - 32}")


def owners_text(run):
    """The present objects, and the owned places, after a yes."""
    lines = []
    for number, it in sorted(run.objects.items()):
        lines.append(f"object {number} {2 + run.roots + it.handed} {it.base:016x} {it.top:017x} {'live' if it.freed is None else 'freed'} {owned_by(run, number)}\n")
    places = [(key_in(run, hart, register), register_text(hart, register)) for hart in sorted(run.harts) for register in range(1, 64)]
    places += [(key, run_place_spelling(("Granule", key - 32))) for key in sorted(run.owners) if 32 <= key < first_special]
    return "".join(lines + [f"owner {text} {run.owners[key]}\n" for key, text in places if key in run.owners])


def asks_of(words): return types.SimpleNamespace(held="used" not in words, used="used" in words or "both" in words, owned="--owned" in words)


def judged(data, words):
    verdict, run = run_verdict(data, asks_of(words))
    return verdict_text(verdict) + (owners_text(run) if verdict[0] == "Yes" and "--owners" in words else ""), 0 if verdict[0] == "Yes" else 1


if __name__ == "__main__":
    files = [it for it in sys.argv[1:] if it not in ("--freed", "held", "used", "both", "--owned", "--owners")]
    with open(files[0], "rb") if files else sys.stdin.buffer as it:
        text, status = judged(it.read(), sys.argv[1:])
    sys.stdout.write(text)
    sys.exit(status)
