#!/usr/bin/env python3
"""The tables of docs/STANDARD.md, its diagram and its grammar, each made of definitions or compared with them."""
import functools
import glob
import os
import re

import antt
from definitions import SPECS, read
from tree import KIT, WIDTH, comment_of, fail, text_of

# The modules in which names are looked for.
CORE = {(crate, name) for crate, names in {
    "cap_word": "Fields Word Memory Digits", "cap_bounds": "Bounds Rounding Range", "tagmem": "Granules",
    "cap_ops": "Checks Permissions Operations Accesses Authority Refusals", "cap_log": "Lines Ranges", "cap_streams": "Front Streams",
    "cap_machine": "States Steps Accounts Runs RunAccounts Origins Escapes", "cap_judge": "Logs Verdicts Judgings VerdictLines"}.items() for name in names.split()}
CHECKS = "authority_checks type_authority_checks seal_checks unseal_checks set_bounds_checks set_addr_checks and_perm_checks stored_checks access_checks"
ROWS = CHECKS + " permission_for operation access_through address_through granule_through row_of"
STEPS = "Move ClearTag SetBounds SetBoundsExact SetAddr AndPerm Seal Unseal LoadCap StoreCap Load Store".split()
FIELDS = {"perms_of": "perms", "reserved_of": "res", "flag_of": "f", "otype_of": "otype", "ie_of": "IE", "t_field": "T field", "b_field": "B field", "address_of": "address"}
PERMISSIONS = "permit_global permit_load permit_store permit_load_capability permit_store_capability permit_store_local_capability permit_seal permit_unseal".split()
LIMITS = "most_roots most_granules most_steps".split()
# The operands and the recorded results of a step, as a line of the page has them.
NAMED = {"step.target": "cD", "step.source": "cS", "step.authority": "cA", "step.number": "NUMBER",
         "step.offset": "OFFSET", "step.datum.size": "SIZE", "step.datum.value": "VALUE", "step.result.tag": "T", "step.result.word.0": "WORD"}

# What the number of a step is.
NUMBERS = {"SetBounds": "LENGTH", "SetBoundsExact": "LENGTH", "SetAddr": "ADDRESS", "AndPerm": "MASK"}


def unfolder(names):
    """An evaluator that unfolds these definitions of the core."""
    def lines_of(name):
        found = [it for it in CORE if it in SPECS and name in SPECS[it][0]]
        return text_of(found[0], name) if len(found) == 1 else fail(f"{len(found)} definitions have the name {name}")
    return antt.Evaluator(lines_of, names)


def evaluated(names, text):
    return unfolder(names.split()).run(antt.parse(text))


def numbers_from(first):
    """The clause numbers from one on."""
    section, number = first.split(".")
    while True:
        yield f"{section}.{number}"
        number = int(number) + 1


def rows_of(head, rows):
    """A table in Markdown."""
    return [f"| {' | '.join(head)} |", "|" + "---|" * len(head), *(f"| {' | '.join(it)} |" for it in rows)]


# Refusals and steps


def numbers_of(module, definition, declared):
    """The number of each refusal of a type, and what its declaration says of it, compared with the one table of names."""
    numbers = {name: int(number) for name, number in re.findall(rf"{definition} (?:refusals\.)?(\w+) = (\d+)", "\n".join(text_of(module, definition)))}
    told = {m[3]: (int(m[1]), re.sub(r"\s*\n\s*/// ", " ", m[2])) for m in re.finditer(r"    /// (\d+): ((?:[^\n]*\n    /// )*[^\n]*)\n    (\w+)(?: = \1)?,", read(declared))}
    names = one_table()[0]
    if any(names[number] != name for name, number in numbers.items()) or numbers != {name: number for name, (number, _) in told.items()}:
        fail(f"{definition}, the declarations and the names of the refusals differ")
    return told


def refusals():
    """Number of each refusal of a log of operations, and what its declaration says of it."""
    return numbers_of(("cap_ops", "Refusals"), "refusal_number", "crates/cap_ops/src/refusal.rt")


@functools.cache
def one_table():
    """The names and the sentences of all refusals by their numbers."""
    found = [["", *re.findall(r'codes "([^"]*)"', "\n".join(text_of(("cap_ops", "Refusals"), it)))] for it in ("refusal_names", "refusal_sentences")]
    return found if len(found[0]) == len(found[1]) else fail("not each refusal has a name and a sentence")


def compare_refusals():
    """Compares with the one table of refusals what tells their numbers, names or sentences again."""
    numbers_of(("cap_run_judge", "VerdictLines"), "run_refusal_number", "crates/cap_run/src/ends.rt")
    numbers_of(("cap_heap", "Refusals"), "heap_refusal_number", "crates/cap_heap/src/refusal.rt")
    names, sentences = one_table()
    numbers = {name: str(number) for number, name in enumerate(names) if number}
    upper = {re.sub(r"(?<!^)(?=[A-Z])", "_", name).upper(): number for name, number in numbers.items()}
    header = read("include/capcheck_names.h").split("static inline ")
    python = re.search(r"^class Refusal\(.*?\n\n", read("python/capcheck/words.py"), re.M | re.S)[0]
    rust = re.search(r"^refusals! \{.*?^\}", read("rust/src/refusals.rs"), re.M | re.S)[0]
    for place, found, wanted in (
            ("capcheck_names.h", dict(re.findall(r'case (\d+): return "(\w+)"', header[1])), {str(it): name for it, name in enumerate(names) if it} | {"255": "BadArgument"}),
            ("capcheck_names.h", dict(re.findall(r'case (\d+): return "(.*)"', header[2])), {str(it): text for it, text in enumerate(sentences) if it}),
            ("python/capcheck/words.py", dict(re.findall(r"(\w+) = (\d+)", python)), upper | {"BAD_ARGUMENT": "255"}),
            ("rust/src/refusals.rs", dict(re.findall(r"(\w+) = (\d+)", rust)), numbers | {"BadArgument": "255"})):
        if found != wanted:
            fail(f"{place} doesn't have the refusals as refusal_names and refusal_sentences have them")
    for path in [*glob.glob("docs/*.md"), *glob.glob("include/*.h"), *glob.glob("web/*.md"), "README.md"]:
        text = read(path)
        told = [(name, number) for number, name in re.findall(r"^\| (\d+) \| `(\w+)`", text, re.M) + re.findall(r"(?<![\d,])\b(\d+) `(\w+)`", text) if name in numbers]
        told += [(name, number) for name, number in re.findall(r"CAPCHECK_(\w+) = (\d+)", text) if name in upper]
        wrong = [it for it in told if (numbers | upper)[it[0]] != it[1]]
        if wrong:
            fail(f"{path} has refusals with other numbers: {wrong}")


def step_rows():
    """What row_of gives for each kind of step, unfolded."""
    return {kind: evaluated(ROWS, f"row_of state ({kind} step)")[2] for kind in STEPS}


def checks_of(tree):
    """The refusals of a list of checks in their order, the conditions, and whether an untagged source meets none."""
    if tree[0] == "app" and tree[1] == ("name", "on_tagged"):
        return *checks_of(tree[3])[:2], True
    kept = [it for it in tree[1] if it[1] != ("name", "false")]
    return [it[2][1] for it in kept], [it[1] for it in kept], False


def step_words():
    """The words of a line of each kind of step."""
    return {kind: evaluated("register_words result_words step_words line_words", f"step_words ({kind} step)")[1] for kind in STEPS}


def operand(tree):
    """A word of a line, as the table of steps has it."""
    return tree[2][1] if tree[0] == "app" and tree[1] == ("name", "codes") else NAMED[antt.show(tree[-1])]


def in_short(tree):
    """A result, with letters for what registers and granules hold."""
    text = antt.show(tree)
    for old, new in (("(state step.source)", "S"), ("(state step.authority)", "A"), ("state step.source", "S"), ("access_address A.word.0 step.offset", "a"),
                     ("(state (key_of (Granule (a / 16))))", "G"), ("Register step.", "step."), ("Granule (a / 16)", "granule a / 16"), ("(a)", "a")):
        text = text.replace(old, new)
    for old, new in NAMED.items():
        text = text.replace(old, new)
    return text


def checks_cell(row):
    """The numbers of a step's checks, with the permission that an authority needs."""
    names, conditions, on_tagged = checks_of(row["checks"])
    numbers = [str(refusals()[it][0]) for it in names]
    if names[:4] == ["AuthorityUntagged", "AuthoritySealed", "AuthorityPermission", "AuthorityBounds"]:
        permission = next(it for it in antt.show(conditions[2]).rstrip(")").split() if it.startswith("permit"))
        numbers[2] += f" (`{permission}`)"
    return ("of a tagged source: " if on_tagged else "") + (", ".join(numbers) or "none")


def steps_table(first):
    """The rows of row_of, unfolded, with the lines as they are spelled."""
    rows, words, found = step_rows(), step_words(), []
    for number, kind in zip(numbers_from(first), STEPS):
        row = rows[kind]
        tests = evaluated("operation access_through row_of", f"row_of state ({kind} step)")[2]["checks"]
        defined = f"`{in_short(tests).replace('kinds.', '')}`" if tests[0] == "app" else ""
        writes = row["writes"][2][1:] if row["writes"][0] == "app" else None
        parent = in_short(row["parent"][2]) if row["parent"][0] == "app" else "none"
        records = row["records"][2:] if row["records"][0] == "app" else None
        records = "nothing" if records is None else "what it writes" if row["records"][1][1] == "Written" else f"`{in_short(records[1])}`"
        access = row["access"][2][2] if row["access"][0] == "app" else None
        access = ", ".join(in_short(access[it]) for it in ("authority", "address", "size", "permission")) if access else "none"
        line = " ".join(operand(it) for it in words[kind])
        cells = [number, f'<a id="s-{line.split()[0]}"></a>`{line}`', checks_cell(row), defined,
                 f"{in_short(writes[0])}: `{in_short(writes[1])}`" if writes else "nothing", parent, records, access]
        found.append([it.replace("NUMBER", NUMBERS.get(kind, "")) for it in cells])
    return rows_of(["", "Line", "Checks, in order", "Defined by", "Writes", "Parent", "Records", "Access"], found)


def line_checks(argument):
    """The checks of a line of some form, and whether those of a step come first."""
    tree = evaluated("line_checks root_checks step_checks", f"line_checks account ({argument})")
    return [it[2][1] for it in (tree[3] if tree[0] == "op" else tree)[1]], tree[0] == "op"


def places_of_refusals(rows):
    """Where each refusal can come: the words of the lines, and those of fronts."""
    found = {it: [] for it in refusals()}
    heads = {kind: operand(words[0]) for kind, words in step_words().items()}
    for kind, row in rows.items():
        for name in checks_of(row["checks"])[0]:
            found[name].append(f"`{heads[kind]}`")
    for text, line in (("`root`", "Root place word"), ("`end`", "End count"), ("version and mode lines", "Version version"), ("each step", "Step step")):
        for name in line_checks(line)[0]:
            found[name].append(text)
    for name, text in (("RefusesWhole", "line 1 or 2"), ("RefusesLine", "any later line"), ("Refuses", "the front of a line")):
        for it in re.findall(r"refusal ≡ (\w+)", "\n".join(text_of(("cap_judge", "Logs"), name))):
            found[it].append({"BadHeader": "line 1", "BadMode": "line 2 of version 2", "Misplaced": "after the end line"}.get(it, text))
    if not all(found.values()):
        fail("no check has the refusals " + ", ".join(it for it in found if not found[it]))
    return found


# What the page says of a check in place of its declaration, which would tell a second time what a clause tells.
BESIDE = {"Misplaced": ("a second version line; in version 2 a second mode line", "a version or mode line that has a form [3.8]"),
          "BadLine": ("has none of the forms of the log's version", "has no form [3.8]"),
          "BoundsEscape": ("the rounded bounds do not lie inside the source's bounds", "the rounded bounds do not lie inside the source's bounds: for a sound source, the requested ones don't [1.10]")}


def beside(name, text):
    old, new = BESIDE.get(name, ("", ""))
    return text.replace(old, new) if old in text else fail(f"{name} is declared otherwise")


def refusals_table():
    compare_refusals()
    rows = step_rows()
    found, told = places_of_refusals(rows), []
    is_access = {kind: row["access"] != ("name", "None") for kind, row in rows.items()}
    with_access, without = ({it for kind, row in rows.items() if is_access[kind] == wanted for it in checks_of(row["checks"])[0]} for wanted in (True, False))
    for name, (number, text) in refusals().items():
        where = found[name]
        if len(where) == 6 and "`seal`" in where:
            where = ["`seal`", "`unseal`", "each access"]
        elif where == ["`lc`", "`sc`", "`load`", "`store`"]:
            where = ["each access"]
        mode = "same" if name not in without else "accesses only" if name in with_access else "never"
        text = beside(name, text[0].lower() + text[1:].rstrip("."))
        told.append([f'<a id="r{number}"></a>{number}', f"`{name}`", text, ", ".join(where), mode])
    return rows_of(["No.", "Name", "The check fails if", "Where", "Clear mode"], told)


def orders_table(first):
    """The checks of each kind of line, in their order."""
    kinds = (("`root`", "Root place word"), ("a step", "Step step"), ("`end`", "End count"), ("a version or mode line", "Mode mode"))
    found = []
    for number, (text, line) in zip(numbers_from(first), kinds):
        names, of_step = line_checks(line)
        found.append([number, text, ", ".join([*["those of the step, by the rules"][: 1 * of_step], *(f"{refusals()[it][0]} `{it}`" for it in names)])])
    return rows_of(["", "Line", "Checks, in order"], found)


# Words, permissions, limits


def permissions_table(first, others):
    """The permissions: bits by evaluating perm_view_of, titles by docs/WORDS.md, names by the constants. Rows without a
    definition have numbers of their own."""
    module, found, seen = ("cap_ops", "Permissions"), [], 0
    evaluator = unfolder("perm_view_of perms_of perms_from_view".split())
    constants = {int(text_of(module, it)[1].split("=")[1]): (it, *comment_of(module, it).split(": ", 1)) for it in PERMISSIONS}
    numbers, free = numbers_from(first), numbers_from(others)
    for view, bit, title in re.findall(r"^\| ([\d to]+) \| ([\d to]+) \| ([\w -]+) \|$", read("docs/WORDS.md"), re.M):
        low, high = (int(it) for it in (view.split(" to ") * 2)[:2])
        first_bit = int(bit.split(" to ")[0])
        for one in range(low, high + 1):
            of_view = evaluator.run(antt.parse(f"perm_view_of {2 ** (112 + first_bit + one - low)}"))
            if of_view != ("number", 2**one) or evaluator.run(antt.parse(f"perms_from_view {2**one}")) != ("number", 2 ** (first_bit + one - low)):
                fail(f"docs/WORDS.md says of permission {one} what its definitions do not")
            seen += 1
        name, other, allows = constants.get(low, ("", title, "not used by the machine" if low < 12 else "free for users"))
        if other != title:
            fail(f"permission {low} has two names: {other}, {title}")
        found.append([next(numbers if name else free), view, bit, title, f"`{name}`" if name else "", allows])
    if seen != 16 or any(evaluator.run(antt.parse(f"perms_from_view {2**it}")) != ("number", 0) for it in (12, 13, 14, 19, 20, 31)):
        fail("the view of the permissions has other bits")
    return rows_of(["", "View", "Field", "Permission", "Name here", "Allows"], found)


def field_bits():
    """The lowest bit and the width of each field, read off its definition."""
    below, found = 128, {}
    for name in FIELDS:
        m = re.fullmatch(rf"{name} w = w(?: / 2 \^ (\d+))? % 2(?: \^ (\d+))?( == 1)?", text_of(("cap_word", "Fields"), name)[1])
        found[name] = int(m[1] or 0), int(m[2] or 1)
        if sum(found[name]) != below:
            fail(f"{name} doesn't end where the field above begins")
        below = found[name][0]
    return found


def fields_table(first):
    module, found = ("cap_word", "Fields"), []
    for number, (name, (low, width)) in zip(numbers_from(first), field_bits().items()):
        told = re.sub(r"^bits? [\d.]+: ", "", comment_of(module, name))
        bits = str(low) if width == 1 else f"{low + width - 1} to {low}"
        found.append([number, bits, f"`{text_of(module, name)[1]}`", "reserved, kept by every operation" if told == "reserved" else told])
    return rows_of(["", "Bits", "Definition", "Is"], found)


def diagram():
    """The word's layout, drawn from the same definitions."""
    cells = []
    for name, (low, width) in field_bits().items():
        bits = str(low) if width == 1 else f"{low + width - 1}..{low}"
        cells.append((bits, FIELDS[name], str(width), max(len(bits), len(FIELDS[name])) + 2))
    edge = "+" + "+".join("-" * it[3] for it in cells) + "+"
    rows = ["|" + "|".join(it[at].center(it[3]) for it in cells) + "|" for at in (0, 1, 2)]
    return ["```", edge, rows[0], rows[1], edge, rows[2].replace("|", " ").rstrip(), "```"]


def limits_table(first, line):
    module, numbers = ("cap_machine", "Accounts"), numbers_from(first)
    roots, steps = (f"{int(text_of(module, it)[1].split('= ')[1]):,}" for it in ("most_roots", "most_steps"))
    one, two = (f"{int(it.split('= ')[1]):,}" for it in text_of(module, "most_granules")[1:])
    longest = re.search(r"length line ≤ (\d+)", "\n".join(text_of(("cap_streams", "Front"), "IsLine")))[1]
    return rows_of(["", "Name", "At most", "Version 1", "Version 2"], [
        [next(numbers), "`most_roots`", "roots", roots, "the same"],
        [next(numbers), "`most_granules`", "distinct granules that a root, an `sc` or a `store` names", one, two],
        [next(numbers), "`most_steps`", "steps", steps, "the same"],
        [line, "", "bytes of a line before its line feed", longest, "the same"]])


# The grammar

# The rules for the parts of a line.
PARTS = {
    "register": '"c" ( DIGIT / ( "1" / "2" ) DIGIT / "30" / "31" )',
    "target": '"c" ( %x31-39 / ( "1" / "2" ) DIGIT / "30" / "31" )',
    "place": 'target / "@" 15HEX "0"',
    "word": "32HEX",
    "number": "16HEX",
    "tag": '"0" / "1"',
    "offset": '"0" / [ "-" ] %x31-39 *3DIGIT',
    "count": '"0" / %x31-39 *9DIGIT',
}
NOTES = {"register": "c0 to c31", "target": "c1 to c31", "place": "a register, or the address of a granule",
         "offset": "only -2048 to 2047, clause 18.15", "count": "only below 2 ^ 32, clause 18.11"}
# What the grammar takes for granted of the ranges.
RANGES = {"IsRegister": "n ≤ 31", "IsTarget": "(1 ≤ n) × (n ≤ 31)", "IsWord": "n < 2 ^ 128", "IsNumber": "n < 2 ^ 64", "IsVersion": "(version ≡ 1) ⊎ (version ≡ 2)", "IsOffset": "(negsuc 2047 ≤ℤ z) × (z ≤ℤ pos 2047)", "IsDataSize": "(size ≡ 1) ⊎ ((size ≡ 2) ⊎ ((size ≡ 4) ⊎ (size ≡ 8)))",
          "IsDataValue": "value < 256 ^ size", "IsDatum": "IsDataSize datum.size × IsDataValue datum.size datum.value"}


def part_of(tree, ranges):
    """The rule of a word of a line, by how it is spelled and which range its number has."""
    if tree[0] == "app" and tree[1] == ("name", "codes"):
        return f'"{tree[2][1]}"'
    head, value = tree[1][1], antt.show(tree[-1])
    limit = ranges.get(value, "")
    rule = {("register_spelling", f"IsTarget {value}"): "target", ("register_spelling", f"IsRegister {value}"): "register",
            ("signed_decimal", f"IsOffset {value}"): "offset", ("place_spelling", f"IsPlace {value}"): "place",
            ("tag_spelling", ""): "tag", ("decimal", f"{value} < {2**32}"): "count", ("mode_spelling", ""): "mode",
            ("decimal", f"IsVersion {value}"): '( "1" / "2" )'}.get((head, limit))
    if head == "hex_digits":
        rule = {("16", f"IsNumber {value}"): "number", ("32", f"IsWord {value}"): "word"}.get((antt.show(tree[2]), limit))
    return rule or fail(f"no rule for {antt.show(tree)} in the range {limit}")


def ranges_of(definition, argument):
    """Which range each number of a line has."""
    found, left = {}, [evaluated("IsStepInRange IsInRange", f"{definition} ({argument})")]
    while left:
        it = left.pop()
        if it[0] == "op" and it[1] == "×":
            left += it[2:]
        elif it[0] == "op" and it[1] == "⊎":
            found[antt.show(it[2][2])] = f"({antt.show(it[2])}) ⊎ ({antt.show(it[3])})"
        elif it[0] in ("op", "app"):
            found[antt.show(it[2])] = antt.show(it)
    return found


def step_rule(kind, words):
    """The rule of a step's line."""
    ranges, head = ranges_of("IsStepInRange", f"{kind} step"), operand(words[0])
    if kind not in ("Load", "Store"):
        return " SP ".join(part_of(it, ranges) for it in words)
    data = [antt.show(it) for it in words[3:] if it[1] != ("name", "codes")]
    if ranges["step.datum"] != "IsDatum step.datum" or data != ["decimal step.datum.size", "hex_digits (2 * step.datum.size) step.datum.value"]:
        fail("the grammar of data")
    sign = '"=" SP ' if kind == "Load" else ""
    data = " / ".join(f'"{size}" SP {sign}{2 * size}HEX' for size in (1, 2, 4, 8))
    return f'"{head}" SP ' + " SP ".join(part_of(it, ranges) for it in words[1:3]) + f" SP ( {data} )"


def grammar():
    """The grammar of the log, made of the definitions of how lines are spelled and which numbers they have."""
    for name, wanted in RANGES.items():
        if text_of(("cap_log", "Ranges" if name in SPECS["cap_log", "Ranges"][0] else "Lines"), name)[1].split(" = ", 1)[1] != wanted:
            fail(f"the grammar has {wanted} for {name}")
    lines, rules = {}, {operand(words[0]): step_rule(kind, words) for kind, words in step_words().items()}
    for name, argument in (("version", "Version version"), ("root", "Root place word"), ("end", "End steps"), ("mode-line", "Moding mode")):
        words = evaluated("register_words result_words step_words line_words", f"line_words ({argument})")[1]
        lines[name] = " SP ".join(part_of(it, ranges_of("IsInRange", argument)) for it in words)
    modes = re.findall(r'mode_spelling \w+ = codes "(\w+)"', "\n".join(text_of(("cap_log", "Lines"), "mode_spelling")))
    if lines["version"] != '"capcheck" SP ( "1" / "2" )' or lines["mode-line"] != '"mode" SP mode' or modes != ["strict", "clear"]:
        fail("the grammar of a header")
    out = ["log       = header *( root LF ) *( step LF ) end LF", 'header    = "capcheck" SP "1" LF / "capcheck" SP "2" LF "mode" SP mode LF',
           'mode      = "strict" / "clear"', f"root      = {lines['root']}", f"end       = {lines['end']:<50} ; the number of steps", "step      = " + " / ".join(rules)]
    out += [f"{name:<9} = {rule}" for name, rule in rules.items()]
    out += [f"{name:<9} = {rule:<50}" + (f" ; {NOTES[name]}" if name in NOTES else "") for name, rule in PARTS.items()]
    out += [f"HEX       = {'DIGIT / %x61-66':<50} ; lower case", "SP        = %x20", "LF        = %x0A"]
    anchors = "".join(f'<a id="g-{it.split()[0]}"></a>' for it in out)
    out = [re.sub('"([a-z]+)"', r'%s"\1"', it).rstrip() for it in out]
    return [anchors, "```abnf", *(part for it in out for part in folded(it)), "```"]


def folded(rule):
    """A rule in lines that aren't too long."""
    if len(rule) <= WIDTH:
        return [rule]
    at = rule.rindex(" / ", 0, WIDTH)
    return [rule[:at], *folded(" " * 12 + rule[at + 1 :])]


def grouping():
    """The operators from the loosest to the tightest, compared with the kit's lines if it is there."""
    if os.path.isdir(KIT):
        level = {"×": 2}
        for path in ("antt/port/mathlib/src/Core/Path", "antt/port/mathlib/src/Core/Logic", "antt/port/mathlib/src/Core/Bool", "antt/port/mathlib/src/Core/Nat",
                     "antt/port/mathlib/src/Core/List/Defs", "core/specs/Bool"):
            for number, names in re.findall(r"^\s*infix[lr]? (\d+) (.*)$", read(f"{KIT}/{path}.antt"), re.M):
                level |= {it.strip("◌"): int(number) for it in names.split()}
        level["×"] = 2
        known = [level[it] for ops, _ in antt.LEVELS for it in ops if it in level]
        if known != sorted(known):
            fail(f"the operators group otherwise in the kit: {known}")
    side = {"r": " (to the right)", "l": " (to the left)", "n": ""}
    return ["Loosest first: " + ", ".join("`" + "` `".join(sorted(ops, reverse=True)) + "`" + side[it] for ops, it in antt.LEVELS) + "."]


TABLES = {"steps": steps_table, "refusals": refusals_table, "orders": orders_table, "permissions": permissions_table, "fields": fields_table,
          "diagram": diagram, "limits": limits_table, "grammar": grammar, "grouping": grouping}
# The definitions of which a table says all, one a row with a number.
SAID = {"fields": [(("cap_word", "Fields"), it) for it in FIELDS], "permissions": [(("cap_ops", "Permissions"), it) for it in PERMISSIONS],
        "limits": [(("cap_machine", "Accounts"), it) for it in LIMITS]}
