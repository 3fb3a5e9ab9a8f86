#!/usr/bin/env python3
"""What a reader has to believe: the definitions of crates/*/specs that contracts of public functions reach.

    python3 tools/definitions.py              what PROMISES.md lists for each crate, compared with what is reached
    python3 tools/definitions.py NAME..       how many definitions, lines, characters and words these names reach

A definition reaches those that its text names, by the `use` lines of its file. Lines are counted without comments
and without blank ones. A crate's section lists all definitions of a file that it names (`specs/Fields`), except those
of "(except `NAME`, ..)" after it, or only those of "(only `NAME`, ..)". A file whose name ends in `Laws` holds laws,
which no section has to list. The status is 1 where a section lacks a definition that is reached or excepts one, where it
names a definition or a file that the crate doesn't have, or where the page tells other numbers of definitions and lines
than the command after them counts."""
import glob
import os
import re
import sys

os.chdir(os.path.join(os.path.dirname(os.path.abspath(__file__)), ".."))
WORD = r"[A-Za-z_][\w'-]*(?:\.[A-Za-z_][\w'-]*)*"
HEAD = re.compile(r"^(?:abbrev |unfoldable )?(?:pub )?(?:abbrev |unfoldable )?(?:record |data )?(" + r"[A-Za-z_][\w'-]*" + r")\b.*:")
FILE = re.compile(r"`specs/(\w+)`(?: \((except|only) ([^)]*)\))?")
NAME = re.compile(r"`([A-Za-z_][\w'-]*)`")
USE = re.compile(r"^\s*(pub )?(?:ghost )?use ([^;]+?);?\s*$", re.M)


def read(path):
    with open(path, encoding="utf-8") as it:
        return it.read()


def spread(path):
    """The items of an import, each by its whole path: a.{b, c.{d as e}} is a.b and a.c.d as e."""
    head, brace, rest = path.partition("{")
    if not brace:
        return [path]
    items, depth = [""], 0
    for it in rest[:-1]:
        depth += (it == "{") - (it == "}")
        if it == "," and not depth:
            items.append("")
        else:
            items[-1] += it
    return [whole for it in items for whole in spread(head + it.strip())]


def imports(text):
    """What a file imports: whether it passes it on, its module, its name there, "" for the module itself, and its name here."""
    for public, path in USE.findall(text):
        for item in spread(path):
            whole, _, other = item.partition(" as ")
            module, _, name = whole.rpartition(".") if "{" in path else (whole, "", "")
            yield bool(public), module, name, other or name


def uses(text):
    """The names that a file's imports bring of definitions, each with the module and the name there, and those of modules."""
    names, aliases = {}, {}
    for _, path, name, here in imports(text):
        m = re.fullmatch(r"Rattle\.(\w+)\.specs\.([\w.]+)", path)
        if m and not m[2].startswith(("declared", "contracts")):
            if name:
                names[here] = (m[1], m[2]), name
            elif here:
                aliases[here] = m[1], m[2]
    return names, aliases


def flat(text):
    """The text of a file where what stands in a module with arguments stands as what is outside it does."""
    out, inside = [], False
    for line in text.split("\n"):
        if re.match(r"module _ .* where$", line):
            inside = True
            continue
        inside = inside and (not line or line.startswith("  "))
        out.append(line[2:] if inside and line else line)
    return "\n".join(out)


def blocks(text):
    """The definitions of a file: the name and the lines of each, without comments."""
    found = {}
    for part in re.split(r"\n\s*\n", flat(text)):
        lines = [it for it in part.split("\n") if it.strip() and not it.lstrip().startswith("--")]
        if not lines or lines[0].startswith(("use ", "pub use ", "pub mod ", "mod ")):
            continue
        m = HEAD.match(lines[0])
        if m:
            found.setdefault(m[1], []).extend(lines)
    return found


SPECS = {}
for path in glob.glob("crates/*/specs/**/*.antt", recursive=True):
    crate = path.split("/")[1]
    SPECS[crate, path[len(f"crates/{crate}/specs/"):-5].replace("/", ".")] = (blocks(read(path)), *uses(read(path)))


def resolve(module, name):
    """Where a name of a module is defined, through the modules that pass it on."""
    while module in SPECS:
        own, names, _ = SPECS[module]
        if name in own:
            return module, name
        if name not in names:
            return None
        module, name = names[name]
    return None


def named(text, names, aliases, own=None):
    for word in re.findall(WORD, text):
        first, _, rest = word.partition(".")
        if own and first in SPECS[own][0]:
            yield own, first
        elif first in names:
            yield names[first]
        elif first in aliases and rest:
            yield aliases[first], rest.split(".")[0]


def closure(found):
    reached, waiting = set(), [it for it in (resolve(*pair) for pair in found) if it]
    while waiting:
        module, name = waiting.pop()
        if (module, name) in reached:
            continue
        reached.add((module, name))
        own, names, aliases = SPECS[module]
        waiting += [it for it in (resolve(*pair) for pair in named("\n".join(own[name]), names, aliases, module)) if it]
    return reached


def public_items(crate):
    """The names that the crate's root gives, and the modules that it opens."""
    root = next(it for it in (f"crates/{crate}/src/lib.rt", f"crates/{crate}/src/main.rt") if os.path.isfile(it))
    text = read(root)
    items = set(re.findall(r"\w+", " ".join(re.findall(r"^pub use crate::([^;]*);", text, re.M))))
    return items, set(re.findall(r"^pub mod (\w+);", text, re.M))


def clauses(crate):
    """The texts of the clauses of the crate's public functions, each with the names that its file brings."""
    items, opened = public_items(crate)
    for path in glob.glob(f"crates/{crate}/src/**/*.rt", recursive=True):
        text = read(path)
        module = path[len(f"crates/{crate}/src/"):-3].split("/")
        is_open = all(it in opened for it in module[:1])
        around, lines, at = "", text.split("\n"), 0
        for at, line in enumerate(lines):
            m = re.match(r"(?:pub )?(?:trait (\w+)|impl\b.*?(?:for )?(\w+)(?:<[^{]*)?\s*\{)", line)
            around = (m[1] or m[2]) if m else "" if re.match(r"\}", line) else around
            m = re.match(r"\s*(pub )?(?:const )?(?:unsafe )?(?:extern \"C\" )?fn (\w+)", line)
            is_trait = around and any(it.startswith("pub trait " + around) for it in lines)
            if re.match(r"\s+ghost (?!use)\w+", line) and (is_open or is_trait or around in items):
                yield "\n".join(lines[at : at + 3]), *uses(text)
            if not m or not (m[1] or is_trait) or not (is_open or m[2] in items or around in items or '"C"' in line):
                continue
            said, end = [], at
            while end + 1 < len(lines) and not re.match(r"\s*(?:\{|.*\bfn \w+|\})\s*$", lines[end + 1]) and "fn " not in lines[end + 1]:
                end += 1
                said.append(lines[end])
            start = next((i for i, it in enumerate(said) if re.match(r"\s*(?:requires|ensures|ghost )", it)), None)
            if start is not None:
                yield "\n".join(said[start:]), *uses(text)


def listed(crate, section, specs):
    """What a section lists of the definitions of its crate, pairs of a file and a name; what it names that isn't there."""
    names, pairs, strange = set(NAME.findall(re.sub(r"\(except [^)]*\)", "", section))), set(), []
    for file, kind, given in FILE.findall(section):
        own, given = set(specs.get((crate, file), ({},))[0]), set(NAME.findall(given))
        strange += [f"specs/{file}"] * (not own) + sorted(given - own)
        pairs |= {(file, name) for name in (given if kind == "only" else own - given)}
    return pairs | {(file, name) for it, file in specs if it == crate for name in specs[it, file][0] if name in names}, strange


def compare():
    page, bad = read("PROMISES.md") + read("docs/PROOFS.md"), 0
    reached = set()
    for crate in sorted(os.listdir("crates")):
        for text, names, aliases in clauses(crate):
            reached |= closure(named(text, names, aliases))
    defined = {name for own, _, _ in SPECS.values() for name in own}
    for crate in sorted(os.listdir("crates")):
        section = re.search(rf"^## {crate}:.*?(?=^## )", page + "\n## ", re.M | re.S)
        section = section[0] if section else ""
        pairs, strange = listed(crate, section, SPECS)
        lacks = sorted(f"{module[1]}.{name}" for module, name in reached if module[0] == crate and (module[1], name) not in pairs and not module[1].endswith("Laws"))
        head = section.split("| Promised")[0]
        strange += sorted(it for it in NAME.findall(head) if it[0].isupper() and it not in defined and not re.search(rf"\b{it}\b", rust(crate)))
        bad += len(lacks) + len(strange)
        print(f"{crate}: {sum(module[0] == crate for module, _ in reached)} reached" + "".join(f"\n  not listed: {it}" for it in lacks) + "".join(f"\n  defined nowhere: {it}" for it in strange))
    for number, lines, names in re.findall(r"(\d+) (?:definitions of|of them, of) (\d+) lines \(`python3 tools/definitions\.py ([^`]+)`\)", page):
        found = size(names.split())
        if found != (int(number), int(lines)):
            bad += 1
            print(f"{names}: {found[0]} definitions of {found[1]} lines, and not {number} of {lines}")
    return 1 if bad else 0


def rust(crate):
    return "\n".join(read(it) for it in glob.glob(f"crates/{crate}/src/**/*.rt", recursive=True))


def reached_by(names):
    """The definitions that some names reach."""
    return closure([(module, name) for name in names for module, (own, _, _) in SPECS.items() if name in own])


def size(names):
    """How many definitions some names reach, and their lines."""
    return len(reached_by(names)), sum(len(SPECS[module][0][name]) for module, name in reached_by(names))


def count(names):
    text = "\n".join(line for module, name in reached_by(names) for line in SPECS[module][0][name])
    print(f"{size(names)[0]} definitions, {size(names)[1]} lines, {len(text)} characters, {len(text.split())} words")
    return 0


if __name__ == "__main__":
    sys.exit(count(sys.argv[1:]) if len(sys.argv) > 1 else compare())
