#!/usr/bin/env python3
"""What docs/STANDARD.md takes from the tree and from the kit: definitions, clauses of contracts, declared types."""
import functools
import os
import re
import shutil
import sys

from antt import wrapped
from definitions import SPECS, flat, imports, public_items, read, uses

WIDTH = 118
PROFILE = re.compile(r",? ?\((?:all of it is |this is )?this profile's own(?:, as are all below)?\)")
# The kit in which `rt` stands, and where its library's crates are.
KIT = os.path.join(os.path.dirname(os.path.dirname(os.path.realpath(shutil.which("rt") or "/"))), "rattle")
HOMES = {"lib": "logic/Lib", "mir": "logic/Mir", "mathlib": "antt/port/mathlib/src"}


def fail(text):
    sys.exit(f"standard.py: {text}")


def spec_text(module):
    return flat(read(f"crates/{module[0]}/specs/{module[1].replace('.', '/')}.antt"))


def module_of(text):
    crate, _, name = text.partition(".")
    if (crate, name) not in SPECS:
        fail(f"no module {text}")
    return crate, name


def modules_with(crate, name):
    """The modules of a crate that define a name."""
    return [it for it in SPECS if it[0] == crate and name in SPECS[it][0]] or fail(f"no definition {crate}.{name}")


def text_of(module, name):
    """The lines of a definition, without what says who may see it."""
    return [re.sub(r"^(?:abbrev |unfoldable )?pub ", "", it).replace("  pub ", "  ") for it in SPECS[module][0][name]]


def comment_of(module, name):
    """The comment above a definition, in one line."""
    lines = spec_text(module).split("\n")
    first = at = lines.index(SPECS[module][0][name][0])
    while lines[first - 1].startswith("--"):
        first -= 1
    return PROFILE.sub("", " ".join(it.lstrip("- ") for it in lines[first:at]))


@functools.cache
def sources(crate):
    return {path: read(path) for path in sorted(f"{at}/{it}" for at, _, files in os.walk(f"crates/{crate}/src") for it in files if it.endswith(".rt"))}


def contract(crate, function):
    """The clauses of a public function, each with its text, and the names that its file brings."""
    items, opened = public_items(crate)
    for path, text in sources(crate).items():
        lines = text.split("\n")
        at = next((i for i, it in enumerate(lines) if re.match(rf"pub fn {function}\b", it)), None)
        if at is None:
            continue
        if function not in items and path.split("/")[-1][:-3] not in opened:
            fail(f"{crate}::{function} isn't public")
        return clauses_from(lines[at + 1 :]), uses(text)
    return fail(f"no function {crate}::{function}")


def clauses_from(lines):
    """The clauses that stand between a function's head and its body."""
    found, left = {}, iter(lines)
    for line in left:
        if line.startswith("{"):
            break
        m = re.match(r"    (?:ensures|requires) (\w+) ?\{ ?(.*)", line)
        if m:
            body = [m[2]]
            while "".join(body).count("{") >= "".join(body).count("}"):
                body.append(next(left).strip())
            found[m[1]] = [*body[:-1], re.sub(r" ?\}$", "", body[-1])]
            found[m[1]] = [it for it in found[m[1]] if it]
    return found


def declared(path, name):
    """A declared type in one line: a struct's fields, or an enum's variants; of an alias, those of its type."""
    lines = read(path).split("\n")
    alias = next((m[1] for it in lines if (m := re.match(rf"pub type {name} = (\w+)<", it))), None)
    if alias:
        return declared(path, alias)
    at = next((i for i, it in enumerate(lines) if re.match(rf"pub(?:\(crate\))? (?:enum|struct) {name}\b", it)), None)
    if at is None:
        fail(f"no type {name} in {path}")
    end = next(i for i in range(at, len(lines)) if re.match(r"\}|.*;$", lines[i]))
    text = " ".join(it.strip() for it in lines[at : end + 1] if not it.strip().startswith(("//", "#[", "pub ghost")))
    m = re.match(r"pub(?:\(crate\))? (enum|struct) (\w+)(?:<[^>]*>)? ?(.*)", text)
    body = re.sub(r"\bpub (?:\(crate\) )?", "", m[3]).replace("&'a str", "Text").replace("'a", "").strip("; ")
    body = re.sub(r" = \d+", "", re.sub(r",? \}", " }", body))
    if m[1] == "struct":
        return body or "{}" if body.startswith("{") or not body else f"{{ 0: {body.strip('()')} }}"
    parts, depth = [""], 0
    for it in body[1:-1].strip():
        depth += (it in "({") - (it in ")}")
        if it == "," and not depth:
            parts.append("")
        else:
            parts[-1] += it
    return " | ".join(it.strip() for it in parts if it.strip())


def declarations(path, names):
    """Declared types, those with the same fields in one line. An enum of types of its variants' names has these names."""
    bodies = {}
    for name in names:
        body = declared(path, name)
        if all(re.fullmatch(r"(\w+)\(\1\)", it) for it in body.split(" | ")):
            body = re.sub(r"\(\w+\)", "", body)
        bodies.setdefault(body, []).append(name)
    return [part for body, own in bodies.items() for part in wrapped(f"{', '.join(own)} = {body}", WIDTH)]


def kit_path(module):
    first, *rest = module.split(".")
    if first == "Rattle":
        return f"{KIT}/{rest[0]}/{'/'.join(rest[1:])}.antt"
    return f"{KIT}/{HOMES.get(first, first)}/{'/'.join(rest)}.antt"


def kit_definition(module, name):
    """The lines of a definition of the kit, under the name that the module gives it."""
    path = kit_path(module)
    if not os.path.isfile(path):
        crate, *rest = module.split(".")[1:2] + module.split(".")[3:]
        lib = f"{KIT}/{crate}/specs/Lib.antt"
        for is_public, passed, own, _ in imports(read(lib)) if os.path.isfile(lib) else []:
            if is_public and not own and passed.split(".")[-1] == rest[0]:
                return kit_definition(".".join([passed, *rest[1:]]), name)
        return None
    text = read(path)
    lines = text.split("\n")
    for at, line in enumerate(lines):
        if re.match(rf"\s*(?:abbrev |unfoldable )?pub (?:data |record )?{re.escape(name)}(?=[\s:])", line):
            indent = len(line) - len(line.lstrip())
            end = at + 1
            while lines[end].strip() and not lines[end][:indent].strip() and not re.match(r"abbrev|unfoldable|pub |--|infix", lines[end][indent:]):
                end += 1
            return [re.sub(r"^(?:abbrev |unfoldable )?pub ", "", it[indent:]).replace("  pub ", "  ") for it in lines[at:end]]
    for _, passed, own, here in imports(text):
        if own and here == name:
            found = kit_definition(passed, own)
            return found and [re.sub(rf"(?<![\w]){re.escape(own)}(?![\w])", name, it) for it in found]
    return None
