#!/usr/bin/env python3
"""The clauses of each public function and each method of a public trait, in crates/*/src.

    python3 tools/clauses.py [CRATE..]      prints a line for each clause without a name, and nothing where all have one
    python3 tools/clauses.py --since REV    prints each `ensures` of REV, and each definition that its PROMISES.md
                                            lists, whose text is another now or that is gone; each `requires` that is
                                            new; and the functions of REV that are gone

A function or a definition that moved to another file or crate counts as the same. The status is 1 where something was
printed."""
import os
import re
import subprocess
import sys

from definitions import FILE, NAME, blocks

os.chdir(os.path.join(os.path.dirname(os.path.abspath(__file__)), ".."))
FUNCTION = re.compile(r"\s*(pub )?(?:final )?(?:const )?(?:unsafe )?(?:extern \"C\" )?fn (\w+)")
PRIVATE = re.compile(r"\s*(?:pub\(\w+\) )(?:const )?fn ")
AROUND = re.compile(r"(pub )?(?:unsafe )?(impl|trait)\b(?:<[^>]*>)? ?(.*)")
SOURCE = r"crates/\w+/src/.*\.rt$"
CLAUSE = re.compile(r"\s*(ensures|requires)\*? ?(\w*) ?\{")


def clauses(text):
    """The public clauses of a file: each one's line, function, kind, name and text."""
    function, trait, around, lines = None, False, "", text.split("\n")
    for number, line in enumerate(lines, 1):
        outer, head, clause = AROUND.match(line), FUNCTION.match(line), CLAUSE.match(line)
        if outer:
            trait, around = outer[2] == "trait" and bool(outer[1]), re.sub(r"[<{:].*", "", outer[3].split(" for ")[-1]).strip() + "::"
        if line.startswith("}"):
            trait, around = False, ""
        if head or PRIVATE.match(line):
            function = around + head[2] if head and (head[1] or trait) else None
        elif function and clause:
            whole, at = line[clause.end():], number
            while whole.count("{") >= whole.count("}"):
                whole, at = whole + lines[at], at + 1
            yield number, function, clause[1], clause[2], re.sub(r"\s+", " ", whole[: whole.rindex("}")]).strip()


def unnamed(crates):
    for path, text in sources(None, SOURCE):
        if not crates or path.split("/")[1] in crates:
            for number, function, kind, name, _ in clauses(text):
                if kind == "ensures" and not name:
                    yield f"{path}:{number}: a clause of `{function}` has no name"


def sources(revision, pattern):
    """The files of a revision, or of the tree, whose paths fit a pattern, with their texts."""
    git = lambda *words: subprocess.run(["git", *words], capture_output=True, text=True, check=True).stdout
    listed = git("ls-tree", "-r", "--name-only", revision) if revision else git("ls-files", "-co", "--exclude-standard")
    for path in listed.split("\n"):
        if re.match(pattern, path) and (revision or os.path.exists(path)):
            yield path, git("show", f"{revision}:{path}") if revision else open(path, encoding="utf-8").read()


def public(revision):
    """The clauses of each public function."""
    found = {}
    for _, text in sources(revision, SOURCE):
        for _, function, kind, name, words in clauses(text):
            found.setdefault(function, {}).setdefault((kind, name), set()).add(words)
    return found


def defined(revision):
    """The texts of each definition."""
    found = {}
    for _, text in sources(revision, r"crates/\w+/specs/.*\.antt$"):
        for name, lines in blocks(text).items():
            found.setdefault(name, set()).add(" ".join(" ".join(lines).split()))
    return found


def listed(revision):
    """The names of the definitions that PROMISES.md lists, by name or by file; once it was docs/PROOFS.md."""
    page = "".join(text for _, text in sources(revision, r"(?:PROMISES|docs/PROOFS)\.md$"))
    names, excepted, files = set(NAME.findall(page)), set(), {}
    for crate, section in re.findall(r"(?ms)^## (\w+): (.*?)(?=^## )", page) if "(except `" in page else []:
        text = "\n".join(line for line in section.split("\n") if "need no belief" not in line)
        for file, kind, given in FILE.findall(text):
            excepted |= set(NAME.findall(given)) if kind == "except" else set()
            files[f"crates/{crate}/specs/{file}.antt"] = kind != "only"
    for path, text in sources(revision, r"crates/\w+/specs/.*\.antt$"):
        names |= set(blocks(text)) if files.get(path) else set()
    return names - excepted


def differences(what, was, now):
    """What is said of texts that are others now."""
    for text in sorted(was - now):
        yield f"{what} was: {text}"
        yield from [f"{what} is now: {it}" for it in sorted(now - was)] or [f"{what} is gone"]


def since(revision):
    was, now = public(revision), public(None)
    for function in sorted(was):
        if function not in now:
            yield f"{function}: gone, or without clauses"
            continue
        for kind, name in sorted(was[function].keys() | now[function].keys()):
            old, new = (it[function].get((kind, name), set()) for it in (was, now))
            yield from differences(f"{function}: {kind} {name}", old, new) if kind == "ensures" else []
            yield from (f"{function}: new: requires {name} {{ {it} }}" for it in sorted(new - old)) if kind == "requires" else []
    was, now = defined(revision), defined(None)
    for name in sorted(was.keys() & listed(revision)):
        yield from differences(name, was[name], now.get(name, set()))


def main(words):
    found = 0
    for line in since(words[1]) if words[:1] == ["--since"] else unnamed(words):
        found += 1
        print(line)
    return 1 if found else 0


sys.exit(main(sys.argv[1:]))
