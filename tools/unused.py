#!/usr/bin/env python3
"""Prints the definitions and lemmas that nothing names: python3 tools/unused.py

A name counts as used if it stands anywhere in the sources, contracts, definitions, proofs or edits of the crates, or in
docs/standard.txt, except in its own declaration and in imports that give it no other name. What a proof answers, in the folders of proofs/, is named by the
prover. Two declarations with one name are used together. The status is 1 if there is one."""
import collections
import glob
import re
import sys

NAME = r"[^\W\d](?:[\w'≡≢≤<↔-]*[\w'])?"
HEAD = re.compile(rf"^(?:abbrev |unfoldable )*(?:pub )?(?:abbrev |unfoldable )*(?:record |data )?({NAME})(?= [:({{]| :)", re.M)


def text_of(path):
    with open(path, encoding="utf-8") as it:
        return it.read()


def blocks(text):
    """The declarations of a file, each with its name: the line that begins one, its clauses, and what is indented below them."""
    lines, at = re.sub(r"^\s*--.*$", "", text, flags=re.M).split("\n"), 0
    while at < len(lines):
        head, end = HEAD.match(lines[at]), at + 1
        if head:
            while end < len(lines) and (not lines[end] or lines[end][0] in " })]" or lines[end].startswith(("unfolding", head[1] + " "))):
                end += 1
            yield head[1], "\n".join(lines[at:end])
        at = end


def main():
    files = [it for part in ("specs", "proofs") for it in glob.glob(f"crates/*/{part}/*.antt")]
    counts, declared = collections.Counter(), {}
    for path in files:
        body = re.sub(r"^(?:pub )?use .*$", "", text_of(path), flags=re.M)
        for name, block in blocks(body):
            declared.setdefault(name, []).append(path)
            counts[name] -= len(re.findall(rf"(?<![\w'-]){re.escape(name)}(?![\w'-])", block))
    everything = files + glob.glob("crates/*/src/**/*.rt", recursive=True) + glob.glob("crates/*/proofs/*/**/*.antt", recursive=True) + glob.glob("crates/*/must-fail/*.edit")
    for path in everything:
        text = re.sub(r"^\s*(?:--|//).*$", "", text_of(path), flags=re.M)
        text = re.sub(r"^\s*(?:pub |ghost )*use .*$", lambda it: " ".join(re.findall(r"([^\s{,.]+) as ", it[0])), text, flags=re.M)
        for word in re.findall(r"[^\s(){}\[\],;:.λ∷`\"]+", text):
            counts[word] += word in declared
    prose = text_of("docs/standard.txt")
    unused = [(paths, name) for name, paths in declared.items() if counts[name] <= 0 and not re.search(rf"\b{re.escape(name)}\b", prose)]
    for paths, name in sorted(unused):
        print(f"{paths[0]}: {name}")
    return 1 if unused else 0


sys.exit(main())
