#!/usr/bin/env python3
"""The wrong bodies that the prover has to refuse: crates/*/must-fail/*.edit.

    python3 tools/edits.py [CRATE..]        prints a line for each edit that can't be applied, since one of its old texts
                                            doesn't stand exactly once in its file, and nothing where all can be

As in `rt ci`, a pair applies to what those before it made. The status is 1 where something was printed."""
import glob
import os
import sys

os.chdir(os.path.join(os.path.dirname(os.path.abspath(__file__)), ".."))


def read(path):
    with open(path, encoding="utf-8") as it:
        return it.read()


def wrong(edit):
    """Why an edit can't be applied, or None."""
    folder, path, old, texts = edit.split("/must-fail/")[0], None, None, {}
    for line in read(edit).split("\n"):
        word, _, text = line.partition(":")
        text = text[1:]
        if word == "file":
            path = text.strip()
            if path not in texts:
                if not os.path.isfile(f"{folder}/{path}"):
                    return f"there is no file {path}"
                texts[path] = read(f"{folder}/{path}")
        elif word == "old":
            old = text
        elif word == "new":
            if not path or not old:
                return "a new text stands before any file or old text"
            if texts[path].count(old) != 1:
                return f"this stands {texts[path].count(old)} times in {path}: {old.strip()}"
            texts[path], old = texts[path].replace(old, text), None
    return "an old text has no new one" if old else None if texts else "it changes nothing"


def main(crates):
    found = 0
    for edit in sorted(glob.glob("crates/*/must-fail/*.edit")):
        why = wrong(edit) if not crates or edit.split("/")[1] in crates else None
        if why:
            found += 1
            print(f"{edit}: {why}")
    return 1 if found else 0


sys.exit(main(sys.argv[1:]))
