#!/usr/bin/env python3
"""Checks what `capdiag --json` and `--context` print, on logs drawn at random, against the schema and against the report without
these options.

    python3 conformance/json_logs.py CAPDIAG [LOGS [SEED]]

The logs are those of machines, of allocators and of programs, half of them with a line changed, cut, doubled or left out. Each is
read from a file and from standard input. What is printed has to be valid by docs/report.schema.json, and exactly the object that
this script makes of the report by the schema; and the context exactly what this script finds in the log. The status is 1 if
anything differs."""
import json
import os
import random
import re
import subprocess
import sys
import tempfile
from collections import Counter

from heap_logs import made
from run_logs import Drawn, changed

HERE = os.path.dirname(os.path.abspath(__file__))
with open(os.path.join(HERE, "..", "docs", "report.schema.json"), encoding="ascii") as it:
    SCHEMA = json.load(it)
MEMBERS, CAPABILITY = SCHEMA["properties"], SCHEMA["$defs"]["capability"]["properties"]
# The counts of a yes, and the options, by the subcommand.
COUNTS = {"why": ("steps", "roots"), "heap": ("events", "live"), "run": ("steps", "roots", "objects")}
OPTIONS = {"why": ([], ["--origins"], ["--freed", "used", "--owners"]), "heap": (["--why"], ["--report", "--why"]), "run": (["--why"], ["--owners", "--why"], ["--owned", "--freed", "both", "--why"])}


def value_of(schema, words):
    """The value of these words, by its schema, and the words that are left."""
    if schema.get("type") == "integer" or schema.get("enum") == [0, 1]:
        return int(words[0]), words[1:]
    if "prefixItems" in schema:
        return words[:2], words[2:]
    if schema.get("type") == "object":
        fields = {}
        for name, field in schema["properties"].items():
            fields[name], words = (" ".join(words), []) if name == "text" else value_of(field, words)
        return fields, words
    return words[0], words[1:]


def describe(known, words):
    """Adds the words of a line that describes a capability to what is known of it."""
    names = {"otype": ["otype", "kind"]}.get(words[0], [words[0]]) if words[0] in CAPABILITY else None
    if names is None:
        names = {1: ["value"], 2: ["bounds"], 3: ["place", "tag", "word"]}[len(words)]
    else:
        words = words[1:]
    for name in names:
        assert name not in known, name
        known[name], words = value_of(CAPABILITY[name], words)
    assert not words, words


def object_of(report, command):
    """The object of a report, by the schema."""
    verdict, *lines = report.split("\n")[:-1]
    words = verdict.split(" ")
    names = COUNTS[command] if words[0] == "yes" else ("line", "number", "name")
    it = {"verdict": words[0]}
    for name, word in zip(names, words[1:], strict=True):
        it[name] = word if name == "name" else int(word)
    for line in lines:
        name, rest = line.split(" ", 1)
        if name == "live":
            second, rest = rest.split(" ", 1)
            name = "live_" + second
        name = "text" if name == "line" else name
        schema = MEMBERS[name]
        if "$ref" in schema:
            describe(it.setdefault(name, {}), rest.split(" "))
        elif schema.get("type") == "array" and "prefixItems" not in schema:
            it.setdefault(name, []).append(value_of(schema["items"], rest.split(" "))[0])
        else:
            assert name not in it, name
            is_text = name == "asked" or schema == {"type": "string", "description": schema["description"]}
            it[name], left = (rest, []) if is_text else value_of(schema, rest.split(" "))
            assert not left, line
    return it


def written_by(words):
    """Whether a line writes its first operand: a root, a drop, and a step that records a capability, after = by its tag."""
    results = (words + [""] * 6)[3:6]
    return words[0] in ("root", "drop") or any(mark == "=" and len(tag) == 1 for mark, tag in zip(results, results[1:]))


def context_of(count, log, report):
    """The lines that --context adds to a report: those before the faulty line, and those of its hart that last wrote what it reads."""
    verdict, number, *_ = report.split("\n")[0].split(" ")
    if verdict == "yes":
        return ""
    lines = [line.decode("latin-1") for line in log.split(b"\n")]
    at = int(number) - 1
    text = "".join(f"before {n + 1} {lines[n]}\n" for n in range(max(0, at - count), at))
    harts, hart = [], "0"
    for line in lines[:at]:
        hart = line.split(" ")[1] if line.startswith("hart ") else hart
        harts.append(hart)
    words = lines[at].split(" ") if at < len(lines) else [""]
    reads = words[2:4] if written_by(words) else words[1:4]
    for register in dict.fromkeys(word for word in reads if re.fullmatch("(c|scr)[0-9]{1,2}", word)):
        for n in reversed(range(at)):
            if harts[n] != hart:
                continue
            before = lines[n].split(" ")
            written = ["scr0", "c31"] if before[0] == "invoke" else [before[1]] if written_by(before) else []
            if register in written + (before[3:4] if before[0] == "exchange" else []):
                text += f"wrote {register} {n + 1} {lines[n]}\n"
                break
    return text


def asked_of(command, options, report):
    """The line that says what was asked of an accepted run log, if the report lacks it."""
    if command != "run" or report.startswith("no ") or "\nasked " in report:
        return ""
    freed = options[options.index("--freed") + 1] if "--freed" in options else "held"
    return f"asked freed {freed}{' owned' if '--owned' in options else ''}\n"


class Valid:
    """Whether an object is valid: by the package jsonschema, or else by the keywords that the schema uses."""

    def __init__(self):
        try:
            import jsonschema
            self.known = jsonschema.Draft202012Validator(SCHEMA)
            self.known.check_schema(SCHEMA)
        except ImportError:
            self.known = None

    def __call__(self, it):
        if self.known:
            return self.known.is_valid(it)
        wanted = SCHEMA["then"]["required"] if it.get("verdict") == "no" else []
        known = any(all(name in it for name in one["required"]) for one in SCHEMA["oneOf"])
        return known and all(name in it for name in wanted) and self.holds(SCHEMA, it)

    def holds(self, schema, it):
        schema = SCHEMA["$defs"]["capability"] if "$ref" in schema else schema
        if "enum" in schema:
            return it in schema["enum"]
        if schema["type"] == "integer":
            return type(it) is int and it >= 0
        if schema["type"] == "string":
            return isinstance(it, str) and re.search(schema.get("pattern", ""), it) is not None
        if schema["type"] == "array":
            forms = schema.get("prefixItems") or [schema["items"]] * len(it)
            return isinstance(it, list) and len(it) == len(forms) and all(map(self.holds, forms, it))
        return isinstance(it, dict) and all(name in schema["properties"] and self.holds(schema["properties"][name], one) for name, one in it.items()) \
            and all(name in it for name in schema.get("required", []))


def corpus():
    """The logs of the corpus by their subcommand."""
    logs = {"why": [], "heap": [], "run": []}
    for folder, command in (("accepted", "why"), ("rejected", "why"), ("heaps", "heap"), ("runs", "run")):
        for name in sorted(os.listdir(os.path.join(HERE, folder))):
            with open(os.path.join(HERE, folder, name), "rb") as it:
                logs[command].append(it.read())
    return logs


def drawn(rng, known):
    """The subcommand, its options and a log: one of the corpus, or one drawn at random, half of them changed."""
    command = rng.choice(["why", "why", "heap", "run"])
    if command == "why" or rng.random() < 0.5:
        log = rng.choice(known[command])
    elif command == "heap":
        log = made(rng)
    else:
        log = Drawn(rng).draw(rng.choice([5, 20, 60]))
    return command, rng.choice(OPTIONS[command]), changed(rng, log)


def main():
    program, count = sys.argv[1], int(sys.argv[2]) if len(sys.argv) > 2 else 100
    seed = int(sys.argv[3]) if len(sys.argv) > 3 else 1
    known, valid, wrong, names = corpus(), Valid(), 0, Counter()
    with tempfile.TemporaryDirectory() as folder:
        path = os.path.join(folder, "log")
        for number in range(count):
            rng = random.Random(seed * 1000003 + number)
            command, options, log = drawn(rng, known)
            context = rng.choice([[], ["--context", str(rng.choice([0, 1, 2, 5, 99]))]])
            with open(path, "wb") as it:
                it.write(log)
            plain = subprocess.run([program, command, *options, path], capture_output=True, check=False)
            read = subprocess.run([program, command, *options, *context, "--json", path], capture_output=True, check=False)
            piped = subprocess.run([program, command, "--json", *context, *options], input=log, capture_output=True, check=False)
            report = plain.stdout.decode("ascii")
            if context:
                report += context_of(int(context[1]), log, report)
                shown = subprocess.run([program, command, *context, *options], input=log, capture_output=True, check=False)
                if shown.stdout.decode("ascii") != report:
                    wrong += 1
                    print(f"log {number}, {command} {' '.join(options + context)}: {shown.stdout!r}, and not {report!r}")
            command = "run" if command == "why" and log.startswith(b"run 1\n") else command
            report += asked_of(command, options, report)
            verdict, lines = report.split("\n", 1)
            for it, named in ((read, f"file {path}\n"), (piped, "")):
                wanted = object_of(f"{verdict}\n{named}{lines}", command)
                printed = (json.dumps(wanted, separators=(",", ":")) + "\n").encode()
                if (it.stdout, it.stderr, it.returncode) != (printed, plain.stderr, plain.returncode) or not valid(wanted):
                    wrong += 1
                    print(f"log {number}, {command} {' '.join(options + context)}: {it.stdout!r}, and not {printed!r}")
            names[command + " " + wanted.get("name", "yes")] += 1
    print(f"{count} logs with --json, half with --context, by the schema and by the reports: {wrong} otherwise")
    print(", ".join(f"{name} {many}" for name, many in sorted(names.items())))
    return 1 if wrong else 0


if __name__ == "__main__":
    sys.exit(main())
