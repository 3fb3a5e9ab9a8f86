#!/usr/bin/env python3
"""Prints what a run of the gate took of the processor, for each crate and each wrong body, and compares it with bench/units.md.

    python3 bench/cost.py [FILE]             prints what the last run of .ci/run took, the dearest crate first
    python3 bench/cost.py --write [FILE]     writes bench/units.md: the same, with the host, the date and the commit
    python3 bench/cost.py --watch [FILE]     measures, while the command that started it runs: see .ci/run

The measured times are in FILE, or bench/out/cost.tsv. A unit is what the proof of `cap_word` takes in the same run, so that
units of two machines can be compared. `--watch` reads /proc twice a second, and adds up each call of the prover with all
that it starts. It changes nothing of what is run, and a run that it can't measure goes on without it."""
import glob
import os
import re
import signal
import subprocess
import sys
import time

TOP = os.path.dirname(os.path.dirname(os.path.abspath(__file__)))
FILE, PAGE = f"{TOP}/bench/out/cost.tsv", f"{TOP}/bench/units.md"
UNIT = ("cap_word", "proof")
TEXT = """# Processor time of proofs

Made by `python3 bench/cost.py --write`, after a run of the gate, which measures the processor time that the prover takes. It is for maintainers who want to know which crate or which edit is worth making faster.

Host: {host}. Date: {date}. Commit: {commit}.

- A unit is the time that the proof of `cap_word` takes in the same run, here {unit:.1f} s, so units of two hosts can be compared. Other load raises them.
- A crate is proved once for itself, once more with its tests if it has a `#[test]`, and once more as the base of its edits if it has two or more.
- The column Building has a value for programs only: each is built by two compilers. In brackets is the number of edits.

"""
HEAD = "| Crate | Units | Proof | Building | Tests | Base of the edits | Edits |\n|---|---|---|---|---|---|---|\n"
TICK, PAUSE = os.sysconf("SC_CLK_TCK"), 0.5


def read(path):
    with open(path, encoding="utf-8", errors="replace") as it:
        return it.read()


def processes():
    """Each process by its number: its parent, and the seconds that it took, with those of its children that have ended."""
    found = {}
    for name in os.listdir("/proc"):
        if name.isdigit():
            try:
                words = read(f"/proc/{name}/stat").rpartition(")")[2].split()
            except OSError:
                continue
            found[int(name)] = (int(words[1]), sum(map(int, words[11:15])) / TICK)
    return found


def below(root, found):
    """A process and all that descend from it."""
    children = {}
    for number, (parent, _) in found.items():
        children.setdefault(parent, []).append(number)
    reached = [root]
    for it in reached:
        reached += children.get(it, [])
    return reached


def texts_with(edit, crate):
    """The files that a wrong body changes, as they are with it."""
    path, old, texts = "", "", {}
    for line in read(edit).split("\n"):
        if line.startswith("file: "):
            path = line[6:].strip()
            texts.setdefault(path, read(f"{crate}/{path}"))
        elif line.startswith("old: "):
            old = line[5:]
        elif line.startswith("new:"):
            texts[path] = texts[path].replace(old, line[4:].removeprefix(" "))
    return texts


def edit_in(folder, crate):
    """The wrong body that the copy of a crate in this folder has, or no name where it has none."""
    for edit in sorted(glob.glob(f"{crate}/must-fail/*.edit")):
        if all(read(f"{folder}/{path}") == text for path, text in texts_with(edit, crate).items()):
            return os.path.basename(edit)[: -len(".edit")]
    return ""


def task_of(number):
    """What a call of the prover is for: the crate, `proof`, `tests`, `compiling`, `edit` or `base`, and the edit's name. Nothing
    where the process is no such call."""
    words = read(f"/proc/{number}/cmdline").split("\0")
    if os.path.basename(words[0]) != "rattle" or words[1] not in ("check", "build") or "--crate-name" not in words:
        return None
    crate, folder = words[words.index("--crate-name") + 1], os.readlink(f"/proc/{number}/cwd")
    if os.path.basename(folder).startswith("rt-edit-"):
        edit = edit_in(folder, f"{TOP}/crates/{crate}")
        return crate, "edit" if edit else "base", edit
    return crate, "tests" if "--test" in words else "compiling" if "--crate-checked" in words else "proof", ""


def watch(path):
    """Measures what the process that started this one starts, until that one or this one is told to end."""
    signal.signal(signal.SIGTERM, lambda *_: sys.exit(0))
    parent, calls, spent = os.getppid(), {}, {}
    os.makedirs(os.path.dirname(path), exist_ok=True)
    written = time.time()
    try:
        write(path, spent)
        while os.getppid() == parent:
            found = processes()
            for number in below(parent, found)[1:]:
                try:
                    if calls.get(number) is None:
                        calls[number] = task_of(number)
                    if calls[number]:
                        spent[number, calls[number]] = sum(found[it][1] for it in below(number, found))
                except (OSError, IndexError):
                    continue
            for number in [it for it in calls if it not in found]:
                del calls[number]
            if time.time() - written > 60:
                write(path, spent)
                written = time.time()
            time.sleep(PAUSE)
    finally:
        write(path, spent)


def write(path, spent):
    """Writes the measured times, a line for each call of the prover."""
    with open(f"{path}.new", "w", encoding="utf-8") as it:
        for (_, task), seconds in spent.items():
            it.write("\t".join([*task, f"{seconds:.2f}"]) + "\n")
    os.replace(f"{path}.new", path)


def measured(path):
    """The seconds of each crate by what they are for, and those of each edit. The first edit of a crate is checked over no kept
    work, so it proves the crate: that beyond the middle one of the others is the base's."""
    crates, edits = {}, {}
    for line in read(path).split("\n")[:-1]:
        crate, what, edit, seconds = line.split("\t")
        if what == "edit":
            edits.setdefault(crate, {}).setdefault(edit, []).append(float(seconds))
        else:
            crates.setdefault(crate, {}).setdefault(what, 0.0)
            crates[crate][what] += float(seconds)
    for crate, own in edits.items():
        taken, times = crates.setdefault(crate, {}), {name: sum(it) for name, it in own.items()}
        others = sorted([*times.values()][1:])
        if others:
            first, middle = next(iter(times)), others[len(others) // 2]
            taken["base"] = taken.get("base", 0.0) + max(times[first] - middle, 0.0)
            times[first] = min(times[first], middle)
        taken["edits"], edits[crate] = sum(times.values()), times
    return crates, edits


def rows(crates, edits, unit):
    """The table's rows, the dearest first: units, and how many edits there are."""
    shown = []
    for crate, taken in sorted(crates.items(), key=lambda it: -sum(it[1].values())):
        parts = [f"{taken[it] / unit:.1f}" if taken.get(it) else "" for it in ("proof", "compiling", "tests", "base", "edits")]
        parts[4] += f" ({len(edits[crate])})" if crate in edits else ""
        shown.append(f"| `{crate}` | {sum(taken.values()) / unit:.1f} | {' | '.join(parts)} |".replace("|  |", "| |").replace("|  |", "| |"))
    total = sum(sum(it.values()) for it in crates.values())
    return [*shown, f"| all | {total / unit:.1f} | | | | | |"]


def host():
    """The host's processors."""
    names = re.findall(r"(?m)^model name\s*: (.*)$", read("/proc/cpuinfo"))
    return f"{os.cpu_count()} processors, {names[0] if names else 'unknown'}"


def commit():
    """The commit of the tree, and whether the tree differs from it."""
    git = lambda *words: subprocess.run(["git", "-C", TOP, *words], capture_output=True, text=True).stdout.strip()
    return git("rev-parse", "--short=7", "HEAD") + (", changed" if git("status", "--porcelain", "-uno") else "")


def main(words):
    is_watch, is_written = "--watch" in words, "--write" in words
    path = next((it for it in words if not it.startswith("--")), FILE)
    if is_watch:
        return watch(os.path.abspath(path))
    crates, edits = measured(path) if os.path.isfile(path) else ({}, {})
    unit = crates.get(UNIT[0], {}).get(UNIT[1])
    if not unit:
        print("cost.py: no run was measured in which cap_word was proved, so there is no unit")
        return 2
    before = dict(re.findall(r"(?m)^\| `?(\w+)`? \| ([0-9.]+) ", read(PAGE))) if os.path.isfile(PAGE) else {}
    made = rows(crates, edits, unit)
    print(f"A unit is {unit:.1f} s of one processor.\n\n{HEAD}" + "\n".join(made) + "\n")
    for row in made:
        crate, units = re.match(r"\| `?(\w+)`? \| ([0-9.]+) ", row).groups()
        was = float(before.get(crate, 0))
        if abs(float(units) - was) > max(0.5, was / 10):
            print(f"{crate}: {units} units, and in bench/units.md {was}")
    dear = sorted(((seconds / unit, crate, edit) for crate, own in edits.items() for edit, seconds in own.items()), reverse=True)
    print("\nEach edit, the dearest first:")
    for units, crate, edit in dear:
        print(f"{units:5.2f} {crate}/{edit}")
    if is_written:
        with open(PAGE, "w", encoding="utf-8") as it:
            it.write(TEXT.format(host=host(), date=time.strftime("%Y-%m-%d"), commit=commit(), unit=unit) + HEAD + "".join(f"{row}\n" for row in made))
    return 0


if __name__ == "__main__":
    sys.exit(main(sys.argv[1:]))
