#!/usr/bin/env python3
"""Runs the commands of the pages, compares what they print with what the pages say, and looks for phrases that confuse.

    python3 docs/check.py [--unproved] [PAGE..]
    python3 docs/check.py --archive FOLDER [PAGE..]

A page's commands run as a reader's: HOME and PATH are set, with the installed programs in it, and of what concerns the
libraries only what the page exports: a line `export NAME=VALUE` holds for the rest of the page. It wants the programs and
the library for C built, or builds them. With `--unproved` it takes the programs that CAPCHECK and CAPDIAG name, and leaves
out what needs a library for C. With `--archive` the pages, the files and the installed programs are those of an unpacked
archive (release.sh), as its reader has them, and what needs the kit is left out.

- A block of a page that has lines beginning with `$ ` is a session: each such line is a command, lines that begin with `> `
  go on with it, and the lines below it are all that it prints; a line `..` stands for any lines. A page's commands run one
  after another in a folder of their own, in which the tree's files stand by their names, or what is installed in
  share/capcheck for the pages of INSTALLED. Lines that begin with `(gdb) ` are commands of the GDB that the session starts;
  without a GDB they are left out, and a line says so. Blocks with `>>> ` are run by doctest. Other commands of the pages
  are those of ELSEWHERE, which says where each is run. A block of C that prints something is the program.c of the page's
  lines `cc program.c ..`, and is run as each of them links it.
- Rows that give the verdict of an example or of a log are judged, and blocks that show a file of the tree are compared
  with it. `judge/heap.c` has to have as many lines as is said, and the manual pages and the changelog the header's version.
- The examples of the manual pages are sessions too.
- Each link has to lead to a file and a heading, and to a file that release.sh puts into the archive.
- The words of TERMS are looked for in the pages, the manual pages, the headers, and the docstrings and comments of Python, GDB
  and Rust, except what standard.py makes, and each figure of the pages in bench/README.md. The phrases of PHRASES are looked for in the pages, the manual pages, the headers, and the comments of
  the crates and of the C examples. Text in code font isn't read.

The status is 1 where anything differs."""
import ast
import glob
import os
import re
import shutil
import subprocess
import sys
import tempfile
from shlex import split

ROOT = os.path.join(os.path.dirname(os.path.abspath(__file__)), "..")
os.chdir(ROOT)
ROOT = os.getcwd()
sys.path.insert(0, f"{ROOT}/gdb")
from sessions import PROMPT, agrees, is_installed, tell_left_out, transcript  # noqa: E402

PAGES = ["README.md", "CONTRIBUTING.md", "docs/FIRST_HOUR.md", "docs/FORMAT.md", "docs/STEPS.md", "docs/RUNS.md", "docs/HEAPS.md", "docs/WORDS.md", "docs/MACHINE.md", "docs/RECORDING.md", "docs/REFUSED.md"]
PAGES += ["docs/PYTHON.md", "docs/TRACES.md", "docs/MANY.md", "docs/GDB.md", "docs/ALLOCATORS.md", "docs/STANDARD.md", "docs/STANDARD-RUNS.md", "docs/STANDARD-ALLOCATORS.md", "docs/STANDARD-PROGRAMS.md", "docs/STANDARD-INDEX.md", "docs/C.md", "docs/GLOSSARY.md", "docs/PROOFS.md", "PROMISES.md", "docs/TESTING.md", "docs/FAULTS.md", "docs/COMPARISON.md", "docs/DECISIONS.md", "INTERNALS.md", "CHANGELOG.md", "examples/README.md", "examples/objects/README.md", "examples/qemu/README.md", "conformance/README.md", "web/README.md", "web/PASTING.md", "bench/README.md", "bench/units.md"]

# Commands that no session runs, and where they are run.
ELSEWHERE = {
    "sh install.sh ~/.local": "examples/emulator/installed.sh, into another folder",
    "sh test.sh": "by hand",
    "python3 -m pip install ./python": "python/check.sh, into another folder",
    "bash .ci/run": "the gate",
    "(cd crates/capcheck_c && rt lib)": "examples/emulator/check.sh",
    "sh judge/build.sh": "examples/emulator/check.sh",
    "cc -Iinclude program.c judge/out/libcapcheck_judge.a crates/capcheck_c/out/libcapcheck_c.a -o program": "examples/emulator/check.sh, with other programs",
    "cc -Iinclude program.c recorder/out/libcapcheck_recorder.a judge/out/libcapcheck_judge.a crates/capcheck_c/out/libcapcheck_c.a -o program": "examples/emulator/check.sh, with other programs",
    "mkdir logs": "examples/objects/check.sh, for another program",
    "CAP_LOGS=logs LD_PRELOAD=$PWD/objects.so git log -p": "examples/objects/check.sh, for another program",
    "capdiag why logs/git.*.log": "examples/objects/check.sh, for another program",
    "cc program.c $(pkg-config --cflags --libs capcheck) -o program": "the block of C",
    "sh recorder/build.sh": "examples/emulator/check.sh",
    "python3 -m capcheck many /shared/logs --scheduler tcp://HEAD:8786 --results results.jsonl": "python/check.sh, with another scheduler",
    "cc program.c -I ~/.local/include ~/.local/lib/libcapcheck_c.a -o program": "the block of C",
    "cc -Iinclude program.c crates/capcheck_c/out/libcapcheck_c.a -o program": "examples/emulator/check.sh, with another program",
    "cc -ffreestanding -Iinclude program.c crates/capcheck_freestanding/out/libcapcheck_freestanding.a -o program": "examples/emulator/check.sh, with another program",
    "cc -shared -fPIC -I ~/.local/include recorder.c ~/.local/lib/libcapcheck_judge.a ~/.local/lib/libcapcheck_c.a -Wl,--exclude-libs,ALL -o recorder.so": "by hand, as examples/qemu/README.md has it",
    "cc -std=c11 -shared -fPIC -O2 -Iinclude -I/path/to/qemu/include/qemu examples/qemu/recorder.c judge/out/libcapcheck_judge.a crates/capcheck_c/out/libcapcheck_c.a -Wl,--exclude-libs,ALL -o recorder.so": "by hand, where QEMU is",
    r"""capdiag why --json logs/*.log | jq -r 'select(.verdict != "yes") | "::error file=\(.file),line=\(.line // 1)::\(.name // .unopened): \(.says // .hint // .expected // "")"'""": "by hand, where jq is",
    r"""capdiag why --json logs/*.log | jq -rs '"<testsuite name=\"capdiag\">", (.[] | "<testcase name=\"\(.file | @html)\">", (select(.verdict != "yes") | "<failure>\(.name // .unopened): \(.says // .hint // .expected // "" | @html)</failure>"), "</testcase>"), "</testsuite>"' > junit.xml""": "by hand, where jq is",
    "sh web/build.sh --keep": "by hand, after a change; web/check.sh builds the modules",
    "sh web/build.sh --page": "by hand, after a change of a script or the style",
    "sh web/sources.sh --compare": "the gate",
    "sh web/check.sh": "the gate",
    "sh web/test.sh": "by hand, in a browser",
    "python3 bench/speed.py": "by hand: it measures",
    "sh bench/million.sh moves 10000000 | crates/capcheck/out/capcheck judge": "by hand: it measures",
    "sh examples/allocator/measure.sh glibc": "by hand: it measures",
    "sh examples/allocator/measure.sh jemalloc /usr/lib/x86_64-linux-gnu/libjemalloc.so.2": "by hand: it measures",
    "sh examples/allocator/measure.sh mimalloc /usr/lib/x86_64-linux-gnu/libmimalloc.so.2.0": "by hand: it measures",
}
# Phrases that mislead, and what is written in their place.
PHRASES = {
    r"behind": "after, or what follows",
    r"want of memory": "out of memory",
    r"at fault": "faulty",
    r"(?:tests?|it) holds of|tests? (?:that )?holds?": "a check fails",
    r"(?:a|an|the|its|each|no|this) (?:yes|no)(?= (?:of|is|was|has|or|and|with|for|that|names|needs|stands)\b|[.,;:)])": "`yes` and `no` in code font",
    r"(?:gets?|got) a (?:yes|no)": "is accepted, is rejected",
    r"hangs? on": "depends on",
    r"but for": "except",
    r"gives? back": "frees, or returns",
    r"(?:comes?|came) to live": "is allocated",
    r"let through": "permitted",
    r"room to room|(?:a|the) tree before": "CHANGELOG.md, for what was before",
}
# One name for each concept.
TERMS = {
    r"first fault": "the faulty line",
    r"(?:hand|hands|handed|handing) (?:over|it to|them to|to a judge)": "pass",
    r"log's machine": "the model",
    r"this profile": "this project's own choice, or the rules",
    r"some (?=\d)": "about",
    r"exactly if": "if and only if, or exactly when",
    r"(?:is|are|was|nothing is|something is) said of": "about",
    r"proved of": "proved about",
    r"shortest log": "a short log",
    r"current CHERI-RISC-V|later RISC-V extension": "CHERI ISA version 9, RVY",
    r"legal": "allowed",
    r"[Mm]achines [A-D]|on machine [A-D]": "host A",
    r"the bounds of the objects cost": "what exact bounds would cost",
    r"from (?:0x)?[\d,]+ (?:bytes )?on": "from that number up",
    r"beside": "next to, with, or at the same time as",
    r"other logs of a machine|(?:the|of|for|in) other logs": "logs of steps",
    r"hand(?:s|ed)? out": "allocate",
}
# What TERMS are looked for in, and figures, except those of bench/ itself. The wording of the theorems is fixed.
MANUALS = ["docs/capcheck.1", "docs/capdiag.1"]
HEADERS = ["include/capcheck.h", "include/capcheck_answer.h", "include/capcheck_freestanding.h", "include/capcheck_judge.h", "include/capcheck_names.h", "include/capcheck_recorder.h"]
BINDINGS = [] if not os.path.isdir("rust/src") else sorted([*glob.glob("python/capcheck/*.py"), *glob.glob("gdb/*.py"), *glob.glob("rust/src/*.rs")])
OURS = [it for it in PAGES if not it.startswith("docs/STANDARD")] + MANUALS + HEADERS + BINDINGS
THEOREM = re.compile(r"(?m)^Where the judge answers yes.*$")
# A figure of time, memory or cost. Each has to be in bench/README.md, or to round what is there.
NUMBER = r"(?<![\w.^])\d+(?:[.,]\d+)*(?: to \d+(?:[.,]\d+)*)?"
UNIT = r"(?:ns|ms|s|seconds?|minutes?|hours?|[MG]B|Ki?B|per cent|instructions|microseconds?|bytes for each (?:step|line|granule)|(?:million )?(?:lines|steps) (?:per|a) second)"
FIGURE = re.compile(rf"{NUMBER} {UNIT}\b|\b(?:half|a quarter of) an? (?:hour|minute|second)\b|\bten minutes\b|\bfew hundredths of a second\b")
ROUNDED = {
    "0.02 to 0.06 s": ["0.023 to 0.058 s"],
    "60 to 150 instructions": ["| 63 | 83 | 80 | 84 | 109 | 110 | 116 |", "| 146 | 114 | 139 | 88 | 86 | 106 | 101 |"],
    "400 to 500 instructions": ["| 419 | 499 | 125 | 426 | 422 | 497 |"],
    "10 ns": ["| decoding | 8.9 |", "| rounding: the fields, and whether it is exact | 11.9 |"],
    "30 to 40 ns": ["| each line by itself, its length known | 29 | 41 |"],
    "2,000 KB": ["`(ulimit -v 2000; ..)`"],
    "90 KB": ["90 KiB of stack"],
    "128 KB": ["90 KiB of stack"],
    "30 to 50 bytes for each step": ["| 48.7 million |", "| 27.9 million |"],
    "ten minutes": ["549 s"],
    "few hundredths of a second": ["0.023 to 0.058 s"],
}
# Sizes that the format, the code or a test fixes: the reach of an offset, a region of the store, a batch, the browser page.
FIXED = ("2 KB", "256 KiB", "32 KiB", "400 KB", "a quarter of a second")
# Commands that need a proof. After one that builds over a library for C no command of its page can run without it.
BUILT = re.compile(r"install\.sh|libcapcheck_|pkg-config|\brt |^gdb |-m capcheck")
# Commands that need the kit.
KIT = re.compile(r"install\.sh|\brt |judge/build\.sh")
# Whether this Python can run the package of python/.
HAS_PACKAGE = sys.version_info >= (3, 10)
COMMAND = re.compile(r"\(?(\$|cc|sh|bash|cd|rt|python3|capcheck|capdiag|make|cat|git) ")

# Pages whose commands need no repository: they run in the installation's share/capcheck.
INSTALLED = ("docs/GDB.md", "docs/ALLOCATORS.md")

# What would help a reader's program to a library or the package without a word of the page.
HELPS = re.compile(r"LD_|PKG_CONFIG|PYTHON(PATH|HOME)|CAPCHECK|CAPDIAG|CAP_|HEAP_|CPATH|C_INCLUDE|LIBRARY_PATH|CPLUS_INCLUDE")

# Files of the tree that pages show: whole, or their end, from a part of 20 lines or more on.
SHOWN = {
    "docs/FIRST_HOUR.md": ["examples/emulator/first.c"],
    "docs/TRACES.md": ["examples/traces/plain.trace", "examples/traces/plain.json"],
    "CONTRIBUTING.md": ["crates/arena/src/main.rt", "crates/arena/stdout"],
}


def blocks(text):
    """The fenced blocks of a page, each with the number of its first line and the word behind the fence."""
    found, begun = [], None
    for number, line in enumerate(text.split("\n"), 1):
        if line.startswith("```"):
            if begun is None:
                begun = (number + 1, line[3:].strip(), [])
            else:
                found.append(begun)
                begun = None
        elif begun is not None:
            begun[2].append(line)
    return found


def commands(first, lines):
    """The commands of a session, each with its line's number and the lines that it prints."""
    found = []
    for number, line in enumerate(lines, first):
        if line.startswith("$ "):
            found.append((number, [line[2:]], []))
        elif found and line.startswith("> ") and not found[-1][2]:
            found[-1][1].append(line[2:])
        elif found:
            found[-1][2].append(line)
    for _, _, wanted in found:
        while wanted and not wanted[-1]:
            wanted.pop()
    return found


def run(command, folder, given=None):
    """What a command prints, on both outputs."""
    ran = subprocess.run(["bash", "-c", command], cwd=folder, input=given, stdout=subprocess.PIPE, stderr=subprocess.STDOUT, timeout=600)
    return ran.stdout.decode("utf-8", "replace")


def place(work, unproved, archive):
    """A folder in which the tree's files stand by their names, and a home in which what is built is installed."""
    programs = {name: os.path.abspath(os.environ[name.upper()]) for name in ("capcheck", "capdiag") if unproved}
    for name in [*os.environ]:
        if HELPS.match(name):
            del os.environ[name]
    os.environ.update(HOME=f"{work}/home", PATH=f"{work}/home/.local/bin:{os.environ['PATH']}")
    if unproved:
        os.makedirs(f"{work}/home/.local/bin")
        for name, path in programs.items():
            os.symlink(path, f"{work}/home/.local/bin/{name}")
    elif archive:
        for name in ("bin", "include", "lib", "share"):
            shutil.copytree(name, f"{work}/home/.local/{name}", symlinks=True)
    else:
        subprocess.run(["sh", "install.sh", f"{work}/home/.local"], check=True, stdout=subprocess.DEVNULL)
    folder = f"{work}/tree"
    os.makedirs(folder)
    for name in os.listdir("."):
        if not name.startswith("."):
            os.symlink(os.path.abspath(name), f"{folder}/{name}")
    return folder


def export(line, folder):
    """Sets the variable of a line `export NAME=VALUE` for the rest of the page."""
    if m := re.match(r"export (\w+)=", line):
        os.environ[m[1]] = run(f'{line} && printf %s "${m[1]}"', folder)


def sessions(page, text, folder, unproved, archive):
    """Runs the sessions of a page; what is wrong, a line each, and how many commands it ran."""
    wrong, count, is_left = [], 0, False
    for first, _, lines in blocks(text):
        found = commands(first, lines)
        for line in lines:
            export(line.removeprefix("$ "), folder)
        for number, command, wanted in found:
            if unproved and BUILT.search(command[0]):
                is_left = is_left or "install.sh" not in command[0] and "rt " not in command[0]
                continue
            if is_left or archive and KIT.search(command[0]):
                continue
            if "-m capcheck" in command[0] and not HAS_PACKAGE or command[0].startswith("emulator "):
                continue
            if any(line.startswith(PROMPT) for line in wanted):
                if not is_installed():
                    continue
                wanted = [line for line in wanted if line]
                given = "\n".join(transcript(split(command[0]), wanted, folder))
            else:
                given = run("\n".join(command), folder)
            count += 1
            if not agrees(wanted, given.rstrip("\n").split("\n") if given else []):
                wrong.append(f"{page}:{number}: `{command[0]}` prints\n{given}")
        if not found:
            for number, line in enumerate(lines, first):
                if COMMAND.match(line) and line not in ELSEWHERE:
                    wrong.append(f"{page}:{number}: `{line}` is no command of a session, and nothing says where it is run")
    return wrong, count


def doctests(page, text, folder):
    """Runs the blocks of Python that have prompts, one after another."""
    held = ["\n".join([*lines, "", ""]) for _, _, lines in blocks(text) if any(line.startswith(">>> ") for line in lines)]
    if not held or not HAS_PACKAGE:
        return [], 0
    with open(f"{folder}/doctests.txt", "w", encoding="utf-8") as it:
        it.writelines(held)
    given = run("python3 -m doctest doctests.txt", folder)
    return [f"{page}: {given}"] if given else [], sum(it.count(">>> ") for it in held)


def manual(text):
    """The examples of a manual page, as the sessions of a page."""
    return re.sub(r"(?m)^\.(nf\n\.RS|RE\n\.fi)$", "```", text).replace("\\-", "-")


def log_of(cell):
    """The bytes that a row's words for a log stand for."""
    text = cell.replace(" / ", "\n").replace(" W", " ffff1ffffc0180040000000000000000")
    return f"{text}\n".encode()


def rows(page, text, folder):
    """Judges the rows that give the verdict of an example or of a log."""
    wrong, count = [], 0
    for number, line in enumerate(text.split("\n"), 1):
        m = re.fullmatch(r"\| `([^`]+)` \| (?:[^|]* \| )?`((?:yes|no|pass|fail) [^`]+)` \|", line)
        if not m:
            continue
        count += 1
        if m[1].endswith(".log"):
            given = run(f"capcheck judge examples/{m[1]}", folder)
        elif m[1].endswith(".vectors"):
            given = run(f"capcheck vectors examples/vectors/{m[1]}", folder)
        else:
            given = run("capcheck judge", folder, log_of(m[1]))
        if given != f"{m[2]}\n":
            wrong.append(f"{page}:{number}: `{m[1]}` has the verdict {given}")
    return wrong, count


def shown(page, text):
    """Compares the files that a page shows."""
    held = ["\n".join(lines) + "\n" for _, _, lines in blocks(text)]
    wrong = []
    for path in SHOWN.get(page, []):
        with open(path, encoding="utf-8") as it:
            text = it.read()
        if not any(it == text or it.count("\n") >= 20 and text.endswith(it) for it in held):
            wrong.append(f"{page}: {path} isn't shown as it is")
    return wrong, len(SHOWN.get(page, []))


def programs(page, text, folder):
    """Runs the blocks of Python and C that a sentence follows, "It prints `..`", over the installed libraries."""
    wrong, count = [], 0
    links = [line for _, _, lines in blocks(text) for line in lines if line.startswith("cc program.c ")]
    for first, word, lines in blocks(text):
        m = re.match(r"```\n\nIt prints `([^`]+)`", text[text.index("\n".join(lines)) + len("\n".join(lines)) + 1 :])
        if not m or word not in ("python", "c"):
            continue
        with open(f"{folder}/program.{word}", "w", encoding="utf-8") as it:
            it.write("\n".join([*lines, ""]))
        for command in ["python3 program.python"] if word == "python" else [f"{link} && ./program" for link in links]:
            count += 1
            given = run(command, folder)
            if given != f"{m[1]}\n":
                wrong.append(f"{page}:{first}: by `{command}` the block prints\n{given}")
    return wrong, count


def anchors(text):
    """The names of a page's headings and other link targets, as links have them."""
    heads = re.findall(r"^#+ (.*)$", text, re.M)
    return {*re.findall(r'<a id="([^"]+)"></a>', text)} | {re.sub(r"[^\w\- ]", "", re.sub(r"\[([^]]*)\]\([^)]*\)", r"\1", it).lower()).replace(" ", "-") for it in heads}


def archived():
    """The files and folders of the tree that release.sh puts into the archive."""
    with open("release.sh", encoding="utf-8") as it:
        return re.search(r"git ls-files -z ([^|]*) \|", it.read())[1].split()


def links(page, text):
    """Whether each file and heading that a page links to is there, in the tree or in the archive."""
    wrong, count = [], 0
    kept = archived() if os.path.exists("release.sh") else ["."]
    within = lambda path: kept == ["."] or any(path == it or path.startswith(f"{it}/") for it in kept)
    for target in re.findall(r"\]\(([^)\s]+)\)", text):
        if target.startswith("http"):
            continue
        count += 1
        path, _, name = target.partition("#")
        there = os.path.normpath(os.path.join(os.path.dirname(page), path)) if path else page
        if there.startswith("..") or not os.path.exists(there):
            wrong.append(f"{page}: there is no {target}")
        elif within(page) and not within(there):
            wrong.append(f"{page}: the archive has no {target}")
        elif name and os.path.isfile(there):
            with open(there, encoding="utf-8") as it:
                if name not in anchors(it.read()):
                    wrong.append(f"{page}: {there} has no heading {name}")
    return wrong, count


def counted(page, text):
    """Compares how many lines of C the judge's memory is said to be with its file."""
    with open("judge/heap.c", encoding="utf-8") as it:
        lines = len(it.readlines())
    said = [int(it) for it in re.findall(r"(\d+) lines of C\b", text)]
    return [f"{page}: judge/heap.c has {lines} lines, and not {it}" for it in said if it != lines], len(said)


def sizes(page, text):
    """Whether the commands of the rows of docs/TESTING.md count what the rows say: a round number within a fifth."""
    rows = re.findall(r"(?m)^\| [^|]* \| (over )?([\d,]+) \| `((?:cat|ls|tail) .*)` \|$", text) if page == "docs/TESTING.md" else []
    wrong = []
    for is_over, said, command in rows if os.path.isdir("crates") else []:
        number, found = int(said.replace(",", "")), int(re.match(r"\d+", run(command.replace("\\|", "|"), "."))[0])
        most = number * 1.2 if is_over or number % 100 == 0 else number
        if not (number if is_over or number % 100 else number * 0.8) <= found <= most:
            wrong.append(f"{page}: `{command}` counts {found}, and not {said}")
    return wrong, len(rows)


def prose(path, text):
    """The text of a file that is read as prose, line by line: a page without its blocks, a manual page without the messages
    that it quotes, or the comments of a source."""
    if path.endswith(".py"):
        return docstrings(text)
    fenced, lines = False, []
    for line in text.split("\n"):
        if path.endswith(".md"):
            fenced ^= line.startswith("```")
            lines.append("" if fenced else line)
        elif path.endswith(".1"):
            lines.append("" if line.startswith((".I ", ".IR ")) else line)
        elif path.endswith((".rt", ".rs")):
            m = re.match(r"\s*//[/!]? ?(.*)", line)
            lines.append(m[1] if m else "")
        elif path.endswith((".c", ".h")):
            fenced = fenced or line.lstrip().startswith("/*")
            lines.append(line.lstrip().lstrip("/*") if fenced else "")
            fenced = fenced and "*/" not in line
        else:
            lines.append(line)
    return lines


def docstrings(text):
    """The docstrings and comments of a Python source, line by line."""
    lines = [(re.match(r"\s*#(.*)", line) or ["", ""])[1] for line in text.split("\n")]
    for it in ast.walk(ast.parse(text)):
        if isinstance(it, (ast.Module, ast.ClassDef, ast.FunctionDef)) and ast.get_docstring(it):
            said = it.body[0]
            lines[said.lineno - 1 : said.end_lineno] = text.split("\n")[said.lineno - 1 : said.end_lineno]
    return lines


def phrases(path):
    """The misleading phrases of a file, also where one is broken over two lines."""
    with open(path, encoding="utf-8") as it:
        lines = prose(path, it.read())
    text = re.sub(r"`[^`\n]*`", lambda m: "`" * len(m[0]), "\n".join(lines))
    for phrase, better in PHRASES.items():
        for m in re.finditer(r"\b(?:%s)\b" % phrase.replace(" ", r"\s+"), text):
            yield f"{path}:{text.count(chr(10), 0, m.start()) + 1}: '{' '.join(m[0].split())}': {better}"


def terms(path, text):
    """The words of a page that have another name everywhere else, and its figures that bench/README.md doesn't have."""
    if path not in OURS:
        return
    with open("bench/README.md", encoding="utf-8") as it:
        bench = it.read()
    has = lambda it: re.search(rf"(?<![\d.,]){re.escape(it)}\b", bench)
    text = THEOREM.sub("", re.sub(r"`[^`\n]*`", lambda m: "`" * len(m[0]), "\n".join(prose(path, text))))
    for phrase, better in TERMS.items():
        for m in re.finditer(r"\b(?:%s)\b" % phrase.replace(" ", r"\s+"), text):
            yield f"{path}:{text.count(chr(10), 0, m.start()) + 1}: '{' '.join(m[0].split())}': {better}"
    for m in FIGURE.finditer(text) if not path.startswith(("bench/", "include/")) and path not in BINDINGS else []:
        if not has(m[0]) and m[0] not in FIXED and not (m[0] in ROUNDED and all(it in bench for it in ROUNDED[m[0]])):
            yield f"{path}:{text.count(chr(10), 0, m.start()) + 1}: the figure '{m[0]}' isn't in bench/README.md"


def versions():
    """The places whose version isn't that of the header."""
    with open("include/capcheck.h", encoding="utf-8") as it:
        header = it.read()
    number, version = int(re.search(r"CAPCHECK_VERSION (\d+)", header)[1]), re.search(r'VERSION_STRING "([^"]+)"', header)[1]
    if f"{number // 10000}.{number // 100 % 100}." != version[: version.rindex(".") + 1]:
        yield f"include/capcheck.h: CAPCHECK_VERSION is {number}, and the version as text {version}"
    for path, form in (("docs/capcheck.1", r'"capcheck (\S+)"'), ("docs/capdiag.1", r'"capcheck (\S+)"'), ("CHANGELOG.md", r"(?m)^## (\d\S*)"),
                       ("crates/capcheck_c/src/names.rt", r'VERSION: &str = "(\S+)"'), ("crates/capdiag/src/help.rt", r'"capdiag (\d[^\\]*)'),
                       ("rust/Cargo.toml", r'(?m)^version = "(.*)"')):
        with open(path, encoding="utf-8") as it:
            found = re.search(form, it.read())
        if not found or found[1] != version:
            yield f"{path}: the version isn't {version}, as include/capcheck.h has it"


def main(words):
    unproved, archive = "--unproved" in words, "--archive" in words
    pages = [it for it in words if it not in ("--unproved", "--archive")]
    if archive:
        os.chdir(pages.pop(0))
        pages = pages or [it for it in PAGES if it != "CONTRIBUTING.md"]
    wrong, count = [] if archive else [*versions()], 0
    read = [it for it in PAGES if not it.startswith("docs/STANDARD")] + glob.glob("docs/*.1") + glob.glob("include/*.h") + glob.glob("judge/*.c")
    for path in pages or sorted([*read, *glob.glob("crates/*/src/**/*.rt", recursive=True), *glob.glob("examples/*/*.c")]):
        wrong += phrases(path)
    if not pages:
        lines = {line for page in PAGES for _, _, block in blocks(open(page, encoding="utf-8").read()) for line in block}
        wrong += [f"docs/check.py: no page has the command `{it}` of ELSEWHERE" for it in ELSEWHERE if it not in lines]
        wrong += [it for path in HEADERS + BINDINGS for it in terms(path, open(path, encoding="utf-8").read())]
    with tempfile.TemporaryDirectory() as work:
        tree = place(work, unproved, archive)
        for page in pages or PAGES + MANUALS:
            with open(page, encoding="utf-8") as it:
                text = it.read()
            with tempfile.TemporaryDirectory(dir=work) as room:
                folder = f"{room}/tree"
                shutil.copytree(f"{work}/home/.local/share/capcheck" if page in INSTALLED and not unproved else tree, folder, symlinks=True)
                before = dict(os.environ)
                run_sessions = sessions(page, manual(text) if page in MANUALS else text, folder, unproved, archive)
                run_blocks = ([], 0) if unproved else programs(page, text, folder)
                run_python = ([], 0) if unproved else doctests(page, text, folder)
                os.environ.clear()
                os.environ.update(before)
                for bad, tried in (run_sessions, ([*terms(page, text)], 1), rows(page, text, folder), shown(page, text), run_blocks, run_python, links(page, text), counted(page, text), sizes(page, text)):
                    wrong += bad
                    count += tried
    if not unproved and not is_installed():
        print("left out: the sessions of GDB, since there is none with Python 3.10 or later")
    tell_left_out()
    if not unproved and not HAS_PACKAGE:
        print("left out: the sessions of Python, since this Python is older than 3.10")
    print("\n".join([*wrong, f"{count} commands, rows, files and links of the pages tried, {len(wrong)} otherwise than the pages say"]))
    return 1 if wrong else 0


if __name__ == "__main__":
    sys.exit(main(sys.argv[1:]))
