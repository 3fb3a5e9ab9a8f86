#!/usr/bin/env python3
"""Writes docs/STANDARD.md and its other parts: the theorems, what they rest on, and the definitions, made of contracts and of
crates/*/specs.

    python3 tools/standard.py            compares the pages with what the tree gives; the status is 1 if one differs
    python3 tools/standard.py --write    writes them

docs/standard.txt has the prose. Its lines that begin with one of these words are made here:

    version: NUMBER DATE DIGEST      the version of the standard, its date, and the digest of the core that it stands for
    contents:                        the sections, in the order of the page
    part: FILE                       what follows stands in this file, after what stands there before
    theorem: CRATE.FUNCTION CLAUSE.. the text of clauses of a public function's contract
    of: CRATE.DEFINITION..           definitions that an annex needs beside those of its theorems
    types: PATH NAME..               declared types, a line each
    defs: MODULE NUMBER NAME..       definitions, with the number of the first; the next ones follow it
    table: NAME [NUMBER]             a table of tools/tables.py, with the number of its first row
    library: NUMBER NAME..           definitions of the kit's library
    moved: NUMBER [NUMBER]           a number that isn't given again, and the one that the clause has now, if any
    gaps:                            these numbers
    files:                           for each clause of the core, the files of the corpus that test it
    index:                           where each name, refusal, step, theorem, rule of the grammar and term is

`{term}` in the prose is a term where it is defined. Definitions that follow each other are sorted, so that each comes
after those that it uses. Each definition that a theorem or an `of:` reaches stands once, and nothing else does. Each
citation such as [15.2] in the prose, and each clause that conformance/INDEX.tsv names, has to be there. A number below
the greatest one of its section is there, or is one of `moved:`. Of the mentions in the core's definitions and prose, from
section 2 on, at most FORWARD are of a clause that comes later. The library's text is that of the kit in which `rt` stands;
without a kit the page's is kept."""
import glob
import hashlib
import os
import re
import sys

from antt import wrapped
from definitions import SPECS, closure, imports, named, read, resolve
from tables import SAID, TABLES, numbers_from
from tree import KIT, WIDTH, comment_of, contract, declarations, fail, kit_definition, module_of, modules_with, spec_text, text_of

PAGE, OTHER_PAGES = "docs/STANDARD.md", "docs/STANDARD-*.md"
WORDS, CORPUS = "docs/standard.txt", "conformance/INDEX.tsv"
SEEN = "conformance/CLAUSES.tsv"
SHORT, LONG, COLUMN = 12, 66, 44
NUMBER = r"\d+\.\d+"
MOST, FORWARD = 1350, 20
CORE_BEGIN, CORE_END = "\n## 1. ", "\n## Annex"


def filled(text, first, rest):
    """Words in lines of at most the width, the first with one text in front and the others with another."""
    lines, line = [], first
    for word in text.split(" "):
        if len(line) + len(word) + 1 > WIDTH and line.strip("- "):
            lines.append(line.rstrip())
            line = rest
        line += word + " "
    return [*lines, line.rstrip()]


def as_named(line):
    """A line with the page's name of the library's function that gives an element of a list by its index."""
    return re.sub(r"(?<!\w)get_or(?!\w)", "slice_index_or", line)


def anchored(number):
    """What a link to a clause leads to."""
    return f'<a id="c{number}"></a>'


def fenced(blocks, long):
    """Definitions in blocks that are not long, each below what links to its clauses lead to. Between short definitions that
    follow each other there is no line."""
    out, left = [], list(blocks)
    while left:
        numbers, lines = [], []
        while left and (not lines or len(lines) + len(left[0][1]) <= (long if numbers or left[0][0] else LONG)):
            number, block = left.pop(0)
            if lines and max(len(block), last) > SHORT:
                lines.append("")
            last = len(block)
            lines += block
            numbers += [number] if number else []
        out += [*["".join(anchored(it) for it in numbers)][: len(numbers)], "```antt", *lines, "```"]
    return "\n".join(out)


def headed(number, comment, lines):
    """A definition with its number and what it is: after its type, if that takes fewer lines than above it."""
    first = lines[0].ljust(COLUMN) + "  -- "
    if len(f"{first}{number}. {comment}") > WIDTH:
        first = lines[0] + "  -- "
    after, above = filled(comment, f"{first}{number}. ", "--   "), filled(comment, f"-- {number}. ", "--   ")
    if len(after) <= len(above) and len(after[0]) <= WIDTH and len(lines[0]) < WIDTH - 30:
        return [*after, *lines[1:]]
    return [*above, *lines]


def nested(lines):
    """The lines of a definition, where those of a `let` are indented further than its name."""
    out, deeper = [], ""
    for line in lines:
        out.append(deeper + line)
        if line.endswith(" =") and line.lstrip().startswith("let "):
            deeper = "    "
        elif line.endswith(" in"):
            deeper = ""
    return out


def joined(lines):
    """The lines of a definition, where an equation that is broken with room left takes fewer lines."""
    out, left = [], list(lines)
    if lines[0].startswith(("record ", "data ")) or "Refusal)" in lines[0]:
        return lines
    while left:
        part = [left.pop(0)]
        while left and (left[0].startswith(" ") or left[0] == "}"):
            part.append(left.pop(0))
        if part[-1] == "}" and ": Turns " in lines[0]:
            out += part
            continue
        whole = re.sub(r"; \}", " }", " ".join([part[0], *(it.strip() for it in part[1:])]))
        other = wrapped(whole, WIDTH)
        out += other if len(other) < len(part) and " let " not in whole and max(map(len, other)) <= WIDTH else part
    return out


def clause_lines(crate, function, names):
    """The text of clauses of a public function's contract."""
    found, _ = contract(crate, function)
    lines = []
    for name in names:
        clause = found.get(name) or fail(f"{crate}::{function} has no clause {name}")
        head = f"{crate}::{function}, {name}:  "
        if len(clause) == 1 and len(head + clause[0]) <= WIDTH:
            lines.append(head + clause[0])
        else:
            lines += [head.rstrip(), *(part for at, it in enumerate(clause) for part in wrapped(" " * (8 if at else 4) + it, WIDTH))]
    return lines


def reached(prose):
    """The definitions that the theorems and the `of:` lines of some prose rest on."""
    found = set()
    for line in prose.split("\n"):
        kind, _, rest = line.partition(": ")
        if kind == "theorem":
            function, *names = rest.split()
            clauses, (brought, aliases) = contract(*function.split("."))
            found |= {it for name in names for it in named(" ".join(clauses.get(name, [])), brought, aliases)}
        elif kind == "of":
            found |= {(module, name) for crate, name in (it.split(".") for it in rest.split()) for module in modules_with(crate, name)}
    return {it for it in closure(found) if not it[0][1].startswith("Sail")}


def slug(text):
    return text.lower().replace(" ", "-")


def term(m):
    """A term where it is defined."""
    return f'<a id="t-{slug(m[1])}"></a>*{m[1]}*'


def mentions(module, name):
    """The definitions that one names, once for each time that it does."""
    own, names, aliases = SPECS[module]
    return [it for it in (resolve(*pair) for pair in named("\n".join(own[name]), names, aliases, module)) if it and it != (module, name)]


LATER = ("contents", "gaps", "files", "index")


class Page:
    """The page, as it is made line by line. `at` has the definition of each clause."""

    def __init__(self, old):
        self.old, self.parts, self.block, self.run, self.at, self.types, self.gone = old, [], [], [], {}, [], {}
        self.file = PAGE

    def flush(self):
        self.settle()
        if self.block:
            self.parts.append(fenced(self.block, LONG if self.file == PAGE else 0))
            self.block = []

    def settle(self):
        """Puts definitions that follow each other, so that each comes after those that it uses."""
        waiting, done = {it[1:]: it for it in self.run}, set()

        def give(number, module, name):
            if (module, name) in done:
                return
            done.add((module, name))
            for it in mentions(module, name):
                if it in waiting:
                    give(*waiting[it])
            self.put(number, module, name)
            lines = [part for line in joined(nested(text_of(module, name))) for part in wrapped(as_named(line), WIDTH)]
            self.block.append((number, headed(number, comment_of(module, name) or name, lines)))

        for it in self.run:
            give(*it)
        self.run = []

    def put(self, number, module, name):
        if number in self.at or (module, name) in self.at.values():
            fail(f"{name} or {number} stands twice")
        self.at[number] = module, name

    def listed(self, words):
        """The names of a list, each with its number."""
        numbers = None
        for word in words:
            if re.fullmatch(NUMBER, word):
                numbers = numbers_from(word)
            else:
                yield next(numbers), word

    def version(self, words):
        self.parts.append("@version " + " ".join(words))

    def theorem(self, words):
        self.block += [("", [it]) for it in clause_lines(*words[0].split("."), words[1:])]

    def of(self, words):
        """What it names is taken by `reached`."""

    def types_of(self, words):
        self.block += [("", [it]) for it in declarations(words[0], words[1:])]
        self.types += words[1:]

    def defs(self, words):
        module = module_of(words[0])
        for number, name in self.listed(words[1:]):
            if name not in SPECS[module][0]:
                fail(f"no definition {words[0]}.{name}")
            self.run.append((number, module, name))

    def table(self, words):
        self.flush()
        for (module, name), number in zip(SAID.get(words[0], []), numbers_from(words[1] if len(words) > 1 else "0.0")):
            self.put(number, module, name)
        self.parts.append("\n".join(TABLES[words[0]](*words[1:])))

    def library(self, words):
        """Definitions of the kit's library, or those of the page if there is no kit."""
        for number, text in self.listed(words):
            module, _, name = text.rpartition(".")
            self.put(number, ("kit", module), name)
            if os.path.isdir(KIT):
                found = kit_definition(f"Rattle.std.specs.{module}", name) or fail(f"the kit has no definition of {text}")
                found = [part for it in found for part in wrapped(as_named(it), WIDTH)]
                self.block.append((number, [f"{found[0]:<80}  -- {number}", *found[1:]]))
            else:
                m = re.search(rf"^[^\n]*  -- {re.escape(number)}\n(?:(?!```|\n|[^\n]*  -- \d)[^\n]*\n)*", self.old, re.M)
                self.block.append((number, (m or fail(f"neither the kit nor the page has {text}"))[0].rstrip("\n").split("\n")))

    def part(self, words):
        self.flush()
        self.file = words[0]
        self.parts.append("@part " + words[0])

    def moved(self, words):
        """A number that isn't given again."""
        self.gone[words[0]] = words[1] if len(words) > 1 else ""

    def made_later(self, kind):
        return lambda words: self.parts.append(f"@{kind}")

    def make(self, prose):
        made, last, fence = {"types": self.types_of, **{it: self.made_later(it) for it in LATER}}, "", False
        for line in prose.split("\n"):
            fence ^= line.startswith("```")
            kind, _, rest = line.partition(":")
            if kind in ("version", "part", "theorem", "of", "types", "defs", "table", "library", "moved", *LATER):
                if kind != last or kind == "library":
                    self.flush()
                (made.get(kind) or getattr(self, kind))(rest.split())
                last = kind
            elif line.strip():
                self.flush()
                line = line if fence else re.sub(r"(?<![`\w])\{([a-z][\w -]*)\}", term, line)
                if last == "text":
                    self.parts[-1] += "\n" + line
                else:
                    self.parts.append(line)
                last = "text"
            elif last == "text":
                last = ""
        self.flush()
        text = self.parts[0]
        for before, part in zip(self.parts, self.parts[1:]):
            is_below = part.startswith(('<a id="c', "```antt")) and not before.startswith(("#", "|", "@", "-", "<a")) and not before.endswith(("|", "```"))
            is_below = is_below or before.startswith("@version") and part.startswith("|")
            text += "\n" * (2 - is_below) + part
        text += "\n"
        text = re.sub(rf"^\*\*({NUMBER})\.", lambda m: anchored(m[1]) + m[0], text, flags=re.M)
        text = re.sub(rf"^\| ({NUMBER}) \|", lambda m: f"| {anchored(m[1])}{m[1]} |", text, flags=re.M)
        return text


def unexplained(found, explained):
    """The names of the library and of declared types that definitions use and the page doesn't explain."""
    lacking = set()
    for module, name in found:
        words = set(re.findall(r"[^\s(){}\[\],.;]+", "\n".join(SPECS[module][0][name])))
        for _, path, name, own in imports(spec_text(module)):
            of_tree = path.startswith(("Rattle.cap", "Rattle.tagmem")) and (".declared." not in path or ".TheVariants" in path)
            parts = [it for it in own.split("◌") if it] if name and not of_tree else []
            if parts and all(it in words for it in parts) and not any(all(re.search(rf"(?<!\w){re.escape(it)}(?!\w)", text) for it in parts) for text in explained):
                lacking.add(own)
    return lacking


# What is made of the page when the rest of it stands


def section_of(number):
    return int(number.partition(".")[0])


def order(number):
    return tuple(int(it) for it in number.split("."))


def heading(text):
    """What a link to a heading leads to."""
    return re.sub(r"[^\w\- ]", "", text.lower()).replace(" ", "-")


def contents(page, text):
    """The sections in the order of the page."""
    links = [f"[{it}](#{heading(it)})" for it in re.findall(r"^## (.*)$", text, re.M)]
    core, rest = ([it for it in links if it.startswith("[Annex") == wanted] for wanted in (False, True))
    return f"{' · '.join(core)}\n\n{' · '.join(rest)}"


def gaps(page, text):
    """The numbers that are not given again."""
    clauses, rows = clauses_of(text), []
    for number, now in page.gone.items():
        if number in clauses or now and now not in clauses:
            fail(f"{number} stands on the page, or {now} doesn't")
        rows.append(f"| {anchored(number)}{number} | {f'[{now}]' if now else 'nothing'} |")
    known = {*clauses, *page.gone}
    for section in {section_of(it) for it in known}:
        last = max(order(it)[1] for it in known if section_of(it) == section)
        lacking = [f"{section}.{n}" for n in range(1, last + 1) if f"{section}.{n}" not in known]
        if lacking:
            fail("nothing says what became of " + ", ".join(lacking))
    return "\n".join(["| Number | Now |", "|---|---|", *rows])


def clauses_of(text):
    return re.findall(rf'<a id="c({NUMBER})"></a>', text)


def index_rows():
    """The rows of the corpus's index."""
    return [row.split("\t") for row in read(CORPUS).split("\n")[1:-1]]


def files(page, text):
    """For each clause of sections 3 to 18 that decides an answer, the files that test it, and how many changes they see."""
    named_in = {}
    for name, _, numbers, _ in index_rows():
        for number in numbers.split(","):
            named_in.setdefault(number, []).append(name)
    seen = {row.split("\t")[0]: row.split("\t")[1:] for row in read(SEEN).split("\n")[1:-1]}
    rows, lacking = [], []
    for number in sorted({it for it in clauses_of(core_of(text)) if 3 <= section_of(it) < 19 and section_of(it) != 17}, key=order):
        name = page.at.get(number, ("", ""))[1]
        if name in OTHERS:
            continue
        changes, count, file = seen.get(number, ("0", "0", "-"))
        own = named_in.get(number, [])
        if not own and file == "-":
            lacking.append(f"{number} {name}")
        first = sorted(own, key=lambda it: (order(it.split("/")[1].split("-")[0]) != order(number), own.index(it)))[:1] or [file]
        rows.append(f"| [{number}] | {f'`{name}`' if name else 'a row'} | {len(own)} | `{first[0]}` | {f'{count} of {changes}' if changes != '0' else ''} |")
    if lacking:
        fail("no file of the corpus tests " + ", ".join(lacking))
    return "\n".join(["| Clause | Is | Files | One that tests it | Changes seen |", "|---|---|---|---|---|", *rows])


def index(page, text):
    """Where each name, refusal, step, theorem, rule of the grammar and term is."""
    names, lines = {}, []
    for number, (_, name) in page.at.items():
        names.setdefault(name, []).append(number)
    lines.append("**Definitions.** " + ", ".join(f"`{it}` {' and '.join(f'[{n}]' for n in names[it])}" for it in sorted(names, key=lambda it: (it.lower(), it))) + ".")
    lines.append("**Refusals.** " + ", ".join(f"[{n}](#r{n}) `{name}`" for n, name in re.findall(r'<a id="r(\d+)"></a>\d+ \| `(\w+)`', text)) + ".")
    lines.append("**Steps.** " + ", ".join(f"[`{it}`](#s-{it})" for it in re.findall(r'<a id="s-(\w+)"></a>', text)) + ".")
    lines.append("**Theorems.** " + ", ".join(f"{title[0].lower() + title[1:]} [{n}]" for n, title in sorted(re.findall(r"\*\*(1\.\d+)\. (.*?)\.\*\*", text), key=lambda it: order(it[0]))) + ".")
    lines.append("**Rules of the grammars.** " + ", ".join(f"[{it}](#g-{it})" for it in sorted(re.findall(r'<a id="g-([\w-]+)"></a>', text))) + ".")
    lines.append("**Terms.** " + ", ".join(f"[{it}](#t-{slug(it)})" for it in sorted(re.findall(r'<a id="t-[^"]*"></a>\*([^*]+)\*', text), key=str.lower)) + ".")
    return "\n\n".join(lines)


MADE = {"contents": contents, "gaps": gaps, "files": files, "index": index}
# Definitions of which no file can show anything: they speak of a source, of lacking memory or of all bytes, are types or
# pairs of others, or need a log of 2^32 steps.
OTHERS = set("Judged IsAnswerOf IsVerdictOf NoVerdictOf BeginsLog IsBehind NamesEscapes CountsOnly next_count NoVerdictIn MayLackMemory NamesNoGranules "
             "named_by_line most_steps limits_of State Account Beginning DeclaredRoot Row Recorded Access Datum".split())


def core_of(text):
    """Sections 1 to 18: from the theorems on up to the first annex."""
    return text[text.index(CORE_BEGIN) : text.index(CORE_END)]


def definitions_of(text, rows="```"):
    """The lines of a text's definitions, and those that begin as its numbered rows do, without comments."""
    lines, inside = [], False
    for line in text.split("\n"):
        if line.startswith("```"):
            inside = line == "```antt"
        elif inside or line.startswith(rows):
            lines.append(re.sub(" *-- .*", "", line))
    return [it.encode() + b"\n" for it in lines if it]


def short_hash(lines):
    return hashlib.sha256(b"".join(sorted(lines))).hexdigest()[:12]


def digest_of(text):
    """SHA-256 over the sorted lines of the core's definitions and of its rows with a number, as the page says."""
    return short_hash(definitions_of(text.partition(CORE_END)[0], '| <a id="c'))


def forward(page, text):
    """The mentions in the core, from section 2 on, of a clause that comes later, each as a line."""
    place = {number: at for at, number in enumerate(clauses_of(text))}
    core, found = core_of(text).partition("\n## 2. ")[2], []
    inside = {it for it in clauses_of(core)}
    number_of = {it: number for number, it in page.at.items()}
    for number, (module, name) in page.at.items():
        if number in inside and module[0] != "kit":
            found += [f"{number} {name}: {number_of[it]} {it[1]}" for it in mentions(module, name) if it in number_of and place[number_of[it]] > place[number]]
    fence, last = False, -1
    for line in core.split("\n"):
        fence ^= line.startswith("```")
        last = max([last, *(place[it] for it in clauses_of(line))])
        if not fence and not line.startswith("```"):
            found += [f"prose: {it}" for it in re.findall(rf"\[({NUMBER})\]", line) if it in place and place[it] > last]
    return found


def check_definitions(page, prose):
    """Sees that each definition that is due stands, nothing else does, and what they use of the library is explained."""
    due, stands = reached(prose), {it for it in page.at.values() if it[0][0] != "kit"}
    for wrong, found in (("nowhere", due - stands), ("nothing reaches", stands - due)):
        if found:
            fail(f"{wrong}: " + ", ".join(sorted(".".join([*module, name]) for module, name in found)))
    notation = prose.partition(" Notation\n")[2].partition("\n## ")[0].replace("\\|", "|")
    library = [name for (crate, _), name in page.at.values() if crate == "kit"]
    renamed = re.findall(r"`(\w+)` is the type `\w+`", prose)
    lacking = unexplained(due, [*re.findall(r"`[^`]*`", notation), *library, *page.types, *renamed, "Refusal", "get_or", "w64"])
    if lacking:
        fail("the page doesn't explain " + ", ".join(sorted(lacking)))


def check_corpus():
    """Sees that the corpus has the files of its indexes, and no others."""
    rows = {name for name, *_ in index_rows() if not name.startswith("limits/")}
    with open("conformance/RUNS.tsv", encoding="utf-8") as it:
        rows |= {"runs/" + line.split("\t")[0] for line in list(it)[1:]}
    there = {it[len("conformance/"):] for it in glob.glob("conformance/*/*.*") if "__" not in it}
    if rows != there:
        fail(f"{CORPUS} and its folder differ: " + ", ".join(sorted(rows ^ there)))


def check_links(text):
    """Sees that each link target has a name of its own, and that each citation and link leads to one."""
    clauses = clauses_of(text)
    cited = {*re.findall(rf"\[({NUMBER})\]", text), *(it for row in index_rows() for it in row[2].split(","))}
    if cited - {*clauses}:
        fail("no clause has the number " + ", ".join(sorted(cited - {*clauses})))
    anchors = re.findall(r'<a id="([^"]+)"></a>', text)
    lost = {*re.findall(r"\]\(#([^)]+)\)", text)} - {*anchors} - {heading(it) for it in re.findall(r"^#+ (.*)$", text, re.M)}
    if len(set(anchors)) < len(anchors) or lost:
        fail("two link targets have one name, or a link has none: " + ", ".join(lost | {it for it in anchors if anchors.count(it) > 1}))
    return len(clauses), len(anchors)


def check_core(page, text):
    """Sees that the core is short and reads forwards."""
    lines, later = core_of(text).count("\n"), forward(page, text)
    if lines > MOST or len(later) > FORWARD:
        fail("\n".join([f"the core has {lines} lines (at most {MOST}), and {len(later)} mentions of what comes later (at most {FORWARD})", *later]))
    return lines, len(later)


def finished(page, prose, text):
    """The page with what is made of it, if all that it says of itself is so."""
    check_definitions(page, prose)
    check_corpus()
    for kind, make in MADE.items():
        text = text.replace(f"@{kind}\n", f"{make(page, text)}\n")
    (clauses, targets), (lines, later) = check_links(text), check_core(page, text)
    number, date, digest = re.search(r"@version (\S+) (\S+) (\S+)", text).groups()
    now = digest_of(text)
    if digest != now:
        fail(f"the core isn't that of version {number}: if its meaning changed, raise the version in {WORDS}; then write the digest {now} beside it")
    title = f"| | |\n|---|---|\n| Version | {number}, {date} |\n| Digest | `{now}`, of the core's definitions; [26.9] says how to compute it |"
    text = text.replace("@digest", now, 1).replace(f"@version {number} {date} {digest}", title)
    print(f"the core has {lines} lines and {later} mentions of what comes later; the page has {clauses} clauses and {targets} link targets")
    return text


def targets(text):
    """What links to a page can lead to."""
    return {*re.findall(r'<a id="([^"]+)"></a>', text), *(heading(it) for it in re.findall(r"^#+ (.*)$", text, re.M))}


def pages_of(text):
    """The pages by their files, where each link leads to the page that has its target."""
    pieces, pages = re.split(r"(?m)^@part (\S+)\n+", text), {}
    for file, piece in zip([PAGE, *pieces[1::2]], pieces[::2]):
        pages.setdefault(file, []).append(piece.strip("\n"))
    pages = {file: "\n\n".join(it) + "\n" for file, it in pages.items()}
    home = {target: os.path.basename(file) for file, it in pages.items() for target in targets(it)}
    for file, it in pages.items():
        own = os.path.basename(file)
        lead = lambda target: ("" if home[target] == own else home[target]) + "#" + target
        it = re.sub(r"\]\(#([^)]+)\)", lambda m: f"]({lead(m[1])})", it)
        it = it.replace("@digest", short_hash(definitions_of(it)))
        cited = sorted({*re.findall(rf"\[({NUMBER})\](?!\()", it)}, key=order)
        pages[file] = it + "\n" + "".join(f"[{number}]: {lead('c' + number)}\n" for number in cited)
    return pages


def main(words):
    old = {path: read(path) for path in [*glob.glob(OTHER_PAGES), *glob.glob(PAGE)]}
    page, prose = Page("\n".join(old.values())), read(WORDS)
    pages = pages_of(finished(page, prose, page.make(prose)))
    if words == ["--write"]:
        for path, text in pages.items():
            with open(path, "w", encoding="utf-8") as it:
                it.write(text)
    elif old != pages:
        print("docs/STANDARD*.md aren't what the tree gives: python3 tools/standard.py --write")
        return 1
    return 0


if __name__ == "__main__":
    sys.exit(main(sys.argv[1:]))
