#!/usr/bin/env python3
"""Whether the corpus tells the definitions in Python, conformance/transcribed.py, from each with one thing changed.

    python3 conformance/mutants.py              makes each mutant, asks the corpus, and compares what it finds with two tables
    python3 conformance/mutants.py --write      writes conformance/CLAUSES.tsv too; with names, the rows of these definitions
    python3 conformance/mutants.py NAME..       only the mutants of these definitions, and which file sees each
    python3 conformance/mutants.py --runs [NAME..]   of the definitions of run logs, conformance/transcribed_runs.py, by the
                                               run logs of the corpus and by its logs of version 2 as run logs
    python3 conformance/mutants.py --limits NAME..   asks the logs of conformance/limits.py alone, made for limits of 16 roots
                                               and 256 and 512 granules, which these mutants then have

A mutant has one comparison, operator, constant, condition or operand otherwise: `<` for `<=`, 4097 for 4096, one operand of
`and` left out, two neighbours of a call or of a list of checks exchanged. A file of the corpus sees it if the answer is
another, if a definition refuses the right answer or takes a wrong one, or if a relation and its closed form differ on it.
conformance/mutants.tsv has a line for each mutant that lives: the definition, what is changed (`*` for all changes), and why no
file can see it; conformance/run_mutants.tsv has those of run logs.
conformance/CLAUSES.tsv has one for each clause with mutants: how many, how many are seen, and the file that sees most. The
status is 1 if another mutant lives, if one of those is seen, or if the second table has other counts."""
import ast
import collections
import copy
import importlib.machinery
import importlib.util
import os
import re
import signal
import sys
import tempfile
import types

import transcription

PATH, LISTED, CLAUSES = "conformance/transcribed.py", "conformance/mutants.tsv", "conformance/CLAUSES.tsv"
RUN_PATH, RUN_LISTED = "conformance/transcribed_runs.py", "conformance/run_mutants.tsv"
COMPARED = {ast.Lt: ast.LtE, ast.LtE: ast.Lt, ast.Gt: ast.GtE, ast.GtE: ast.Gt, ast.Eq: ast.NotEq, ast.NotEq: ast.Eq,
            ast.In: ast.NotIn, ast.NotIn: ast.In, ast.Is: ast.IsNot, ast.IsNot: ast.Is}
OPERATED = {ast.Add: ast.Sub, ast.Sub: ast.Add, ast.Mult: ast.FloorDiv, ast.FloorDiv: ast.Mult, ast.Mod: ast.FloorDiv, ast.Pow: ast.Mult,
            ast.BitAnd: ast.BitOr, ast.BitXor: ast.BitOr}
SECONDS = 10


def changed(node):
    """The nodes that a node of the tree is changed to."""
    if isinstance(node, ast.Compare):
        for at, op in enumerate(node.ops):
            yield ast.Compare(node.left, [*node.ops[:at], COMPARED[type(op)](), *node.ops[at + 1 :]], node.comparators)
    elif isinstance(node, ast.BinOp) and type(node.op) in OPERATED:
        yield ast.BinOp(node.left, OPERATED[type(node.op)](), node.right)
        yield from (node.left, node.right)
    elif isinstance(node, ast.BoolOp):
        for at in range(len(node.values)):
            kept = node.values[:at] + node.values[at + 1 :]
            yield kept[0] if len(kept) == 1 else ast.BoolOp(node.op, kept)
        yield ast.BoolOp(ast.Or() if isinstance(node.op, ast.And) else ast.And(), node.values)
    elif isinstance(node, ast.UnaryOp) and isinstance(node.op, ast.Not):
        yield node.operand
    elif isinstance(node, ast.IfExp):
        yield ast.IfExp(ast.UnaryOp(ast.Not(), node.test), node.body, node.orelse)
    elif isinstance(node, (ast.List, ast.Tuple)) and isinstance(node.ctx, ast.Load):
        for at in range(len(node.elts)) if isinstance(node, ast.List) else []:
            yield type(node)(node.elts[:at] + node.elts[at + 1 :], node.ctx)
        for at in range(1, len(node.elts)):
            yield type(node)([*node.elts[: at - 1], node.elts[at], node.elts[at - 1], *node.elts[at + 1 :]], node.ctx)
    elif isinstance(node, ast.Call):
        for at in range(1, len(node.args)):
            yield ast.Call(node.func, [*node.args[: at - 1], node.args[at], node.args[at - 1], *node.args[at + 1 :]], node.keywords)
    elif isinstance(node, ast.Constant):
        if isinstance(node.value, bool):
            yield ast.Constant(not node.value)
        elif isinstance(node.value, int):
            yield ast.Constant(node.value + 1)
            if node.value:
                yield ast.Constant(node.value - 1)


def places(tree):
    """Each node that may be changed, as the path to it, with the name of the definition in which it stands."""
    for top in tree.body:
        if isinstance(top, (ast.FunctionDef, ast.Assign, ast.ClassDef)):
            name = ast.unparse(top.targets[0]) if isinstance(top, ast.Assign) else top.name
            left = [(top, ())]
            while left:
                node, path = left.pop()
                if path and not isinstance(node, ast.Constant) or isinstance(node, ast.Constant) and not isinstance(node.value, str):
                    yield name, top, path, node
                for field, value in ast.iter_fields(node):
                    for at, it in enumerate(value) if isinstance(value, list) else [(None, value)]:
                        if isinstance(it, ast.AST) and field not in ("decorator_list", "annotation", "ctx"):
                            left.append((it, (*path, (field, at))))


def statement(top, path):
    """The innermost statement or part of one around a place, to name the mutant by."""
    found = node = top
    for field, at in path:
        node = getattr(node, field) if at is None else getattr(node, field)[at]
        if isinstance(node, (ast.stmt, ast.Compare, ast.BoolOp, ast.Call)) and len(ast.unparse(node)) < 90:
            found = node
            break
    return found


def replaced(top, path, new):
    """A copy of a definition with another node at a place."""
    made = copy.deepcopy(top)
    node = made
    for field, at in path[:-1]:
        node = getattr(node, field) if at is None else getattr(node, field)[at]
    field, at = path[-1]
    if at is None:
        setattr(node, field, new)
    else:
        getattr(node, field)[at] = new
    return made


def mutants(tree):
    """Each mutant: its name, what is changed, and the definition as it then is."""
    seen = collections.Counter()
    for name, top, path, node in places(tree):
        for new in changed(node):
            made = replaced(top, path, new)
            around = statement(top, path)
            other = statement(made, path) if around is not top else made
            old_text, new_text = (ast.unparse(it).split("\n")[-1].strip() if it is top or it is made else ast.unparse(it) for it in (around, other))
            if old_text == new_text:
                old_text, new_text = ast.unparse(node), ast.unparse(new)
            key = f"{' '.join(old_text.split())} -> {' '.join(new_text.split())}"
            seen[name, key] += 1
            yield name, key + (f" ({seen[name, key]})" if seen[name, key] > 1 else ""), top, made


def run_files():
    """The run logs of the corpus and its logs of version 2 as run logs, each with options and what is printed."""
    loader = importlib.machinery.SourceFileLoader("corpus_runner", "conformance/run")
    corpus = importlib.util.module_from_spec(importlib.util.spec_from_loader("corpus_runner", loader))
    loader.exec_module(corpus)
    for name, options, answer in corpus.run_rows():
        with open(f"conformance/runs/{name}", "rb") as it:
            yield f"runs/{name} {options}", it.read(), options.split(), answer.split(" / ")
    with tempfile.TemporaryDirectory() as made:
        for name, path, answer in corpus.as_run_logs(made):
            with open(path, "rb") as it:
                yield f"{name} as a run log", it.read(), [], [answer]


class Files:
    """The files of the corpus, each as questions that these definitions are asked, with the definitions that it reaches."""

    def __init__(self, space, with_limits, with_runs=False):
        self.asked, self.count = [], collections.Counter()
        if with_runs:
            self.asked = [(name, is_same_run_log, given, SECONDS) for name, *given in run_files()]
        for name, answer, origins in transcription.index() if not with_limits and not with_runs else []:
            if name.startswith(("accepted/", "rejected/")):
                with open(f"conformance/{name}", "rb") as it:
                    self.asked.append((name, is_same_log, (it.read(), [answer, *(f"origin {it.replace('=', ' ')}" for it in origins)]), SECONDS))
            elif name.startswith("vectors/") and answer.startswith("pass"):
                with open(f"conformance/{name}", encoding="utf-8") as it:
                    self.asked += [(name, is_same_line, (line,), SECONDS) for line in it.read().splitlines()]
        if with_limits:
            sys.path.insert(0, "conformance")
            import limits
            for name, text in limits.logs(16, 256, 512):
                wanted = space["verdict_line"](space["verdict_of"](text.encode())[0])
                self.asked.append((f"limits/{name}.log", is_same_verdict, (text.encode(), wanted), SECONDS))
        self.reached = [set() for _ in self.asked]
        for at, (name, same, given, _) in enumerate(self.asked):
            sys.setprofile(lambda frame, event, arg: self.reached[at].add(frame.f_code.co_name) if event == "call" else None)
            try:
                is_same = same(space, *given)
            finally:
                sys.setprofile(None)
            if not is_same:
                sys.exit(f"mutants.py: {name}: the corpus differs from the definitions: python3 conformance/transcription.py")

    def seen_by(self, space, definition):
        """The first file that sees a difference, or None. What saw most of the last mutants is asked first."""
        reaching = [at for at in range(len(self.asked)) if definition is None or definition in self.reached[at]]
        for at in sorted(reaching, key=lambda it: -self.count[it]):
            name, same, given, seconds = self.asked[at]
            signal.setitimer(signal.ITIMER_VIRTUAL, seconds)
            try:
                is_same = same(space, *given)
            except Exception:  # noqa: BLE001
                is_same = False
            finally:
                signal.setitimer(signal.ITIMER_VIRTUAL, 0)
            if not is_same:
                self.count[at] += 1
                return name
        return None


def others(verdict):
    """Verdicts that are wrong if this one is right."""
    if verdict[0] == "Yes":
        _, steps, roots = verdict
        return [("Yes", steps + 1, roots), ("Yes", steps, roots + 1), ("No", steps + roots + 2, "Misplaced"), ("No", 1, "BadHeader")]
    _, line, refusal = verdict
    return [("No", line + 1, refusal), ("No", line - 1, refusal), ("No", line, "BadMode" if refusal != "BadMode" else "BadLine"), ("Yes", line, 1), ("Yes", 0, 0)]


def is_same_log(space, data, wanted):
    """Whether definitions give the answer of a log, take it and no other, and say that authority never grows."""
    said, refuted = space["judged"](data)
    if said != wanted or refuted:
        return False
    verdict, beginning, account = space["verdict_of"](data)
    if not is_refused_longer(space, data, beginning) or not is_plain(space, account):
        return False
    if any(space["IsVerdict"](data, it, beginning) for it in others(verdict)) or beginning[0] != "Empty" and space["IsVerdict"](b"\n" + data, verdict, beginning):
        return False
    if verdict[0] == "No":
        other = verdict[2] == "BoundsEscape"
        return not space["EscapesExactly"](data, ("No", verdict[1], "NotExact" if other else "BoundsEscape"), beginning, account)
    return True


def is_refused_longer(space, data, beginning):
    """Whether a body with the root or the step of its refused line is no accepted one."""
    if beginning[0] != "Body":
        return True
    _, rules, roots, steps = beginning
    line = space["line_from"](data[len(space["text_of"](space["lines_of"](*beginning))) :].partition(b"\n")[0])
    if not line or line[0] not in ("Root", "Step") or line[0] == "Root" and steps:
        return True
    longer = rules, *((roots + [line[1]], steps) if line[0] == "Root" else (roots, steps + [line[1]]))
    text, whole = (space["text_of"](space["lines_of"](form, *longer)) for form in ("Body", "Whole"))
    cut, yes = ("No", len(space["lines_of"]("Body", *longer)) + 1, "Truncated"), ("Yes", len(longer[2]), len(longer[1]))
    return not (space["IsAccepted"]("Body", *longer) or space["IsVerdict"](text, cut, ("Body", *longer)) or space["IsVerdict"](whole, yes, ("Whole", *longer)))


def is_plain(space, account):
    """Whether words of the last state reach no more than others exactly if their bounds and permissions say so."""
    words = [cap.word for cap in account.state.values()][:6] if account else []
    for w in words:
        for other in words:
            is_inside = space["base_of"](other) <= space["base_of"](w) and space["top_of"](w) <= space["top_of"](other)
            if space["ReachesNoMore"](w, other) != (is_inside and not w // 2**112 & ~(other // 2**112)):
                return False
            access = space["Access"](1, space["base_of"](w), (space["top_of"](w) - space["base_of"](w)), 2)
            if space["LiesInside"](access, space["DeclaredRoot"](None, other)) != (is_inside and other // 2**114 % 2 == 1):
                return False
    return True


def is_same_line(space, line):
    """Whether definitions give a line of a vector file, and relations take its numbers and no others."""
    kind, *numbers = line.split(" = ")[0].split()
    numbers = [int(it, 16) for it in numbers]
    if space["line_of"](kind, *numbers) != line:
        return False
    if kind == "bounds":
        (w,) = numbers
        base, top = space["base_of"](w), space["top_of"](w)
        wrong = [space["AreBounds"](w, *it) for it in ((base + 1, top), (base, top + 1), (base, top + 2**64), (base + 2**64, top), (base, top - 2**64))]
        fields = space["b_of"](w), space["t_of"](w), space["ie_of"](w)
        mantissa, size = space["mantissa_of"](*fields), space["window_size"](w)
        wrong += [space["IsMantissa"](*fields, it % 2**15) for it in (mantissa + 1, mantissa + 2**12, mantissa - 2**12, mantissa + 2**13, mantissa + 2**14)]
        near = space["address_of"](w) + 2**66
        start = near - (near - (fields[0] // 2**11 + 7) % 8 * 2**11 * space["unit_of"](w)) % size
        wrong += [space["IsWindow"](w, it) for it in (start + 1, start - size, start + size, start + size // 8, start - size // 8)]
        wrong += [not space["IsWindow"](w - near + 2**66 + it % 2**64, start) for it in (start - 2**66, start + size - 1 - 2**66) if 0 <= it < 2**64]
        wrong += [space["IsResidue"](start, size, base, start + (base - start) % size + it) for it in (1, size, -size)]
        return not any(wrong)
    if kind == "round" and numbers[1] >= 4096:
        e = space["rounded_exponent"](*numbers)
        fields = [True, e, space["rounded_b"](*numbers), space["rounded_t"](*numbers)]
        if not space["HasRounding"](*fields, *numbers) or any(space["HasRounding"](*fields[:at], fields[at] + 1, *fields[at + 1 :], *numbers) for at in range(4)):
            return False
        return not any(space["IsLeastExponent"](*numbers, it) for it in (e - 1, e + 1) if it >= 0)
    return True


def is_same_verdict(space, data, wanted):
    """Whether definitions give the verdict of a long log, and take it."""
    verdict, beginning, _ = space["verdict_of"](data)
    return space["verdict_line"](verdict) == wanted and space["IsVerdict"](data, verdict, beginning) and is_refused_longer(space, data, beginning)


def is_same_run_log(space, data, words, wanted):
    """Whether definitions of run logs give what the corpus has, and its status."""
    text, status = space["judged"](data, words)
    return (text.splitlines(), status) == (wanted, 0 if wanted[0].startswith("yes") else 1)


def namespace(tree, with_runs=False):
    """What the definitions of a tree give, with the questions of transcription.py over them."""
    space = {"__name__": "transcribed"}
    exec(compile(tree, PATH, "exec"), space)
    for name in ("judged", "line_of") if not with_runs else ():
        function = getattr(transcription, name)
        space[name] = types.FunctionType(function.__code__, space, name)
    return space


def lowered(tree):
    """The definitions with lower limits on roots and on granules."""
    lower = {4096: 16, 65536: 256, 1048576: 512}
    for top in tree.body:
        if isinstance(top, ast.FunctionDef) and top.name == "most_granules" or isinstance(top, ast.Assign) and top.targets[0].id == "most_roots":
            for node in ast.walk(top):
                if isinstance(node, ast.Constant):
                    node.value = lower.get(node.value, node.value)
    return tree


def listed(path):
    with open(path, encoding="utf-8") as it:
        return {tuple(line.split("\t")[:2]): line.split("\t")[2] for line in it.read().splitlines()[1:]}


def late(signum, frame):
    raise TimeoutError


def clauses():
    """The number of each definition's clause."""
    with open(PATH, encoding="utf-8") as it:
        return {name: number for name, number in re.findall(r"^(?:def |class )?(\w+)\b.*  # (\d+\.\d+)$", it.read(), re.M)}


def table(found):
    """The rows of conformance/CLAUSES.tsv: of each clause, how many changes there are, how many are seen, and by which file most.
    Rows of clauses that were not asked are kept."""
    with open(CLAUSES, encoding="utf-8") as it:
        rows = {line.split("\t")[0]: line for line in it.read().splitlines()[1:]}
    for name, number in clauses().items():
        if name in found:
            files = collections.Counter(it for it in found[name] if it)
            rows[number] = f"{number}\t{len(found[name])}\t{sum(files.values())}\t{files.most_common(1)[0][0] if files else '-'}"
    return "\n".join(["clause\tchanges\tseen\tfile", *(rows[it] for it in sorted(rows, key=lambda it: [int(n) for n in it.split(".")])), ""])


def main(words):
    signal.signal(signal.SIGVTALRM, late)
    with_runs = "--runs" in words
    with open(RUN_PATH if with_runs else PATH, encoding="utf-8") as it:
        tree = ast.parse(it.read())
    names = {it for it in words if not it.startswith("-")}
    if "--limits" in words:
        tree = lowered(tree)
    files = Files(namespace(tree, with_runs), "--limits" in words, with_runs)
    alive, found, known = [], collections.defaultdict(list), listed(RUN_LISTED if with_runs else LISTED)
    for name, key, top, made in mutants(tree):
        if names and name not in names:
            continue
        body = [made if it is top else it for it in tree.body]
        try:
            space = namespace(ast.fix_missing_locations(ast.Module(body, [])), with_runs)
            file = files.seen_by(space, name if isinstance(top, ast.FunctionDef) else None)
        except Exception:  # noqa: BLE001
            file = "accepted/10.1-each-kind-of-step-v1.log"
        found[name].append(file)
        if file is None:
            alive.append((name, key))
        if names and "--write" not in words:
            print(f"{name}: {key}: {file}", flush=True)
        elif file is None and not {(name, key), (name, "*")} & {*known}:
            print(f"{name}\t{key}\t?", flush=True)
    count = sum(map(len, found.values()))
    bad = [f"alive: {name}: {key}" for name, key in alive if not {(name, key), (name, "*")} & {*known}]
    if "--limits" not in words:
        bad += [f"listed, but seen: {name}: {key}" for name, key in known if name in found and not {(name, key), (name, "*")} & {*alive, *((it, "*") for it, _ in alive)}]
    if "--limits" not in words and not with_runs:
        text = table(found)
        if "--write" in words:
            with open(CLAUSES, "w", encoding="utf-8") as it:
                it.write(text)
        else:
            with open(CLAUSES, encoding="utf-8") as it:
                counts = [line.rpartition("\t")[0] for line in it.read().splitlines()]
            if counts != [line.rpartition("\t")[0] for line in text.splitlines()]:
                bad.append(f"{CLAUSES} has other counts: python3 conformance/mutants.py --write")
    print("\n".join([*bad, f"{count} mutants, {count - len(alive)} seen by a file of the corpus, {len(alive)} alive, {len(bad)} otherwise than the tables say"]))
    return 1 if bad else 0


if __name__ == "__main__":
    os.chdir(os.path.join(os.path.dirname(os.path.abspath(__file__)), ".."))
    sys.exit(main(sys.argv[1:]))
