#!/usr/bin/env python3
"""Reads the language of the definitions, as far as the tables of docs/STANDARD.md need it.

`parse` makes a tree of an expression, `Evaluator` unfolds definitions over symbols, `show` writes a tree, and `wrapped`
breaks a line that is too long. Trees are tuples: ("name", text), ("number", n), ("text", s), ("app", f, x..), ("op", o, a, b),
("field", x, name), ("record", base or None, {name: x}), ("let", name, x, y), ("if", a, b, c), ("fun", [name..], x),
("pair", x..), ("list", [x..])."""
import re

TOKEN = re.compile(r'\s*("[^"]*"|0x[0-9a-f_]+|\d+|[^\W\d][\w\'.-]*[\w\']|[^\W\d]|==|&&|\|\||\+\+|[^\s\w])')
# The operators, loosest first, each with the side to which it groups.
LEVELS = [({"→"}, "r"), ({"↔"}, "n"), ({"⊎"}, "r"), ({"×"}, "r"), ({"≡", "≢"}, "n"), ({"||"}, "l"), ({"&&"}, "l"), ({"=="}, "n"),
          ({"<", "≤"}, "n"), ({"+", "-", "++"}, "l"), ({"∷"}, "r"), ({"*", "/", "%"}, "l"), ({"^"}, "r")]
LEVEL = {op: (at, side) for at, (ops, side) in enumerate(LEVELS) for op in ops}
ENDS = {")", "}", ";", ",", "in", "then", "else", "]", "="}


class Reader:
    def __init__(self, text):
        self.left = TOKEN.findall(text)[::-1]

    def peek(self):
        return self.left[-1] if self.left else None

    def take(self, wanted=None):
        token = self.left.pop()
        if wanted is not None and token != wanted:
            raise ValueError(f"{token} where {wanted} is due")
        return token

    def expression(self, level=0):
        token = self.peek()
        if token == "λ":
            self.take()
            names = []
            while self.peek() != ".":
                names.append(self.take())
                if names[-1] == "(":
                    raise ValueError("a typed λ")
            self.take(".")
            return "fun", names, self.expression()
        if token == "let":
            self.take()
            name = self.take()
            self.take("=")
            value = self.expression()
            self.take("in")
            return "let", name, value, self.expression()
        if token == "if":
            self.take()
            test = self.expression()
            self.take("then")
            yes = self.expression()
            self.take("else")
            return "if", test, yes, self.expression()
        if level == len(LEVELS):
            return self.application()
        left = self.expression(level + 1)
        side = LEVELS[level][1]
        while self.peek() in LEVELS[level][0]:
            op = self.take()
            left = "op", op, left, self.expression(level if side == "r" else level + 1)
            if side != "l":
                break
        return left

    def application(self):
        parts = [self.atom()]
        while self.peek() is not None and self.peek() not in LEVEL and self.peek() not in ENDS:
            parts.append(self.atom())
        return ("app", *parts) if len(parts) > 1 else parts[0]

    def atom(self):
        token = self.take()
        if token == "(":
            parts = [self.expression()]
            while self.peek() == ",":
                self.take()
                parts.append(self.expression())
            self.take(")")
            value = ("pair", *parts) if len(parts) > 1 else parts[0]
        elif token == "[":
            self.take("]")
            value = "list", []
        elif token == "record":
            base = None if self.peek() == "{" else self.atom()
            self.take("{")
            fields = {}
            while self.peek() != "}":
                name = self.take()
                self.take("=")
                fields[name] = self.expression()
                if self.peek() == ";":
                    self.take()
            self.take("}")
            value = "record", base, fields
        elif token.startswith('"'):
            value = "text", token[1:-1]
        elif token[0].isdigit():
            value = "number", int(token.replace("_", ""), 0)
        else:
            first, *more = re.split(r"\.(?=[\w])", token)
            if first[0].isupper() or not more or (more[-1][0].isupper()):
                first, more = token, []
            value = "name", first
            for name in more:
                value = "field", value, name
        while self.peek() == "." and len(self.left) > 1:
            self.take()
            for name in self.take().split("."):
                value = "field", value, name
        return value


def parse(text):
    reader = Reader(text)
    tree = reader.expression()
    if reader.left:
        raise ValueError(f"left over: {reader.left[::-1]}")
    return tree


def show(tree, level=0):
    kind, *parts = tree
    if kind == "name":
        return parts[0]
    if kind == "number":
        return str(parts[0])
    if kind == "text":
        return f'"{parts[0]}"'
    if kind == "field":
        return f"{show(parts[0], 99)}.{parts[1]}"
    if kind == "pair":
        return "(" + ", ".join(show(it) for it in parts) + ")"
    if kind == "list":
        return "[]" if not parts[0] else "[" + ", ".join(show(it) for it in parts[0]) + "]"
    if kind == "app":
        text, own = " ".join(show(it, 99) for it in parts), len(LEVELS)
    elif kind == "op":
        own, side = LEVEL[parts[0]]
        text = f"{show(parts[1], own if side == 'l' else own + 1)} {parts[0]} {show(parts[2], own if side == 'r' else own + 1)}"
    elif kind == "if":
        text, own = f"if {show(parts[0])} then {show(parts[1])} else {show(parts[2])}", -1
    elif kind == "fun":
        text, own = f"λ {' '.join(parts[0])}. {show(parts[1])}", -1
    elif kind == "record":
        text, own = "record " + (show(parts[0], 99) + " " if parts[0] else "") + "{ .. }", len(LEVELS)
    else:
        raise ValueError(kind)
    return f"({text})" if own < level else text


def bare(name):
    """A constructor's name without its module's."""
    return name.rsplit(".", 1)[-1]


class Evaluator:
    """Unfolds the definitions whose names it is given. `lines_of` gives a definition's lines by its name."""

    def __init__(self, lines_of, unfolded):
        self.clauses = {name: self.read(name, lines_of(name)) for name in unfolded}

    @staticmethod
    def read(name, lines):
        """The clauses of a definition: patterns and the right side."""
        found, text = [], []
        for line in lines[1:]:
            if line.startswith(name + " ") or line == name:
                text.append(line)
            else:
                text[-1] += " " + line.strip()
        for clause in text:
            left, right = re.split(r" = |\s=$", clause.replace(" {0}", ""), maxsplit=1)
            tree = parse(left)
            found.append((list(tree[2:]) if tree[0] == "app" else [], parse(right)))
        return found

    def match(self, pattern, value, into):
        if pattern[0] == "name" and not bare(pattern[1])[0].isupper():
            into[pattern[1]] = value
            return True
        if pattern[0] == "number" or pattern[0] == "list":
            return pattern == value
        head, *rest = pattern[1:] if pattern[0] == "app" else [pattern]
        given, *values = value[1:] if value[0] == "app" else [value]
        if head[0] != "name" or given[0] != "name" or bare(head[1]) != bare(given[1]):
            return False
        return len(rest) == len(values) and all(self.match(p, v, into) for p, v in zip(rest, values))

    def run(self, tree, known=None):
        known = known or {}
        kind, *parts = tree
        if kind == "name":
            return known.get(parts[0]) or (self.unfold(parts[0], []) or tree)
        if kind in ("number", "text"):
            return tree
        if kind == "list":
            return "list", [self.run(it, known) for it in parts[0]]
        if kind == "pair":
            return ("pair", *(self.run(it, known) for it in parts))
        if kind == "let":
            return self.run(parts[2], {**known, parts[0]: self.run(parts[1], known)})
        if kind == "if":
            test = self.run(parts[0], known)
            if test in (("name", "true"), ("name", "false")):
                return self.run(parts[1 if test[1] == "true" else 2], known)
            return "if", test, self.run(parts[1], known), self.run(parts[2], known)
        if kind == "fun":
            return "fun", parts[0], self.run(parts[1], {k: v for k, v in known.items() if k not in parts[0]})
        if kind == "record":
            base = self.run(parts[0], known) if parts[0] else None
            fields = {name: self.run(it, known) for name, it in parts[1].items()}
            if base and base[0] == "record":
                return "record", base[1], {**base[2], **fields}
            return "record", base, fields
        if kind == "field":
            value = self.run(parts[0], known)
            if value[0] == "record" and parts[1] in value[2]:
                return value[2][parts[1]]
            if value[0] == "pair" and parts[1].isdigit():
                return value[1 + int(parts[1])]
            return "field", value, parts[1]
        if kind == "op":
            return self.operate(parts[0], self.run(parts[1], known), self.run(parts[2], known))
        head, *rest = parts
        values = [self.run(it, known) for it in rest]
        if head[0] == "name" and head[1] not in known:
            return self.unfold(head[1], values) or ("app", head, *values)
        head = self.run(head, known)
        if head[0] == "fun" and len(head[1]) == len(values):
            return self.run(head[2], dict(zip(head[1], values)))
        return ("app", head, *values)

    def operate(self, op, a, b):
        if op == "∷" and b[0] == "list":
            return "list", [a, *b[1]]
        if op == "++" and a[0] == b[0] == "list":
            return "list", a[1] + b[1]
        if op == "&&" and a == ("name", "false"):
            return a
        if op == "&&" and a == ("name", "true"):
            return b
        if a[0] == b[0] == "number":
            x, y = a[1], b[1]
            if op in "+-*/%^":
                return "number", {"+": lambda: x + y, "-": lambda: max(0, x - y), "*": lambda: x * y, "/": lambda: x // y, "%": lambda: x % y, "^": lambda: x**y}[op]()
            if op in ("==", "<", "≤"):
                return "name", str({"==": x == y, "<": x < y, "≤": x <= y}[op]).lower()
        return "op", op, a, b

    def unfold(self, name, values):
        for patterns, right in self.clauses.get(name, []):
            into = {}
            if len(patterns) == len(values) and all(self.match(p, v, into) for p, v in zip(patterns, values)):
                return self.run(right, into)
        return None


# What a line is broken at, from the best place on: the mark, whether the break comes after it, and its rank.
BREAKS = [("→", False, 0), ("in", True, 1), ("×", False, 1), ("⊎", False, 1), ("|", False, 1), ("=", True, 2), ("then", False, 2), ("else", False, 2),
          ("++", False, 3), ("∷", False, 3), ("&&", False, 4)]


def wrapped(line, width):
    """A line of a definition in lines of at most this width, broken at the loosest mark of the least depth."""
    if len(line) <= width:
        return [line]
    indent, depth, quoted, places = len(line) - len(line.lstrip()), 0, False, []
    for at, it in enumerate(line):
        quoted ^= it == '"'
        if quoted:
            continue
        depth += (it in "({[") - (it in ")}]")
        if it == " " and indent < at:
            for mark, is_after, rank in BREAKS:
                if line.startswith(mark + " ", at + 1) and (mark != "=" or not depth):
                    places.append((8 * depth + rank, at + 2 + len(mark) if is_after else at + 1))
            rank = 3 if line[at - 1] == ";" else 5 if line[at - 1] == "," else 25
            places.append((8 * depth + rank, at + 1))
    places = [it for it in places if indent + 4 < it[1] <= width]
    if not places:
        return [line]
    least = min(places)[0]
    found = [it[1] for it in places if it[0] == least]
    at = found[0] if least == 2 else found[-1]
    deeper = indent if line.lstrip().startswith(("→", "×", "⊎", "|", "++", "∷", "then", "else", "let ")) else indent + 4
    return [line[:at].rstrip(), *wrapped(" " * deeper + line[at:], width)]
