"""Wrong definitions, made by rule from the definitions of crates/paper/specs, one change at a time. See .ci/trial and docs/TRIAL.md."""
import collections
import re

# The crate whose definitions are changed, and those below it that its definitions name.
CHANGED = "paper"
BELOW = ("lent", "whole")
# Files of its specs that define nothing: they say what is true of the definitions.
STATEMENTS = ("Lib", "Known", "Numbers")

# ---- reading the definitions
#
# A small reader of the part of the language that the definitions are written in. A node knows where its text stands in the file.

TOKEN = re.compile(r"--[^\n]*|[(){};,]|[^\s(){};,]+")
# A field is written tight after what it is of: `z.n`, `j.run.first`, `(run s).first`. What a module's other name stands before, as
# `step.Wrote`, begins with a large letter and is one name.
FIELDS = re.compile(r"^((?:[^\W\d]\w*)?)((?:\.[a-z]\w*)+)$")
RIGHT, LEFT = "right", "left"
LEVELS = [({"→"}, RIGHT), ({"×"}, RIGHT), ({"≡", "≤", "<"}, LEFT), ({"∷", "++"}, RIGHT), ({"+", "-"}, LEFT), ({"*", "/", "%"}, LEFT)]
OPERATORS = set().union(*(names for names, _ in LEVELS)) | {"=", ":"}


class Node:
    """kind is one of: name, number, call, field, chain, infix, record, lambda, bracket, pair, binder."""

    def __init__(self, kind, start, end, kids=(), **more):
        self.kind, self.start, self.end, self.kids = kind, start, end, list(kids)
        self.__dict__.update(more)


class Reader:
    """Reads one expression from the tokens of a piece of text."""

    def __init__(self, text, start, end):
        self.tokens = [t for m in TOKEN.finditer(text, start, end) if not m.group().startswith("--") for t in self.parted(m)]
        self.at = 0

    def parted(self, match):
        """A token, and the fields after it apart, each with its dot."""
        found, at = FIELDS.match(match.group()), match.start()
        if not found:
            return [(match.group(), at, match.end())]
        pieces = [found[1]] * bool(found[1]) + ["." + name for name in found[2].split(".")[1:]]
        ends = [at + sum(len(p) for p in pieces[: i + 1]) for i in range(len(pieces))]
        return [(p, end - len(p), end) for p, end in zip(pieces, ends)]

    def whole(self):
        """The expression, and nothing after it: what is not understood is not passed over."""
        node = self.expression()
        if self.peek() is not None:
            raise ValueError(f"cannot read on at: {' '.join(t for t, _, _ in self.tokens[self.at :])}")
        return node

    def peek(self):
        return self.tokens[self.at][0] if self.at < len(self.tokens) else None

    def take(self):
        self.at += 1
        return self.tokens[self.at - 1]

    def expression(self, level=0):
        if level == len(LEVELS):
            return self.call()
        names, side = LEVELS[level]
        parts, ops = [self.expression(level + 1)], []
        while self.peek() in names:
            ops.append(self.take())
            parts.append(self.expression(level + 1))
        if not ops:
            return parts[0]
        if side == RIGHT:
            return Node("chain", parts[0].start, parts[-1].end, parts, ops=ops)
        node = parts[0]
        for op, part in zip(ops, parts[1:]):
            node = Node("infix", node.start, part.end, [node, part], op=op)
        return node

    def call(self):
        parts = [self.projected()]
        while self.peek() is not None and self.peek() not in OPERATORS and self.peek() not in (")", "}", ";", ","):
            parts.append(self.projected())
        return self.joined(parts)

    def projected(self):
        """An atom, with the fields that are written after it."""
        node = self.atom()
        while self.peek() is not None and self.peek().startswith(".") and len(self.peek()) > 1 and self.tokens[self.at][1] == node.end:
            name, start, end = self.take()
            node = Node("field", node.start, end, [node], name=name[1:], at=start + 1)
        return node

    def joined(self, parts):
        return parts[0] if len(parts) == 1 else Node("call", parts[0].start, parts[-1].end, parts)

    def atom(self):
        token, start, end = self.take()
        if token == "(":
            return self.bracket(start)
        if token == "record":
            return self.record(start)
        if token == "λ":
            names = []
            while not names or not names[-1].endswith("."):
                names.append(self.take()[0])
            body = self.expression()
            return Node("lambda", start, body.end, [body])
        return Node("number" if token.isdigit() else "name", start, end, name=token)

    def bracket(self, start):
        inside = self.expression()
        if self.peek() == ":":
            self.take()
            kind = self.expression()
            names = [n.name for n in (inside.kids if inside.kind == "call" else [inside])]
            return Node("binder", start, self.take()[2], names=names, of=(kind.start, kind.end))
        parts = [inside]
        while self.peek() == ",":
            self.take()
            parts.append(self.expression())
        if len(parts) > 1:
            inside = Node("pair", parts[0].start, parts[-1].end, parts)
        return Node("bracket", start, self.take()[2], [inside])

    def record(self, start):
        self.take()
        names, values = [], []
        while self.peek() != "}":
            names.append(self.take())
            self.take()
            values.append(self.expression())
            if self.peek() == ";":
                self.take()
        return Node("record", start, self.take()[2], values, names=names)


Part = collections.namedtuple("Part", "name group node body scope result")


class Module:
    """A file of definitions: its imports, and each right-hand side, or field of a record of facts, with what its variables are."""

    def __init__(self, path, house):
        self.path, self.stem, self.text = path, path.stem, path.read_text(encoding="utf-8")
        self.imports, self.parts = [], []
        signatures, record = {}, None
        for start, end in self.items():
            line = self.text[start:end]
            if line.startswith("use "):
                self.imports.append((start, end))
            elif m := re.match(r"pub (?:record|data) (\S+)(.*?) : Type", line):
                record = (m[1], scope_of(m[2]))
                for field in re.finditer(r"^  pub (\S+) : ", line, re.M):
                    stop = re.compile(r"^  (?:pub|--)|\Z", re.M).search(line, field.end()).start()
                    self.fact(record, field[1], start + field.end(), start + len(line[:stop].rstrip()))
            elif m := re.match(r"(?:[a-z]+ )*pub (\S+) : ", line):
                signatures[m[1]] = " ".join(line[m.end() :].split())
            elif m := re.match(r"(\S+)(.*?) =\s", line):
                self.clause(m[1], m[2], signatures[m[1]], start + m.end(), end, house)
            else:
                raise ValueError(f"{path.name}: cannot read: {line.strip()}")

    def items(self):
        """From each line that begins at the margin to the next one, or to a blank line or a comment."""
        start, at, spans = None, 0, []
        for line in self.text.splitlines(keepends=True):
            if line[0] not in " \t":
                if start is not None:
                    spans.append((start, at))
                start = None if line.startswith("--") or not line.strip() else at
            at += len(line)
        if start is not None:
            spans.append((start, at))
        return spans

    def fact(self, record, field, start, end):
        node = Reader(self.text, start, end).whole()
        scope = dict(record[1])
        for n in walk(node):
            if n.kind == "binder":
                scope.update(dict.fromkeys(n.names, self.text[slice(*n.of)]))
        self.parts.append(Part(f"{record[0]}.{field}", "facts", node, (start, end), scope, "Type"))

    def clause(self, name, patterns, signature, start, end, house):
        node = Reader(self.text, start, end).whole()
        kinds, scope = arrows(signature), {}
        if kinds == ["Type 0"]:
            return  # another name for a type
        for pattern, kind in zip(atoms(patterns), kinds):
            scope.update(house.bound(pattern, kind))
        group = "facts" if kinds[-1].startswith("Type") else "definitions"
        self.parts.append(Part(name, group, node, (node.start, node.end), scope, kinds[-1]))


def walk(node):
    yield node
    for kid in node.kids:
        yield from walk(kid)


def atoms(text):
    """The names and the bracketed parts of a row of patterns."""
    found, text = [], text.strip()
    while text:
        end = closes(text) + 1 if text[0] == "(" else len(text.split()[0])
        found.append(text[:end])
        text = text[end:].strip()
    return found


def scope_of(binders):
    """What the binders of a record make of their names."""
    scope = {}
    for names, kind in re.findall(r"\(([^:()]*) : ((?:[^()]|\([^()]*\))*)\)", binders):
        scope.update(dict.fromkeys(names.split(), kind))
    return scope


def arrows(kind):
    """A type, taken apart at its outer arrows."""
    return outer(bared(kind), "→")


def outer(text, mark):
    """A text, taken apart at each mark that stands in no brackets."""
    parts, depth, last = [], 0, 0
    for i, c in enumerate(text):
        depth += (c in "({") - (c in ")}")
        if c == mark and depth == 0:
            parts.append(text[last:i].strip())
            last = i + 1
    return parts + [text[last:].strip()]


def bared(text):
    """Without the brackets around all of it."""
    text = text.strip()
    while text.startswith("(") and closes(text) == len(text) - 1:
        text = text[1:-1].strip()
    return text


def closes(text):
    depth = 0
    for i, c in enumerate(text):
        depth += (c == "(") - (c == ")")
        if depth == 0:
            return i


# ---- what the names of the house are

NUMBERS = dict.fromkeys(["usize", "u8", "u16", "u32", "u64"], "ℕ")
OTHERS = {"bool": "Bool", "i16": "ℤ", "f32": "Float", "f64": "Float"}
LIBRARY = {
    "leb": "ℕ → ℕ → Bool", "ltb": "ℕ → ℕ → Bool", "eqb": "ℕ → ℕ → Bool", "not": "Bool → Bool", "true": "Bool", "false": "Bool",
    "max": "ℕ → ℕ → ℕ", "min": "ℕ → ℕ → ℕ", "take": "ℕ → List ℕ → List ℕ", "drop": "ℕ → List ℕ → List ℕ", "pos": "ℕ → ℤ",
    "cond": "Bool → A → A → A", "get_or": "List A → ℕ → A → A", "replicate": "ℕ → A → List A", "check": "Bool → R → Check R",
    "of_bits": "Format → ℕ → Float", "length": "List A → ℕ",
}


class House:
    """The types of the functions, the records and the cases: enough to pass over changes that cannot be definitions at all."""

    def __init__(self, crates):
        self.types, self.records, self.cases, self.names = dict(LIBRARY), {}, {}, {}
        for crate in (*BELOW, CHANGED):
            for path in sorted((crates / crate / "specs").glob("*.antt")):
                self.signatures(path.read_text(encoding="utf-8"))
        for path in sorted((crates / CHANGED / "src").glob("*.rt")):
            self.declared(re.sub(r"//[^\n]*", "", path.read_text(encoding="utf-8")))

    def signatures(self, text):
        for name, kind in re.findall(r"^(?:[a-z]+ )*pub (\S+) : (.*(?:\n +.*)*)$", text, re.M):
            self.types[name] = re.sub(r"^\{[^}]*\} → ", "", " ".join(kind.split()))
        for name, body in re.findall(r"^pub record (\S+).*where\n((?:  .*\n?)+)", text, re.M):
            self.records[name] = dict(re.findall(r"^  pub (\S+) : (.*)$", body, re.M))
        self.names.update(re.findall(r"^abbrev pub (\w+) : Type 0\n\1 = (.*)$", text, re.M))

    def declared(self, text):
        for name, body in re.findall(r"pub struct (\w+) \{(.*?)\n\}", text, re.S):
            self.records[name] = {field: antt(kind) for field, kind in re.findall(r"pub (\w+): (.+),$", body, re.M)}
        for name, body in re.findall(r"pub enum (\w+) \{(.*?)\n\}", text, re.S):
            self.cases[name] = {case: [antt(k) for k in kinds.split(",") if k] for case, kinds in re.findall(r"(\w+)(?:\(([^)]*)\))?,", body)}
            self.types.update({case: " → ".join(kinds + [name]) for case, kinds in self.cases[name].items()})

    def bound(self, pattern, kind):
        """What a pattern's variables are."""
        kind = self.names.get(kind, kind)
        pattern, kind = bared(pattern), bared(kind)
        if len(parts := outer(pattern, ",")) > 1:
            return self.each(parts, outer(kind, "×"))
        inner = atoms(pattern)
        if len(inner) == 1:
            return {pattern: kind}
        if "∷" in inner:
            return {inner[0]: kind.removeprefix("List "), inner[-1]: kind}
        case = inner[0].split(".")[-1]
        if kind.split()[0] in ("Result", "Option"):
            of = atoms(kind)
            kinds = {"Ok": of[1:2], "Some": of[1:2], "Err": of[2:]}[case]
        else:
            kinds = self.cases.get(kind, {}).get(case, ["ℕ"] * len(inner))
        return self.each(inner[1:], kinds)

    def each(self, patterns, kinds):
        scope = {}
        for pattern, kind in zip(patterns, kinds):
            scope.update(self.bound(pattern, kind))
        return scope

    def kind(self, node, scope):
        """The type of an expression, or nothing where this cannot be told."""
        if node.kind == "number":
            return "ℕ"
        if node.kind == "infix":
            return "ℕ" if node.op[0] in "+-*/%" else None
        if node.kind == "bracket":
            return self.kind(node.kids[0], scope)
        if node.kind == "name":
            return scope.get(node.name) or self.types.get(node.name.rpartition(".")[2])
        if node.kind == "field":
            return self.records.get(self.kind(node.kids[0], scope), {}).get(node.name)
        if node.kind == "call":
            whole = self.kind(node.kids[0], scope)
            left = arrows(whole)[len(node.kids) - 1 :] if whole else []
            return None if left[-1:] in (["A"], ["R"]) else " → ".join(left) or None
        if node.kind == "chain":
            inner = self.kind(node.kids[0], scope)
            return inner and ("List " + inner if node.ops[0][0] == "∷" else inner)
        return None


def antt(kind):
    kind = kind.strip()
    if m := re.match(r"Result<(\w+), (\w+)>$", kind):
        return f"Result {antt(m[1])} {antt(m[2])}"
    return "List ℕ" if kind.startswith("[") else NUMBERS.get(kind) or OTHERS.get(kind) or kind


# ---- the rules

# One name for another; the second has to be imported where the first is.
NAMES = {
    "leb": "ltb", "ltb": "leb", "true": "false", "false": "true", "be16": "be32", "be32": "be64", "be64": "be32",
    "binary32": "binary64", "binary64": "binary32", "max": "min", "min": "max", "take": "drop", "drop": "take",
}
SIGNS = {"+": "-", "-": "+", "*": "+", "/": "%", "%": "/", "≤": "<", "<": "≤"}
# What does not depend on the order of its two arguments: to exchange them makes no wrong definition.
EVEN = {"eqb", "max", "min", "same", "+", "*", "≡"}

# What is shown of a change is at most about this long.
LONG = 90

Wrong = collections.namedtuple("Wrong", "module part rule edits label")


class Maker:
    """Makes the wrong definitions of a module."""

    def __init__(self, module, house):
        self.module, self.house, self.text = module, house, module.text
        self.made = []
        for part in module.parts:
            self.part = part
            self.below(part.node, part.body)
            self.clauses(part)

    def add(self, rule, edits, frame):
        self.made.append((self.part, rule, sorted(edits), frame))

    def of(self, node):
        return self.text[node.start : node.end]

    def swap(self, rule, a, b, frame):
        if self.of(a).split() != self.of(b).split():
            self.add(rule, [(a.start, a.end, self.of(b)), (b.start, b.end, self.of(a))], frame)

    def kind(self, node):
        return self.house.kind(node, self.part.scope)

    def below(self, node, frame):
        """Every rule at a node, then at what it holds. The frame is what is shown of the change: the widest one that is short enough."""
        rule = getattr(self, "at_" + node.kind, None)
        if rule:
            rule(node, frame)
        for i, kid in enumerate(node.kids):
            inner = frame
            if node.kind == "chain" and node.ops[0][0] != "→":
                inner = (kid.start, kid.end)
            elif node.kind == "record":
                inner = (node.names[i][1], kid.end)
            elif node.kind == "bracket" and kid.kind == "call" and frame[1] - frame[0] > LONG:
                inner = (kid.start, kid.end)
            self.below(kid, inner)

    def at_number(self, node, frame):
        n = int(node.name)
        # One that stands alone, as a letter of a text, is wrong enough one higher.
        for other in [n + 1] + ([n - 1] if n and frame != (node.start, node.end) else []):
            self.add("number", [(node.start, node.end, str(other))], frame)

    def at_name(self, node, frame):
        if other := NAMES.get(node.name):
            self.add("name", [(node.start, node.end, other)] + self.bring(node.name, other), frame)
        alias, dot, case = node.name.rpartition(".")
        for enum, cases in self.house.cases.items():
            if case in cases and self.meant(alias, case, enum):
                other = following(case, [c for c in cases if cases[c] == cases[case]])
                self.add("case", [(node.start, node.end, alias + dot + other)] + ([] if alias else self.bring(case, other)), frame)

    def meant(self, alias, case, enum):
        """The module imports this case from this enum."""
        line = next((self.text[a:b] for a, b in self.module.imports if f".{enum}.TheVariants" in self.text[a:b]), "")
        return line.rstrip().endswith(f" as {alias}") if alias else re.search(rf"[{{ ]{case}[,}}]", line)

    def bring(self, name, other):
        """The import of the other name, beside the one it stands for."""
        if any(re.search(rf"[{{ ]{re.escape(other)}[,}}]", self.text[a:b]) for a, b in self.module.imports):
            return []
        for a, b in self.module.imports:
            if m := re.search(rf"[{{ ]{re.escape(name)}(?=[,}}])", self.text[a:b]):
                return [(a + m.end(), a + m.end(), ", " + other)]
        return []

    def at_field(self, node, frame):
        fields = self.house.records.get(self.kind(node.kids[0]), {})
        if node.name in fields:
            other = following(node.name, [f for f in fields if fields[f] == fields[node.name]])
            self.add("field", [(node.at, node.end, other)], frame)

    def at_infix(self, node, frame):
        sign, start, end = node.op
        if sign in SIGNS:
            other = SIGNS[sign]
            self.add("sign", [(start, end, other)] + self.bring(f"◌{sign}◌", f"◌{other}◌"), frame)
        if sign not in EVEN:
            self.swap("arguments", *node.kids, frame)

    def at_call(self, node, frame):
        head, args = self.of(node.kids[0]), node.kids[1:]
        if head == "not":
            self.add("not", [(node.start, node.end, self.of(args[0]))], frame)
        if head in EVEN:
            return
        asked = arrows(self.kind(node.kids[0]) or "")
        kinds = [self.kind(a) for a in args]
        for i in range(len(args) - 1):
            # Both types are known: they have to be one. Else the function has to ask for the same of both.
            known = kinds[i] and kinds[i + 1]
            if kinds[i] == kinds[i + 1] if known else len(asked) < i + 2 or asked[i] == asked[i + 1]:
                self.swap("arguments", args[i], args[i + 1], frame)

    def at_pair(self, node, frame):
        for a, b in zip(node.kids, node.kids[1:]):
            kinds = self.kind(a), self.kind(b)
            if kinds[0] == kinds[1] or not all(kinds):
                self.swap("arguments", a, b, frame)

    def at_record(self, node, frame):
        for (a, b), (m, n) in zip(zip(node.kids, node.kids[1:]), zip(node.names, node.names[1:])):
            ka, kb = self.kind(a), self.kind(b)
            if not (ka and kb) or ka == kb:
                self.swap("fields", a, b, (m[1], b.end))

    def at_chain(self, node, frame):
        ops = [op[0] for op in node.ops]
        if ops[0] == "→":
            return
        # Tests are all asked, and facts all hold, in whatever order.
        even = ops[0] == "×" or self.part.result == "List Bool" or self.text[: node.start].endswith("all (")
        letters = len(ops) > 4 and all(kid.kind == "number" for kid in node.kids[:-1])
        for i, kid in enumerate(node.kids):
            after = ops[i] if i < len(ops) else None
            if after and not letters:
                self.add("drop", [(kid.start, node.kids[i + 1].start, "")], (node.start, node.end))
            elif ops[-1] in ("++", "×") and not after:
                self.add("drop", [(node.kids[i - 1].end, kid.end, "")], (node.start, node.end))
            if after and not even and (ops[i + 1 :] or ["++"])[0] == after:
                self.swap("order", kid, node.kids[i + 1], (kid.start, node.kids[i + 1].end))

    def clauses(self, part):
        """Two neighbouring clauses with each other's right-hand sides."""
        i = self.module.parts.index(part)
        if i + 1 < len(self.module.parts) and part.group == "definitions" and self.module.parts[i + 1].name == part.name:
            a, b = part.node, self.module.parts[i + 1].node
            head = self.text.rfind("\n", 0, a.start) + 1
            self.swap("clauses", a, b, (head, b.end))


def following(name, names):
    """The name after this one, the first after the last."""
    return names[(names.index(name) + 1) % len(names)]


def edited(text, edits):
    for start, end, new in sorted(edits, reverse=True):
        text = text[:start] + new + text[end:]
    return text


def one_line(text):
    return " ".join(re.sub(r"--[^\n]*", "", text).split())


def shown(before, after):
    """Both texts, cut to the neighbourhood of the change where they are long."""
    a, b = before.split(" "), after.split(" ")
    if max(len(before), len(after)) <= LONG:
        return before, after
    lead = 0
    while lead < min(len(a), len(b)) and a[lead] == b[lead]:
        lead += 1
    tail = 0
    while tail < min(len(a), len(b)) - lead and a[-1 - tail] == b[-1 - tail]:
        tail += 1
    cut = lambda w: ("… " if lead > 4 else "") + " ".join(w[max(0, lead - 4) : len(w) - max(0, tail - 4)]) + (" …" if tail > 4 else "")
    return cut(a), cut(b)


def wrong_definitions(crates):
    """All of them, in the order of the files; none twice, and none that is the definition itself."""
    house, found, seen = House(crates), [], set()
    for path in sorted((crates / CHANGED / "specs").glob("*.antt")):
        if path.stem in STATEMENTS:
            continue
        module = Module(path, house)
        labels = collections.Counter()
        seen.add(one_line(module.text))
        for part, rule, edits, frame in Maker(module, house).made:
            text = one_line(edited(module.text, edits))
            if text in seen:
                continue
            seen.add(text)
            inside = [e for e in edits if e[0] >= frame[0]]
            moved = [(a - frame[0], b - frame[0], new) for a, b, new in inside]
            before, after = shown(one_line(module.text[slice(*frame)]), one_line(edited(module.text[slice(*frame)], moved)))
            label = f"{module.stem}.{part.name} {rule}: {before} -> {after}"
            labels[label] += 1
            found.append(Wrong(module, part, rule, edits, label + (f" ({labels[label]})" if labels[label] > 1 else "")))
    return found
