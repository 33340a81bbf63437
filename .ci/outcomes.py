"""`OneOutcome` against the calls: what is shown to allow one outcome is what the calls promise, letter by letter. See .ci/calls-check.

    .ci/outcomes.py FOLDER          the heads of the public calls, a file CRATE::NAME each, against crates/demands/specs/OneOutcome.antt
    .ci/outcomes.py --test FOLDER   the same with a line changed, which shows that it can fail

Each field of `OneOutcome` says of a predicate that at most one outcome has it. With the call's own words put in for what the field
speaks of, the predicate's parts have to be the call's `ensures`, each of them.
"""
import pathlib
import re
import sys

SPECS = "crates/demands/specs/OneOutcome.antt"

# Which field is of which call; what the call says in the place of each name that the field has, in their order; and of what is lent to be
# written, what it holds afterwards. A plain name is a parameter, in brackets is a slice that is lent, and after @ its address.
CALLS = {
    "index::open": ("open_file", "[file]", None),
    "gaps::gaps_zero": ("gaps", "[file]", None),
    "look::list": ("list", "[file] [out]", "out"),
    "find::find": ("find", "[file] [out]", "out"),
    "look::entry": ("entry", "[file] slot", None),
    "look::show": ("show", "[file] slot", None),
    "look::read": ("read", "[file] slot", None),
    "scan::class": ("class", "[run] number", None),
    "scan::data": ("rest", "[run]", None),
    "look::show_part": ("parts", "[file] @file (show_of [file] slot)", None),
    "look::read_part": ("parts", "[file] @file (read_of [file] slot)", None),
    "scan::class_part": ("parts", "[run] @run (class_of [run] number)", None),
    "scan::data_part": ("parts", "[run] @run (data_of [run])", None),
    "store::save": ("save_scan", "[file] slot [scan] [about]", None),
    "store::keep": ("keep_scan", "[file] [scan] [about]", None),
    "store::clear": ("clear_slot", "[file] slot", None),
    "store::step": ("step-job", "[file] [scan] job", "file"),
    "store::blank": ("blank", "[file] n l m", "file"),
    "convert::to_current": ("convert", "1 [file] [out]", "out"),
    "convert::to_old": ("convert", "0 [file] [out]", "out"),
    "link::begin": ("link_begin", "length [row]", None),
    "link::take": ("link_take", "link [piece] [row]", "row"),
    "link::finish": ("link_finish", "link [row]", None),
}

# A crate whose calls state equations of every field, in which there is no room for two outcomes (docs/DEMANDS.md).
EQUATIONS = ("classes", "sdd")

# An `ensures` that a predicate need not have, and why: fewer parts allow more outcomes, and still they are one.
SPARED = {
    "look::entry": {"kind_says (fields_in result).kind ≡ kind_says (fields_in (found_of file.now slot)).kind": "the kind once more, by number and values: it is a field of that entry"},
}


# ---- terms: a word, a list of what it is applied to, or a field of one of them: (".", of what, name)

def fields_of(t, names):
    """A term with fields after it, as `.answer.job`."""
    for name in names:
        t = (".", t, name)
    return t


def term(text):
    """The nested lists that parentheses make of a text."""
    around = [[]]
    for t in re.findall(r"\(|\)(?:\.\w+)*|[^\s()]+", text):
        if t == "(":
            around.append([])
        elif t[0] == ")":
            inner = around.pop()
            around[-1].append(fields_of(inner, t.split(".")[1:]))
        elif t[0].isalpha() and not t.startswith("λ"):
            around[-1].append(fields_of(t.split(".")[0], t.split(".")[1:]))
        else:
            around[-1].append(t)
    return around[0]


def plain(t):
    """Without the parentheses that make no difference: around all of it, around its head, around a word."""
    if isinstance(t, str):
        return t
    if isinstance(t, tuple):
        of = plain(t[1])
        return (".", of[0] if isinstance(of, list) and len(of) == 1 else of, t[2])
    t = [plain(i) for i in t]
    while t and isinstance(t[0], list):
        t = t[0] + t[1:]
    return [i[0] if isinstance(i, list) and len(i) == 1 else i for i in t]


def put(t, values):
    """With each name's value in its place."""
    if isinstance(t, str):
        return values.get(t, t)
    return (".", put(t[1], values), t[2]) if isinstance(t, tuple) else [put(i, values) for i in t]


def shown(t):
    if isinstance(t, str):
        return t
    if isinstance(t, tuple):
        return f"({shown(t[1])}).{t[2]}" if isinstance(t[1], list) else f"{shown(t[1])}.{t[2]}"
    return " ".join(f"({shown(i)})" if isinstance(i, list) else shown(i) for i in t)


def split(t, word):
    found = [[]]
    for i in t:
        found.append([]) if i == word else found[-1].append(i)
    return found


def equations(t, names):
    """The equations that a statement has, each as it would be written, with every named predicate written out."""
    while len(t) == 1 and isinstance(t[0], list):
        t = t[0]
    products = split(t, "×")
    if len(products) > 1:
        return [e for p in products for e in equations(p, names)]
    if isinstance(t[0], str) and t[0] in names:
        taking, body = names[t[0]]
        return equations(put(body, dict(zip(taking, t[1:], strict=True))), names)
    return [[plain(side) for side in split(t, "≡")]]


# ---- the statement and the calls

ARGUMENT = re.compile(r"\(([^():]+) : [^()]*(?:\([^()]*\)[^()]*)*\)")
RESULT = re.compile(r"λ \(x : ([^()]*)\)\.\s+(.*)", re.S)
ENSURES = re.compile(r"^ *ensures (?:[a-z_]+ )?\{ (.*) \}$", re.M)


def fields(text):
    """The fields of `OneOutcome`: the names that each has for what it is about, and the equations of its predicate, of an outcome x."""
    names = {n: (taking.split(), term(b)) for n, taking, b in re.findall(r"^([A-Z]\w*) ((?:\w+ )*x) = (.*)$", text, re.M)}
    body = "\n".join(l for l in text[text.index("pub record OneOutcome") :].splitlines()[1:] if not l.lstrip().startswith("--"))
    found = {}
    for field in re.split(r"^  pub ", body, flags=re.M)[1:]:
        name, says = field.split(" : ", 1)
        about, predicate = says.split("→ Only ", 1)
        predicate = predicate.strip()[1:-1]  # it stands in parentheses
        outcome = RESULT.match(predicate)
        found[name] = ([n for group in ARGUMENT.findall(about) for n in group.split()], equations(term(outcome[2] if outcome else f"{predicate} x"), names))
    return found


def equation(sides):
    return " ≡ ".join(shown(plain(side)) for side in sides)


def ensured(head):
    """What a call promises of its result."""
    return [equation(split(term(text), "≡")) for text in ENSURES.findall(head)]


def of_result(t, lent):
    """What a field says of the outcome x, said of the result, of the slice that is handed out, and of what is lent to be written."""
    if isinstance(t, str):
        return "result" if t == "x" else t
    if isinstance(t, list):
        return [of_result(i, lent) for i in t]
    for field, value in {"answer": "result", "lent": (".", lent, "new")}.items() if lent else ():
        if t[1:] == ("x", field):
            return value
    for field, value in {"holds": "now", "begins": "ref_ptr"}.items():
        if t[1:] == ("x", field):
            return (".", "result", value)
    return (".", of_result(t[1], lent), t[2])


def given(text, lent):
    """What a call says in the place of each name."""
    text = re.sub(r"\[(\w+)\]", lambda m: f"{m[1]}.{'old' if m[1] == lent else 'now'}", text)
    return term(re.sub(r"@(\w+)", r"\1.entry.ref_ptr", text))


def said(call, of):
    """A field's equations in the words of a call."""
    (names, equated), (_, values, lent) = of, CALLS[call]
    values = dict(zip(names, given(values, lent), strict=True))
    return [equation(of_result(plain(put(side, values)), lent) for side in e) for e in equated]


def check(heads, text):
    """What is wrong, of the heads of the calls by name and the text of the statement."""
    found = fields(text)
    for field in sorted(set(found) - {f for f, _, _ in CALLS.values()}):
        yield f"{SPECS} has a field {field} of no call that .ci/outcomes.py names"
    for call, head in sorted(heads.items()):
        if call.split("::")[0] in EQUATIONS or call == "index::judge":
            continue
        if call not in CALLS:
            yield f"{call} is of no field of OneOutcome: say in .ci/outcomes.py which one shows that its statement allows one outcome"
        elif CALLS[call][0] not in found:
            yield f"{SPECS} has no field {CALLS[call][0]}, which is to be of {call}"
        else:
            here, there = said(call, found[CALLS[call][0]]), [e for e in ensured(head) if e not in SPARED.get(call, {})]
            for e in here:
                if e not in there:
                    yield f"OneOutcome {CALLS[call][0]} says what {call} does not promise: {e}"
            for e in there:
                if e not in here:
                    yield f"{call} promises what OneOutcome {CALLS[call][0]} does not say: {e}"
    for call in sorted(set(CALLS) - set(heads)):
        yield f".ci/outcomes.py names {call}, and there is no such call"


# ---- cases that show that it can fail

CASES = (
    ("what stands there", "", "", None),
    ("another definition in a field", "opened_says (open_of f)", "opened_says (boot_of f)", "OneOutcome open_file says what index::open does not promise: opened_says result ≡ opened_says (boot_of file.now)"),
    ("another direction's answer", "convert_of v f out", "convert_of 1 f out", "OneOutcome convert says what convert::to_old does not promise"),
    ("lent memory left out", " × (x.lent ≡ report_out f out)", "", "find::find promises what OneOutcome find does not say: out.new ≡ report_out file.now out.old"),
    ("the job left out, by name", " × (job_in x ≡ job_in is)", "", "store::save promises what OneOutcome save_scan does not say: job_in result ≡ job_in (save_of"),
    ("two arguments changed about", "take_of k p row) x", "take_of k row p) x", "OneOutcome link_take says what link::take does not promise"),
    ("a part of another place", "bytes_on (span_place f s) at", "bytes_on (span_place f s) s", "OneOutcome parts says what look::show_part does not promise"),
    ("a field that is not there", "  pub gaps : (f : List ℕ) → Only (λ (x : Asked). asked_says x ≡ asked_says (gaps_of f))\n", "", "has no field gaps, which is to be of gaps::gaps_zero"),
    ("a field of no call", "  pub gaps :", "  pub gapped : (f : List ℕ) → Only (λ (x : Asked). asked_says x ≡ asked_says (gaps_of f))\n  pub gaps :", "has a field gapped of no call"),
)


def test(heads, text):
    """Tries each case on the statement with one line changed, and a call with another promise. Hands back the exit status."""
    wrong = 0
    changed = [(title, heads, text.replace(old, new, 1) if old else text, sentence) for title, old, new, sentence in CASES if old in text or print(f"calls: the case '{title}' has nothing to change")]
    other = dict(heads, **{"look::show": heads["look::show"].replace("show_of", "read_of")})
    changed.append(("a call that promises another thing", other, text, "look::show promises what OneOutcome show does not say"))
    changed.append(("a call of no field", dict(heads, **{"look::shown": heads["look::show"]}), text, "look::shown is of no field of OneOutcome"))
    for title, calls, statement, sentence in changed:
        faults = list(check(calls, statement))
        if not (not faults if sentence is None else any(sentence in f for f in faults)):
            wrong += 1
            print(f"calls: the case '{title}': wanted {sentence or 'nothing'!r}, and was told {faults}")
    cases = len(CASES) + 2
    print(f"calls: {len(changed) - wrong} of {cases} cases as they are to be")
    return 0 if len(changed) - wrong == cases else 1


def main():
    flags, folders = [w for w in sys.argv[1:] if w.startswith("-")], [w for w in sys.argv[1:] if not w.startswith("-")]
    if len(folders) != 1 or flags not in ([], ["--test"]):
        sys.exit(__doc__)
    heads = {p.name: p.read_text(encoding="utf-8") for p in pathlib.Path(folders[0]).iterdir()}
    text = pathlib.Path(SPECS).read_text(encoding="utf-8")
    if flags:
        sys.exit(test(heads, text))
    faults = list(check(heads, text))
    for fault in faults:
        print(f"calls: {fault}")
    if faults:
        sys.exit(1)
    print(f"calls: {len(CALLS)} calls, of each of which OneOutcome says what it promises")


if __name__ == "__main__":
    main()
