#!/usr/bin/env python3
"""Respells the repository's own definitions and lemmas, once, after port.py: words in snake case, types in camel case.

usage: python3 tools/respell.py          in the repository: respells crates/, once
       python3 tools/respell.py --list   writes what would be respelled, and nothing else

A word is what a file of specs/, or a file right in proofs/, declares: a definition, a lemma, a record's field, a constructor. Functions of src/ keep their
names. A lemma keeps its dashes, which join two words. It stops where two words would fall together.
"""
import collections
import pathlib
import re
import sys

ROOT = pathlib.Path(__file__).resolve().parent.parent
NAME = r"[^\s(){}\[\],;.:@\"`|]+"
DECLARED = re.compile(rf"^(?:(?:abbrev|unfoldable|pub|record|data) )*({NAME})(?= |$)")
FIELD = re.compile(rf"^ +(?:pub )?({NAME}) : ")
KEYWORD = {"use", "mod", "where", "unfolding", "open", "record", "data", "abbrev", "pub", "unfoldable", "ruleset", "--", "let", "in"}


def snake(word, of_specs):
    """A word as it is spelled from now on. In a lemma's name a dash joins two words, and stays."""
    if word[:1].isupper():
        return "".join(p[:1].upper() + p[1:] for p in word.split("-")) if of_specs else word
    if of_specs:
        word = word.replace("-", "_")
    return re.sub(r"(?<=[a-z0-9])([A-Z])", lambda m: "_" + m[1].lower(), word.replace("getD", "get_or"))


def declared(text):
    """The words that a file declares."""
    found = set()
    for line in text.splitlines():
        m = DECLARED.match(line)
        if m and m[1] not in KEYWORD and not line.startswith(("use ", "--", "mod ", "pub mod ")):
            found.add(m[1])
        f = FIELD.match(line)
        if f and f[1] not in KEYWORD:
            found.add(f[1])
    return found


def sources():
    for p in sorted((ROOT / "crates").rglob("*.antt")):
        if "out" not in p.parts:
            yield p


def is_lemmas(p):
    rel = p.relative_to(ROOT / "crates").parts
    return rel[1] == "specs" or rel[1] == "proofs" and len(rel) == 3


# three lemmas whose new name another word has
ASIDE = {"tooShort": "too-short", "tooSmall": "too-small", "linkRow": "link-row"}


def turns():
    """Each word that is respelled, and its new spelling."""
    words = {}
    for p in sources():
        if is_lemmas(p):
            specs = p.relative_to(ROOT / "crates").parts[1] == "specs"
            for w in declared(p.read_text(encoding="utf-8")):
                words[w] = words.get(w, False) or specs
    turn = {w: ASIDE.get(w) or snake(w, s) for w, s in words.items() if re.fullmatch(r"[A-Za-z0-9_'≢≡≤-]+", w)}
    turn = {w: s for w, s in turn.items() if w != s}
    back = collections.defaultdict(set)
    for w, s in turn.items():
        back[s].add(w)
    for s, ws in back.items():
        # a field whose name would be a definition's keeps its dash
        for w in ws:
            if "-" in w and (len(ws) > 1 or s in words):
                del turn[w]
    for s in back:
        left = [w for w in back[s] if w in turn]
        if len(left) > 1 or left and s in words:
            sys.exit(f"respell: {', '.join(sorted(back[s]))} would all be {s}")
    return turn


TOKEN = re.compile(r"[^\s()\[\]{}.,;:`\"|@!&*<>=+/?#]+")


def respelled(text, turn):
    return TOKEN.sub(lambda m: turn.get(m[0], m[0]), text)


def main():
    turn = turns()
    if "--list" in sys.argv:
        print("\n".join(f"{w} {s}" for w, s in sorted(turn.items())))
        return
    count = 0
    for p in [*sources(), *sorted((ROOT / "crates").glob("*/src/**/*.rt"))]:
        text = p.read_text(encoding="utf-8")
        new = respelled(text, turn)
        if new != text:
            p.write_text(new, encoding="utf-8")
            count += 1
    print(f"respell: {len(turn)} words, {count} files")


if __name__ == "__main__":
    main()
