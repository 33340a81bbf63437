"""Cases for .ci/demands-check, made up: two small files of statements, their laws, and a page."""

HALVES = """use Rattle.demands.specs.Sums.{Sum}
-- two of them
pub record Halves (a b : ℕ) : Type 0 where
  pub z : Sizes
  pub low : a ≤ b
  -- and the rest
  pub high : (c : ℕ)
      → Sum a c b

abbrev pub Halved : Type 0
Halved = (a : ℕ) → Halves a (a + a)

pub record State : Type 0 where
  pub job : Job
  pub file : List ℕ

abbrev pub Holding : Type 0
Holding = ℕ → State

pub record Both : Type 0 where
  pub left : (a : ℕ) → Halves a a
  pub right : (a : ℕ) → a ≡ a
"""
SUMS = """pub record Sum (a c b : ℕ) : Type 0 where
  pub is : a + c ≡ b
"""
LAWS = "pub halved : Halved\nhalved a = omega arith\n\npub both : Both\nboth = record { left = refl; right = refl }\n"
PAGE = """# Page
| statement | file | proof | says | facts |
|---|---|---|---|---|
| `Halved` | specs/Halves.antt | `halved`, proofs/Laws.antt | twice | `Halves` `low`, `high`; `Sum` `is` |
| `Both` `left` | specs/Halves.antt | proofs/Laws.antt | left | |
| `Both` `right` | specs/Halves.antt | the same | right | |

| number | other |
|---|---|
| 1 | `Halved` |
"""

# the title; what is changed in the statements, the laws or the page, and into what; a sentence that is said, or None
CASES = (
    ("what stands there", "", "", None),
    ("a new fact", "  pub low : a ≤ b\n", "  pub low : a ≤ b\n  pub most : b ≤ 9\n", "the row of Halved does not speak of the fact Halves most (specs/Halves.antt), nor does another"),
    ("a new fact of a record that a record rests on", "  pub is : a + c ≡ b\n", "  pub is : a + c ≡ b\n  pub less : a ≤ b\n", "does not speak of the fact Sum less (specs/Sums.antt)"),
    ("a fact that is gone", "  pub low : a ≤ b\n", "", "names the fact Halves low, and it rests on none of that name"),
    ("a fact of another name", "`low`, `high`", "`lower`, `high`", "names the fact Halves lower, and it rests on none of that name"),
    ("a fact left out", "`low`, `high`", "`low`", "does not speak of the fact Halves high"),
    ("a record left out", "; `Sum` `is`", "", "does not speak of the fact Sum is"),
    ("a new datum", "  pub job : Job\n", "  pub job : Job\n  pub cut : Cut\n", None),
    ("a new field of a statement", "  pub right :", "  pub middle : (a : ℕ) → a ≤ a\n  pub right :", "does not speak of the fact Both middle"),
    ("a field of a statement that is gone", "  pub right : (a : ℕ) → a ≡ a\n", "", "the row of Both names its field right, and Both has none"),
    ("a statement without a row", "abbrev pub Halved : Type 0\n", "abbrev pub Thirds : Type 0\nThirds = (a : ℕ) → a ≤ 3\n\nabbrev pub Halved : Type 0\n", "the statement Thirds (specs/Halves.antt) has no row"),
    ("a row without its statement", "| `Both` `left`", "| `Thirds` | specs/Halves.antt | proofs/Laws.antt | a third | |\n| `Both` `left`", "a row names the statement Thirds, and crates/demands/specs has none"),
    ("another file", "| `Halved` | specs/Halves.antt", "| `Halved` | specs/Sums.antt", "and it stands in specs/Halves.antt"),
    ("a law of another name", "`halved`, proofs", "`half`, proofs", "names the law half, and Laws has none"),
    ("a law of another statement", "pub halved : Halved", "pub halved : Both", "there is no law 'pub .. : Halved'"),
)


def run(specs_of, check, mended):
    """Tries each case, and what is written for each that lacks a fact. Hands back the exit status."""
    wrong = 0
    for title, old, new, sentence in CASES:
        halves, sums, laws, page = (t.replace(old, new, 1) if old else t for t in (HALVES, SUMS, LAWS, PAGE))
        specs, proofs = specs_of({"Halves": halves, "Sums": sums}), {"Laws": laws}
        faults = check(specs, proofs, page)[0]
        right = not faults if sentence is None else any(sentence in f for f in faults)
        if " the fact " in (sentence or ""):
            # what is written has every fact that is there, and none that is not
            right = right and not check(specs, proofs, mended(specs, proofs, page))[0]
        if not right:
            wrong += 1
            print(f"demands: the case '{title}': wanted {sentence or 'nothing'!r}, and was told {faults}")
    if mended(specs_of({"Halves": HALVES, "Sums": SUMS}), {"Laws": LAWS}, PAGE) != PAGE:
        wrong += 1
        print("demands: a page on which nothing is missing was changed")
    print(f"demands: {len(CASES) + 1 - wrong} of {len(CASES) + 1} cases as they are to be")
    return 1 if wrong else 0
