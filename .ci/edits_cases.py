"""Cases for .ci/edits-check, made up: a small crate, its edit, and what rt might have said of it."""
import pathlib
import tempfile

SOURCE = """pub fn low(a: u64) -> u64
    ensures { result ≡ half a }
{
    a / 2
}
"""
SPECS = """unfoldable pub half : ℕ → ℕ
half a = a / 2

unfoldable pub other : ℕ → ℕ
other a = a / 2
"""
LAWS = """pub half-most : (a : ℕ) → half a ≤ a
half-most a = omega arith

pub known : Known
known =
    record {
      four = refl;
      nine = refl
    }
"""
LOW = "# fails at `returns` of `low`: the half of a number\nfile: src/lib.rt\nold:     a / 2\nnew:     a / 3\n"
TWICE = "# fails at `half-most`: twice over\nfile: specs/Halves.antt\nold: half a = a / 2\nnew: half a = a / 3\nold: half a = a / 3\nnew: half a = a / 4\n"
KNOWN = TWICE.replace("`half-most`", "the known answers `three` and `nine`, and at `half-most`")

HERE = "refused, as it must be: ./proofs/low/Answers.antt:4:3: error: `returns`: `omega`: the goal does not follow from what it read"
ANOTHER = HERE.replace("`returns`", "`overflow_add-result`")
CALLER = HERE.replace("/low/", "/high/")
NOTED = "refused, as it must be: note: src/lib.rt:4:5: it is not proved that what the function ensures holds when it returns (`returns`); `search` gave up"
UNSAID = "refused, as it must be: src/lib.rt:4:5: something else"
LAW = "refused, as it must be: ./proofs/Laws.antt:2:16: error: `half-most`: `omega`: the goal does not follow"
FIELD = "refused, as it must be: ./proofs/Laws.antt:8:14: error: `known`: as printed, the two types differ only where one has `9` (expected)"
OTHER = FIELD.replace(":8:", ":7:")
GONE = "refused, as it must be (only because a proof file names what the edit took away, so this says little of the contract: change a value and keep the names): proofs/Laws.antt:1:1"
LIMIT = "refused, as it must be (only by a limit of the prover, which gave no verdict, so this says less of the contract: choose a change that it refuses sooner): antt ran out of stack"

# The edit, what was said of it (None: it was not tried; a space: rt has not run), and a part of the sentence that is to come (none: nothing is wrong).
CASES = (
    ("one that can be applied", LOW, " ", None),
    ("two pairs, the second on what the first made", TWICE, " ", None),
    ("an old text that is not there", LOW.replace("a / 2", "a / 9"), " ", "is in src/lib.rt 0 times, and not once"),
    ("an old text that is there twice", TWICE.replace("old: half a = a / 2", "old: = a / 2"), " ", "is in specs/Halves.antt 2 times, and not once"),
    ("a file that is not there", LOW.replace("src/lib.rt", "src/main.rt"), " ", "there is no file src/main.rt"),
    ("a file outside", LOW.replace("src/lib.rt", "../../crates.txt"), " ", "there is no file ../../crates.txt of src/"),
    ("one that changes nothing", LOW.replace("a / 3", "a / 2"), " ", "it leaves every file as it is"),
    ("one without a new text", LOW.replace("new:     a / 3\n", ""), " ", "has no new text"),
    ("one that does not say at which fact", LOW.split("\n", 1)[1], " ", "no comment says at which fact it fails"),
    ("one that names no fact before its colon", LOW.replace("# fails at `returns` of `low`:", "# fails here: at"), " ", "no comment says at which fact it fails"),
    ("a text of two lines", LOW + "    b\n", " ", "'    b' is a line of no kind"),
    ("one that is refused where it says", LOW, HERE, None),
    ("one that is refused at another goal first", LOW, ANOTHER, "it is to fail at returns, low, and is refused first at overflow_add-result of low"),
    ("one that is refused in another function first", LOW, CALLER, "is refused first at returns of high"),
    ("one of which rt does not say the function", LOW, NOTED, None),
    ("one of which rt does not say where", LOW, UNSAID, "it is to fail at returns, low, and is refused first at "),
    ("a law", TWICE, LAW, None),
    ("a law that was not meant", LOW, LAW, "is refused first at half-most"),
    ("a known answer", KNOWN, FIELD, None),
    ("another known answer", KNOWN, OTHER, "and is refused first at four or known"),
    ("one that only takes a name away", LOW, GONE, "it is refused only because a proof names what it took away"),
    ("one that runs into a limit", LOW, LIMIT, "it is refused only by a limit of the prover"),
    ("one that is still proved", LOW, "NOT REFUSED: the crate is still proved with this edit", "low_by_3.edit: NOT REFUSED"),
    ("one that cannot be read", LOW, "BAD EDIT: the prover cannot read the edited text", "low_by_3.edit: BAD EDIT"),
    ("one that was not tried", LOW, None, "it was not tried"),
)


def run(check):
    """Tries each case. Hands back the exit status."""
    wrong = 0
    for title, edit, said, sentence in CASES:
        with tempfile.TemporaryDirectory() as folder:
            crate = pathlib.Path(folder) / "small"
            for name, text in (("src/lib.rt", SOURCE), ("specs/Halves.antt", SPECS), ("proofs/Laws.antt", LAWS), ("must-fail/low_by_3.edit", edit)):
                (crate / name).parent.mkdir(parents=True, exist_ok=True)
                (crate / name).write_text(text, encoding="utf-8")
            log = None if said == " " else "" if said is None else f"rt: small proved\nrt: must-fail small/low_by_3.edit: {said}\nrt: ok\n"
            faults, _ = check([crate], log)
        if not (not faults if sentence is None else any(sentence in f for f in faults)):
            wrong += 1
            print(f"edits: the case '{title}': wanted {sentence or 'nothing'!r}, and was told {faults}")
    print(f"edits: {len(CASES) - wrong} of {len(CASES)} cases as they are to be")
    return 1 if wrong else 0
