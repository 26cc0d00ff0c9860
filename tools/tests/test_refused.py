"""Tests tools/refused on a small crate.

The crate has functions that call each other, a constant, a type for C, a function with a stored answer that is a term,
and one whose stored answer is a tactic. Its mutants are of each kind: refused alone, beside another of the same
function, or through the function that uses a changed constant or field; proved; not compiling; with text that is not
there. Two mutants do not fit the stored term: one leaves another goal open, and one leaves only a goal open that the
right body does not close without the term either, which is no refusal. Some are in planted/, which the gate does not
try. All are tried twice: as they are, which notes what they leave open, and then with these notes, two of which belong to
right bodies by then.

The gate runs these tests, also where there is no pytest: so they use nothing of it.
"""
import dataclasses
import functools
import pathlib
import re
import subprocess
import tempfile
from types import SimpleNamespace

from heskavo.refused import answers, clauses, command, edits as edit_files, goals, kit, passed, rounds
from heskavo.repository import TOOLS

NAME = "small_for_refused"

SOURCE = """//! Numbers for a test of the mutants.
#![tactic(auto)]

ghost use Rattle.small_for_refused.specs.Twice.{twice};
ghost use Rattle.std.specs.Prelude.{◌≡◌, ◌≤◌, ◌+◌};

/// The most that `capped` returns.
pub const CAP: u32 = 100;

/// The number, at most 100.
pub fn capped(n: u32) -> u32
    ensures small { result ≤ 100 }
    ensures least { result ≤ n }
{
    if n < 100 { n } else { CAP }
}

/// One more than the number, capped.
pub fn next_of(n: u32) -> u32
    ensures small { result ≤ 101 }
{
    let number = capped(n);
    number + 1
}

/// The number itself.
pub fn same(n: u32) -> u32
    ensures same { result ≡ n }
{
    let number = n;
    number
}

/// Twice the number.
pub fn doubled(n: u32) -> u32
    requires few { n ≤ 255 }
    ensures exact { result ≡ twice n }
    ensures small { result ≤ 510 }
{
    n * 2
}

/// Three times the number.
pub fn tripled(n: u32) -> u32
    requires few { n ≤ 255 }
    ensures exact { result ≡ twice n + n }
{
    n * 3
}

/// A number of at most 100, in the layout of C.
#[repr(C)]
#[derive(Clone, Copy)]
pub struct Small {
    /// The number.
    pub number: u32,
    ghost few: { number ≤ 100 },
}

/// The number, or 0 if it is above 100.
pub fn small_of(n: u32) -> Small
    ensures number { n ≤ 100 → result.number ≡ n }
{
    let number = if n <= 100 { n } else { 0 };
    Small { number }
}
"""

# The other files of the crate.
FILES = {
    "specs/Lib.antt": "pub mod Twice\n",
    "specs/Twice.antt": """use Rattle.std.specs.Prelude.{ℕ, ◌+◌, zero, suc}

-- a number and itself, counted one by one
abbrev pub twice : ℕ → ℕ
twice zero = 0
twice (suc n) = twice n + 2
""",
    "proofs/Lib.antt": "pub mod Twices\n",
    "proofs/Twices.antt": """use Rattle.std.proofs.Common.{◌≡◌, ◌*◌, ℕ, arith, suc, zero}
use Rattle.small_for_refused.specs.Twice.{twice}

pub twice-is : (n : ℕ) → n * 2 ≡ twice n
twice-is zero = omega arith
twice-is (suc n) = omega (arith, twice-is n)
""",
    "proofs/doubled/Answers.antt": """use Rattle.small_for_refused.proofs.Twices.{twice-is}
use Rattle.small_for_refused.proofs.doubled.Goals as goal

pub returns-clause-exact : goal.returns-clause-exact
returns-clause-exact c = twice-is c.args.n
""",
    "proofs/tripled/Answers.antt": """use Rattle.std.proofs.Common.{arith}
use Rattle.small_for_refused.proofs.Twices.{twice-is}
use Rattle.small_for_refused.proofs.tripled.Goals as goal

pub returns : goal.returns
returns c = omega (arith, twice-is c.args.n)
""",
}

# Those in planted/.
PLANTED = ("another_cap_too_high", "no_such_text_planted", "the_number_in_place_of_its_double")

# Each mutant with the outcome that is reported of it.
EDITS = {
    "a_cap_too_high": ("if n < 100 { n } else { CAP }", "if n < 101 { n } else { 101 }", "refused"),
    "another_cap_too_high": ("if n < 100 { n } else { CAP }", "if n < 100 { n } else { 200 }", "refused"),
    "hidden_by_what_it_calls": ("    number + 1", "    number + 2", "refused"),
    "a_branch_of_its_own": (
        "    let number = capped(n);",
        "    let number = capped(n); if n == 7 { return 200; }",
        "refused",
    ),
    "the_same_by_another_way": ("    let number = n;", "    let number = n + 0;", "PROVED"),
    "no_such_type": ("    let number = capped(n);", "    let number: Missing = capped(n);", "BAD EDIT"),
    "no_such_text": ("    let number = n * 7;", "    let number = n;", "BAD EDIT"),
    "no_such_text_planted": ("    let number = n * 9;", "    let number = n;", "BAD EDIT"),
    "twice_and_one_more": ("    n * 2", "    n * 2 + 1", "refused"),
    "the_number_alone": ("    n * 2", "    n", "ANSWER"),
    "the_number_in_place_of_its_double": ("    n * 2", "    n * 1", "ANSWER"),
    "three_times_is_twice": ("    n * 3", "    n * 2", "refused"),
    "a_constant_too_high": ("CAP: u32 = 100;", "CAP: u32 = 101;", "refused"),
    "a_constant_that_may_be_lower": ("CAP: u32 = 100;", "CAP: u32 = 99;", "PROVED"),
    "a_field_with_a_lower_bound": ("ghost few: { number ≤ 100 },", "ghost few: { number ≤ 50 },", "refused"),
}

# The goals of the mutant that does not fit a stored term and is refused all the same.
NOTED = ("twice_and_one_more", "# without the answers: returns-clause-exact\n# leaves open: returns-clause-small\n")


# Two of them with a right body's text in place of theirs; the right body of the crate has none of the second's goals.
RIGHT = (
    ("hidden_by_what_it_calls", "    1 + number"),
    ("a_branch_of_its_own", "    let number = capped(n); if n == 7 { return 7; }"),
)


def make(root: pathlib.Path) -> None:
    """Makes a repository with the small crate and its mutants."""
    crate = root / "crates" / NAME
    for folder in ("refused", "planted"):
        (crate / folder).mkdir(parents=True)
    (root / "crates.txt").write_text(f"{NAME}:\n")
    (root / "HANDLES").write_text("Handles allowed: none.\n")
    for file, text in {"src/lib.rt": SOURCE, **FILES}.items():
        (crate / file).parent.mkdir(parents=True, exist_ok=True)
        (crate / file).write_text(text)
    for name, (old, new, _) in EDITS.items():
        (crate / ("planted" if name in PLANTED else "refused") / f"{name}.edit").write_text(
            f"file: src/lib.rt\nold: {old}\nnew: {new}\n"
        )
    subprocess.run(["git", "init", "-q", str(root)], check=True)


def outcomes(said: str) -> dict[str, str]:
    """The outcome of each mutant that a run reported."""
    return {name: outcome for outcome, name in re.findall(rf"^  ([A-Za-z ]+)[^/\n]*: {NAME}/(\w+) ", said, re.M)}


def make_right(root: pathlib.Path, name: str, new: str) -> list[str]:
    """Writes a right body in place of a mutant, below its notes; returns the kinds of these notes."""
    path = next(root.glob(f"crates/*/refused/{name}.edit"))
    text = path.read_text()
    path.write_text(re.sub("^new: .*$", f"new: {new}", text, flags=re.M))
    return re.findall("^# (tried by itself|leaves open): ", text, re.M)


@dataclasses.dataclass
class Runs:
    """What the runs over the small crate printed: the first, which notes; the second, over the notes; and the one of the gate."""

    first: "subprocess.CompletedProcess[str]"
    over_notes: "subprocess.CompletedProcess[str]"
    of_the_gate: "subprocess.CompletedProcess[str]"
    kinds_of_notes: list[list[str]]
    notes_of_unfit: str


@functools.cache
def runs() -> Runs:
    """Runs tools/refused three times."""
    with tempfile.TemporaryDirectory(prefix="test-refused-") as folder:
        root = pathlib.Path(folder)
        make(root)

        def run(*words: str) -> "subprocess.CompletedProcess[str]":
            command = [TOOLS / "refused", "--root", folder, "--lanes", "1", *words]
            return subprocess.run(command, capture_output=True, text=True, check=False)

        first = run("--note")
        kinds = [make_right(root, *it) for it in RIGHT]
        unfit = next(root.glob(f"crates/*/refused/{NOTED[0]}.edit")).read_text()
        over_notes = run()
        for path in root.glob("crates/*/refused/*.edit"):
            if path.stem != RIGHT[0][0]:
                path.unlink()
        return Runs(first, over_notes, run("--over-gate", folder), kinds, unfit)


WANTED = {name: wanted for name, (_, _, wanted) in EDITS.items()}


def test_each_mutant_is_reported_as_it_is() -> None:
    assert outcomes(runs().first.stdout) == WANTED, runs().first.stdout + runs().first.stderr


def test_over_notes_the_outcomes_are_the_same() -> None:
    assert outcomes(runs().over_notes.stdout) == WANTED | {
        name: "PROVED" for name, _ in RIGHT
    }, runs().over_notes.stdout


def test_the_last_line_and_the_status_tell_what_failed() -> None:
    refused = sum(wanted == "refused" for wanted in WANTED.values())
    warned = sum(wanted == "ANSWER" and name in PLANTED for name, wanted in WANTED.items())
    assert runs().first.stdout.rstrip().endswith(f"{refused} passed, {len(EDITS) - refused - warned} failed")
    assert runs().first.returncode == 1


def test_many_mutants_are_tried_in_a_round() -> None:
    in_rounds = re.search(r"in (\d+) rounds", runs().first.stdout)
    assert in_rounds and int(in_rounds[1]) <= 16


def test_notes_tell_the_goals() -> None:
    assert runs().kinds_of_notes == [["leaves open", "tried by itself"], ["leaves open"]]
    assert NOTED[1] in runs().notes_of_unfit


def test_a_mutant_in_planted_that_shows_nothing_is_a_warning() -> None:
    said = runs().first.stdout
    failed = re.search("^FAILED: (.*)$", said, re.M)
    assert failed and f"{NAME}/the_number_alone" in failed[1].split()
    assert re.search(rf"^warning: .* \(1\): {NAME}/{PLANTED[2]}$", said, re.M)


def test_over_the_gate_those_in_planted_are_not_tried() -> None:
    said = runs().of_the_gate.stdout
    assert not outcomes(said).keys() & set(PLANTED)
    assert re.search(rf"^FAILED: .*{NAME}/{PLANTED[1]} ", said, re.M), said + runs().of_the_gate.stderr


def test_crates_that_changed_are_tried_and_one_that_did_not() -> None:
    with tempfile.TemporaryDirectory(prefix="test-refused-") as folder:
        crates = [SimpleNamespace(name=name, folder=f"{folder}/{name}") for name in "abcd"]
        for crate in crates[:3]:
            for name in ("src/lib.rt", "refused/one.edit"):
                place = pathlib.Path(crate.folder, name)
                place.parent.mkdir(parents=True)
                place.touch()
            passed.note(crate)
        pathlib.Path(crates[1].folder, "src/lib.rt").write_text("//! Changed.\n")
        tried = [
            [crate.name for crate in command.in_turn(crates, SimpleNamespace(changed=changed, also=also))]
            for changed, also in ((False, None), (True, None), (True, 1), (True, 5))
        ]
    assert tried == [["a", "b", "c", "d"], ["b"], ["b"], ["b", "c"]]


def test_a_closure_counts_for_its_function() -> None:
    owner = edit_files.Owner("chapters", None, None, "used")
    said = {
        "rings::chapters::fn::used::with_state": "open",
        "rings::chapters::used": "it calls",
        "rings::chapters::fn::other::with_state": "proved",
    }
    assert owner.lines("rings", said) == ["open", "it calls"]


def test_a_goal_that_names_no_clause_counts_for_the_one_clause_of_its_function() -> None:
    changed = SimpleNamespace(
        crate=SimpleNamespace(name=NAME),
        owners={edit_files.Owner("lib", None, None, name) for name in ("capped", "next_of")},
    )
    found = {
        name: [clauses.Clause(NAME, name, it, "result ≤ 100") for it in those]
        for name, those in (("capped", ["small", "least"]), ("next_of", ["small"]))
    }
    cases = {
        "returns-then-n-clause-least": {"capped least"},
        "returns-then-n": {"next_of small"},
        "subtract-requires": set(),
    }
    for goal, wanted in cases.items():
        assert clauses.opened(changed, [goal], lambda crate: found) == wanted


def test_an_error_at_a_tactic_on_a_goal_leaves_it_open() -> None:
    """Any other error of an answer makes it one that does not fit."""
    text = (
        "use A.B.Goals as goal\n\npub one : goal.one\none c =\n    let x = f c in\n    omega arith\n\npub two : goal.two\n"
        "two c = elim c.match-at.branch [ in-A w ↦ grind arith | in-B w ↦ omega arith ]\n\npub three : goal.three\nthree c = f (omega arith)\n"
    )
    places = {
        "one": (6, 5),
        "in the first case": (9, 43),
        "in the second case": (9, 66),
        "let": (5, 13),
        "inside a term": (12, 14),
    }
    found = [
        name for name, (line, column) in places.items() if answers.is_of_the_goal(text, kit.Error("", line, column, ""))
    ]
    assert found == ["one", "in the first case", "in the second case"]
    assert answers.unfit(text, [kit.Error("", 12, 14, "")]) == {"three"}


def test_a_proof_by_hand_that_does_not_hold_is_an_answer_that_does_not_fit() -> None:
    owner = edit_files.Owner("", None, None, "made_by_hand")
    said = SimpleNamespace(errors=lambda: [kit.Error("proofs/made_by_hand/Proof.antt", 7, 3, ": it does not hold")])
    changed = SimpleNamespace(crate=SimpleNamespace(name=NAME, folder="/"), owners={owner}, taken_out=set())
    assert rounds.Rounds.opened(None, changed, said, {}, {}, []) == ({owner: []}, {goals.WHOLE_PROOF})
