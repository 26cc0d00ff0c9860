"""Named clauses of public calls that say less than an equation, and which of them have a mutant."""
import collections
import functools
import re
from collections.abc import Callable, Collection, Iterable, Iterator
from typing import Any, NamedTuple

from heskavo.contracts import contract_sources
from heskavo.contracts.contract_sources import Function
from heskavo.repository import ROOT

ENSURES = re.compile(r"^\s*ensures\*? (\w+) \{", re.M)
LESS = re.compile(r"→|↔|×|⊎|¬|≢|≤|<")
BODY = re.compile(r"-> |&mut ")


class Clause(NamedTuple):
    """A named clause of a public call."""

    crate: str
    function: str
    name: str
    text: str

    def is_equation(self) -> bool:
        """Whether it says what something is: one `≡` that stands in no bracket, and nothing that says less beside it."""
        outer, depth = "", 0
        for letter in self.text:
            depth += letter in "([{"
            outer += letter if depth == 0 else ""
            depth -= letter in ")]}"
        outer = outer.rpartition(" in ")[2]
        return "≡" in outer and not LESS.search(outer)

    def label(self) -> str:
        return f"{self.function} {self.name}"


def to_the_brace(text: str, at: int) -> str:
    """The text up to the brace that closes the one before `at`."""
    depth = 1
    for end in range(at, len(text)):
        depth += (text[end] == "{") - (text[end] == "}")
        if depth == 0:
            return text[at:end]
    return text[at:]


def clauses_of(function: Function) -> Iterator[Clause]:
    for found in ENSURES.finditer(function.clauses):
        yield Clause(
            function.source.crate,
            "::".join(function.path.split("::")[1:]),
            found[1],
            to_the_brace(function.clauses, found.end()),
        )


def of_public_calls(names: Collection[str]) -> Iterator[Clause]:
    """The clauses of public functions that return or change something; a law has no body to mutate."""
    for function in contract_sources.functions():
        if (
            function.source.crate in names
            and not (function.block.trait and not function.block.type)
            and BODY.search(function.signature)
        ):
            yield from clauses_of(function)


@functools.cache
def by_function(crate: str) -> dict[str, list[Clause]]:
    """The clauses of each public function of a crate, by its name."""
    found = collections.defaultdict(list)
    for clause in of_public_calls({crate}):
        found[clause.function].append(clause)
    return found


def opened(
    edit: Any, goals: Iterable[str], clauses_of_crate: Callable[[str], dict[str, list[Clause]]] = by_function
) -> set[str]:
    """The clauses of public calls that these open goals of an edit's functions break and that say less than an equation: those that the goals name. A goal that
    names none is one of all clauses of its function, so it tells of a clause where that is the only one."""
    found = set()
    answers = [it for it in goals if it.startswith("returns")]
    named = {it.rpartition("-clause-")[2] for it in answers if "-clause-" in it}
    names_none = any("-clause-" not in it for it in answers)
    for owner in edit.owners:
        mine = clauses_of_crate(edit.crate.name)["::".join(it for it in (owner.type, owner.name) if it)]
        found |= {
            it.label() for it in mine if not it.is_equation() and (it.name in named or names_none and len(mine) == 1)
        }
    return found


def named_by_edits(crate: str, *folders: str) -> set[str]:
    """The clauses that lines `# clause: FUNCTION NAME` of the mutants in these folders name."""
    found = set()
    for folder in folders:
        for path in (ROOT / "crates" / crate / folder).glob("*.edit"):
            found |= set(re.findall(r"^# clause: (\S+ \w+)$", path.read_text(), re.M))
    return found


def unbreakable(crate: str) -> dict[str, str]:
    """The clauses that no body can break, with the reason, by lines `FUNCTION NAME: REASON` of the crate's refused/unbreakable.txt."""
    path = ROOT / "crates" / crate / "refused" / "unbreakable.txt"
    return dict(re.findall(r"^(\S+ \w+): (.+)$", path.read_text(), re.M)) if path.is_file() else {}


def list_uncovered(names: Collection[str]) -> int:
    """Prints each clause that says less than an equation and that no mutant names, with the reason if no body can break it, and how many have theirs in planted alone.
    The status is 1 if a clause has neither, or if a reason is given for another clause. Crates for tests alone have no mutants.
    """
    lacking, planted, told = 0, 0, 0
    for name in (it for it in names if not it.endswith("_tests")):
        tried, named, reasons = (
            named_by_edits(name, "refused", "must-fail"),
            named_by_edits(name, "planted"),
            unbreakable(name),
        )
        left = [it.label() for it in of_public_calls({name}) if not it.is_equation() and it.label() not in tried]
        planted += len({*left} & named)
        left = [it for it in left if it not in named]
        for label in left:
            print(f"{name}: {label}" + (f" (no body can break it: {reasons[label]})" if label in reasons else ""))
        for label in reasons.keys() - {*left}:
            print(f"{name}: {label}: it has a reason, but is no such clause or has a mutant")
        lacking += len({*left} ^ reasons.keys())
        told += len({*left} & reasons.keys())
    print(f"{lacking} clauses without a mutant; {planted} with one in planted alone, and {told} that no body can break")
    return 1 if lacking else 0
