"""Goals of mutated functions: which ones a check leaves open, and the answers that a check tries in addition to the stored ones.

If a goal stays open, `rattle` runs its prover a second time to print the file to write. A check that finds an answer with a hole has
no file to print, and reports each open goal in a note. So each mutated function gets such an answer.

The prover spends longest on goals that it cannot prove: it tries every tactic with the highest limits, on the whole goal and on its
parts. If a mutant notes a goal that two tactics prove in the right body, the check tries that goal with these two alone. If it notes
other goals, the check searches for one of them. All other goals that it leaves open get holes.
"""
from __future__ import annotations

import pathlib
import re
from collections.abc import Callable, Iterable
from typing import Any

from heskavo.refused import answers
from heskavo.refused.edits import Edit, Owner
from heskavo.refused.kit import Answer, Work

NOTE = re.compile(r"^note: (?:\./)?(src/\S+?):(\d+):\d+: .*\(((?:`[^`]+`(?:, | and )?)+)\)")
NAMED = re.compile(r"`([^`]+)`")
FAILED = re.compile(r"^: `([^`]+)`: `(search|grind)`")
ASKED = re.compile(r"^help: `Goals` has no `([^`]+)`; rattle asks for ((?:`[^`]+`(?:, | and )?)+)")
# The name of the answer with a hole.
HOLE = "no-file-to-print"
# The two tactics that a check runs first on a goal without an answer.
TACTICS = {"search": "search tried-rules", "grind": "grind (tried-arith, tried-steps)"}
# What is taken out of a function whose whole proof is written by hand.
WHOLE_PROOF = "Proof.antt"


TACTICS_USED = [
    "use Rattle.std.proofs.Common.{rules as tried-rules, arith as tried-arith}",
    "use Rattle.std.proofs.lemmas.Grind.{common_steps as tried-steps}",
]


def name_of_try(goal: str, tactic: str) -> str:
    """The name of the answer by which a tactic tries a goal; the first is the goal's own answer."""
    return goal if tactic == "search" else f"{goal}-by-{tactic}"


def answers_file(owner: Owner) -> str:
    return f"{owner.proofs()}/Answers.antt"


def stored_answers(crate: Any, owner: Owner) -> str:
    """The function's file of answers, empty if it has none."""
    path = pathlib.Path(crate.folder, answers_file(owner))
    return path.read_text() if path.is_file() else ""


def is_by_hand(crate: Any, owner: Owner) -> bool:
    return pathlib.Path(crate.folder, owner.proofs(), WHOLE_PROOF).is_file()


class Beside:
    """The answers with which a check tries one function: the stored ones without those that are taken out, the goals that two tactics try, and holes for the goals
    that are passed over."""

    def __init__(
        self,
        crate: Any,
        owner: Owner,
        tried: Iterable[str] = (),
        passed_over: Iterable[str] = (),
        taken_out: Iterable[str] = (),
        probed: Iterable[str] = (),
    ) -> None:
        self.crate, self.owner, self.taken_out = crate, owner, taken_out
        self.is_by_hand = is_by_hand(crate, owner) and WHOLE_PROOF not in taken_out
        self.stored = answers.without(stored_answers(crate, owner), taken_out)
        answered = answers.of_goals(self.stored)
        self.tried, self.probed = [it for it in tried if it not in answered], list(probed)
        self.holes = [it for it in dict.fromkeys(passed_over) if it not in answered and it not in tried]
        goals = f"use Rattle.{crate.name}.proofs.{owner.path().replace('::', '.')}.Goals as "
        # a module has one name in a file
        named = re.search(rf"^{re.escape(goals)}(\S+)$", self.stored, re.M)
        self.goals = named[1] if named else "tried"
        self.uses = (
            [*TACTICS_USED, *([] if named else [f"{goals}tried"])] if self.tried or self.holes or self.probed else []
        )

    def answer(self, name: str, goal: str, text: str) -> str:
        return f"\n{'pub ' if name == goal else ''}{name} : {self.goals}.{goal}\n{name} = {text}\n"

    def probe(self, goal: str) -> str:
        """The name of an answer for which the check says whether the function has the goal."""
        return f"probe-{self.probed.index(goal)}"

    def text(self) -> str:
        """The function's file of answers with them."""
        tries = [
            self.answer(name_of_try(goal, tactic), goal, text)
            for goal in self.tried
            for tactic, text in TACTICS.items()
        ]
        holes = [self.answer(goal, goal, "?") for goal in self.holes]
        probes = [self.answer(self.probe(goal), goal, "?") for goal in self.probed]
        return "\n".join([*self.uses, self.stored]) + "".join(
            [*tries, *holes, *probes, f"\n{HOLE} : Type 0\n{HOLE} = ?\n"]
        )

    def texts(self) -> dict[str, str | None]:
        """The files that the check has in place of the function's own; of one that is None there is none."""
        return {answers_file(self.owner): self.text()} | (
            {f"{self.owner.proofs()}/{WHOLE_PROOF}": None} if WHOLE_PROOF in self.taken_out else {}
        )


def reported_open(
    answer_of_check: Answer, owner_at: Callable[[str, int], Owner | None]
) -> dict[Owner | None, list[str]]:
    """The goals that a check reported as open in notes, by the function that they belong to."""
    found: dict[Owner | None, list[str]] = {}
    for line in answer_of_check.lines:
        note = NOTE.match(line)
        if note:
            found.setdefault(owner_at(note[1], int(note[2]) - 1), []).extend(NAMED.findall(note[3]))
    return found


def lacking(answer_of_check: Answer, beside: Beside) -> list[str]:
    """Those of the probed goals that the function does not have. `rattle` can't name a goal for an answer of another name, but says in a help whether it asks for it."""
    refused = named_errors(answer_of_check, answers_file(beside.owner))
    asked = {
        found[1]
        for line in answer_of_check.lines
        for found in [ASKED.match(line)]
        if found and found[1] in NAMED.findall(found[2])
    }
    return [goal for goal in beside.probed if beside.probe(goal) in refused and goal not in asked]


def failed_tries(answer_of_check: Answer, file: str) -> set[str]:
    """The names of those answers of a file for which a tactic found no proof."""
    return {
        found[1]
        for error in answer_of_check.errors()
        if error.file == file
        for found in [FAILED.match(error.said)]
        if found
    }


def named_errors(answer_of_check: Answer, file: str) -> set[str]:
    """The names of those answers of a file that are refused."""
    return {
        found[1]
        for error in answer_of_check.errors()
        if error.file == file
        for found in [re.match(r": `([^`]+)`", error.said)]
        if found
    }


def proved_by_tactics(work: Work, edits: Iterable[Edit]) -> set[tuple[Owner, str]]:
    """The functions and their goals that exist in the right bodies too and that one of the two tactics proves there."""
    wanted: dict[Owner, set[str]] = {}
    for edit in (it for it in edits if len(it.owners) == 1):
        wanted.setdefault(next(iter(edit.owners)), set()).update(edit.left_open)
    beside = {owner: Beside(work.crate, owner, sorted(goals)) for owner, goals in wanted.items()}
    beside = {owner: it for owner, it in beside.items() if it.tried and not it.is_by_hand}
    if not beside:
        return set()
    answer = work.check(
        {file: text for it in beside.values() for file, text in it.texts().items()},
        sorted(owner.path() for owner in beside),
    )
    if not answer.reached_the_prover():
        return set()
    found = set()
    for owner, it in beside.items():
        wrong = named_errors(answer, answers_file(owner))
        found |= {(owner, goal) for goal in it.tried if not {name_of_try(goal, tactic) for tactic in TACTICS} <= wrong}
    return found
