"""Tries a crate's mutants in rounds: one check tries the mutants of many functions.

A function's proof rests on its own body and on the contracts of what it calls, never on another body, so mutants of different functions do not interfere. If a
function calls another that is not proved in that round, the check skips it, and its mutant is tried again in the next round.
"""
from __future__ import annotations

import enum
import re
from collections.abc import Callable

from heskavo.refused import answers, clauses, edits as edit_files, goals, right_bodies
from heskavo.refused.edits import Edit, Owner
from heskavo.refused.kit import Answer, Work

OPEN = re.compile(r"`search` did not prove (.*)$")
HIDDEN = re.compile(r"it (?:calls|waits)\b")
# How often stored answers that do not fit are taken out of a mutant's way.
TIMES = 3


class Outcome(enum.Enum):
    """What a try of a mutant came to."""

    REFUSED = "refused"
    LIMIT = "LIMIT: only a limit of the prover refuses it"
    ANSWER = "ANSWER: no goal is open that the right body closes"
    PROVED = "PROVED"
    BAD = "BAD EDIT"
    UNTOLD = "NOT TOLD"


def is_shared(edit: Edit, group: list[Edit]) -> bool:
    """Whether another edit of a group changes a function of this one."""
    return any(edit.owners & other.owners for other in group if other is not edit)


class Rounds:
    """The rounds over one crate, and what each of its mutants came to."""

    def __init__(self, work: Work, edits: list[Edit], tell: Callable[[str], None]) -> None:
        self.work, self.tell = work, tell
        self.left: list[Edit] = []
        self.outcomes: dict[Edit, Outcome] = {}
        self.right = right_bodies.RightBodies(work)
        noted = {edit for edit in edits if edit.is_noted()}
        self.by_itself = {edit for edit in noted if edit.tried}
        self.by_notes = noted - self.by_itself
        for edit in {*edits} - noted:
            edit.taken_out = set()
        self.alone: set[Edit] = set()
        self.bare: set[Edit] = set()
        self.number = 0
        # Those whose notes lack stored answers that do not fit.
        self.lack_answers: list[Edit] = []
        for edit in edits:
            if edit.fault:
                self.end(edit, Outcome.BAD, edit.fault)
            else:
                self.left.append(edit)

    def end(self, edit: Edit, outcome: Outcome, why: str) -> None:
        self.outcomes[edit] = outcome
        self.tell(
            f"  {outcome.value}: {edit.label()} [{edit.where()}] in round {self.number}{': ' + why if why else ''}"
        )

    def group(self) -> list[Edit]:
        """As many edits as can be tried at once, or one alone that changes more than functions or is to be tried alone."""
        found: list[Edit] = []
        for edit in self.left:
            if edit.is_outside or edit in self.alone:
                if not found:
                    return [edit]
            elif all(edit.may_stand_beside(other) for other in found):
                found.append(edit)
        return found

    def run(self) -> None:
        tried_alone = False
        while self.left:
            group = self.left[:1] if tried_alone else self.group()
            self.number += 1
            decided = self.one_round(group)
            tried_alone = not decided
            if not decided and len(group) == 1:
                self.decide(group[0], Outcome.UNTOLD, "a function that it calls is not proved")
                tried_alone = False

    def without_valid_notes(self) -> list[Edit]:
        """The edits that had no notes or whose notes did not tell of them."""
        return [edit for edit in self.outcomes if edit not in self.by_itself | self.by_notes]

    def decide(self, edit: Edit, outcome: Outcome, why: str = "") -> None:
        self.left.remove(edit)
        self.end(edit, outcome, why)

    def beside(self, group: list[Edit]) -> dict[Owner, goals.Beside]:
        """The answers with which each function that these change is tried."""
        found = {}
        for owner in set().union(*(edit.owners for edit in group)):
            mine = [edit for edit in group if owner in edit.owners]
            if any(edit in self.bare for edit in mine):
                continue
            tried = [edit.tried for edit in mine if edit in self.by_itself]
            passed_over = [
                goal for edit in mine if edit in self.by_itself | self.by_notes for goal in edit.passed_over()
            ]
            taken_out = set().union(*(edit.taken_out for edit in mine)) - {*tried}
            found[owner] = goals.Beside(
                self.work.crate, owner, tried, self.goals_among(owner, passed_over, taken_out), taken_out
            )
        return {owner: it for owner, it in found.items() if not it.is_by_hand}

    def goals_among(self, owner: Owner, passed_over: list[str], taken_out: set[str]) -> list[str]:
        """Those of these names that are goals: a stored answer that is taken out may be a lemma of its file."""
        answered = answers.of_goals(goals.stored_answers(self.work.crate, owner))
        return [it for it in passed_over if it in answered or it not in taken_out]

    def one_round(self, group: list[Edit]) -> int:
        """Tries these together, and returns how many were decided or are to be tried in another form."""
        beside = self.beside(group)
        texts = edit_files.together(group) | {file: text for it in beside.values() for file, text in it.texts().items()}
        answer = self.work.check(texts, sorted(set().union(*(edit.paths() for edit in group))))
        before = len(self.left)
        if not answer.reached_the_prover():
            return self.without_broken(group, answer)

        def owner_at(file: str, line: int) -> Owner | None:
            text = texts.get(file)
            return (
                None if text is None else edit_files.owner_of_item(self.work.crate.folder, file, text.split("\n"), line)
            )

        reported = goals.reported_open(answer, owner_at)
        changed = 0
        for edit in group:
            changed += self.judge(edit, answer, reported, beside, is_shared(edit, group))
        return before - len(self.left) + changed

    def without_broken(self, group: list[Edit], answer: Answer) -> int:
        """Takes out those that do not compile: those whose lines have an error, alone or beside another of their function, which is tried alone then. If no line of
        theirs has one, each half is tried by itself. Returns how many were decided or are to be tried in another form.
        """
        errors = [error for error in answer.errors() if error.file.startswith("src/")]
        broken = [edit for edit in group if any(self.has_line(edit, group, error.file, error.line) for error in errors)]
        if len(group) == 1:
            broken = group
        if not broken:
            half = len(group) // 2
            return self.one_round(group[:half]) + self.one_round(group[half:])
        for edit in broken:
            if is_shared(edit, group):
                self.alone.add(edit)
            elif edit.is_outside and edit.owners and not errors:
                self.decide(edit, Outcome.UNTOLD, "no function of the crate that uses it is checked")
            else:
                why = next(
                    (error.said for error in errors if any(change.file == error.file for change in edit.changes)), ""
                )
                self.decide(edit, Outcome.BAD, "it does not compile" + why[:160])
        return len(broken)

    def has_line(self, edit: Edit, group: list[Edit], file: str, line: int) -> bool:
        """Whether a line of a file, as this round has it, is in a function that this edit changes."""
        lines = edit_files.together(group).get(file, "").split("\n")
        owner = edit_files.owner_of(edit.crate.folder, file, lines, line - 1)
        return owner in edit.owners and any(change.file == file for change in edit.changes)

    def again(self, edit: Edit, *forms: set[Edit]) -> int:
        """Has the edit tried again in another form."""
        for form in forms:
            form.add(edit)
        return 1

    def judge(
        self,
        edit: Edit,
        answer: Answer,
        reported: dict[Owner | None, list[str]],
        beside: dict[Owner, goals.Beside],
        shares: bool,
    ) -> int:
        """Decides an edit by what the round said of its functions; returns 1 if it is to be tried in another form."""
        if edit.is_outside and not edit.owners:
            others = [
                text for text in answer.said.values() if not text.startswith("proved") and not HIDDEN.search(text)
            ]
            self.decide(edit, Outcome.PROVED if answer.status == 0 else Outcome.REFUSED if others else Outcome.UNTOLD)
            return 0
        said = [text for owner in edit.owners for text in owner.lines(edit.crate.name, answer.said)]
        is_hidden = any(HIDDEN.search(text) for text in said)
        if edit in self.by_itself:
            return self.judge_try(edit, answer, is_hidden)
        opened, unfit = self.opened(edit, answer, reported, beside, said)
        if shares:
            opened = {owner: [goal for goal in found if goal in edit.left_open] for owner, found in opened.items()}
            unfit = set()
        is_known = edit in self.by_notes and not unfit
        own = {
            owner: found if is_known else self.right.closed(owner, edit.taken_out | unfit, found)
            for owner, found in opened.items()
        }
        if any(own.values()):
            self.refuse(edit, unfit, list(dict.fromkeys(goal for found in own.values() for goal in found)))
        elif any(text.startswith("could not tell") for text in said):
            self.decide(edit, Outcome.LIMIT)
        elif edit in self.by_notes:
            return self.without_notes(edit, is_hidden)
        elif shares:
            return self.again(edit, self.alone)
        elif unfit:
            return self.take_out(edit, unfit)
        elif any(opened.values()) or self.has_errors(edit, answer):
            left = sorted({goal for found in opened.values() for goal in found})
            self.decide(
                edit,
                Outcome.ANSWER,
                f"open in the right body too, without the same answers: {', '.join(left)}"[:200] if left else "",
            )
        elif is_hidden:
            return 0
        elif not said:
            self.decide(edit, Outcome.UNTOLD, "no line tells of its function")
        elif beside.keys() & edit.owners:
            return self.again(edit, self.alone, self.bare)
        else:
            self.decide(edit, Outcome.PROVED if all(text.startswith("proved") for text in said) else Outcome.UNTOLD)
        return 0

    def opened(
        self,
        edit: Edit,
        answer: Answer,
        reported: dict[Owner | None, list[str]],
        beside: dict[Owner, goals.Beside],
        said: list[str],
    ) -> tuple[dict[Owner, list[str]], set[str]]:
        """The goals of each function of an edit that are open, and the stored answers that do not fit."""
        spoken = [
            goal
            for text in said
            for found in [OPEN.search(text)]
            if found
            for goal in goals.NAMED.findall(found[1].split(";")[0])
        ]
        opened, unfit = {}, set()
        for owner in edit.owners:
            holes, text = (
                (beside[owner].holes, beside[owner].text())
                if owner in beside
                else ([], goals.stored_answers(edit.crate, owner))
            )
            errors = [error for error in answer.errors() if error.file == goals.answers_file(owner)]
            searched = [error for error in errors if answers.is_of_the_goal(text, error)]
            found = [
                *spoken,
                *reported.get(owner, []),
                *(name for error in searched for name in answers.unfit(text, [error])),
            ]
            opened[owner] = [goal for goal in dict.fromkeys(found) if goal not in holes and goal not in {goals.HOLE}]
            unfit |= answers.unfit(text, [error for error in errors if error not in searched]) - {*holes, goals.HOLE}
            if any(error.file == f"{owner.proofs()}/{goals.WHOLE_PROOF}" for error in answer.errors()):
                unfit.add(goals.WHOLE_PROOF)
        return opened, unfit - edit.taken_out

    def has_errors(self, edit: Edit, answer: Answer) -> bool:
        """Whether what is written of the proofs of its functions has an error."""
        return any(error.file.startswith(owner.proofs() + "/") for owner in edit.owners for error in answer.errors())

    def refuse(self, edit: Edit, unfit: set[str], own: list[str]) -> None:
        if edit in self.by_notes and unfit:
            self.lack_answers.append(edit)
        edit.taken_out |= unfit
        edit.open_goals, edit.open_clauses = own, clauses.opened(edit, own)
        without = f", without the answers {', '.join(sorted(edit.taken_out))}" if edit.taken_out else ""
        self.decide(edit, Outcome.REFUSED, f"open: {', '.join(own)}{without}"[:200])

    def judge_try(self, edit: Edit, answer: Answer, is_hidden: bool) -> int:
        """Decides an edit whose goal was tried by itself: it is refused if no tactic found a proof; else all its goals are searched for."""
        owner = next(iter(edit.owners))
        failed = goals.failed_tries(answer, goals.answers_file(owner))
        if {goals.name_of_try(edit.tried, tactic) for tactic in goals.TACTICS} <= failed:
            self.decide(edit, Outcome.REFUSED, f"open: {edit.tried}")
            return 0
        if is_hidden and not failed:
            return 0
        self.by_itself.remove(edit)
        edit.taken_out = set()
        return 1

    def without_notes(self, edit: Edit, is_hidden: bool) -> int:
        """Has an edit tried with all its goals if what it notes did not tell of it, or again as it is if a call hides it."""
        if is_hidden:
            return 0
        self.by_notes.remove(edit)
        edit.taken_out = set()
        return 1

    def take_out(self, edit: Edit, unfit: set[str]) -> int:
        """Has the edit tried again without the stored answers that do not fit, so that their goals are searched for."""
        edit.times_taken_out += 1
        if edit.times_taken_out > TIMES:
            self.decide(edit, Outcome.ANSWER, f"these do not fit: {', '.join(sorted(edit.taken_out | unfit))}"[:200])
            return 0
        edit.taken_out |= unfit
        return 1
