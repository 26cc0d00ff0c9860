"""Which goals the right body of a function closes without some of its stored answers.

A stored answer is written for one body. If it does not fit a mutant, that alone says nothing of the contract: without the answer the
goal may be open in the right body too. So the same answers are taken out of the right body, and only goals that it closes count.
"""
import hashlib
import json
import pathlib
from collections.abc import Iterable

from heskavo.refused import answers, edits as edit_files, goals
from heskavo.refused.edits import Owner
from heskavo.refused.kit import Work


class RightBodies:
    """The right bodies of a crate; what a check said of one is kept under the crate's out/, by the contents of all that it read."""

    def __init__(self, work: Work) -> None:
        self.work, self.crate = work, work.crate
        self.folder = pathlib.Path(self.crate.folder, "out", "right_bodies")
        self.stamp, self.checks = None, 0

    def closed(self, owner: Owner, taken_out: Iterable[str], opened: list[str]) -> list[str]:
        """Those of these goals, which a mutant of this function leaves open without these stored answers, that the right body closes without them."""
        if not taken_out:
            return opened
        stored = answers.of_goals(answers.without(goals.stored_answers(self.crate, owner), taken_out))
        asked = [goal for goal in opened if goal not in stored]
        left = self.left_open(owner, sorted(taken_out), sorted(asked)) if asked else []
        return [goal for goal in opened if goal not in left]

    def left_open(self, owner: Owner, taken_out: Iterable[str], asked: list[str]) -> list[str]:
        """Those of these goals that the right body lacks or leaves open."""
        beside = goals.Beside(self.crate, owner, taken_out=taken_out, probed=asked)
        place = self.place(owner, beside.text())
        if place.is_file():
            return json.loads(place.read_text())
        self.checks += 1
        answer = self.work.check(beside.texts(), [owner.path()])
        source = lambda file: pathlib.Path(self.crate.folder, file).read_text().split("\n")
        found = goals.reported_open(
            answer, lambda file, line: edit_files.owner_of_item(self.crate.folder, file, source(file), line)
        ).get(owner, [])
        lacking = goals.lacking(answer, beside)
        unsure = not answer.reached_the_prover() or any(
            text.startswith("could not tell") for text in owner.lines(self.crate.name, answer.said)
        )
        left = [goal for goal in asked if unsure or goal in found or goal in lacking]
        self.keep(place, left)
        return left

    def place(self, owner: Owner, text: str) -> pathlib.Path:
        if self.stamp is None:
            self.stamp = self.crate.stamp()
        return self.folder / (hashlib.sha256(repr((self.stamp, owner.path(), text)).encode()).hexdigest() + ".json")

    def keep(self, place: pathlib.Path, left: list[str]) -> None:
        try:
            self.folder.mkdir(parents=True, exist_ok=True)
            place.write_text(json.dumps(left))
        except OSError:
            pass
