"""The processor time of each part of the gate, as the table of docs/ARCHITECTURE.md, one row per crate."""
import collections
import re

from heskavo.gate.watch import Work
from heskavo.repository import libraries_of_crates

PARTS = ("proof", "tests", "edits")
EDITS = re.compile(r"rt: (\w+): trying its must-fail edits \((\d+)\)|(\w+): \d+ of (\d+) refused, .*")
KEPT = re.compile(r"rt: (\w+) is kept: |rt: (\w+): \d+ of its \d+ must-fail edits were tried by an earlier run")


class Times:
    """The processor seconds of each part of each crate, the number of mutants that were tried, and what an earlier run had kept."""

    def __init__(self) -> None:
        self.seconds: dict[tuple[str, str], float] = collections.defaultdict(float)
        self.edits: collections.Counter[str] = collections.Counter()
        self.kept: list[str] = []

    def add(self, work: Work, seconds: float) -> None:
        """Counts a check that has ended."""
        self.seconds[work.crate, work.part] += seconds

    def read(self, line: str) -> None:
        """Reads a line that `rt ci` or tools/refused printed: how many mutants it tried, or that it did not repeat something."""
        if found := EDITS.fullmatch(line):
            self.edits[found[1] or found[3]] += int(found[2] or found[4])
        elif found := KEPT.match(line):
            self.kept.append(found[1] or f"edits of {found[2]}")

    def crates(self) -> list[str]:
        """Returns the crates that took time, in the order of crates.txt."""
        named, order = {crate for crate, _ in self.seconds} | {*self.edits}, [*libraries_of_crates()]
        return [it for it in order if it in named] + sorted(named - {*order})

    def cell(self, part: str, crates: list[str]) -> str:
        """Returns the minutes of one part of some crates, with the number of mutants if that is the part."""
        seconds, edits = sum(self.seconds[it, part] for it in crates), sum(self.edits[it] for it in crates)
        if not seconds:
            return "-"
        return f"{seconds / 60:.1f} ({edits})" if part == "edits" else f"{seconds / 60:.1f}"

    def table(self, clock: float, processors: int) -> str:
        """Returns the table, for a run of so many seconds by the clock."""
        crates = self.crates()
        whole = sum(self.seconds.values()) / 60
        lines = [f"{whole:.0f} minutes of one processor, {clock / 60:.0f} by the clock on {processors} processors"]
        lines += [f"kept by earlier runs, and so not timed: {', '.join(self.kept)}"] if self.kept else []
        lines += ["", "| Crate | proof | tests | edits |", "|---|---|---|---|"]
        for name, of in [("all", crates), *((f"`{it}`", [it]) for it in crates)]:
            lines.append(f"| {' | '.join([name, *(self.cell(part, of) for part in PARTS)])} |")
        return "\n".join(lines)
