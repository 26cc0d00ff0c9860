"""The rows of tools/bench, and what is read of the commands that they run."""
import os
import re
import resource
import statistics
import subprocess
import time
from typing import Any

# A round of whole jobs or of a stream is discarded if more than one job or context of this number was refused.
ONE_REFUSED_OF = 200


class Row:
    """A line of the table: what is measured, our command and the yardsticks' (a list of words each), and the number of items in a round. The figure
    is items a second in the unit, or with `per` the nanoseconds of one item over `per`. With `jobs`, rounds with many refusals are discarded; with `lost`
    refusals do not count in the figure, and their share is reported. With `least` the ratio of the minima is also reported. With `stdin` a command is a whole process, timed from start to end, and a round is one process.
    With `out` it reads `stdin` through a pipe, writes to this file, and reports how many records were refused on standard error.
    """

    def __init__(
        self,
        name: str,
        ours: Any,
        theirs: Any,
        things: int,
        unit: str,
        per: float | None = None,
        jobs: bool = False,
        lost: bool = False,
        least: bool = False,
        stdin: str | None = None,
        out: str | None = None,
    ) -> None:
        self.name, self.ours, self.theirs, self.things, self.unit = name, ours, theirs, things, unit
        self.per, self.jobs, self.lost, self.least, self.stdin, self.out = per, jobs, lost, least, stdin, out

    def figure(self, nanos: int, refused: int) -> float:
        things = self.things - refused if self.lost else self.things
        return nanos / things / self.per if self.per else things / nanos * 1e3

    def is_clean(self, refused: int) -> bool:
        return not self.jobs or refused * ONE_REFUSED_OF <= self.things


class Readings:
    """The figures of the valid rounds of one command, the number of discarded rounds, and the peak memory in megabytes."""

    def __init__(self) -> None:
        self.figures: list[float] = []
        self.shares: list[float] = []
        self.left_out, self.peak = 0, 0.0

    def add(self, row: Row, command: list[str]) -> None:
        child, began = started(command, row), time.monotonic()
        text = child.stdout.read().decode() if child.stdout else ""
        told = child.stderr.read().decode() if child.stderr else ""
        self.peak = max(self.peak, peak_of(child, command))
        rounds = [line.split() for line in text.splitlines()]
        if row.stdin:
            reported = re.search(r" refused (\d+)", told)
            rounds = [[str(int((time.monotonic() - began) * 1e9)), reported[1] if reported else "0"]]
        for nanos, refused in (map(int, words) for words in rounds):
            self.shares.append(refused / row.things)
            if row.is_clean(refused):
                self.figures.append(row.figure(nanos, refused))
            else:
                self.left_out += 1

    def median(self) -> float:
        return statistics.median(self.figures)

    def text(self) -> str:
        if not self.figures:
            return "no clean round"
        return f"{self.median():.2f} ({min(self.figures):.2f} to {max(self.figures):.2f})"


def started(command: list[str], row: Row) -> "subprocess.Popen[bytes]":
    """Starts a process of the command for a row. The output of a command that reads a file is discarded, unless the row has a file for it."""
    if row.stdin is None:
        return subprocess.Popen(command, stdout=subprocess.PIPE, stderr=subprocess.DEVNULL)
    if row.out is not None:
        feed = subprocess.Popen(["cat", row.stdin], stdout=subprocess.PIPE)
        assert feed.stdout
        with feed.stdout as given, open(row.out, "wb") as out:
            return subprocess.Popen(command, stdin=given, stdout=out, stderr=subprocess.PIPE)
    with open(row.stdin, "rb") as given:
        return subprocess.Popen(command, stdin=given, stdout=subprocess.DEVNULL, stderr=subprocess.DEVNULL)


def peak_of(child: "subprocess.Popen[bytes]", command: list[str]) -> float:
    """Waits for a process, and returns its peak memory in megabytes, or that of this script if it is higher: Linux starts the
    peak of a process at the memory of its parent."""
    _, status, usage = os.wait4(child.pid, 0)
    child.returncode = os.waitstatus_to_exitcode(status)
    if child.returncode != 0:
        raise subprocess.CalledProcessError(child.returncode, command)
    return usage.ru_maxrss * 1024 / 1e6


def measure(row: Row, turns: int) -> tuple[Readings, Readings | None]:
    """Returns the readings of our command, and those of the yardstick whose median is best, or None."""
    ours, theirs = Readings(), [Readings() for _ in row.theirs]
    for _ in range(2 * turns if row.stdin else turns):
        ours.add(row, row.ours)
        for readings, command in zip(theirs, row.theirs):
            readings.add(row, command)
    clean = [readings for readings in theirs if readings.figures]
    best = min if row.per else max
    return ours, best(clean, key=Readings.median) if clean else None


def tell(row: Row, ours: Any, theirs: Any) -> str:
    """Prints the row's line and returns it."""
    own = resource.getrusage(resource.RUSAGE_SELF).ru_maxrss * 1024 / 1e6
    peak = f"{ours.peak:.0f} MB" if ours.peak > 1.1 * own else f"< {ours.peak:.0f} MB"
    ratio = f"{ours.median() / theirs.median():.2f}" if theirs and ours.figures else "-"
    if row.least and ratio != "-":
        ratio += f", {min(ours.figures) / min(theirs.figures):.2f}"
    left_out = f"{ours.left_out}, {theirs.left_out if theirs else 0}" if row.jobs else "-"
    if row.lost:
        left_out = ", ".join(f"{statistics.median(each.shares):.1%}" for each in (ours, theirs))
    line = f"{row.name:48} {row.unit:5} {ours.text():28} {theirs.text() if theirs else '-':28} {ratio:>10} {left_out:>8} {peak:>8}"
    print(line, flush=True)
    return line
