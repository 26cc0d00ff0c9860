"""Tests the gate without a kit: how a part is counted, the table of times, and how a command that starts checks is watched."""
import shutil
import sys
from collections.abc import Callable
from pathlib import Path

import pytest

from heskavo.gate import command, parts, unit_tests
from heskavo.gate.parts import Result
from heskavo.gate.times import Times
from heskavo.gate.watch import Work

LOG = """\
rt: rb_insn: trying its must-fail edits (6)
rt: rb_program: trying its must-fail edits (3)
rb_program: 2 of 3 refused, in 2 rounds, 5 s and 7 s
rt: must-fail rb_insn/big_end_first.edit: refused, as it must be
"""
SECONDS = [
    ("proof", "rb_insn", 93),
    ("edits", "rb_insn", 150),
    ("proof", "rb_program", 42),
    ("tests", "rb_tests", 600),
    ("edits", "rb_program", 6),
]
TABLE = """\
15 minutes of one processor, 8 by the clock on 4 processors

| Crate | proof | tests | edits |
|---|---|---|---|
| all | 2.2 | 10.0 | 2.6 (12) |
| `rb_insn` | 1.6 | - | 2.5 (6) |
| `rb_program` | 0.7 | - | 0.1 (6) |
| `rb_tests` | - | 10.0 | - |"""

# Two checks, the second in the folder of an edit, and a run of tests: each takes some processor time, under the process name that the watch looks for.
CHECKS = """\
cd {room}/crate; {room}/rattle -c '{busy}' check --crate-name rb_insn src/lib.rt &
cd {room}/rt-edit-1-x; {room}/rattle -c '{busy}' check --crate-name rb_insn --incremental {room}/seed src/lib.rt
cd {room}/rt-run-1-x/bin; ./../../rattle -c '{busy}' {room}/rt-run-1-x/bin/rb_tests_tests
wait; echo "3 passed, 0 failed"; exit 3
"""
BUSY = "for i in $(seq 300000); do :; done"


def times_of(log: str) -> Times:
    """Returns the times of a log."""
    times = Times()
    for line in log.splitlines():
        times.read(line)
    for part, crate, seconds in SECONDS:
        times.add(Work(part, crate), seconds)
    return times


def test_the_table_has_a_row_for_each_crate() -> None:
    assert times_of(LOG).table(480, 4) == TABLE


def test_a_crate_that_was_kept_is_listed() -> None:
    kept = "rt: rb_program is kept: an earlier run on this machine proved the same files over the same libraries\n"
    assert "kept by earlier runs, and so not timed: rb_program" in times_of(kept + LOG).table(480, 4)


@pytest.mark.parametrize(
    ("script", "passed", "failed"),
    [
        ("echo '1 passed, 2 failed'; echo '5 passed, 0 failed'", 5, 0),
        ("echo '5 passed, 0 failed'; exit 1", 5, 1),
        ("echo '5 passed, 2 failed'; exit 1", 5, 2),
        ("echo 'all 5 passed, 0 failed'", 1, 0),
        ("exit 7", 0, 1),
        ("kill -9 $$", 0, 1),
    ],
)
def test_a_part_counts_by_its_last_line_and_its_status(script: str, passed: int, failed: int) -> None:
    result = parts.run(["sh", "-c", script])
    assert (result.passed, result.failed) == (passed, failed)


def test_checks_are_seen_with_their_part_and_crate(tmp_path: Path, capfd: pytest.CaptureFixture[str]) -> None:
    for folder in ("crate", "rt-edit-1-x", "rt-run-1-x/bin", "seed"):
        (tmp_path / folder).mkdir(parents=True)
    (tmp_path / "seed" / "proved").touch()
    shutil.copy(shutil.which("bash") or "bash", tmp_path / "rattle")
    times = Times()
    result = parts.run(["bash", "-c", CHECKS.format(room=tmp_path, busy=BUSY)], times, tmp_path / "kept")
    seen = {(part, crate) for (crate, part), seconds in times.seconds.items() if seconds > 0}
    assert seen == {("edits", "rb_insn"), ("proof", "rb_insn"), ("tests", "rb_tests")}
    assert (result.passed, result.failed) == (3, 1)
    assert capfd.readouterr().out.endswith("\n3 passed, 0 failed\n")
    assert [path.name for path in (tmp_path / "kept" / "rb_insn").iterdir()] == ["proved"]


@pytest.fixture
def ran(monkeypatch: pytest.MonkeyPatch) -> list[str]:
    """The parts of the gate that were run, in place of running them; a part whose words contain `bad` fails."""
    found: list[str] = []

    def run(words: list[str], *_: object) -> Result:
        found.append(" ".join(words))
        return Result(2, int("bad" in words), 1.0)

    monkeypatch.setattr(parts, "run", run)
    return found


def test_all_parts_run_after_the_proofs(ran: list[str]) -> None:
    results = command.run_all(Times())
    assert ran[0] == "rt ci" and len(results) == len(ran) == 6
    assert "tools/beside-linux 300" in ran
    mutants = [part for part in ran if part.startswith("tools/refused --over-gate")]
    assert [part.split()[-3:] for part in mutants] == [["--changed", "--also", str(command.number_of_commit())]]


def test_nothing_runs_after_proofs_that_fail(monkeypatch: pytest.MonkeyPatch) -> None:
    results: list[Callable[..., Result]] = []
    monkeypatch.setattr(parts, "run", lambda *_: results.append(Result) or Result(0, 1, 1.0))
    assert [it.failed for it in command.run_all(Times())] == [1] and len(results) == 1


def test_without_pytest_a_message_says_so_and_the_part_fails(
    monkeypatch: pytest.MonkeyPatch, capfd: pytest.CaptureFixture[str]
) -> None:
    monkeypatch.setattr(unit_tests, "python", lambda: None)
    result = parts.run(unit_tests.command("test_gate.py"))
    assert (result.passed, result.failed) == (0, 1)
    assert "python3-pytest" in capfd.readouterr().out


def test_a_python_with_pytest_is_found() -> None:
    assert unit_tests.python_with_pytest() is not None and sys.version_info >= (3, 11)
