"""The gate: proofs, tests, programs and the mutants that the prover must refuse.

Each part prints what it passed, and the last line adds them up: 'N passed, M failed'. If the proofs fail, the other
parts are not run. The mutants are those of crates that changed since all of theirs were refused, and of one more crate,
which the commit's hash chooses. Before the last line come the processor minutes of each crate, and the processor time of
all parts. With a COMMAND it runs only that, and prints the processor minutes of the checks that it starts.

One check runs on each processor, with one job: several jobs of one check would take more processor time. Results kept by
an earlier run take no time and are listed above the table: to measure the whole gate, run it in a fresh clone without
other load. The status is 1 if anything failed.
"""
import argparse
import os
import subprocess
import tempfile
from pathlib import Path

from heskavo.gate import parts, unit_tests
from heskavo.gate.times import Times
from heskavo.repository import ROOT

# The prover's allocator keeps its memory, one or two gigabytes, and uses pages of 2 MiB if the machine has reserved any.
ALLOCATOR = {"MIMALLOC_ALLOW_LARGE_OS_PAGES": "1", "MIMALLOC_PURGE_DELAY": "-1"}


def number_of_commit() -> int:
    """Returns the commit's hash as a number: it chooses the crate whose mutants are tried although it has not changed."""
    words = ["git", "rev-parse", "HEAD"]
    found = subprocess.run(words, cwd=ROOT, capture_output=True, text=True, check=False).stdout.strip()
    return int(found or "0", 16)


def run_all(times: Times) -> list[parts.Result]:
    """Runs the parts, and returns their results."""
    with tempfile.TemporaryDirectory(prefix="gate-") as name:
        kept = Path(name)
        results = [parts.run(["rt", "ci"], times, kept)]
        if results[0].failed == 0:
            also = str(number_of_commit())
            results += [
                parts.run(["tools/refused", "--over-gate", name, "--changed", "--also", also], times),
                parts.run(["tools/refused", "--uncovered"]),
                parts.run(unit_tests.command("test_refused.py", "test_header.py")),
                parts.run(["tools/check"]),
                parts.run(["tools/beside-linux", "300"]),
            ]
    return results


def processor_time() -> str:
    """Returns the processor time of all parts so far."""
    used = os.times()
    user, system = (
        f"{seconds // 60:.0f}m{seconds % 60:.0f}s" for seconds in (used.children_user, used.children_system)
    )
    return f"{user} user, {system} system"


def add_arguments(parser: argparse.ArgumentParser) -> None:
    """Adds the command."""
    parser.add_argument(
        "command", metavar="COMMAND", nargs=argparse.REMAINDER, help="run this instead of the gate's parts"
    )


def run(asked: argparse.Namespace) -> int:
    """Runs the gate, or a command."""
    processors = len(os.sched_getaffinity(0))
    os.environ.update({**ALLOCATOR, "RT_JOBS": str(processors)})
    times = Times()
    results = [parts.run(asked.command, times)] if asked.command else run_all(times)
    passed, failed = sum(it.passed for it in results), sum(it.failed for it in results)
    print(times.table(sum(it.clock for it in results[:2]), processors))
    print(processor_time())
    print(f"{passed} passed, {failed} failed")
    return 1 if failed else 0
