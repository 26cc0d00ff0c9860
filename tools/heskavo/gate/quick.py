"""Runs all checks of the repository that need no proof, one on each processor, and reports their times.

With WORDs it runs those whose name contains one of these, as in `tools/quick rows json`. It proves nothing: tests and
programs are built by `rt try`, which runs them without proof. Prints a line for each check, and for a failed one the
last lines of its output; at the end 'N passed, M failed', with status 1 if one failed. Checks that time a program run
after all others, one at a time. The tests below tools/tests are run by pytest, which is installed if it is missing and
this user may; each can also be run alone, as in `/usr/bin/python3 -m pytest tools/tests/test_json.py`.
"""
import argparse
import concurrent.futures
import dataclasses
import os
import re
import shutil
import subprocess
import time
from collections.abc import Callable, Iterable
from pathlib import Path

from heskavo.command_line import Failure
from heskavo.gate import unit_tests
from heskavo.repository import CRATES, ROOT, TOOLS

SERVICE = ("test_service.py", "test_service_peers.py", "test_segments.py")
# How many of the last lines of a failed check are shown.
SHOWN = 15

# Returns whether the check passed, and its output.
Body = Callable[[], tuple[bool, str]]


@dataclasses.dataclass(frozen=True)
class Check:
    """A check. One that times a program would fail under other load."""

    name: str
    body: Body
    is_timed: bool = False


def run_words(words: Iterable[str | Path], folder: Path = ROOT, given: Path | None = None) -> tuple[bool, str, str]:
    """Runs a command, and returns whether it succeeded and its output."""
    with open(given or os.devnull, "rb") as it:
        run = subprocess.run([*words], cwd=folder, stdin=it, capture_output=True, check=False)
    return run.returncode == 0, run.stdout.decode(errors="replace"), run.stderr.decode(errors="replace")


def command(*words: str | Path) -> Body:
    """Returns a check that runs a command."""

    def body() -> tuple[bool, str]:
        well, out, err = run_words(words)
        return well, out + err

    return body


def unit_test(*names: str) -> Body:
    """Returns a check that runs files of tests."""
    return lambda: command(*unit_tests.command(*names))()


def tests_of(crate: str) -> Body:
    """Returns a check that runs the tests of a crate, without proof."""

    def body() -> tuple[bool, str]:
        well, out, err = run_words(["rt", "try", "--test", "--seconds", "120"], CRATES / crate)
        return well, out + err

    return body


def rows_of(crate: str) -> Body:
    """Returns a check that runs a program of rows over its stored rows, and compares its answers."""

    def body() -> tuple[bool, str]:
        folder = CRATES / crate
        well, out, err = run_words(["rt", "try", "--seconds", "400"], folder, folder / "stdin")
        wanted = (folder / "stdout").read_text()
        if well and out == wanted:
            return True, ""
        pairs = zip(wanted.split("\n"), out.split("\n"))
        other = (f"expected: {one}\nfound:    {found}" for one, found in pairs if one != found)
        return False, f"{next(other, 'a different number of lines')}\n{err}"

    return body


def layout() -> tuple[bool, str]:
    """Checks the layout of the sources, which `rt fmt` makes."""
    rattle = Path(os.path.realpath(shutil.which("rt") or "rt")).parent / "rattle"
    folders = [(folder, end) for folder in ("src", "specs", "proofs") for end in ("rt", "antt")]
    sources = [path for folder, end in folders for path in sorted(CRATES.glob(f"*/{folder}/**/*.{end}"))]
    return command(rattle, "fmt", "--check", *sources)()


def python() -> tuple[bool, str]:
    """Checks the types and the layout of the Python code, by those of Debian's packages mypy and black that are installed."""
    results = [
        command(tool, *words)()
        for tool, *words in (("mypy",), ("black", "-q", "--check", "tools"))
        if shutil.which(tool)
    ]
    return all(well for well, _ in results), "".join(said for _, said in results)


def crates_with_tests() -> list[str]:
    """Returns the crates that have tests."""
    sources = CRATES.glob("*/src/**/*.rt")
    return sorted({it.relative_to(CRATES).parts[0] for it in sources if re.search(r"#\[test\]", it.read_text())})


def checks() -> list[Check]:
    """Returns all checks, the slowest ones first."""
    return [
        *(Check(f"tests of {crate}", tests_of(crate)) for crate in crates_with_tests()),
        *(Check(f"rows of {crate}", rows_of(crate)) for crate in ("rb_program_rows", "rb_ring_rows")),
        Check("json", unit_test("test_json.py")),
        Check("progress", unit_test("test_progress.py")),
        Check("live output", unit_test("test_live.py"), is_timed=True),
        Check("commands of README and TUTORIAL", unit_test("test_readme.py")),
        Check("layout", layout),
        Check("stored answers", command(TOOLS / "trials", "rows", "stored")),
        Check("programs from C", unit_test("test_bpf_hex.py")),
        Check("header for C", unit_test("test_header.py")),
        Check("tapes from Linux", unit_test("test_linux_tape.py")),
        Check("tapes through Redis", unit_test("test_ship.py"), is_timed=True),
        Check("captures", unit_test("test_pcap_frames.py")),
        Check("service", unit_test(*SERVICE), is_timed=True),
        Check("documents", command(TOOLS / "check")),
        Check("gate", unit_test("test_gate.py")),
        Check("checks of documents", unit_test("test_documents.py")),
        Check("builds without proof", unit_test("test_program.py", "test_calls.py")),
        Check("python", python),
    ]


def run_all(chosen: list[Check], lanes: int) -> int:
    """Runs these checks, as many at a time as there are lanes. Prints a line for each, and returns how many failed."""

    def timed(check: Check) -> tuple[Check, bool, str, float]:
        began = time.monotonic()
        well, said = check.body()
        return check, well, said, time.monotonic() - began

    failed = 0
    with concurrent.futures.ThreadPoolExecutor(lanes) as pool:
        for run in concurrent.futures.as_completed([pool.submit(timed, check) for check in chosen]):
            check, well, said, seconds = run.result()
            print(f"{'ok' if well else 'FAILED'} {check.name}: {seconds:.0f} s", flush=True)
            if not well:
                failed += 1
                print("\n".join(f"    {line}" for line in said.rstrip().split("\n")[-SHOWN:]), flush=True)
    return failed


def add_arguments(parser: argparse.ArgumentParser) -> None:
    """Adds the words."""
    parser.add_argument("words", metavar="WORD", nargs="*", help="run the checks whose name contains one of these")


def run(asked: argparse.Namespace) -> int:
    """Runs the checks."""
    every = checks()
    chosen = [check for check in every if not asked.words or any(word in check.name for word in asked.words)]
    if not chosen:
        raise Failure(2, f"no check has such a name; the checks are: {', '.join(check.name for check in every)}")
    unit_tests.python()
    began = time.monotonic()
    failed = run_all([check for check in chosen if not check.is_timed], os.cpu_count() or 1)
    failed += run_all([check for check in chosen if check.is_timed], 1)
    print(f"all: {time.monotonic() - began:.0f} s")
    print(f"{len(chosen) - failed} passed, {failed} failed")
    return 1 if failed else 0
