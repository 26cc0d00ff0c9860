"""Counts the calls that a record of 8 bytes takes, from its reservation to a tape.

It builds rbhost without proof, optimization and inlining, and runs it under callgrind (Debian's package valgrind) with
1,000 and with 3,000 jobs of one worker, each of which reserves, writes and submits a record, and with a tape. A call
counts if at least every second further record makes it, and if it is made below the helper calls or the store of
rb_interp or below what the consumer and the tape's sink do for a record. callgrind adds up all callers of a function,
so the function's own calls count in the proportion in which it was called on that way. Calls that a whole batch makes
once do not count, nor do drops.

Prints how many calls of the repository's functions a record makes, of how many functions, and which of them are made
from another crate. Calls through the standard library count as the caller's.
"""
import argparse
import collections
import pathlib
import re
import shutil
import subprocess
import tempfile
from collections.abc import Iterable, Mapping

from heskavo.command_line import Failure
from heskavo.program import kit
from heskavo.repository import ROOT

# Calls by caller and callee.
Calls = Mapping[tuple[str, str], float]

FEW, MANY = 1_000, 3_000
# Deeper than any chain of calls on the way of a record.
DEEPEST = 100
# Where the way of a record begins: its helper calls and its store, and what the consumer and the sink do for it.
ROOTS = (
    "rb_interp::program_run::serve_reserve",
    "rb_interp::cpu::Cpu::store_record_immediate",
    "rb_interp::program_run::serve_submit",
    "rb_chapter_ring::ring::RingState::take_many",
    "rb_shared_ring::takes::moves_of",
    "rb_consumer::batch::Batch::has_longer",
    "rb_tape::items::ItemsIterator::next",
    "rb_run_commands::tape_sink::TapeSinkSink::record",
)


def read(profile: Iterable[str]) -> Calls:
    """Returns the calls in a profile of callgrind."""
    names: dict[str, str] = {}
    calls: collections.Counter[tuple[str, str]] = collections.Counter()
    caller = callee = ""

    def name(text: str) -> str:
        number, _, rest = text.strip().partition(" ")
        if rest:
            names[number] = rest
        return names[number]

    for line in profile:
        if line.startswith("fn="):
            caller = name(line[3:])
        elif line.startswith("cfn="):
            callee = name(line[4:])
        elif line.startswith("calls="):
            calls[caller, callee] += int(line[6:].split()[0])
    return calls


def of_a_record(few: Calls, many: Calls, records: int) -> Calls:
    """Returns how often a call is made for each of so many further records, for those that at least every second one makes."""
    found = {call: (count - few.get(call, 0)) / records for call, count in many.items()}
    return {call: count for call, count in found.items() if count >= 0.5}


def crate(function: str) -> str | None:
    """Returns the crate of this repository that has the function; None for others and for drops."""
    found = re.match(r"rb_\w+(?=::)", function)
    return found[0] if found and "Destruct" not in function else None


def plain(function: str) -> str:
    """Returns the name without the types that the function is compiled for."""
    return re.sub(r"::<.*$", "", function)


def share(calls: Calls, roots: Iterable[str]) -> Calls:
    """Returns the calls made below these functions: of each function's calls the share that such calls of it have."""
    total: collections.Counter[str] = collections.Counter()
    made: dict[str, list[tuple[str, float]]] = collections.defaultdict(list)
    for (caller, callee), count in calls.items():
        total[callee] += count
        made[caller].append((callee, count))
    begun = {name: total[name] or 1 for call in calls for name in call if plain(name) in roots}
    times: dict[str, float] = {}
    found: dict[tuple[str, str], float] = {}
    for _ in range(DEEPEST):
        found = {
            (caller, callee): count * times.get(caller, 0) / (total[caller] or 1)
            for caller in {**begun, **times}
            for callee, count in made[caller]
        }
        reached: collections.Counter[str] = collections.Counter()
        for (_, callee), count in found.items():
            reached[callee] += count
        if {**reached, **begun} == times:
            return {call: count for call, count in found.items() if call[1] not in begun}
        times = {**reached, **begun}
    raise Failure(1, "functions on the way of a record call each other")


def callers(calls: Calls, function: str) -> set[str]:
    """Returns the crates of this repository that call the function, directly or through the standard library."""
    found: set[str] = set()
    seen, waiting = set(), [function]
    while waiting:
        name = waiting.pop()
        for caller in {caller for caller, callee in calls if callee == name} - seen:
            seen.add(caller)
            home = crate(caller)
            if home:
                found.add(home)
            else:
                waiting.append(caller)
    return found


def is_crossing(calls: Calls, caller: str, callee: str) -> bool:
    """Returns whether the call is made from another crate."""
    homes = {crate(caller)} if crate(caller) else callers(calls, caller)
    return bool(homes - {crate(callee)})


def report(calls: Calls) -> list[str]:
    """Returns the lines that are printed."""
    way = {call: count for call, count in share(calls, ROOTS).items() if crate(call[1])}
    every = share(calls, ROOTS)
    crossings: collections.Counter[str] = collections.Counter()
    for (caller, callee), count in way.items():
        if is_crossing(every, caller, callee):
            crossings[plain(callee)] += count
    return [
        f"calls {sum(way.values()):.0f}, of {len({plain(callee) for _, callee in way})} functions",
        f"from another crate {sum(crossings.values()):.0f}, of {len(crossings)} functions",
        *(f"    {name} {count:.0f}" for name, count in sorted(crossings.items())),
    ]


def profile(program: pathlib.Path, jobs: int, place: pathlib.Path) -> Calls:
    """Runs the jobs under callgrind, and returns their calls."""
    words = ["valgrind", "--tool=callgrind", f"--callgrind-out-file={place}", program]
    options = ["run", "--workers", "1", "--jobs", str(jobs), "--size", "65536", "--tape", f"{place}.tape"]
    with open(ROOT / "examples" / "submit_42.hex", "rb") as given:
        run = subprocess.run([*words, *options], stdin=given, capture_output=True, check=False)
    if run.returncode:
        raise Failure(1, f"valgrind ends with {run.returncode}: {run.stderr.decode(errors='replace')[-500:]}")
    return read(place.read_text(errors="replace").splitlines())


def add_arguments(parser: argparse.ArgumentParser) -> None:
    """Takes no arguments."""


def run(asked: argparse.Namespace) -> int:
    """Builds, runs and reports."""
    if not shutil.which("valgrind"):
        raise Failure(2, "there is no valgrind: it is Debian's package valgrind")
    with tempfile.TemporaryDirectory(prefix="calls-") as name:
        work = pathlib.Path(name)
        program = kit.build_plain("rbhost", work)
        if program is None:
            raise Failure(1, f"this kit does not compile and link as expected:\n{kit.last_lines(work)}")
        few, many = (profile(program, jobs, work / str(jobs)) for jobs in (FEW, MANY))
    print("\n".join(report(of_a_record(few, many, MANY - FEW))))
    return 0
