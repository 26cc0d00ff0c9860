"""Tries mutants: the wrong bodies in crates/*/refused and crates/*/planted, many of them in one prover run. The prover
must refuse each.

Without an option it tries the mutants of the given crates, or of all. If all those of a crate in refused/ are refused,
it writes the checksum of the crate's files to refused/passed.txt, which is committed; --changed leaves out crates whose
files still have that checksum, except for one, which --also N chooses. --over-gate tries only those in refused/, over
the libraries that `rt ci` has just proved in this folder; FOLDER/CRATE has what its checks kept, if anything. Of all
others it only checks that their text is still there, and it writes no checksums. --note writes into each file without notes, or with notes that do not hold any more,
which clauses it breaks and which goals it leaves open. --uncovered tries nothing: it lists the named clauses of public
calls that say less than an equation and that no mutant names, and the reason in a crate's refused/unbreakable.txt if no
body can break one.

A mutant is refused if it leaves a goal open that the right body closes. A goal without a stored answer counts, as the
right body closes it by search, and so does a goal whose stored answer is one call of a tactic, which searches each
body's own goal. If other stored answers do not fit the mutant, they are taken out of the mutant and of the right body,
and a goal counts only if the right body closes it without them.

Each mutant is tried on a copy of the crate, over a copy of what its check kept, which runs first. After `rt ci`, which
has proved each crate as it is and keeps little, only the functions that have a mutant are checked. A mutant of a
function that calls another mutated one is tried again in the next round. Two mutants of one function are tried together
if their files note different goals.

The prover spends longest on goals that it cannot prove. If a file notes a goal as tried by itself, the check tries that
goal alone, by the two tactics that a check runs first, one of which proves the goal in the right body. If one of them
proves it, all goals are searched for, and that decides.

Prints a line for each mutant, one for each crate, and at the end 'N passed, M failed'. These fail, with status 1: a
mutant that is proved (PROVED), one that does not compile or whose text is not there exactly once (BAD EDIT), and in
refused/ one that leaves no such goal open (ANSWER). In planted/ ANSWER is a warning.
"""
import argparse
import concurrent.futures
import os
import pathlib
import threading
import time
from typing import Any

from heskavo.command_line import Failure
from heskavo.refused import clauses, edits as edit_files, goals, kit, passed, rounds
from heskavo.refused.edits import Edit
from heskavo.repository import ROOT

PRINTING = threading.Lock()
# What a check from nothing takes of memory at most, in bytes: so many run side by side.
MOST = 3_500_000_000


def tell(lines: list[str]) -> None:
    with PRINTING:
        print("\n".join(lines), flush=True)


def is_proved(crate: Any, work: kit.Work) -> bool:
    """Whether the crate is proved as it stands, over what is kept of its check."""
    if not kit.build_libraries(crate):
        tell([f"{crate.name}: the libraries below it are not built"])
        return False
    kept = kit.kept_by_checks(crate)
    if kept:
        work.begin_with(kept)
    answer = work.check({})
    if answer.status:
        tell([f"{crate.name}: it is not proved as it stands", *answer.lines[-12:]])
    return not answer.status


def note(work: kit.Work, run: rounds.Rounds) -> None:
    """Writes into the files that had no notes, or notes that do not hold any more, what the mutants left open, and which goal of each a tactic proves in the right body."""
    for edit in run.lack_answers:
        edit.note_taken_out()
    edits = run.without_valid_notes()
    for edit in edits:
        if edit.open_goals or run.outcomes[edit] == rounds.Outcome.ANSWER:
            edit.note_opened()
    left_open = [edit for edit in edits if edit.left_open and not edit.tried]
    proved = goals.proved_by_tactics(work, left_open)
    for edit in left_open:
        found = [goal for goal in edit.left_open if any((owner, goal) in proved for owner in edit.owners)]
        if found:
            edit.note_tried(found[0])


def passes(edit: Edit, outcome: rounds.Outcome) -> bool:
    """Whether a mutant came to what it should, or is one of those in planted/ that only earn a warning."""
    return (
        outcome == rounds.Outcome.REFUSED
        or edit.path.parent.name == edit_files.PLANTED
        and outcome in (rounds.Outcome.ANSWER, rounds.Outcome.LIMIT)
    )


def tried(crate: Any, edits: list[Edit], given: argparse.Namespace) -> dict[Edit, rounds.Outcome] | None:
    """Tries a crate's edits, and returns what each came to, or None where the crate itself is not proved."""
    began = time.time()
    lines: list[str] = []
    work = kit.Work(crate)
    try:
        if given.over_gate and kit.are_of_the_gate(crate):
            kept = pathlib.Path(given.over_gate, crate.name)
            if kept.is_dir():
                work.begin_with(kept)
        elif not is_proved(crate, work):
            return None
        first = time.time() - began
        run = rounds.Rounds(work, edits, lines.append)
        run.run()
        if given.note:
            note(work, run)
    finally:
        work.drop()
    well = sum(outcome == rounds.Outcome.REFUSED for outcome in run.outcomes.values())
    tell(
        [
            f"{crate.name}: {well} of {len(edits)} refused, in {run.number} rounds and {run.right.checks} checks of right bodies, {first:.0f} s and {time.time() - began - first:.0f} s",
            *lines,
        ]
    )
    return run.outcomes


def lanes_of(asked: int) -> int:
    return asked or max(1, min(kit.rt.processors(), int(kit.rt.free() / MOST)))


def misplaced(crates: list[Any], tried_crates: list[Any]) -> list[str]:
    """The mutants that the gate does not try and whose text is not in its file exactly once: those in planted/, and those in refused/ of crates whose turn it is not."""
    edits = [edit for crate in crates for edit in edit_files.read_all(crate, [edit_files.PLANTED])]
    others = [crate for crate in crates if crate not in tried_crates]
    edits += [edit for crate in others for edit in edit_files.read_all(crate, [edit_files.REFUSED])]
    return [f"{edit.label()} ({edit.fault})" for edit in edits if edit.fault]


def in_turn(crates: list[Any], asked: argparse.Namespace) -> list[Any]:
    """The crates whose mutants are tried: all, or with --changed those that changed since all were refused, and one more."""
    if not asked.changed:
        return crates
    have_some = [crate for crate in crates if any(pathlib.Path(crate.folder, edit_files.REFUSED).glob("*.edit"))]
    one = [have_some[asked.also % len(have_some)]] if have_some and asked.also is not None else []
    return [crate for crate in have_some if crate in one or not passed.is_noted(crate)]


def try_all(crates: list[Any], given: argparse.Namespace) -> tuple[int, list[str]]:
    """Tries the mutants of all these crates, those with the most code first, and returns how many passed and what failed."""
    work = []
    folders = (
        [given.folder]
        if given.folder
        else [edit_files.REFUSED]
        if given.over_gate
        else [edit_files.REFUSED, edit_files.PLANTED]
    )
    for crate in crates:
        edits = edit_files.read_all(crate, folders)
        if edits:
            work.append((crate, edits))
    work.sort(key=lambda it: -it[0].count(rb"\n"))
    passing = 0
    failed: list[str] = []
    warned: list[str] = []
    with concurrent.futures.ThreadPoolExecutor(lanes_of(given.lanes)) as pool:
        runs = [(crate, edits, pool.submit(tried, crate, edits, given)) for crate, edits in work]
        for crate, edits, run in runs:
            outcomes = run.result()
            if outcomes is None:
                failed += [edit.label() for edit in edits]
                continue
            bad = [edit.label() for edit in edits if not passes(edit, outcomes[edit])]
            shows_nothing = [
                edit.label()
                for edit in edits
                if passes(edit, outcomes[edit]) and outcomes[edit] != rounds.Outcome.REFUSED
            ]
            passing, failed, warned = (
                passing + len(edits) - len(bad) - len(shows_nothing),
                failed + bad,
                warned + shows_nothing,
            )
            if not bad and edit_files.REFUSED in folders and not given.over_gate:
                passed.note(crate)
    if warned:
        print(
            f"warning: these in planted/ leave no goal open that the right body closes ({len(warned)}): {' '.join(warned)}"
        )
    return passing, failed


def add_arguments(parser: argparse.ArgumentParser) -> None:
    """Adds the crates and the options."""
    parser.add_argument("crates", metavar="CRATE", nargs="*", help="only the mutants of these crates")
    parser.add_argument("--changed", action="store_true", help="only of crates that changed since all were refused")
    parser.add_argument(
        "--over-gate", metavar="FOLDER", help="only those in refused/, over what `rt ci` has just proved"
    )
    parser.add_argument(
        "--also", metavar="N", type=int, help="with --changed: also of the crate with this number, counted round"
    )
    parser.add_argument("--uncovered", action="store_true", help="list the clauses that no mutant names")
    parser.add_argument("--note", action="store_true", help="write notes into the files")
    parser.add_argument("--folder", metavar="NAME", help="those in crates/*/NAME instead of refused/ and planted/")
    parser.add_argument("--root", metavar="FOLDER", type=pathlib.Path, default=ROOT, help="the repository (this one)")
    parser.add_argument(
        "--lanes", metavar="N", type=int, default=0, help="try N crates at a time (by processors and memory)"
    )


def run(asked: argparse.Namespace) -> int:
    """Tries the mutants, or lists the clauses without one."""
    os.environ.pop("RT_SECONDS", None)
    # The first call of guarded() sets a signal's handler, which only the main thread may.
    kit.rt.rtlib.guarded()
    all_crates = kit.crates(asked.root.resolve())
    unknown = [name for name in asked.crates if name not in all_crates]
    if unknown:
        raise Failure(2, f"{unknown[0]} is no crate of crates.txt")
    chosen = [all_crates[name] for name in asked.crates or all_crates]
    if asked.uncovered:
        return clauses.list_uncovered([crate.name for crate in chosen])
    tried_crates = in_turn(chosen, asked)
    passing, failed = try_all(tried_crates, asked)
    failed += misplaced(chosen, tried_crates) if asked.over_gate else []
    if failed:
        print(f"FAILED: {' '.join(failed)}")
    print(f"{passing} passed, {len(failed)} failed")
    return 1 if failed else 0
