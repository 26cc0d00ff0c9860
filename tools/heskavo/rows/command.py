"""Answers rows over rings by a plain model, and compares the programs rb_ring_rows and rb_program_rows with such models.

`answers` prints the expected answers to the rows in its input. `draw` prints rows of random scripts. `ring` generates
COUNT scripts (10,000 by default), lets the program answer them, and prints how many answers differ from the model, with
the first rows that differ; its status is 1 if any does. `program` does the same with 10,000 random eBPF programs, seven
rows each. `stored` compares the stored answers of crates/rb_program_rows with the model, for the rows that the model
covers. `costs` runs 2,000 random programs by `rbhost check` and 500 by `rbhost run` (or CHECKS and RUNS), and prints
how many exceed the bounds that `rbhost cost` reports, and how many reach them; its status is 1 if one exceeds them.
PROGRAM is a built rb_ring_rows or rb_program_rows (default: that in out/ of its crate); if there is none, `rt try` runs
the crate without proof. RBHOST is `tools/rbhost` by default. The models are in tools/heskavo/rows, written
independently of the crates.
"""
import argparse
import pathlib
import subprocess
import sys

from heskavo.repository import CRATES, TOOLS
from heskavo.rows import cost_runs, program_comparison, ring_rows, ring_scripts

RINGS = CRATES / "rb_ring_rows"
PROGRAMS = CRATES / "rb_program_rows"

# The number of scripts in one run of the program, and the number of differing rows that are printed.
BATCH = 2000
SHOWN = 10


def text_of(scripts):
    """Returns the rows of scripts, each script terminated by an empty line."""
    return "".join("".join(row + "\n" for row, _ in script) + "\n" for script in scripts)


def answered(text: str, crate, program):
    """Returns the answers of a program of rows: the built program or, if there is none, the crate's sources, without proof."""
    if program.exists():
        command, folder = [str(program)], None
    else:
        command, folder = ["rt", "try"], crate
    run = subprocess.run(command, input=text, capture_output=True, text=True, cwd=folder)
    return run.stdout.split("\n")


def differences(scripts, program):
    """Yields the numbers of the scripts with differing answers, each with the first such row and both lines."""
    lines, at = answered(text_of(scripts), RINGS, program), 0
    for number, script in enumerate(scripts):
        first = None
        for row, answer in script:
            wanted, found = f"{row} ->{answer}", lines[at] if at < len(lines) else ""
            if first is None and wanted != found:
                first = (wanted, found)
            at += 1
        at += 1
        if first:
            yield number, *first


def compare(count: int, seed: int, program):
    different = rows = 0
    for begin in range(0, count, BATCH):
        scripts = [ring_scripts.drawn_script(seed, number) for number in range(begin, min(begin + BATCH, count))]
        rows += sum(map(len, scripts))
        for number, wanted, found in differences(scripts, program):
            different += 1
            if different <= SHOWN:
                print(f"script {begin + number}\n  model   {wanted}\n  program {found}")
    print(f"scripts {count} rows {rows} different {different}")
    return 1 if different else 0


def add_arguments(parser: argparse.ArgumentParser) -> None:
    """Adds the subcommands."""
    commands = parser.add_subparsers(dest="command", metavar="COMMAND", required=True)
    commands.add_parser("answers", help="print the answers to the rows in the input")
    commands.add_parser("stored", help="compare the stored answers of rb_program_rows with the model")
    for name, count, program, what in (
        ("draw", 100, None, "print rows of random scripts"),
        ("ring", 10_000, RINGS / "out" / "rb_ring_rows", "compare rb_ring_rows with the model"),
        ("program", 10_000, PROGRAMS / "out" / "rb_program_rows", "compare rb_program_rows with the model"),
    ):
        command = commands.add_parser(name, help=what)
        command.add_argument("count", metavar="COUNT", type=int, nargs="?", default=count)
        command.add_argument("seed", metavar="SEED", type=int, nargs="?", default=1)
        if program:
            command.add_argument("program", metavar="PROGRAM", type=pathlib.Path, nargs="?", default=program)
    costs = commands.add_parser("costs", help="compare the requests of programs with their costs")
    for name, default in (("checks", 2_000), ("runs", 500), ("seed", 1)):
        costs.add_argument(name, metavar=name.upper(), type=int, nargs="?", default=default)
    costs.add_argument("rbhost", metavar="RBHOST", nargs="?", default=TOOLS / "rbhost")


def run(asked: argparse.Namespace) -> int:
    """Runs a subcommand."""
    match asked.command:
        case "answers":
            sys.stdout.write(ring_rows.answers(sys.stdin.read()))
            return 0
        case "draw":
            sys.stdout.write(text_of(ring_scripts.drawn_script(asked.seed, number) for number in range(asked.count)))
            return 0
        case "ring":
            return compare(asked.count, asked.seed, asked.program)
        case "program":
            return program_comparison.compare(
                asked.count, asked.seed, lambda text: answered(text, PROGRAMS, asked.program)
            )
        case "costs":
            return cost_runs.compare(asked.checks, asked.runs, asked.seed, asked.rbhost)
        case _:
            return program_comparison.stored(*((PROGRAMS / name).read_text() for name in ("stdin", "stdout")))
