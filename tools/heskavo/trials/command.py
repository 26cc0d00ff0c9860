"""Runs one of the long trials of the built programs, which neither the gate nor tools/quick runs.

`hostile` gives rbhost hostile inputs and failing devices; `orders` runs workers in every order of their steps; `soak`
runs real threads over shared rings for some time; `sweep` makes each allocation fail in turn; `assembly` compares texts
with LLVM's disassembler; `rows` compares the programs of rows with plain models; `calls` counts the calls that a record
takes. `tools/trials NAME --help` describes one.
"""
import argparse

from heskavo.command_line import Command, add_subcommands
from heskavo.rows import command as rows
from heskavo.trials import assembly, calls, hostile, orders, soak, sweep

TRIALS: dict[str, Command] = {
    "assembly": assembly,
    "calls": calls,
    "hostile": hostile,
    "orders": orders,
    "rows": rows,
    "soak": soak,
    "sweep": sweep,
}


def add_arguments(parser: argparse.ArgumentParser) -> None:
    """Adds each trial as a subcommand."""
    add_subcommands(parser, TRIALS, required=True)


def run(asked: argparse.Namespace) -> int:
    """Runs the chosen trial."""
    return asked.subcommand.run(asked)
