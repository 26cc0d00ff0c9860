"""Compares the documents with the code that they describe.

Without a COMMAND it makes all checks, also that of `tools/trusted --check`, and prints 'N passed, M failed' at the end;
the status is 1 if one failed. `tools/check COMMAND --help` describes one check; most of them can also write the parts of
a document that are generated.
"""
import argparse

from heskavo.command_line import Command, add_subcommands
from heskavo.documents import definitions, examples, programs, proof_status, stated, trusted

CHECKS: dict[str, Command] = {
    "stated": stated,
    "definitions": definitions,
    "proof-status": proof_status,
    "programs": programs,
    "examples": examples,
}


def add_arguments(parser: argparse.ArgumentParser) -> None:
    """Adds each check as a subcommand."""
    add_subcommands(parser, CHECKS, required=False)


def run_all() -> int:
    """Makes all checks, and returns the status."""
    failed = 0
    checks: list[tuple[str, Command, list[str]]] = [
        (f"tools/check {name}", check, []) for name, check in CHECKS.items()
    ]
    checks.append(("tools/trusted --check", trusted, ["--check"]))
    for name, check, words in checks:
        print(f"-- {name}", flush=True)
        parser = argparse.ArgumentParser(prog=name)
        check.add_arguments(parser)
        failed += check.run(parser.parse_args(words)) != 0
    print(f"{len(checks) - failed} passed, {failed} failed")
    return 1 if failed else 0


def run(asked: argparse.Namespace) -> int:
    """Makes one check, or all."""
    return asked.subcommand.run(asked) if "subcommand" in asked else run_all()
