"""Compares each number that the documents state about the code with the code, and checks the layout of the documents.

Prints each difference, and how many there are; the status is 1 if there is one. The statements and where their numbers
come from are in tools/heskavo/documents/statements.py.

Also checks the documents: no line is too long; no blank line breaks a table, and each row has the cells of its header;
the two charts are drawn from the table in PERFORMANCE.md; each file named in a code span, and each file or heading that
a link refers to, and each tool that is named, exists; ARCHITECTURE.md has each crate of crates.txt. And the code: no two types have the same name,
the attributes of a function are above its doc comment, and a number that two crates define is the same in both.
"""
import argparse

from heskavo.documents import code_style, layout, statements


def add_arguments(parser: argparse.ArgumentParser) -> None:
    """Adds nothing."""


def differences() -> list[str]:
    """Returns all differences."""
    return [
        *statements.compared(),
        *statements.copied(),
        *code_style.styled(),
        *code_style.logic(),
        *layout.laid_out(),
        *layout.drawn(),
        *layout.named(),
        *layout.tools_named(),
        *layout.linked(),
    ]


def run(asked: argparse.Namespace) -> int:
    """Prints the differences."""
    found = differences()
    print("\n".join([*found, f"{len(found)} differences"]))
    return 1 if found else 0
