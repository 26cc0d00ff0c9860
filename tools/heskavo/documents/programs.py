"""Compares the programs among the rows with the files in examples/, or writes them again.

The rows are crates/rb_program_rows/stdin. There the file NAME.hex is a line `name NAME HEX`, without white space in the
hex. The status is 1 if they differ.
"""
import argparse
import sys

from heskavo.repository import ROOT

EXAMPLES = ROOT / "examples"
ROWS = ROOT / "crates" / "rb_program_rows" / "stdin"


def rows() -> str:
    """Returns the rows, with the text of each file after its name, and reports files whose name is missing."""
    lines = ROWS.read_text().split("\n")
    for file in sorted(EXAMPLES.rglob("*.hex")):
        front = f"name {file.stem} "
        places = [place for place, line in enumerate(lines) if line.startswith(front)]
        if not places:
            sys.exit(f"{ROWS.relative_to(ROOT)} has no line '{front}..'")
        for place in places:
            lines[place] = front + "".join(file.read_text().split())
    return "\n".join(lines)


def add_arguments(parser: argparse.ArgumentParser) -> None:
    """Adds the mode."""
    parser.add_argument("--write", action="store_true", help="write those lines of the rows from the files")


def run(asked: argparse.Namespace) -> int:
    """Compares the rows, or writes them."""
    if asked.write:
        ROWS.write_text(rows())
    elif ROWS.read_text() != rows():
        sys.exit(f"{ROWS.relative_to(ROOT)} differs from examples/: write it again by tools/check programs --write")
    return 0
