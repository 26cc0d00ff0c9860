"""Generates the lists of files in docs/DEFINITIONS.md, or prints a summary of each file of definitions.

Reports the differences, with status 1 if there are any: lists that differ, files without a place, places without a
file, and quotations in docs/READ_THE_THEOREM.md that no file has. --write replaces the lists in the document that
differ. --summaries prints each file with its summary, by the headings and in the order of the document: the first
sentence of its first comment (the first two if the first has fewer than 50 letters), with the mark (own) if that
comment has it.

The document lists only the files, each with the public standards that it names. Files are listed under their crate's
`specs/`; files in `specs/inner/`, and those of crates that only test, are not listed. The document determines the
headings and the order: a new file is reported, and its name has to be added by hand, as - `rb_new`: `New.antt`., before
--write completes the list.
"""
import argparse
import re
import textwrap

from heskavo.contracts import definition_files
from heskavo.contracts.definition_files import DefinitionFile
from heskavo.repository import CRATES, ROOT

Files = dict[tuple[str, str], DefinitionFile]

DOCUMENT = ROOT / "docs" / "DEFINITIONS.md"
QUOTING = ROOT / "docs" / "READ_THE_THEOREM.md"
SHORT = 50
COLUMNS = 120
HEADING = re.compile(r"#+ ")
LIST = re.compile(r"- `(\w+)`: `\w+\.antt`")
TESTS = ("_rows", "_tests")
STANDARDS = {
    "ringbuf.rst": "ringbuf.rst",
    "verifier.rst": "verifier.rst",
    "bpf-helpers(7)": "helpers",
    "RFC 9669": "RFC",
    "RFC 8259": "RFC 8259",
    "LLVM": "LLVM",
}


def sentence_of(file: DefinitionFile) -> str:
    """Returns the summary of a file: the first sentence of its first comment."""
    text = " ".join(file.header[: file.header.index("")] if "" in file.header else file.header).strip()
    first, *others = re.split(r"(?<=\.) (?=[A-Z`'\"])", text)
    sentence = " ".join([first, *(others[:1] if len(first) < SHORT else [])])
    if "(own" in text and not re.search(r"\(own|own\)", sentence):
        sentence = sentence.removesuffix(".") + " (own)."
    return sentence


def standards_of(file: DefinitionFile) -> str:
    """Returns the public standards that a file names."""
    text = (CRATES / file.crate / "specs" / file.file).read_text()
    named = [short for name, short in STANDARDS.items() if name in text]
    return f" ({', '.join(named)})" if named else ""


def list_of(crate: str, names: list[str], files: Files) -> str:
    """Returns a crate's list, as wrapped lines."""
    shown = ", ".join(f"`{name}`{standards_of(files[crate, name])}" for name in names if (crate, name) in files)
    return "\n".join(
        textwrap.wrap(
            f"- `{crate}`: {shown}.", COLUMNS, subsequent_indent="  ", break_long_words=False, break_on_hyphens=False
        )
    )


def blocks_of(text: str) -> list[str]:
    """Returns the document's lines, with each list of a crate joined to one text with its continuation lines."""
    blocks: list[str] = []
    for line in text.splitlines():
        if line.startswith("  ") and blocks and LIST.match(blocks[-1]):
            blocks[-1] += "\n" + line
        else:
            blocks.append(line)
    return blocks


def names_in(block: str) -> tuple[str, list[str]]:
    """Returns the crate and the files of a list, or nothing if the block is not a list."""
    found = LIST.match(block)
    return (found[1], re.findall(r"`(\w+\.antt)`", block)) if found else ("", [])


def compared(blocks: list[str], files: Files) -> tuple[list[str], list[str]]:
    """Returns the document's lines with the lists that they should have, and the differences."""
    made, told, seen = [], [], set()
    for block in blocks:
        crate, names = names_in(block)
        for name in names:
            if (crate, name) in seen:
                told.append(f"{crate} {name} is listed twice")
            elif (crate, name) not in files:
                told.append(f"{crate} {name} is not a file of definitions")
            seen.add((crate, name))
        made.append(list_of(crate, names, files) if names else block)
        if made[-1] != block:
            told.append(f"differs from the files:\n{made[-1]}")
    told += [f"{' '.join(key)} is not listed" for key in files if key not in seen]
    return made, told


def misquoted() -> list[str]:
    """Returns the lines that READ_THE_THEOREM.md quotes and that are in no file of definitions and in no type of entries."""
    files = [*CRATES.glob("*/specs/*.antt"), *CRATES.glob("rb_history/src/*.rt")]
    there = {line for place in files for line in place.read_text().splitlines()}
    quoted = re.findall(r"```text\n(.*?)```", QUOTING.read_text(), re.DOTALL)
    return [
        f"{QUOTING.name} quotes a line that no file has\n  {line}"
        for text in quoted
        for line in text.splitlines()
        if line not in there
    ]


def print_summaries(blocks: list[str], files: Files) -> None:
    """Prints each file with its summary, by the headings of the document."""
    for block in blocks:
        crate, names = names_in(block)
        if HEADING.match(block):
            print(block)
        for name in names:
            print(f"{crate} {name}: {sentence_of(files[crate, name])}")


def add_arguments(parser: argparse.ArgumentParser) -> None:
    """Adds the modes."""
    modes = parser.add_mutually_exclusive_group()
    modes.add_argument("--write", action="store_true", help="replace the lists that differ")
    modes.add_argument("--summaries", action="store_true", help="print a summary of each file")


def run(asked: argparse.Namespace) -> int:
    """Compares the lists, writes them, or prints the summaries."""
    files = {(it.crate, it.file): it for it in definition_files.cited_files() if not it.crate.endswith(TESTS)}
    blocks = blocks_of(DOCUMENT.read_text())
    made, told = compared(blocks, files)
    if asked.summaries:
        print_summaries(made, files)
        return 0
    if asked.write:
        DOCUMENT.write_text("\n".join(made) + "\n")
        left = [line for line in told if not line.startswith("differs from")]
        print("\n".join([*left, f"{len(told) - len(left)} lists written"]))
        return 1 if left else 0
    told += misquoted()
    print("\n".join([*told, f"{len(told)} differences"]))
    return 1 if told else 0
