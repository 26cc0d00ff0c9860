"""Reports how much a reader must believe to know what a public function promises: the lines and characters of the
definitions that its clauses depend on.

Without a NAME it prints the table of docs/DEFINITIONS.md: a row for each of ten calls and laws, for each command of
rbhost, and for all public functions together. A NAME is a path such as rb_shared_ring::SharedRing::reserve, or its end,
Closing::bind: then it lists the definitions of that function by file. --check prints the rows of the table that differ
in the document, with status 1 if any does, and --write writes the table to the document.

What counts: the function's `requires` and `ensures`, those of the trait that it implements, with the trait's own names
resolved, and the views of the values that it takes and returns (a type's `ghost Value`, otherwise its declaration).
From there it follows every definition that is named, through the `ghost use` lines and specs/*.antt, to the end. The
lines of a definition are its signature and its equations or fields, those of a type its declaration; comments,
attributes, `use` lines and proofs do not count, nor does indentation among the characters. A bound variable with the
name of a definition counts as that definition. A type's invariant is stated by the clauses of its `facts` and counts
there; what a caller's own type brings in, such as a sink, does not count. Names of the standard library and of the
ported crates are listed separately, without lines.
"""
import argparse
import collections
import dataclasses
from collections.abc import Iterable, Iterator

from heskavo.command_line import Failure
from heskavo.contracts import contract_sources
from heskavo.contracts.contract_sources import Function
from heskavo.contracts.definition_files import Origin, definition_file
from heskavo.repository import ROOT

DOCUMENT = ROOT / "docs" / "DEFINITIONS.md"
CALLS = (
    "rb_shared_ring::SharedRing::reserve",
    "rb_shared_ring::SharedRing::submit",
    "rb_shared_ring::SharedRing::take",
    "rb_shared_ring::Closing::bind",
    "rb_jobs::SeatHelpers::reserve",
    "rb_workers::run_jobs",
    "rb_interp::run",
    "rb_chapter_ring::RingState::reserve",
    "rb_ledger::chapter_headline_holds",
    "rb_ledger::no_reservation_is_a_stranger",
)
# The functions that are the commands of rbhost, by their crates.
COMMANDS = (
    ("rb_run_commands", "check"),
    ("rb_loader", "explain"),
    ("rb_loader", "cost"),
    ("rb_run_commands", "run"),
    ("rb_tape_commands", "feed"),
    ("rb_tape_commands", "tape"),
    ("rb_script", "sim"),
    ("rb_service", "stream"),
    ("rb_tape_commands", "follow"),
)
HEADER = "| Call, law or command | Clauses | Definitions | Lines | Characters | Files |"
RULE = "|---|---|---|---|---|---|"


@dataclasses.dataclass(frozen=True)
class Size:
    """The size of a definition."""

    lines: int
    characters: int

    @classmethod
    def of(cls, text: str) -> "Size":
        """Returns the size of a definition's text."""
        lines = [line.strip() for line in text.splitlines()]
        return cls(len(lines), sum(map(len, lines)))


@dataclasses.dataclass
class Trusted:
    """What a function depends on: the number of clauses, the size of each definition by file, and the names from outside."""

    clauses: int
    files: dict[str, dict[str, Size]]
    outside: set[tuple[str, str]]

    def definitions(self) -> int:
        """Returns the number of definitions."""
        return sum(map(len, self.files.values()))

    def size(self) -> Size:
        """Returns the size of all definitions."""
        sizes = [size for names in self.files.values() for size in names.values()]
        return Size(sum(it.lines for it in sizes), sum(it.characters for it in sizes))

    def row(self, name: str) -> str:
        """Returns the row of the table."""
        size = self.size()
        return (
            f"| {name} | {self.clauses} | {self.definitions()} | {size.lines} | {size.characters} | {len(self.files)} |"
        )


def reached(begin: Iterable[Origin]) -> tuple[set[Origin], set[tuple[str, str]]]:
    """Returns all origins that these depend on, and the names from outside."""
    inside: set[Origin] = set()
    outside: set[tuple[str, str]] = set()
    waiting = list(begin)
    while waiting:
        origin = waiting.pop()
        if origin.kind == "outside":
            outside.add((origin.place.split(".")[1 if origin.place.startswith("Rattle.") else 0], origin.name))
        elif origin not in inside:
            inside.add(origin)
            if origin.kind == "file":
                file = definition_file(origin.place)
                if origin.name in file.definitions:
                    waiting += file.used_by(origin.name)
            else:
                waiting += contract_sources.behind_type(origin.place, origin.name)
    return inside, outside


def trusted(functions: Iterable[Function]) -> Trusted:
    """Returns what a reader has to believe about these functions."""
    functions = list(functions)
    inside, outside = reached(name for function in functions for name in function.names())
    files: dict[str, dict[str, Size]] = collections.defaultdict(dict)
    for origin in inside:
        if origin.kind == "file":
            file = definition_file(origin.place)
            if origin.name in file.definitions:
                files[f"{file.crate} specs/{file.file}"][origin.name] = Size.of(file.definitions[origin.name].text)
        else:
            declared = contract_sources.type_of(origin.place, origin.name)
            if declared and declared.lines:
                files[f"{origin.place} src/{declared.place.name}"][origin.name] = Size.of(declared.text)
    return Trusted(sum(function.clause_count() for function in functions), files, outside)


def detail(name: str) -> Iterator[str]:
    """Yields the lines that are printed for one function."""
    function = contract_sources.find(name)
    found = trusted([function])
    yield f"{function.path}: {found.clauses} clauses"
    sizes = {file: Trusted(0, {file: names}, set()).size() for file, names in found.files.items()}
    width = max(map(len, sizes), default=0)
    for file, size in sorted(sizes.items(), key=lambda row: (-row[1].lines, row[0])):
        names = ", ".join(sorted(found.files[file]))
        yield f"  {file:<{width}} {size.lines:5} lines {size.characters:7} characters  {names}"
    total = found.size()
    yield f"  in all {total.lines} lines, {total.characters} characters, {found.definitions()} definitions, {len(sizes)} files"
    apart = collections.defaultdict(list)
    for crate, word in sorted(found.outside):
        apart[crate].append(word)
    for crate, words in apart.items():
        yield f"  of {crate}: {' '.join(words)}"


def table() -> Iterator[str]:
    """Yields the table of the calls that most programs make, of the laws above them, and of the commands."""
    yield HEADER
    yield RULE
    for name in CALLS:
        yield trusted([contract_sources.find(name)]).row(f"`{name}`")
    for crate, name in COMMANDS:
        yield trusted([contract_sources.find(f"{crate}::{name}")]).row(f"`rbhost {name}`: `{crate}::{name}`")
    libraries = [it for it in contract_sources.functions() if not contract_sources.is_of_tests(it.source.crate)]
    yield trusted(libraries).row(f"all {len(libraries)} public functions together")


def compare(is_writing: bool) -> int:
    """Compares the table with the document's, and writes it to the document if asked."""
    lines, rows = DOCUMENT.read_text().splitlines(), list(table())
    begin = next((at for at, line in enumerate(lines) if line.startswith("| Call") and "Definitions" in line), None)
    if begin is None:
        raise Failure(1, f"{DOCUMENT.name} has no such table")
    end = next((at for at in range(begin, len(lines)) if not lines[at].startswith("|")), len(lines))
    differing = [row for row in rows if row not in lines[begin:end]]
    gone = [f"no row any more: {line}" for line in lines[begin:end] if line not in rows and not differing]
    print("\n".join([*differing, *gone, f"{len(differing) + len(gone)} differences"]))
    if is_writing:
        DOCUMENT.write_text("\n".join([*lines[:begin], *rows, *lines[end:]]) + "\n")
        return 0
    return 1 if differing or gone else 0


def add_arguments(parser: argparse.ArgumentParser) -> None:
    """Adds the modes."""
    modes = parser.add_mutually_exclusive_group()
    modes.add_argument("--check", action="store_true", help="print the rows that differ in the document")
    modes.add_argument("--write", action="store_true", help="write the table to the document")
    modes.add_argument("names", metavar="NAME", nargs="*", default=[], help="list the definitions of these functions")


def run(asked: argparse.Namespace) -> int:
    """Prints or compares the table, or lists the definitions of functions."""
    try:
        if asked.check or asked.write:
            return compare(asked.write)
        for lines in [detail(name) for name in asked.names] or [table()]:
            for line in lines:
                print(line)
    except LookupError as fault:
        raise Failure(1, str(fault.args[0])) from None
    return 0
