"""Compares docs/PROOF_STATUS.md with the public calls of the crates and their clauses, or brings it up to date.

A section whose heading names crates is about their calls. An entry is a list item: calls, each with the names of its
clauses in parentheses (calls that share a list of clauses share the parentheses), a colon, and the promise in one or a
few sentences. The promises are written by hand. The calls and clauses are those of the sources:

- Each public call that has clauses, and each of its clauses, is named in a section of its crate. --write adds what is
  missing: a clause to the entry of its call, and a call as a new entry at the end of the section, with the first
  sentence of its doc comment as the promise.
- What an entry names exists. A call or a clause that was removed or renamed is reported, and has to be corrected by
  hand, since its promise may be out of date too.
- Each crate that is no test has a section.

The status is 1 if there is a difference.
"""
import argparse
import dataclasses
import re
import textwrap
from collections.abc import Iterator

from heskavo.contracts import contract_sources
from heskavo.contracts.public_calls import Call, public_calls
from heskavo.repository import CRATES, ROOT, libraries_of_crates

DOCUMENT = ROOT / "docs" / "PROOF_STATUS.md"
COLUMNS = 120
SPAN = re.compile(r"`([^`]+)`")
PART = re.compile(r"`(?P<code>[^`]+)`|\((?P<group>(?:[^()`]|`[^`]*`)*)\)|(?P<word>[A-Za-z][\w']*)")
CALL = re.compile(r"(?:[A-Z]\w*::)?[a-z]\w*")
NAME = re.compile(r"[a-z]\w*")


@dataclasses.dataclass
class Group:
    """Calls of an entry that share a list of clauses, and where the list ends in the entry; None if they have no list."""

    calls: list[str]
    clauses: list[str]
    end: int | None


@dataclasses.dataclass
class Entry:
    """A list item of the document, as one line, and the lines that it takes."""

    first: int
    end: int
    text: str
    is_changed: bool = False

    @property
    def head(self) -> str:
        """Returns the text before the colon and the promise; the whole item, if there is no such colon."""
        depth, is_code = 0, False
        for at, letter in enumerate(self.text):
            if letter == "`":
                is_code = not is_code
            elif not is_code:
                depth += (letter == "(") - (letter == ")")
                if letter == ":" and depth == 0:
                    return self.text[:at]
        return self.text

    def groups(self) -> list[Group]:
        """Returns the groups of calls of the head; none if it has other words than `and`, so that it is no plain list."""
        found, calls = [], []
        for part in PART.finditer(self.head):
            if part["word"] is not None and part["word"] != "and":
                return []
            if part["code"] is not None:
                calls += [part["code"]] if CALL.fullmatch(part["code"]) else []
            elif part["group"] is not None and calls:
                found.append(
                    Group(calls, [it for it in SPAN.findall(part["group"]) if NAME.fullmatch(it)], part.end() - 1)
                )
                calls = []
        return [*found, Group(calls, [], None)] if calls else found

    def add(self, group: Group, clauses: list[str]) -> None:
        """Adds clauses to a group's list."""
        named = ", ".join(f"`{name}`" for name in clauses)
        if group.end is None:
            at = self.text.index(f"`{group.calls[-1]}`") + len(group.calls[-1]) + 2
            self.text = f"{self.text[:at]} ({named}){self.text[at:]}"
        elif named:
            # After a clause with its definition a semicolon separates the next one.
            before = self.text[: group.end]
            has_definitions = ":" in before[before.rindex("(") :]
            self.text = f"{before}{'; ' if has_definitions else ', '}{named}{self.text[group.end:]}"
        self.is_changed = True

    def lines(self) -> list[str]:
        """Returns the item as lines of the document."""
        # No line ends inside a code span.
        text = SPAN.sub(lambda span: span[0].replace(" ", "\0"), f"- {self.text}")
        lines = textwrap.wrap(text, COLUMNS, subsequent_indent="  ", break_long_words=False, break_on_hyphens=False)
        return [line.replace("\0", " ") for line in lines]


@dataclasses.dataclass
class Section:
    """A part of the document up to the next heading of its level: its crates, its lines with the number of the first, and its entries."""

    crates: set[str]
    begin: int
    lines: list[str]
    entries: list[Entry] = dataclasses.field(default_factory=list)

    def __post_init__(self) -> None:
        first = None
        for at, line in enumerate([*self.lines, ""]):
            if first is not None and not line.startswith("  "):
                text = " ".join(" ".join(self.lines[first:at]).split()).removeprefix("- ")
                self.entries.append(Entry(first, at, text))
                first = None
            if line.startswith("- ") and at < len(self.lines):
                first = at

    def names(self) -> set[str]:
        """Returns the names in code spans."""
        return set(SPAN.findall(" ".join(" ".join(self.lines).split())))

    def entry_of(self, call: Call) -> tuple[Entry, Group] | None:
        """Returns the last entry that lists the call, and the group there."""
        found = [
            (entry, group)
            for entry in self.entries
            for group in entry.groups()
            if {call.path, call.name} & {*group.calls}
        ]
        exact = [it for it in found if call.path in it[1].calls]
        return (exact or found)[-1] if found else None

    def with_changes(self, added: list[Call]) -> list[str]:
        """Returns the lines with the changed entries, and new ones for these calls after the last entry."""
        lines, at = [], 0
        for entry in self.entries:
            lines += self.lines[at : entry.first] + (
                entry.lines() if entry.is_changed else self.lines[entry.first : entry.end]
            )
            at = entry.end
        rest = self.lines[at:]
        if added:
            new = [line for call in added for line in entry_for(call).lines()]
            lines, rest = ([*lines, *new], rest) if self.entries else ([*self.lines, *new, ""], [])
        return lines + rest


def entry_for(call: Call) -> Entry:
    """Returns a new entry of a call."""
    named = f" ({', '.join(f'`{name}`' for name in call.clauses)})" if call.clauses else ""
    sentence = re.sub(r":$", ".", re.sub(r"^[A-Z](?=[a-z ])", lambda letter: letter[0].lower(), call.sentence))
    return Entry(0, 0, f"`{call.path}`{named}: {sentence}")


def sections_of(text: str) -> list[Section]:
    """Returns the sections; the first is what comes before the first heading."""
    every, found, begin = set(libraries_of_crates()), [], 0
    lines = text.splitlines()
    for at in [*(at for at, line in enumerate(lines) if line.startswith("## ")), len(lines)]:
        part = lines[begin:at]
        crates = set(re.findall(r"\w+", part[0].partition(":")[0])) & every if part else set()
        found.append(Section(crates, begin + 1, part))
        begin = at
    return found


def missing(sections: list[Section]) -> Iterator[tuple[Call, list[Section]]]:
    """Yields a call for each public one that its crate's sections do not name completely, with the clauses that they do not name, and these sections."""
    for call in public_calls():
        near = [it for it in sections if call.crate in it.crates]
        names = set().union(*(it.names() for it in near))
        left = [name for name in call.clauses if name not in names]
        if left or not {call.path, call.name} & names:
            yield dataclasses.replace(call, clauses=left), near


def clauses_by_call() -> dict[str, set[str]]:
    """Returns the clauses of public functions and of those of traits, by name with and without the type; those of several functions are joined."""
    found: dict[str, set[str]] = {}
    for function in contract_sources.functions():
        clauses = set(re.findall(r"(?m)^\s*(?:ensures|requires)\*? (\w+) \{", function.clauses))
        owner = function.block.type or function.block.trait
        for name in (function.name, f"{owner}::{function.name}"):
            found.setdefault(name, set()).update(clauses)
    return found


def words_of_sources() -> set[str]:
    """Returns the words of the sources and definitions: entries also name private functions, fields and laws."""
    places = [path for end in ("src/**/*.rt", "specs/**/*.antt") for path in CRATES.glob(f"*/{end}")]
    return set().union(*(re.findall(r"\w+", path.read_text()) for path in places))


def stale(sections: list[Section]) -> Iterator[str]:
    """Yields the calls and clauses that entries name and the sources do not have."""
    clauses, words = clauses_by_call(), words_of_sources()
    for section in (it for it in sections if it.crates):
        for entry in section.entries:
            place = f"{DOCUMENT.name}:{section.begin + entry.first}"
            for group in entry.groups():
                gone = [name for name in group.calls if not set(name.split("::")) <= words]
                yield from (f"{place} names a call that does not exist: {name}" for name in gone)
                if all(name in clauses for name in group.calls):
                    there = set().union(*(clauses[name] for name in group.calls))
                    gone = [
                        name
                        for name in group.clauses
                        if name not in there and name not in words and name not in libraries_of_crates()
                    ]
                    yield from (
                        f"{place} names a clause that {', '.join(group.calls)} does not have: {name}" for name in gone
                    )


def with_missing(sections: list[Section], told: list[str]) -> str:
    """Returns the document with what is missing, and tells what was missing."""
    added: dict[int, list[Call]] = {}
    for call, near in list(missing(sections)):
        told.append(
            f"{DOCUMENT.name} does not name {call.crate}::{call.path}"
            + (f" ({', '.join(call.clauses)})" if call.clauses else "")
        )
        places = [(section, section.entry_of(call)) for section in near]
        listed = next((place for _, place in places if place is not None), None)
        if listed is not None and call.clauses:
            entry, group = listed
            group = next(it for it in entry.groups() if it.calls == group.calls)
            entry.add(group, [name for name in call.clauses if name not in group.clauses])
        elif near:
            added.setdefault(id(near[-1]), []).append(call)
    return "\n".join(line for section in sections for line in section.with_changes(added.get(id(section), []))) + "\n"


def add_arguments(parser: argparse.ArgumentParser) -> None:
    """Adds the mode."""
    parser.add_argument("--write", action="store_true", help="add the calls and clauses that are missing")


def run(asked: argparse.Namespace) -> int:
    """Compares the document, or adds what is missing."""
    sections = sections_of(DOCUMENT.read_text())
    with_section = set().union(*(it.crates for it in sections))
    crates = {call.crate for call in public_calls()}
    found = [
        *stale(sections),
        *(f"{DOCUMENT.name} has no section of {crate}" for crate in sorted(crates - with_section)),
    ]
    lacking: list[str] = []
    text = with_missing(sections, lacking)
    if asked.write:
        DOCUMENT.write_text(text)
        print("\n".join([*found, f"{len(lacking)} calls added or completed, {len(found)} differences left"]))
        return 1 if found else 0
    print("\n".join([*found, *lacking, f"{len(found) + len(lacking)} differences"]))
    return 1 if found or lacking else 0
