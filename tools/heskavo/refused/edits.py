"""Mutants: files with a line `file: src/x.rt` and pairs of lines `old: TEXT` and `new: TEXT`, and the functions that they change."""
from __future__ import annotations

import difflib
import functools
import pathlib
import re
from collections.abc import Iterable
from typing import Any, NamedTuple, Optional

from heskavo.refused import kit

# The folders of a crate's mutants: those that the gate tries, and those that are tried when the crate changes.
REFUSED, PLANTED = "refused", "planted"
FUNCTION = re.compile(r"^( *)(?:pub(?:\([a-z]+\))? )?(?:const )?(?:unsafe )?(?:extern \"C\" )?fn (\w+)")
IMPL = re.compile(
    r"^impl(?:<.*?>)? (?:(?:\w+::)*(?P<trait>\w+)(?:<(?P<of>.*)>)? for )?(?P<type>&(?:'\w+ )?\[\w+\]|\w+)"
)
SLICE = re.compile(r"&(?:'\w+ )?\[(\w)(\w*)\]")
TAKEN_OUT = re.compile(r"^# without the answers: (.*)$", re.M)
LEFT_OPEN = re.compile(r"^# leaves open: (.*)$", re.M)
TRIED = re.compile(r"^# tried by itself: (.*)$", re.M)
CLAUSE = re.compile(r"^# clause: (\S+ \w+)$", re.M)
NOTES = ("# clause: ", "# open ", "# without ", "# leaves open: ", "# tried by itself: ")
DECLARED = re.compile(r"^(?:pub(?:\([a-z]+\))? )?(?:struct|enum) (\w+)", re.M)
NAMED_ITEM = re.compile(r"^\s*(?:pub(?:\([a-z]+\))? )?(?:const|static|struct|enum) (\w+)")


class Owner(NamedTuple):
    """A function by where it stands: its module, the type and the trait of its block, and its name."""

    module: str
    type: Optional[str]
    trait: Optional[str]
    name: str

    def path(self) -> str:
        block = (self.type or "") + (self.trait or "")
        return "::".join(it for it in (self.module, block, self.name) if it)

    def lines(self, crate: Any, said: dict[str, str]) -> list[str]:
        """What a check said of the function, and of the closures in it, which it names `MODULE::fn::FUNCTION::CALLED`."""
        path = f"{crate}::{self.path()}"
        closures = "::".join(it for it in (crate, self.module, "fn", self.type, self.name) if it) + "::"
        exact = [text for name, text in said.items() if name == path or name.startswith((path + "::", closures))]
        if exact:
            return exact
        within = "::".join(it for it in (crate, self.module) if it) + "::"
        named = [name.split("::") for name in said if name.split("::")[-1] == self.name]
        mine = [name for name in named if self.type and name[-2].startswith(self.type)]
        here = [name for name in named if "::".join(name).startswith(within)]
        return [said["::".join(name)] for name in mine or here]

    def proofs(self) -> str:
        """The folder of what is written of its proof."""
        return "proofs/" + self.path().replace("::", "/")


class Change(NamedTuple):
    """Lines of a file, from `first` to before `end`, that others stand in place of."""

    file: str
    first: int
    end: int
    lines: list

    def meets(self, other: Any) -> bool:
        """Whether both change a line, or one adds lines where the other begins or ends."""
        between = self.first == self.end or other.first == other.end
        overlap = self.first < other.end and other.first < self.end
        return self.file == other.file and (overlap or between and self.first <= other.end and other.first <= self.end)


def name_of(type_text: str) -> str:
    """A type's name as a check prints it: of a slice lent, RefSlice and the name of what is in it."""
    found = SLICE.fullmatch(type_text)
    return f"RefSlice{found[1].upper()}{found[2]}" if found else type_text


def module_of(file: str) -> str:
    inside = pathlib.PurePosixPath(file).relative_to("src").with_suffix("")
    parts = [it for it in inside.parts if it != "mod"]
    return "" if parts in (["lib"], ["main"]) else "::".join(parts)


@functools.cache
def modules_of_types(folder: str) -> dict[str, str]:
    """The module of each type of a crate: a check names a method by the module of its type, wherever the method stands."""
    source = pathlib.Path(folder) / "src"
    return {
        name: module_of(str(it.relative_to(folder)))
        for it in sorted(source.rglob("*.rt"))
        for name in DECLARED.findall(it.read_text())
    }


def head_of_block(lines: list[str], at: int) -> str:
    """The head of the block that begins at a line, which may go on over several lines, as one line."""
    if not lines[at].startswith("impl"):
        return lines[at]
    end = next((it for it in range(at, len(lines)) if lines[it].endswith("{")), at)
    return " ".join(line.strip() for line in lines[at : end + 1])


def function_at(line: str) -> tuple[str, str]:
    """The indentation and the name of the function that begins at a line."""
    found = FUNCTION.match(line)
    return (found[1], found[2]) if found else ("", "")


def owner_of(folder: str, file: str, lines: list[str], at: int) -> Owner | None:
    """The function whose signature, clauses or body has the line, or None where it stands outside of any."""
    begin = next((it for it in range(min(at, len(lines) - 1), -1, -1) if FUNCTION.match(lines[it])), None)
    if begin is None:
        return None
    indent, name = function_at(lines[begin])
    if any(line == indent + "}" for line in lines[begin:at]):
        return None
    block = None
    for here in range(begin - 1 if indent else -1, -1, -1):
        if lines[here].startswith("}"):
            break
        block = IMPL.match(head_of_block(lines, here))
        if block:
            break
    if not block:
        return Owner(module_of(file), None, None, name)
    module = module_of(file) if block["trait"] else modules_of_types(folder).get(block["type"], module_of(file))
    trait = block["trait"] and block["trait"] + "".join(re.findall(r"\w+", block["of"] or ""))
    return Owner(module, name_of(block["type"]), trait, name)


def owner_of_item(folder: str, file: str, lines: list[str], at: int) -> Owner | None:
    """The same of a line of its attributes or its comment."""
    while at + 1 < len(lines) and lines[at].lstrip().startswith(("#[", "//")):
        at += 1
    return owner_of(folder, file, lines, at)


def item_at(lines: list[str], at: int) -> str | None:
    """The constant or type whose declaration has the line, or None."""
    for line in reversed(lines[: at + 1]):
        found = NAMED_ITEM.match(line)
        if found:
            return found[1]
        if line.startswith("}"):
            return None
    return None


def users_of(folder: str, item: str) -> set[Owner]:
    """The functions of a crate whose signature, clauses or body name a constant or a type."""
    found: set[Owner | None] = set()
    for path in sorted(pathlib.Path(folder, "src").rglob("*.rt")):
        lines = path.read_text().split("\n")
        for at, line in enumerate(lines):
            if re.search(rf"\b{item}\b", line) and not line.lstrip().startswith(("//", "use ", "ghost use ")):
                found.add(owner_of(folder, str(path.relative_to(folder)), lines, at))
    return {it for it in found if it is not None}


class Edit:
    """One mutant of a crate."""

    def __init__(self, crate: Any, path: pathlib.Path) -> None:
        self.crate, self.path, self.name = crate, path, path.stem
        self.changes: list[Change] = []
        self.owners: set[Owner] = set()
        self.modules: set[str] = set()
        self.is_outside, self.times_taken_out = False, 0
        self.open_clauses: set[str] = set()
        self.open_goals: list[str] = []
        self.taken_out: set[str] = set()
        self.left_open: list[str] = []
        # The goal that is tried by itself, or nothing.
        self.tried = ""
        self.read_notes(path.read_text())
        texts, self.fault = kit.rt.read_edit(str(path), crate.folder)
        for file, text in (texts or {}).items():
            was, now = (pathlib.Path(crate.folder) / file).read_text().split("\n"), text.split("\n")
            for tag, first, end, begin, behind in difflib.SequenceMatcher(None, was, now, False).get_opcodes():
                if tag != "equal":
                    self.changes.append(Change(file, first, end, now[begin:behind]))
                    self.note_owner(file, was, first)
        self.is_outside = self.is_outside or not (self.owners or self.fault)

    def read_notes(self, text: str) -> None:
        """Reads which clauses it breaks, which stored answers do not fit it, which goals it leaves open that the right body closes without these, and which of them is
        tried by itself."""
        goals = [
            [it.strip("` ") for it in found[1].split(",")] if found else []
            for found in (TAKEN_OUT.search(text), LEFT_OPEN.search(text), TRIED.search(text))
        ]
        self.taken_out, self.left_open, self.tried = set(goals[0]), goals[1], goals[2][0] if goals[2] else ""
        self.noted_clauses = set(CLAUSE.findall(text))

    def goals(self) -> set[str]:
        """The goals that its notes name: those that it leaves open, and those whose stored answers do not fit it."""
        return {*self.taken_out, *self.left_open}

    def is_noted(self) -> bool:
        """Whether its notes name a goal that tells of it."""
        return bool(self.left_open) and len(self.owners) == 1

    def passed_over(self) -> list[str]:
        """The goals that are not searched for if its notes are trusted: all that they name but one."""
        looked_at = self.tried or next(
            (it for it in self.left_open if "-clause-" in it), next(iter(self.left_open), "")
        )
        return sorted(self.goals() - {looked_at})

    def may_stand_beside(self, other: Any) -> bool:
        """Whether one check can try both: if they change different functions, or leave different goals of one function open."""
        if not self.owners & other.owners:
            return True
        goals_differ = self.is_noted() and other.is_noted() and not self.goals() & other.goals()
        return goals_differ and not any(one.meets(it) for one in self.changes for it in other.changes)

    def note_owner(self, file: str, lines: list[str], at: int) -> None:
        is_code = file.startswith("src/")
        if is_code and lines[at : at + 1] and lines[at].startswith(("use ", "ghost use ", "//")):
            # what is imported or added here is checked with the functions that call it
            return
        owner = owner_of(self.crate.folder, file, lines, at) if is_code else None
        item = item_at(lines, at) if is_code and not owner else None
        if owner:
            self.owners.add(owner)
            return
        self.is_outside = True
        if item:
            self.owners |= users_of(self.crate.folder, item)
        else:
            self.modules.add(module_of(file) if is_code else "")

    def paths(self) -> set[str]:
        """What a check has to look at: the functions that it changes, those that use a constant or a type that it changes, and the modules in which it changes more.
        An empty set is the whole crate."""
        return set() if "" in self.modules else {owner.path() for owner in self.owners} | self.modules

    def label(self) -> str:
        return f"{self.crate.name}/{self.name}"

    def note_opened(self) -> None:
        """Writes into its file which clauses of public calls it breaks, which stored answers do not fit it, and which goals it leaves open. A clause of the function
        that it changes counts only if one of these goals names it, and one of another function if the file notes it already.
        """
        lines = self.path.read_text().split("\n")
        own = tuple("::".join(it for it in (owner.type, owner.name) if it) + " " for owner in self.owners)
        noted = {it for it in self.noted_clauses if not (self.taken_out and it.startswith(own))}
        notes = [f"# clause: {it}" for it in sorted(self.open_clauses | noted)]
        if self.taken_out:
            notes.append("# without the answers: " + ", ".join(sorted(self.taken_out)))
        if self.open_goals:
            notes.append("# leaves open: " + ", ".join(dict.fromkeys(self.open_goals)))
        self.path.write_text("\n".join(notes + [it for it in lines if not it.startswith(NOTES)]))
        self.read_notes(self.path.read_text())

    def note_taken_out(self) -> None:
        """Writes into its file which stored answers do not fit it, above the goals that it leaves open."""
        lines = [it for it in self.path.read_text().split("\n") if not it.startswith("# without ")]
        at = next(number for number, it in enumerate(lines) if it.startswith("# leaves open: "))
        self.path.write_text(
            "\n".join([*lines[:at], "# without the answers: " + ", ".join(sorted(self.taken_out)), *lines[at:]])
        )

    def note_tried(self, goal: str) -> None:
        """Writes into its file which goal is tried by itself, below those that it leaves open."""
        lines = [it for it in self.path.read_text().split("\n") if not it.startswith("# tried by itself: ")]
        at = next(number for number, it in enumerate(lines) if it.startswith("# leaves open: ")) + 1
        self.path.write_text("\n".join([*lines[:at], f"# tried by itself: {goal}", *lines[at:]]))

    def where(self) -> str:
        return ", ".join(sorted(owner.path() for owner in self.owners)) or "outside of any function"


def read_all(crate: Any, folders: Iterable[str]) -> list[Edit]:
    return [
        Edit(crate, path) for folder in folders for path in sorted(pathlib.Path(crate.folder, folder).glob("*.edit"))
    ]


def together(edits: list[Edit]) -> dict[str, str]:
    """The texts of the files with all these edits in them; they change different lines."""
    changes = [change for edit in edits for change in edit.changes]
    texts = {}
    for file in {change.file for change in changes}:
        lines = (pathlib.Path(edits[0].crate.folder) / file).read_text().split("\n")
        for change in sorted(
            (it for it in changes if it.file == file), key=lambda it: (it.first, it.end), reverse=True
        ):
            lines[change.first : change.end] = change.lines
        texts[file] = "\n".join(lines)
    return texts
