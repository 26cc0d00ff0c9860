"""Functions with their clauses, and types and constants with their public views, from crates/*/src."""
from __future__ import annotations

import collections
import functools
import re
from collections.abc import Iterable, Iterator
from pathlib import Path

from heskavo.contracts import definition_files
from heskavo.contracts.definition_files import CRATES, Origin, origins_in

BLOCK = re.compile(r"(?:pub )?(impl|trait)\b.*\{$")
FUNCTION = re.compile(r"( *)(pub )?(?:const )?(?:extern \"C\" )?fn (\w+)")
CLAUSE = re.compile(r"\s*(requires|ensures)\b")
IMPL = re.compile(r"impl(?:<.*?>)? (?:(?P<trait>\w+)(?:<.*>)? for )?(?P<type>\w+)")
TYPE = re.compile(r"(?:pub(?:\([^)]*\))? )?(enum|struct|const) (\w+)")
GHOST_MEMBER = re.compile(r"ghost (\w+)(?::| =) \{(.*?)\};", re.S)

# A block of a source: the line that opens it, its trait and its type, if any, and its lines.
Block = collections.namedtuple("Block", "head trait type text")
Type = collections.namedtuple("Type", "crate name place text lines")


def without_comments(lines: list[str]) -> list[str]:
    return [line for line in lines if line.strip() and not line.strip().startswith(("//", "#["))]


class Source:
    """One source file: the names that it imports, its blocks, its types and its functions."""

    def __init__(self, place: Path) -> None:
        self.place, self.crate = place, place.relative_to(CRATES).parts[0]
        self.lines = place.read_text().splitlines()
        self.text = "\n".join(self.lines)
        self.types = dict(self.declared())
        self.imports = self.rust_imports()
        self.blocks = list(self.read_blocks())
        for line in definition_files.ghost_uses("\n".join(it for it in self.lines if not it.startswith(" "))):
            self.imports |= definition_files.imports_of([line])

    def rust_imports(self) -> dict[str, Origin]:
        """Returns the types that `use` lines import, and those of the file."""
        names: dict[str, Origin] = {}
        for path, group in re.findall(r"(?m)^(?:pub )?use ((?:\w+::)+)(\{[^}]*\}|\w+);", self.text):
            crate = path.split("::")[0]
            crate = self.crate if crate in ("crate", "self", "super") else crate
            if (CRATES / crate).is_dir():
                names |= {word: Origin("rust", crate, word) for word in re.findall(r"\b[A-Z]\w*", group)}
        return names | {name: Origin("rust", self.crate, name) for name in self.types}

    def declared(self) -> Iterator[tuple[str, Type]]:
        """Returns the types that are declared here, each up to its closing brace."""
        for number, line in enumerate(self.lines):
            begins = TYPE.match(line)
            if begins:
                end = number
                while self.lines[end] != "}" and not self.lines[end].endswith(";"):
                    end += 1
                kept = without_comments(self.lines[number : end + 1])
                yield begins[2], Type(self.crate, begins[2], self.place, "\n".join(kept), len(kept))

    def read_blocks(self) -> Iterator[Block]:
        """Returns the implementations and traits, and the file itself without them."""
        free, number = [], 0
        while number < len(self.lines):
            line = self.lines[number]
            if BLOCK.match(line) or (re.match(r"(?:pub )?(impl|trait)\b", line) and not line.endswith("}")):
                end = self.lines.index("}", number)
                head = IMPL.match(line)
                trait = re.search(r"\btrait (\w+)", line)
                names = (head["trait"], head["type"]) if head else (trait[1] if trait else None, None)
                yield Block(line, *names, self.lines[number : end + 1])
                number = end
            else:
                free.append(line)
            number += 1
        yield Block("", None, None, free)

    def block_imports(self, block: Block) -> dict[str, Origin]:
        inner = definition_files.ghost_uses("\n".join(it for it in block.text if it.startswith(" ")))
        return self.imports | definition_files.imports_of(inner)


@functools.cache
def sources() -> list[Source]:
    return [Source(place) for place in sorted(CRATES.glob("*/src/**/*.rt"))]


@functools.cache
def types() -> dict[tuple[str, str], Type]:
    return {(it.crate, name): it.types[name] for it in sources() for name in it.types}


def type_of(crate: str, name: str) -> Type | None:
    """Returns the declaration of a type that is public in this crate, without lines if contracts see another value of it, or None."""
    found = types().get((crate, name)) or next((it for key, it in types().items() if key[1] == name), None)
    return found._replace(lines=0) if found and model_of(found.crate, name) else found


@functools.cache
def model_of(crate: str, name: str) -> tuple[Source, Block] | None:
    """Returns the source and the block that define what contracts see of a type."""
    for source in sources():
        if source.crate == crate:
            for block in source.blocks:
                if (block.trait, block.type) == ("Model", name):
                    return source, block
    return None


def members_of(block: Block) -> dict[str, str]:
    return dict(GHOST_MEMBER.findall("\n".join(block.text)))


def behind_type(crate: str, name: str) -> Iterable[Origin]:
    """Returns what a type's value is made of."""
    found = type_of(crate, name)
    if not found:
        return []
    model = model_of(found.crate, name)
    if model:
        source, block = model
        return origins_in(members_of(block).get("Value", ""), source.block_imports(block))
    source = next(it for it in sources() if it.place == found.place)
    return {it for it in origins_in(found.text, source.imports) if it.kind == "rust" and it.name != name}


class Function:
    """A public function, or one of a trait."""

    def __init__(self, source: Source, block: Block, name: str, lines: list[str], doc: str) -> None:
        self.source, self.block, self.name, self.doc = source, block, name, doc
        first = next((at for at, line in enumerate(lines) if CLAUSE.match(line)), len(lines))
        self.signature = " ".join(lines[:first])
        self.clauses = "\n".join(lines[first:])
        self.path = "::".join(it for it in (source.crate, block.type or block.trait, name) if it)

    def in_trait(self) -> Function | None:
        """Returns the function of the trait that it implements."""
        if self.block.type and self.block.trait:
            return next(
                (
                    it
                    for it in functions()
                    if it.name == self.name and it.block.trait == self.block.trait and not it.block.type
                ),
                None,
            )
        return None

    def clause_count(self) -> int:
        above = self.in_trait()
        return len(re.findall(r"(?m)^\s*(?:requires|ensures)\b", self.clauses)) + (above.clause_count() if above else 0)

    def names(self) -> set[Origin]:
        """Returns what the clauses name, and the types of the parameters and the result."""
        names = self.source.block_imports(self.block)
        types_here = {name: it for name, it in names.items() if it.kind == "rust"}
        found = origins_in(self.clauses, names) | origins_in(self.signature, types_here)
        if self.block.type:
            found |= (
                {types_here[self.block.type]}
                if self.block.type in types_here
                else {Origin("rust", self.source.crate, self.block.type)}
            )
            found |= origins_in(
                " ".join(re.findall(r"^    type \w+ = (.*);", "\n".join(self.block.text), re.M)), types_here
            )
        above = self.in_trait()
        if above:
            found |= above.names()
            mine, named = members_of(self.block), set(re.findall(r"\w+", above.clauses))
            for member, meaning in members_of(above.block).items():
                if member in named:
                    found |= origins_in(meaning, above.source.block_imports(above.block)) | origins_in(
                        mine.get(member, ""), names
                    )
        return found


def head_end(lines: list[str], begin: int, indent: str) -> int:
    """Returns where a function's header ends: at its brace, or at the semicolon if it has no body."""
    for at in range(begin, len(lines)):
        line = lines[at]
        if (
            line in (indent + "{", indent + "{}")
            or line.endswith(";")
            or (line.endswith(" {") and not CLAUSE.match(line))
        ):
            return at
    return len(lines) - 1


def doc_above(lines: list[str], at: int) -> str:
    """Returns the first paragraph of the doc comment directly above a line."""
    begin = at
    while begin > 0 and lines[begin - 1].strip().startswith("///"):
        begin -= 1
    found = []
    for line in lines[begin:at]:
        text = line.strip().removeprefix("///").strip()
        if not text:
            break
        found.append(text)
    return " ".join(found)


@functools.cache
def functions() -> list[Function]:
    """Returns all functions that others may call: public ones, and those of traits."""
    made = []
    for source in sources():
        for block in source.blocks:
            for number, line in enumerate(block.text):
                begins = FUNCTION.match(line)
                if begins and (begins[2] or block.trait):
                    end = head_end(block.text, number, begins[1])
                    lines = without_comments(block.text[number : end + 1])
                    made.append(Function(source, block, begins[3], lines, doc_above(block.text, number)))
    return made


def find(name: str) -> Function:
    """Returns the one function of this name."""
    *owners, last = name.split("::")
    crate = next((it for it in owners if (CRATES / it).is_dir()), None)
    kind = next((it for it in owners if it[0].isupper()), None)
    all_named = [it for it in functions() if it.name == last and crate in (None, it.source.crate)]
    found = [it for it in all_named if kind == (it.block.type or it.block.trait)]
    if len(found) != 1:
        others = sorted({it.path for it in found or all_named})
        raise LookupError(
            f"{name} is not a public function" + (f", but {', '.join(others)}" if others else "")
            if not found
            else f"{name} is one of {', '.join(others)}"
        )
    return found[0]


def is_of_tests(crate: str) -> bool:
    """Returns whether a crate only tests others or is their trials."""
    return crate.endswith(("_tests", "_rows")) or crate in ("rb_for_tests", "rb_trials")
