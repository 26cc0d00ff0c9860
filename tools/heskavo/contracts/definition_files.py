"""The definitions that contracts cite: the files crates/*/specs/*.antt, what each defines, the number of lines, and the names that it uses."""
from __future__ import annotations

import collections
import pathlib
import re

from heskavo.repository import ROOT

CRATES = ROOT / "crates"

BEGINS = re.compile(r"\s*(?:pub (?:record|data)|(?:abbrev|unfoldable)(?: pub)?|(?:record|data)(?= \S+ .*: Type)) (\S+)")
WORD = re.compile(r"[^\W\d][\w'?]*(?:\.[^\W\d][\w'?]*)*")
USE = re.compile(r"(?:ghost )?use (?P<path>[\w.]+?)(?:\.\{(?P<names>[^}]*)\}| as (?P<alias>\w+))?;?$")

# The origin of a name: a 'file' of definitions or the 'module' of a whole one, a 'rust' type or constant, or 'outside' this repository; and its name there.
Origin = collections.namedtuple("Origin", "kind place name")
Definition = collections.namedtuple("Definition", "name is_public lines text")


def origin_of(path: str, name: str) -> Origin | None:
    """Returns the origin of `name` of the module with this path, or None for what a type has of its own, such as its coding."""
    parts = path.split(".")
    if parts[0] != "Rattle" or parts[1] == "std" or not (CRATES / parts[1]).is_dir():
        return Origin("outside", path, name)
    if parts[2:3] == ["specs"] and parts[3:4] == ["declared"]:
        kind = next((part for part in parts[4:] if part[0].isupper()), name)
        return Origin("rust", parts[1], name if kind == "TheConstants" else kind)
    if parts[2:3] == ["specs"] and parts[3:4] != ["contracts"]:
        for end in range(len(parts), 3, -1):
            place = CRATES.joinpath(parts[1], *parts[2:end]).with_suffix(".antt")
            if place.is_file():
                return Origin("file", place, parts[end] if parts[end:] else name)
    return None


def imports_of(lines: list[str]) -> dict[str, Origin]:
    """Returns the names that `use` lines import, each with its origin."""
    names = {}
    for line in lines:
        found = USE.match(line.strip())
        if not found:
            continue
        for item in (found["names"] or "").split(","):
            words = item.split()
            if words:
                names[words[-1]] = origin_of(found["path"], words[0])
        if found["alias"]:
            origin = origin_of(found["path"], "")
            names[found["alias"]] = (
                origin._replace(kind="module") if origin and (origin.kind, origin.name) == ("file", "") else origin
            )
    return {name: origin for name, origin in names.items() if origin}


def ghost_uses(text: str) -> list[str]:
    """Returns the lines of a source that import names for its clauses, each on one line."""
    return [re.sub(r"\s+", " ", line) for line in re.findall(r"ghost use [^;]*;", text)]


def plain_text(text: str) -> str:
    """Returns a text without the names of fields at their declarations and assignments."""
    plain = re.sub(r"(?m)^\s*pub [^\s:]+ :", "", text)
    return re.sub(r"([{;]|record \S+ \{)\s*[\w']+ = ", r"\1 ", plain)


def named_in(text: str, names: dict[str, Origin]) -> set[str]:
    """Returns the names that a text uses. A name with argument places, such as ◌≡◌, is used if its signs occur."""
    plain = plain_text(text)
    words = {word.split(".")[0] for word in WORD.findall(plain)}
    signs = set(plain.split()) | set(re.findall(r"\[\]|¬|⊥|ℕ|ℤ|λ", plain))
    found = set()
    for name in names:
        if "◌" in name:
            if all(part in signs or part in plain for part in name.split("◌") if part):
                found.add(name)
        elif name in words or name in signs:
            found.add(name)
    return found


def origins_in(text: str, names: dict[str, Origin]) -> set[Origin]:
    """Returns the origins of the names that a text uses: for a name of a whole file the one after the dot, for a constructor its type."""
    found = set()
    for name in named_in(text, names):
        origin = names[name]
        if origin.kind == "module":
            behind = re.findall(rf"\b{name}\.([\w'?]+)", plain_text(text))
            found |= {of_type(Origin("file", origin.place, word)) for word in behind}
        else:
            found.add(of_type(origin))
    return found


def of_type(origin: Origin) -> Origin:
    """Returns the constructor's type instead of the constructor."""
    if origin.kind == "file":
        return origin._replace(name=definition_file(origin.place).constructors.get(origin.name, origin.name))
    return origin


class DefinitionFile:
    """One file of definitions: its first comment, its definitions in order, and the origins of the names that it uses."""

    def __init__(self, place: pathlib.Path) -> None:
        self.place = place
        lines = place.read_text().splitlines()
        self.imports = imports_of(lines)
        header = []
        for line in lines:
            if not line.startswith("--"):
                break
            header.append(line[2:].strip())
        self.header = header
        self.definitions: dict[str, Definition] = {}
        name, is_public = None, False
        body: list[str] = []
        for line in [*lines, "abbrev end"]:
            begins = BEGINS.match(line)
            if begins or re.match(r"\s*(module _|use |infix|pub mod )", line):
                if name:
                    self.definitions[name] = Definition(name, is_public, len(body), "\n".join(body))
                name, body = (begins[1], []) if begins else (None, [])
                is_public = bool(begins) and " pub " in f" {line.strip()} "
            if name and line.strip() and not line.strip().startswith("--"):
                body.append(line)
        self.constructors = {}
        for definition in self.definitions.values():
            if re.match(r"\s*pub data ", definition.text):
                for row in definition.text.splitlines()[1:]:
                    self.constructors[row.split()[0]] = definition.name

    @property
    def crate(self) -> str:
        return self.place.relative_to(CRATES).parts[0]

    @property
    def file(self) -> str:
        return self.place.relative_to(CRATES / self.crate / "specs").as_posix()

    def used_by(self, name: str) -> set[Origin]:
        """Returns the origins of the names that this definition uses, including those of this file."""
        text = self.definitions[name].text
        own = {other: Origin("file", self.place, other) for other in self.definitions if other != name}
        own |= {other: Origin("file", self.place, kind) for other, kind in self.constructors.items()}
        return origins_in(text, {**self.imports, **own}) - {Origin("file", self.place, name)}


_FILES = {}


def definition_file(place: pathlib.Path) -> DefinitionFile:
    if place not in _FILES:
        _FILES[place] = DefinitionFile(place)
    return _FILES[place]


def cited_files() -> list[DefinitionFile]:
    """Returns every file of definitions that public contracts may cite: those in `specs/` itself, except those that list modules."""
    return [
        definition_file(place) for place in sorted(CRATES.glob("*/specs/*.antt")) if place.stem not in ("Lib", "inner")
    ]
