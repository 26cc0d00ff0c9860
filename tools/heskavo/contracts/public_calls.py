"""The public calls of the crates that have clauses: functions, and methods of types and traits, that a lib.rt exports."""
import dataclasses
import functools
import re

from heskavo.contracts import contract_sources
from heskavo.contracts.contract_sources import Function
from heskavo.repository import CRATES, libraries_of_crates

EXPORT = re.compile(r"(?ms)^pub use ((?:\w+::)*)(\{[^}]*\}|\w+)(?: as (\w+))?;")
ENSURES = re.compile(r"(?m)^\s*ensures\*?(?: (\w+))? \{")


@dataclasses.dataclass
class Call:
    """A public call: its crate, its path without the crate, the names of its clauses, and the first sentence of its doc comment."""

    crate: str
    path: str
    clauses: list[str]
    sentence: str

    @property
    def name(self) -> str:
        """Returns the call's name without its type."""
        return self.path.rpartition("::")[2]


@functools.cache
def exports(crate: str) -> frozenset[str]:
    """Returns the names that a crate's lib.rt exports."""
    library = CRATES / crate / "src" / "lib.rt"
    text = library.read_text() if library.is_file() else ""
    found = [alias or group for _, group, alias in EXPORT.findall(text)]
    return frozenset(name for group in found for name in re.findall(r"\w+", group))


def is_public(function: Function) -> bool:
    """Returns whether others can name the function: it, its type or its trait is exported."""
    block = function.block
    return (block.type or block.trait or function.name) in exports(function.source.crate)


def first_sentence(text: str) -> str:
    """Returns the first sentence of a doc comment."""
    return re.split(r"(?<=[.!?]) (?=[A-Z`(])", text)[0]


@functools.cache
def public_calls() -> tuple[Call, ...]:
    """Returns the public calls that have clauses, in the order of crates.txt and of their sources; not those of crates that only test."""
    order = {name: place for place, name in enumerate(libraries_of_crates())}
    found: dict[tuple[str, str], Call] = {}
    for function in contract_sources.functions():
        crate, path = function.source.crate, "::".join(function.path.split("::")[1:])
        has_clauses = ENSURES.search(function.clauses) is not None
        if not has_clauses or contract_sources.is_of_tests(crate) or not is_public(function):
            continue
        names = [name for name in ENSURES.findall(function.clauses) if name]
        above = function.in_trait()
        doc = function.doc or (above.doc if above else "")
        call = found.setdefault((crate, path), Call(crate, path, [], first_sentence(doc)))
        call.clauses += [name for name in names if name not in call.clauses]
    return tuple(sorted(found.values(), key=lambda it: order[it.crate]))
