"""What a library for C declares: its constants, structs and functions, whichever language declares them."""
import dataclasses
import re


@dataclasses.dataclass(frozen=True)
class Item:
    """A parameter of a function or a field of a struct, with its type as C spells it."""

    name: str
    type: str


@dataclasses.dataclass(frozen=True)
class Function:
    """A function of the library."""

    name: str
    result: str
    parameters: tuple[Item, ...]


@dataclasses.dataclass
class Declarations:
    """The declarations of a header or of a crate.

    A numbering gives numbers to names: an enum of C, the public constants of a module, or the arms of a match. `opaque` are
    structs without declared fields, and `unread` are the pieces of text that are none of the known forms.
    """

    numberings: dict[str, dict[str, int]] = dataclasses.field(default_factory=dict)
    structs: dict[str, tuple[Item, ...]] = dataclasses.field(default_factory=dict)
    opaque: set[str] = dataclasses.field(default_factory=set)
    functions: dict[str, Function] = dataclasses.field(default_factory=dict)
    unread: list[str] = dataclasses.field(default_factory=list)


def parts(text: str) -> list[str]:
    """Returns the items of a list that commas separate, outside of brackets."""
    found, depth, begin = [], 0, 0
    for at, letter in enumerate(text + ","):
        depth += (letter in "([{<") - (letter in ")]}>")
        if letter == "," and depth == 0:
            found.append(text[begin:at].strip())
            begin = at + 1
    return [item for item in found if item]


def words(name: str) -> str:
    """Returns a name in capitals, as an enum of C has it: `TooLong` becomes `TOO_LONG`."""
    return re.sub(r"(?<=[a-z0-9])(?=[A-Z])", "_", name).upper()
