"""What an object file says of its types and of its code's origin, in the BPF Type Format (Linux Documentation/bpf/btf.rst and llvm_reloc.rst)."""
import struct
import typing
from collections.abc import Iterator

# Kinds of types (btf.rst, section 2.2).
PTR, ARRAY, STRUCT, UNION, ENUM, VAR, DATASEC, ENUM64 = 2, 3, 4, 5, 6, 14, 15, 19
MODIFIERS = {8, 9, 10, 11, 18}
# The number of bytes after the head of a type: those of the kind itself, and those of each member.
EXTRA = {
    1: (4, 0),
    ARRAY: (12, 0),
    STRUCT: (0, 12),
    UNION: (0, 12),
    ENUM: (0, 8),
    13: (0, 8),
    VAR: (4, 0),
    DATASEC: (0, 12),
    17: (4, 0),
    ENUM64: (0, 12),
}
KEYWORDS = {STRUCT: "struct ", UNION: "union ", ENUM: "enum ", ENUM64: "enum "}
MAPS = ".maps"

# Kinds of CO-RE relocations, by their numbers (llvm_reloc.rst).
CORE_KINDS = (
    "BPF_CORE_FIELD_BYTE_OFFSET",
    "BPF_CORE_FIELD_BYTE_SIZE",
    "BPF_CORE_FIELD_EXISTS",
    "BPF_CORE_FIELD_SIGNED",
    "BPF_CORE_FIELD_LSHIFT_U64",
    "BPF_CORE_FIELD_RSHIFT_U64",
    "BPF_CORE_TYPE_ID_LOCAL",
    "BPF_CORE_TYPE_ID_TARGET",
    "BPF_CORE_TYPE_EXISTS",
    "BPF_CORE_TYPE_SIZE",
    "BPF_CORE_ENUMVAL_EXISTS",
    "BPF_CORE_ENUMVAL_VALUE",
    "BPF_CORE_TYPE_MATCHES",
)


def name_at(texts: bytes, at: int) -> str:
    """Returns a name of a table of names."""
    return texts[at : texts.index(b"\0", at)].decode()


class Type(typing.NamedTuple):
    """A type: its name, its kind, its size or the type that it refers to, and the bytes that follow its head."""

    name: str
    kind: int
    target: int
    rest: bytes


class Types:
    """The types of the section .BTF."""

    def __init__(self, section: bytes) -> None:
        head, types, length, texts = struct.unpack_from("<IIII", section, 4)
        self.texts = section[head + texts :]
        self.types = [Type("void", 0, 0, b"")]
        at, end = head + types, head + types + length
        while at < end:
            name, info, target = struct.unpack_from("<III", section, at)
            kind, count = info >> 24 & 31, info & 0xFFFF
            fixed, each = EXTRA.get(kind, (0, 0))
            rest = section[at + 12 : at + 12 + fixed + each * count]
            self.types.append(Type(self.text(name), kind, target, rest))
            at += 12 + len(rest)

    def text(self, at: int) -> str:
        """Returns a text of the section, by where it begins."""
        return name_at(self.texts, at)

    def maps(self) -> Iterator[tuple[str, tuple[int | None, int | None]]]:
        """Yields the name of each map with its type and its number of entries."""
        for section in self.types:
            if section.kind == DATASEC and section.name == MAPS:
                for number, _, _ in struct.iter_unpack("<III", section.rest):
                    variable = self.types[number]
                    members = dict(self.numbers(self.types[variable.target]))
                    yield variable.name, (members.get("type"), members.get("max_entries"))

    def numbers(self, definition: Type) -> Iterator[tuple[str, int]]:
        """Yields the members of a map's definition that are numbers: `__uint(name, value)` is a pointer to an array of `value` items."""
        if definition.kind != STRUCT:
            return
        for name, member, _ in struct.iter_unpack("<III", definition.rest):
            pointer = self.types[member]
            if pointer.kind == PTR and self.types[pointer.target].kind == ARRAY:
                yield self.text(name), struct.unpack_from("<III", self.types[pointer.target].rest)[2]

    def spelled(self, number: int, path: str) -> str:
        """Returns a type of C as a source names it, with the member that a path of numbers leads to, as `struct task_struct.pid` for 0:12."""
        named = self.plain(number)
        spelled = KEYWORDS.get(named.kind, "") + (named.name or "(anonymous)")
        at = named
        for step in map(int, path.split(":")[1:]):
            if at.kind in (STRUCT, UNION):
                name, member, _ = struct.unpack_from("<III", at.rest, 12 * step)
                at = self.plain(member)
                spelled += f".{self.text(name)}" if name else ""
            elif at.kind == ARRAY:
                at = self.plain(struct.unpack_from("<I", at.rest)[0])
                spelled += f"[{step}]"
        return spelled

    def plain(self, number: int) -> Type:
        """Returns a type without `const`, `volatile`, `restrict`, tags and the names that `typedef` gave it."""
        for _ in self.types:
            if self.types[number].kind not in MODIFIERS:
                break
            number = self.types[number].target
        return self.types[number]


class Line(typing.NamedTuple):
    """The line of the source that an instruction comes from, which begins at this byte of its section."""

    at: int
    file: str
    number: int


class CoreRelocation(typing.NamedTuple):
    """An instruction that a loader has to adapt to the running kernel's types, by its offset in its section."""

    at: int
    kind: str
    subject: str


class Extension:
    """The section .BTF.ext: for each code section, its source lines and what a loader has to adapt to the kernel."""

    def __init__(self, section: bytes, types: Types) -> None:
        self.section, self.types = section, types
        self.head = struct.unpack_from("<I", section, 4)[0]

    def rows(self, place: int, length: int, code: str) -> Iterator[bytes]:
        """Yields the rows for a code section, of a table whose offset and length are at these bytes of the head."""
        if max(place, length) + 4 > self.head:
            return
        begin, size = (struct.unpack_from("<I", self.section, at)[0] for at in (place, length))
        at, end = self.head + begin, self.head + begin + size
        if size == 0:
            return
        row = struct.unpack_from("<I", self.section, at)[0]
        at += 4
        while at < end:
            name, count = struct.unpack_from("<II", self.section, at)
            at += 8
            if self.types.text(name) == code:
                yield from (self.section[at + row * number : at + row * (number + 1)] for number in range(count))
            at += row * count

    def lines(self, code: str) -> Iterator[Line]:
        """Yields the source line of each instruction of a code section; a line also applies to the instructions after it."""
        for row in self.rows(16, 20, code):
            at, file, _, place = struct.unpack_from("<IIII", row)
            yield Line(at, self.types.text(file), place >> 10)

    def core_relocations(self, code: str) -> Iterator[CoreRelocation]:
        """Yields the CO-RE relocations of a section of code."""
        for row in self.rows(24, 28, code):
            at, number, path, kind = struct.unpack_from("<IIII", row)
            name = CORE_KINDS[kind] if kind < len(CORE_KINDS) else f"number {kind}"
            yield CoreRelocation(at, name, self.types.spelled(number, self.types.text(path)))
