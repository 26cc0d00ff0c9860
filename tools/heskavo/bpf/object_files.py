"""Object files for eBPF: their sections, symbols, relocations (elf(5)) and maps, as compilers write and libbpf reads them."""
import struct
import typing
from collections.abc import Iterator

from heskavo.bpf.refusals import Refusal
from heskavo.bpf.type_information import MAPS, CoreRelocation, Extension, Line, Types, name_at

# Kinds and flags of sections, and what a symbol names.
SHT_PROGBITS, SHT_SYMTAB, SHT_RELA, SHT_REL = 1, 2, 4, 9
SHF_EXECINSTR = 4
STT_OBJECT, STT_FUNC, STB_GLOBAL = 1, 2, 1
EM_BPF = 247
RING_BUFFER = 27


class Section(typing.NamedTuple):
    """A section: its name, kind and flags, the section of its names, the section that it is about, and its bytes."""

    name: str
    kind: int
    flags: int
    link: int
    about: int
    bytes: bytes


class Symbol(typing.NamedTuple):
    """A symbol: its name, what it names, whether it is visible to other files, the number of its section, its offset there, and its length."""

    name: str
    kind: int
    is_global: bool
    section: int
    at: int
    length: int


class Map(typing.NamedTuple):
    """A map: its name, its offset in its section, its type and its number of entries; the last two are None without type information."""

    name: str
    at: int
    kind: int | None
    entries: int | None


class ObjectFile:
    """An object file: its sections, symbols and type information."""

    def __init__(self, elf: bytes) -> None:
        if elf[:6] != b"\x7fELF\x02\x01" or struct.unpack_from("<H", elf, 18)[0] != EM_BPF:
            raise Refusal("it is an object file, but not a little-endian one for eBPF")
        table = struct.unpack_from("<Q", elf, 40)[0]
        size, number, names = struct.unpack_from("<HHH", elf, 58)
        heads = [struct.unpack_from("<IIQQQQII", elf, table + k * size) for k in range(number)]
        texts = elf[heads[names][4] :]
        self.sections = [
            Section(name_at(texts, name), kind, flags, link, about, elf[place : place + length])
            for name, kind, flags, _, place, length, link, about in heads
        ]
        self.symbols = [symbol for part in self.sections if part.kind == SHT_SYMTAB for symbol in self.symbols_of(part)]
        parts = {part.name: part.bytes for part in self.sections}
        self.types = Types(parts[".BTF"]) if ".BTF" in parts else None
        self.extension = Extension(parts[".BTF.ext"], self.types) if ".BTF.ext" in parts and self.types else None

    def symbols_of(self, part: Section) -> Iterator[Symbol]:
        """Yields the symbols of a table; one without a name has that of its section."""
        for name, info, _, section, at, length in struct.iter_unpack("<IBBHQQ", part.bytes):
            known = name_at(self.sections[part.link].bytes, name)
            yield Symbol(known or self.section_name(section), info & 15, info >> 4 == STB_GLOBAL, section, at, length)

    def section_name(self, number: int) -> str:
        """Returns the name of a section, by its number."""
        return self.sections[number].name if number < len(self.sections) else ""

    def functions(self) -> list[Symbol]:
        """Returns the functions that are visible to other files, each in a code section."""
        code = [
            number
            for number, part in enumerate(self.sections)
            if part.kind == SHT_PROGBITS and part.flags & SHF_EXECINSTR
        ]
        return [
            symbol for symbol in self.symbols if symbol.kind == STT_FUNC and symbol.is_global and symbol.section in code
        ]

    def relocations(self, section: int) -> Iterator[tuple[int, Symbol]]:
        """Yields each offset of a section at which a linker inserts a symbol, with the symbol."""
        for part in self.sections:
            if part.kind in (SHT_REL, SHT_RELA) and part.about == section:
                for entry in struct.iter_unpack("<QQ" if part.kind == SHT_REL else "<QQq", part.bytes):
                    yield entry[0], self.symbols[entry[1] >> 32]

    def maps(self) -> list[Map]:
        """Returns the maps in the order of their section."""
        known = dict(self.types.maps()) if self.types else {}
        found = [
            symbol for symbol in self.symbols if symbol.kind == STT_OBJECT and self.section_name(symbol.section) == MAPS
        ]
        return [
            Map(symbol.name, symbol.at, *known.get(symbol.name, (None, None)))
            for symbol in sorted(found, key=lambda symbol: symbol.at)
        ]

    def rings(self) -> list[Map]:
        """Returns the ring buffer maps, by the numbers of their rings."""
        return [each for each in self.maps() if each.kind == RING_BUFFER]

    def core_relocations(self, function: Symbol) -> list[CoreRelocation]:
        """Returns the CO-RE relocations of a function."""
        found = self.extension.core_relocations(self.section_name(function.section)) if self.extension else ()
        return [each for each in found if 0 <= each.at - function.at < function.length]

    def line_of(self, function: Symbol, at: int) -> Line | None:
        """Returns the source line of the instruction at this offset of the function, or None if it is not known."""
        found = self.extension.lines(self.section_name(function.section)) if self.extension else ()
        before = [line for line in found if function.at <= line.at <= function.at + at and line.number]
        return max(before, key=lambda line: line.at) if before else None
