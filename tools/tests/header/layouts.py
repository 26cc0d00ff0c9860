"""The layout of structs: where each field begins, how large the struct is, and to what it is aligned."""
import pathlib
import subprocess
import tempfile

from header.comparison import Types, functions_differ
from header.declarations import Declarations, Item

# Offsets by field, size and alignment, in bytes.
Layout = tuple[dict[str, int], int, int]

# The size of each scalar of C in bytes, which is also its alignment, on x86-64, the kit's one target.
BYTES = {
    "uint8_t": 1,
    "int8_t": 1,
    "bool": 1,
    "uint16_t": 2,
    "int16_t": 2,
    "uint32_t": 4,
    "int32_t": 4,
    "uint64_t": 8,
    "int64_t": 8,
    "size_t": 8,
    "ptrdiff_t": 8,
}


def layout(fields: tuple[Item, ...], structs: dict[str, tuple[Item, ...]]) -> Layout:
    """Returns the offset of each field of a `repr(C)` struct, and its size and alignment: each field at the next multiple of its alignment."""
    offsets, end, widest = {}, 0, 1
    for field in fields:
        base, _, count = field.type.partition("[")
        if base.endswith("*"):
            size, alignment = 8, 8
        elif base.removeprefix("struct ") in structs:
            _, size, alignment = layout(structs[base.removeprefix("struct ")], structs)
        else:
            size = alignment = BYTES.get(base, 1)
        end = -(-end // alignment) * alignment
        offsets[field.name] = end
        end += size * int(count.rstrip("]") or 1)
        widest = max(widest, alignment)
    return offsets, -(-end // widest) * widest, widest


def compiled_layouts(compiler: str, header: pathlib.Path, structs: dict[str, tuple[Item, ...]]) -> dict[str, Layout]:
    """Returns offsets, size and alignment of each struct, as a C compiler has them."""
    lines = []
    for name, fields in structs.items():
        lines += [f'printf("{name} {it.name} %zu\\n", offsetof(struct {name}, {it.name}));' for it in fields]
        lines += [f'printf("{name} = %zu %zu\\n", sizeof(struct {name}), _Alignof(struct {name}));']
    text = f'#include "{header}"\n#include <stdio.h>\nint main(void) {{\n' + "\n".join(lines) + "\nreturn 0; }\n"
    with tempfile.TemporaryDirectory() as folder:
        source, built = pathlib.Path(folder) / "layout.c", pathlib.Path(folder) / "layout"
        source.write_text(text)
        subprocess.run([compiler, "-std=c11", "-Wall", "-Wextra", "-Werror", str(source), "-o", str(built)], check=True)
        printed = subprocess.run([str(built)], check=True, capture_output=True, text=True).stdout
    found: dict[str, Layout] = {}
    offsets: dict[str, int] = {}
    for line in printed.splitlines():
        name, field, *numbers = line.split()
        if field == "=":
            found[name] = (offsets, int(numbers[0]), int(numbers[1]))
            offsets = {}
        else:
            offsets[field] = int(numbers[0])
    return found


def layouts_differ(header: Declarations, crate: Declarations, compiled: dict[str, Layout]) -> list[str]:
    """Returns each struct that a C compiler lays out otherwise than `repr(C)` lays out that of the sources."""
    types = Types()
    list(functions_differ(header, crate, types))
    found = []
    for name, exported in types.sources.items():
        if exported in crate.structs and name in compiled:
            ours, theirs = compiled[name], layout(crate.structs[exported], crate.structs)
            if ours != theirs:
                found.append(
                    f"struct {name}: offsets {ours[0]}, size {ours[1]}; {exported} has {theirs[0]}, size {theirs[1]}"
                )
    return found
