"""Reads what the sources of a static library export to C, each type as a C caller has to spell it."""
import pathlib
import re

from header.declarations import Declarations, Function, Item, parts, words

COMMENT = re.compile(r"//[^\n]*")
# A field that only contracts see: it crosses to nobody.
GHOST = re.compile(r"^\s*(?:pub )?ghost \w+: \{[^}]*\}(?: by \{[^}]*\})?,\n", re.MULTILINE)
CONSTANT = re.compile(r"^pub const (\w+): (?:u8|u16|u32|u64|usize) = (0x[0-9a-fA-F_]+|[0-9_]+);", re.MULTILINE)
STRUCT = re.compile(r"#\[repr\(C\)\]\s*(?:#\[[^\]]*\]\s*)*pub struct (\w+) \{([^}]*)\}")
EXPORT = re.compile(
    r'#\[unsafe\(no_mangle\)\]\s*pub (?:unsafe )?extern "C" fn (\w+)\(([^)]*)\)(?:\s*->\s*([\w&<>\[\] *]+?))?\s*(?=\b(?:ensures|requires)\b|\{)'
)
NUMBERING = re.compile(
    r"\bfn (\w+)\([^)]*\) -> u\d+(?:\s*(?:ensures|requires) [^\n]*)*\s*\{\s*match \w+ \{([^{}]*)\}\s*\}"
)
ARM = re.compile(r"((?:\w+::\w+(?:\([^)]*\))?\s*\|?\s*)+)=>\s*(\d+)")

# The types of C for those of Rust that stand for themselves.
SCALARS = {
    "u8": "uint8_t",
    "u16": "uint16_t",
    "u32": "uint32_t",
    "u64": "uint64_t",
    "usize": "size_t",
    "bool": "bool",
    "i8": "int8_t",
    "i16": "int16_t",
    "i32": "int32_t",
    "i64": "int64_t",
    "isize": "ptrdiff_t",
    "()": "void",
}


def pointed(kind: str) -> str:
    """Returns the type of C that a type of Rust is; a struct keeps its own name."""
    return SCALARS.get(kind, f"struct {kind}")


def of_type(name: str, kind: str) -> list[Item]:
    """Returns the parameters of C that a parameter of Rust is: of a slice a pointer and its length, of an allocator none."""
    kind = re.sub(r"'\w+ ", "", " ".join(kind.split()))
    if kind == "Global":
        return []
    optional = re.fullmatch(r"Option<(.*)>", kind)
    kind = optional[1] if optional else kind
    slice_of = re.fullmatch(r"&(mut )?\[([\w<>]+)\]", kind)
    if slice_of:
        return [Item(name, f"{'' if slice_of[1] else 'const '}{pointed(slice_of[2])} *"), Item(f"{name}_len", "size_t")]
    one = re.fullmatch(r"(&mut |\*mut |&|\*const |Box<)(.*?)>?", kind)
    if one:
        inner = of_type(name, one[2])[0].type if one[2].startswith(("&", "*", "Box<", "Option<")) else pointed(one[2])
        const = "const " if one[1] in ("&", "*const ") else ""
        return [Item(name, f"{const}{inner}*" if inner.endswith("*") else f"{const}{inner} *")]
    array = re.fullmatch(r"\[([\w]+); (\w+)\]", kind)
    return [Item(name, f"{pointed(array[1])}[{array[2]}]" if array else pointed(kind))]


def listed(text: str) -> list[Item]:
    """Returns the parameters or fields of a list."""
    found = []
    for item in parts(text):
        name, _, kind = item.removeprefix("pub ").partition(":")
        found += of_type(name.removeprefix("mut ").strip(), kind.strip())
    return found


def numberings(text: str) -> dict[str, dict[str, int]]:
    """Returns the numbers that functions give to the variants of an enum, by the function; 0 stands for no variant of C."""
    found: dict[str, dict[str, int]] = {}
    for function, body in NUMBERING.findall(text):
        arms = [
            (variant, int(number)) for names, number in ARM.findall(body) for variant in re.findall(r"::(\w+)", names)
        ]
        owners = set(re.findall(r"(\w+)::\w+", body))
        if arms and len(owners) == 1:
            found[f"{owners.pop()} in {function}"] = {words(variant): number for variant, number in arms if number}
    return found


def declarations(sources: list[pathlib.Path]) -> Declarations:
    """Returns what these sources export."""
    found = Declarations()
    for source in sources:
        text = GHOST.sub("", COMMENT.sub("", source.read_text()))
        constants = {name: int(value.replace("_", ""), 0) for name, value in CONSTANT.findall(text)}
        if constants:
            found.numberings[f"the constants of {source.name}"] = constants
        found.numberings |= {f"{name} of {source.name}": numbers for name, numbers in numberings(text).items()}
        for name, body in STRUCT.findall(text):
            found.structs[name] = tuple(listed(body))
        exports = EXPORT.findall(text)
        for name, parameters, result in exports:
            found.functions[name] = Function(name, of_type("result", result or "()")[0].type, tuple(listed(parameters)))
        if len(exports) != text.count("no_mangle"):
            found.unread.append(f"{source.name}: an export that is not read")
    return found
