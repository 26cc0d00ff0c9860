"""Reads the declarations of a C header."""
import re

from header.declarations import Declarations, Function, Item, parts

COMMENT = re.compile(r"/\*.*?\*/|//[^\n]*", re.DOTALL)
DEFINE = re.compile(r"^#define[ \t]+(\w+)[ \t]+\(?(0x[0-9a-fA-F]+|\d+)[uUlL]*\)?[ \t]*$", re.MULTILINE)
DIRECTIVE = re.compile(r"^[ \t]*#(?:\\\n|[^\n])*$", re.MULTILINE)
ENUM = re.compile(r"\benum\s+(\w+)\s*\{([^}]*)\}\s*;")
STRUCT = re.compile(r"\bstruct\s+(\w+)\s*\{([^}]*)\}\s*;")
OPAQUE = re.compile(r"\bstruct\s+(\w+)\s*;")
FUNCTION = re.compile(r"((?:\b(?:const|struct|unsigned)\s+)*\b\w+\b[\s*]+)(\w+)\s*\(([^()]*)\)\s*;")
LINKAGE = re.compile(r'\bextern\s+"C"\s*\{|\}')


def spelled(declared: str) -> Item:
    """Returns the name and the type of a declaration such as `const uint8_t *program`."""
    found = re.fullmatch(r"(.*?)(\w+)((?:\[\w*\])*)", declared.strip(), re.DOTALL)
    if not found:
        return Item("", declared.strip())
    pointers = found[1].count("*")
    base = " ".join(found[1].replace("*", " ").split())
    return Item(found[2], base + (" " + "*" * pointers if pointers else "") + found[3])


def numbers(body: str) -> dict[str, int]:
    """Returns the enumerators of an enum's body, counted on where no number is written."""
    found: dict[str, int] = {}
    value = 0
    for item in parts(body):
        name, _, written = (word.strip() for word in item.partition("="))
        value = int(written, 0) if written else value
        found[name] = value
        value += 1
    return found


def declarations(text: str) -> Declarations:
    """Returns what a header declares; `unread` has each piece that is none of the forms known here."""
    found = Declarations()
    rest = COMMENT.sub(" ", text)
    for name, value in DEFINE.findall(rest):
        found.numberings[name] = {name: int(value, 0)}
    rest = DIRECTIVE.sub("", rest)
    for name, body in ENUM.findall(rest):
        found.numberings[name] = numbers(body)
    rest = ENUM.sub("", rest)
    for name, body in STRUCT.findall(rest):
        found.structs[name] = tuple(spelled(field) for field in body.split(";") if field.strip())
    rest = STRUCT.sub("", rest)
    found.opaque = set(OPAQUE.findall(rest))
    rest = OPAQUE.sub("", rest)
    for result, name, parameters in FUNCTION.findall(rest):
        given = [] if parameters.strip() == "void" else parts(parameters)
        found.functions[name] = Function(name, spelled(result + "result").type, tuple(spelled(it) for it in given))
    rest = LINKAGE.sub("", FUNCTION.sub("", rest))
    found.unread = [piece for piece in (" ".join(line.split()) for line in rest.split(";")) if piece]
    return found
