"""Reads what a Rust crate declares of a library for C: the functions of its `extern "C"` blocks, with its structs, constants and enums."""
import pathlib
import re

from header.crate_source import COMMENT, CONSTANT, STRUCT, listed, of_type
from header.declarations import Declarations, Function, words

BLOCK = re.compile(r'\bextern "C" \{(.*?)^\}', re.DOTALL | re.MULTILINE)
DECLARED = re.compile(r"\bfn (\w+)\s*\(([^()]*)\)\s*(?:->\s*([^;]+?))?\s*;")
ENUM = re.compile(r"\benum (\w+) \{([^{}]*)\}")
VARIANT = re.compile(r"\b(\w+) = (\d+)")


def declarations(sources: list[pathlib.Path]) -> Declarations:
    """Returns what these sources declare of the library. An enum counts if its variants have numbers."""
    found = Declarations()
    for source in sources:
        text = COMMENT.sub("", source.read_text())
        for block in BLOCK.findall(text):
            functions = DECLARED.findall(block)
            for name, parameters, result in functions:
                found.functions[name] = Function(
                    name, of_type("result", result.strip() or "()")[0].type, tuple(listed(parameters))
                )
            if len(functions) != len(re.findall(r"\bfn ", block)):
                found.unread.append(f"{source.name}: a function of an extern block that is not read")
        found.structs |= {name: tuple(listed(body)) for name, body in STRUCT.findall(text)}
        constants = {name: int(value.replace("_", ""), 0) for name, value in CONSTANT.findall(text)}
        if constants:
            found.numberings[f"the constants of {source.name}"] = constants
        for name, body in ENUM.findall(text):
            numbers = {words(variant): int(number) for variant, number in VARIANT.findall(body)}
            if numbers:
                found.numberings[f"{name} of {source.name}"] = numbers
    return found
