"""Links a function of an object file into a program: its maps are named by the numbers of their rings, and all its jumps lead forward."""
import pathlib
import struct

from heskavo.bpf.forward_layout import forward
from heskavo.bpf.instructions import CALL, LOCAL_CALL, MAP_BY_INDEX, UNIT, instructions
from heskavo.bpf.object_files import ObjectFile, Symbol
from heskavo.bpf.refusals import Refusal
from heskavo.bpf.type_information import MAPS

INLINED = "declare it 'static inline __attribute__((always_inline))'"


def function_of(file: ObjectFile, name: str | None) -> Symbol:
    """Returns the function of this name, or without a name the only one."""
    functions = file.functions()
    if not functions:
        raise Refusal("there is no section of code")
    if name is None and len(functions) > 1:
        raise Refusal(
            "there are several programs, of which --program NAME takes one: "
            + ", ".join(each.name for each in functions)
        )
    for each in functions:
        if name in (None, each.name):
            return each
    raise Refusal(f"there is no program {name}, but " + ", ".join(each.name for each in functions))


def ring_number(file: ObjectFile, symbol: Symbol, at: int, unit: int) -> int:
    """Returns the number of the ring that a wide load names."""
    for number, ring in enumerate(file.rings()):
        if ring.at == at:
            return number
    for each in file.maps():
        if each.at == at:
            kind = "whose type is not known (compile with -g)" if each.kind is None else f"of type {each.kind}"
            raise Refusal(f"it names the map {each.name} {kind}: only ring buffers are taken", unit)
    raise Refusal(f"it names {symbol.name}, which is no map", unit)


def linked(file: ObjectFile, function: Symbol) -> bytes:
    """Returns the bytes of a function, in which each map is named by its ring's number."""
    code = bytearray(file.sections[function.section].bytes[function.at : function.at + function.length])
    for offset, symbol in file.relocations(function.section):
        at, unit = offset - function.at, (offset - function.at) // UNIT
        if not 0 <= at < len(code):
            continue
        if code[at] == CALL:
            raise Refusal(f"it calls the function {symbol.name}, which nothing links: {INLINED}", unit)
        section = file.section_name(symbol.section)
        if section != MAPS:
            raise Refusal(
                f"it names {symbol.name}, which is data{f' of the section {section}' if section else ''} or a function that nothing links",
                unit,
            )
        number = ring_number(file, symbol, symbol.at + struct.unpack_from("<i", code, at + 4)[0], unit)
        code[at + 1] = code[at + 1] & 15 | MAP_BY_INDEX << 4
        struct.pack_into("<i", code, at + 4, number)
    return bytes(code)


def refuse_what_no_layout_mends(file: ObjectFile, function: Symbol, code: bytes) -> None:
    """Raises Refusal if a loader would have to fit the program to a kernel, or if it calls a function of its file."""
    for each in file.core_relocations(function):
        raise Refusal(
            f"it has the CO-RE relocation {each.kind} of {each.subject}, which a loader resolves against the running kernel's types: "
            "a context of this host is plain bytes, so read it without bpf_core_read and preserve_access_index",
            (each.at - function.at) // UNIT,
        )
    for unit, insn in instructions(code):
        if insn[0] == CALL and insn[1] >> 4 == LOCAL_CALL:
            raise Refusal(f"it calls a function of this file: {INLINED}", unit)


def program_of(file: ObjectFile, name: str | None) -> bytes:
    """Returns the bytes of a program, by its name, or of the only one. Raises Refusal with the unit, and the line of the source where it is known."""
    function = function_of(file, name)
    try:
        code = linked(file, function)
        refuse_what_no_layout_mends(file, function, code)
        return forward(code)
    except Refusal as refusal:
        if refusal.unit is None:
            raise
        line = file.line_of(function, refusal.unit * UNIT)
        place = f" ({pathlib.Path(line.file).name}:{line.number})" if line else ""
        raise Refusal(f"unit {refusal.unit}{place}: {refusal}") from None
