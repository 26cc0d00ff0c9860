"""Programs as bytes: what they decode to, and the shape of their jumps.

Written only from RFC 9669 (sections 3 to 5, appendix A) and the profile in docs/.
"""
from dataclasses import dataclass

MAX_UNITS = 4096

# Classes, codes and sources (RFC 9669, sections 3 and 4).
ALU, JMP, JMP32, ALU64 = 4, 5, 6, 7
CODES = {
    0x0: "add",
    0x1: "sub",
    0x2: "mul",
    0x3: "div",
    0x4: "or",
    0x5: "and",
    0x6: "lsh",
    0x7: "rsh",
    0x8: "neg",
    0x9: "mod",
    0xA: "xor",
    0xB: "mov",
    0xC: "arsh",
    0xD: "end",
}
CONDITIONS = {
    0x1: "eq",
    0x2: "gt",
    0x3: "ge",
    0x4: "set",
    0x5: "ne",
    0x6: "sgt",
    0x7: "sge",
    0xA: "lt",
    0xB: "le",
    0xC: "slt",
    0xD: "sle",
}
SIZES = {0x00: 4, 0x08: 2, 0x10: 1, 0x18: 8}
JA, JA_FAR, CALL, CALL_REGISTER, EXIT, WIDE = 0x05, 0x06, 0x85, 0x8D, 0x95, 0x18
PACKET = {0x20, 0x28, 0x30, 0x40, 0x48, 0x50}
ATOMIC = {0xC3, 0xDB}


class Fault(Exception):
    """The reason why bytes are not a program of the profile, or are refused; its text is that of the answer."""


@dataclass(frozen=True)
class Insn:
    """An instruction: its kind, and the fields that the kind has."""

    kind: str
    dst: int = 0
    src: int | None = None
    offset: int = 0
    imm: int = 0
    width: int = 64
    op: str = ""
    size: int = 0

    @property
    def units(self):
        return 2 if self.kind in ("number", "ring") else 1


def signed(number: int, bits):
    """Returns the number of a two's complement of this many bits."""
    number &= (1 << bits) - 1
    return number - (1 << bits) if number >> (bits - 1) else number


def field_checks(opcode: int, src_field, imm: int):
    """Returns the kind of a first unit, and the values that its destination, source, offset and immediate allow: `reg`, `any`, or a set of numbers."""
    zero = {0}
    cls, code, by_register = opcode & 7, opcode >> 4, bool(opcode & 8)
    if opcode in PACKET | ATOMIC | {CALL_REGISTER}:
        return "left out"
    if opcode == CALL:
        if src_field in (1, 2):
            return "left out"
        return ("call", zero, zero, zero, "any") if src_field == 0 else None
    if opcode == WIDE:
        if src_field in (1, 2, 3, 4, 6):
            return "left out"
        return {0: ("number", "reg", zero, zero, "any"), 5: ("ring", "reg", {5}, zero, "any")}.get(src_field)
    if opcode == EXIT:
        return ("exit", zero, zero, zero, zero)
    if opcode == JA:
        return ("jump", zero, zero, "any", zero)
    if opcode == JA_FAR:
        return ("jump far", zero, zero, zero, "any")
    if cls in (ALU, ALU64) and code in CODES:
        return arithmetic_checks(cls, CODES[code], by_register, imm)
    if cls in (JMP, JMP32) and code in CONDITIONS:
        return ("branch", "reg", "reg", "any", zero) if by_register else ("branch", "reg", zero, "any", "any")
    mode = opcode & 0xE0
    if cls == 1 and mode == 0x60:
        return ("load", "reg", "reg", "any", zero)
    if cls == 1 and mode == 0x80 and opcode != 0x99:
        return ("load signed", "reg", "reg", "any", zero)
    if cls == 2 and mode == 0x60:
        return ("store immediate", "reg", zero, "any", "any")
    if cls == 3 and mode == 0x60:
        return ("store", "reg", "reg", "any", zero)
    return None


def arithmetic_checks(cls, op, by_register, imm: int):
    zero = {0}
    if op == "end":
        named = imm in (16, 32, 64) and not (cls == ALU64 and by_register)
        return ("end", "reg", zero, zero, {16, 32, 64}) if named else None
    if op == "neg":
        return None if by_register else ("neg", "reg", zero, zero, zero)
    if op == "mov" and by_register:
        return ("mov", "reg", "reg", {0, 8, 16} | ({32} if cls == ALU64 else set()), zero)
    offsets = {0, 1} if op in ("div", "mod") else zero
    return (
        "mov" if op == "mov" else "binary",
        "reg",
        *(("reg", offsets, zero) if by_register else (zero, offsets, "any")),
    )


def insn_at(code, unit: int):
    """Returns the instruction that begins at this unit; raises Fault if there is none."""
    at = 8 * unit
    opcode, registers = code[at], code[at + 1]
    dst, src = registers & 15, registers >> 4
    offset = int.from_bytes(code[at + 2 : at + 4], "little", signed=True)
    imm = int.from_bytes(code[at + 4 : at + 8], "little", signed=True)

    def refuse(kind) -> None:
        raise Fault(f"refused decode {kind} unit {unit}")

    checks = field_checks(opcode, src, imm)
    if checks == "left out":
        refuse("LeftOut")
    if checks is None:
        refuse("BadOpcode")
    kind, allowed = checks[0], tuple(zip(checks[1:], (dst, src, offset, imm)))
    if any(what == "reg" and number > 10 for what, number in allowed):
        refuse("BadRegister")
    if any(isinstance(what, set) and number not in what for what, number in allowed):
        refuse("UnusedField")
    if kind in ("number", "ring"):
        rest = code[at + 8 : at + 16]
        if len(rest) == 8 and (any(rest[:4]) or kind == "ring" and any(rest[4:])):
            refuse("UnusedField")
        if len(rest) < 8:
            refuse("HalfWide")
        if kind == "number":
            return Insn(kind, dst, imm=(imm & 0xFFFFFFFF) | int.from_bytes(rest[4:], "little") << 32)
        return Insn(kind, dst, imm=imm & 0xFFFFFFFF)
    return Insn(
        kind,
        dst,
        src if checks[2] == "reg" else None,
        offset,
        imm & 0xFFFFFFFF if kind == "call" else imm,
        64 if opcode & 7 in (ALU64, JMP) else 32,
        op_of(kind, opcode),
        SIZES[opcode & 0x18],
    )


def op_of(kind, opcode: int):
    if kind == "branch":
        return CONDITIONS[opcode >> 4]
    if kind == "end":
        return {0xD4: "little", 0xDC: "big", 0xD7: "swap"}[opcode]
    return CODES.get(opcode >> 4, "") if kind in ("binary", "neg", "mov") else ""


def decoded(code):
    """Returns the instructions of bytes by their units; raises Fault at the first faulty unit."""
    if not code or len(code) % 8:
        raise Fault("refused decode Length unit 0")
    insns, unit = {}, 0
    while 8 * unit < len(code):
        if unit >= MAX_UNITS:
            raise Fault(f"refused decode TooLong unit {unit}")
        insns[unit] = insn_at(code, unit)
        unit += insns[unit].units
    return insns


def goes_on(insn):
    """Returns whether an instruction continues to the next one."""
    return insn.kind not in ("exit", "jump", "jump far")


def distance(insn):
    """Returns the distance of a jump in units, or None if the instruction does not jump."""
    return {"jump": insn.offset, "branch": insn.offset, "jump far": insn.imm}.get(insn.kind)


def edges(insns, unit: int):
    """Returns the units to which an instruction leads."""
    insn = insns[unit]
    ends = [unit + insn.units] if goes_on(insn) else []
    if distance(insn) is not None:
        ends.append(unit + 1 + distance(insn))
    return ends


def shaped(insns) -> None:
    """Checks that the program is well shaped; raises Fault at its first fault."""
    units = max(insns) + insns[max(insns)].units
    reached, left = {0}, [0]
    while left:
        for end in edges(insns, left.pop()):
            if end in insns and end not in reached:
                reached.add(end)
                left.append(end)
    for unit, insn in insns.items():
        jump = distance(insn)
        target = None if jump is None else unit + 1 + jump
        faults = (
            ("Backward", jump is not None and jump < 0),
            ("OutOfProgram", target is not None and target >= units),
            ("IntoWide", target is not None and target not in insns),
            ("FallsOff", goes_on(insn) and unit + insn.units >= units),
            ("Unreachable", unit not in reached),
        )
        for kind, holds in faults:
            if holds:
                raise Fault(f"refused shape {kind} unit {unit}")
