"""The instructions of a program: their units of eight bytes, and where their jumps lead (RFC 9669)."""
import struct
import typing
from collections.abc import Iterator

UNIT = 8

# Opcodes: a wide load has two units (section 5.4); a call of a function of the program itself has the source field 1 (section 4.3.1).
WIDE, CALL, EXIT, GOTO, LONG_GOTO = 0x18, 0x85, 0x95, 0x05, 0x06
LOCAL_CALL = 1
# The source field of a wide load that names a map by its index.
MAP_BY_INDEX = 5
# The classes of jumps (section 4.3). CALL and EXIT are of the first one.
JUMPS, JUMPS_OF_32_BITS = 5, 6


class Jump(typing.NamedTuple):
    """A jump: the unit that it leads to, and whether the program may also go on after it."""

    target: int
    is_conditional: bool


def instructions(code: bytes) -> Iterator[tuple[int, bytes]]:
    """Yields the bytes of each instruction with the number of its first unit."""
    at = 0
    while at < len(code):
        length = 2 * UNIT if code[at] == WIDE else UNIT
        yield at // UNIT, code[at : at + length]
        at += length


def jump_of(unit: int, insn: bytes) -> Jump | None:
    """Returns the jump that the instruction at this unit is, or None. Calls and exits are no jumps."""
    opcode = insn[0]
    if opcode & 7 not in (JUMPS, JUMPS_OF_32_BITS) or opcode & ~8 in (CALL, EXIT):
        return None
    offset, immediate = struct.unpack_from("<hi", insn, 2)
    return Jump(unit + 1 + (immediate if opcode == LONG_GOTO else offset), opcode not in (GOTO, LONG_GOTO))


def with_target(unit: int, insn: bytes, target: int) -> bytes:
    """Returns a jump with another target. Raises struct.error if the distance does not fit."""
    distance = target - unit - 1
    if insn[0] == LONG_GOTO:
        return insn[:4] + struct.pack("<i", distance)
    return insn[:2] + struct.pack("<h", distance) + insn[4:]
