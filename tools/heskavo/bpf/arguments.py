"""What a program and its maps require of a host: the length of the context, and the number and size of the rings."""
import struct
import typing

from heskavo.bpf.instructions import CALL, EXIT, UNIT, WIDE, instructions, jump_of
from heskavo.bpf.object_files import ObjectFile

# Classes of instructions and their operations (RFC 9669, sections 3.1 and 4.1), and the helper that reads from its second argument.
LDX, ST, STX, ALU, ALU64 = 1, 2, 3, 4, 7
ADD, SUB, MOV, BY_REGISTER = 0x00, 0x10, 0xB0, 8
WIDTHS = {0x00: 4, 0x08: 2, 0x10: 1, 0x18: 8}
OUTPUT = 130
FRAME, REGISTERS = 10, 11
# The kernel accepts as the size of a ring a power of two that is a multiple of its page.
SMALLEST_RING = 4096


class Value(typing.NamedTuple):
    """What a register holds: a number, or a pointer at this distance from the context's first byte or from the frame's end."""

    kind: str
    number: int


class State:
    """What is known before an instruction: of each register, and of each eight-byte slot of the stack."""

    def __init__(self, registers: list[Value | None], stack: dict[int, Value]) -> None:
        self.registers, self.stack = registers, stack

    def copy(self) -> "State":
        """Returns a state that knows the same."""
        return State(self.registers.copy(), self.stack.copy())

    def joined(self, other: "State") -> "State":
        """Returns what both states know."""
        registers = [one if one == another else None for one, another in zip(self.registers, other.registers)]
        return State(
            registers, {place: value for place, value in self.stack.items() if other.stack.get(place) == value}
        )


def moved(value: Value | None, by: Value | None, sign: int) -> Value | None:
    """Returns a value to which a number is added, or from which it is subtracted; None if one of both is not known."""
    if value is None or by is None or by.kind != "number":
        return None
    return Value(value.kind, value.number + sign * by.number)


def compute(state: State, insn: bytes) -> None:
    """Executes an arithmetic instruction: the result of anything but a move or a sum is unknown."""
    opcode, target, source = insn[0], insn[1] & 15, insn[1] >> 4
    given = state.registers[source] if opcode & BY_REGISTER else Value("number", struct.unpack_from("<i", insn, 4)[0])
    operation, is_wide = opcode & 0xF0, opcode & 7 == ALU64
    result = None
    if operation == MOV and (is_wide or not opcode & BY_REGISTER):
        result = given
    elif operation in (ADD, SUB) and is_wide:
        result = moved(state.registers[target], given, 1 if operation == ADD else -1)
    state.registers[target] = result


def store(state: State, insn: bytes) -> None:
    """Executes a store: eight bytes at a stack slot keep their value, others make the slots that they touch unknown."""
    pointer = state.registers[insn[1] & 15]
    if pointer is None or pointer.kind != "frame":
        return
    begin, width = pointer.number + struct.unpack_from("<h", insn, 2)[0], WIDTHS[insn[0] & 0x18]
    for place in [place for place in state.stack if place < begin + width and begin < place + 8]:
        del state.stack[place]
    value = (
        state.registers[insn[1] >> 4] if insn[0] & 7 == STX else Value("number", struct.unpack_from("<i", insn, 4)[0])
    )
    if width == 8 and begin % 8 == 0 and value:
        state.stack[begin] = value


def step(state: State, insn: bytes) -> int:
    """Executes an instruction, and returns up to which byte it reads the context."""
    opcode, group = insn[0], insn[0] & 7
    read = 0
    if group in (ALU, ALU64):
        compute(state, insn)
    elif group in (ST, STX):
        store(state, insn)
    elif group == LDX:
        pointer, width = state.registers[insn[1] >> 4], WIDTHS[opcode & 0x18]
        at = pointer.number + struct.unpack_from("<h", insn, 2)[0] if pointer else 0
        kept = state.stack.get(at) if pointer and pointer.kind == "frame" and width == 8 else None
        read = at + width if pointer and pointer.kind == "context" else 0
        state.registers[insn[1] & 15] = kept
    elif opcode == WIDE:
        number = struct.unpack_from("<I", insn, 4)[0] | struct.unpack_from("<I", insn, 12)[0] << 32
        state.registers[insn[1] & 15] = Value("number", number) if insn[1] >> 4 == 0 else None
    elif opcode == CALL:
        pointer, length = state.registers[2], state.registers[3]
        if (
            struct.unpack_from("<i", insn, 4)[0] == OUTPUT
            and pointer
            and length
            and pointer.kind == "context"
            and length.kind == "number"
        ):
            read = pointer.number + length.number
        state.registers[:6] = [None] * 6
    return read


def context_length(code: bytes) -> int:
    """Returns how many bytes of its context a program with forward jumps reads at most, as far as offsets are known; others verification refuses."""
    entry = State([None] * 16, {})
    entry.registers[1], entry.registers[FRAME] = Value("context", 0), Value("frame", 0)
    states, longest = {0: entry}, 0
    for unit, insn in instructions(code):
        state = states.pop(unit, None)
        if state is None:
            continue
        jump = jump_of(unit, insn)
        longest = max(longest, step(state, insn))
        targets = {jump.target} if jump else set()
        if insn[0] != EXIT and (jump is None or jump.is_conditional):
            targets.add(unit + len(insn) // UNIT)
        for target in targets:
            states[target] = states[target].joined(state) if target in states else state.copy()
    return longest


def ring_size(entries: int) -> int:
    """Returns the size of a ring whose map asks for so many bytes: as libbpf does, the next power of two that is a multiple of a page."""
    return max(SMALLEST_RING, 1 << max(entries - 1, 0).bit_length())


def arguments(file: ObjectFile, code: bytes) -> str:
    """Returns the words that a program of this file needs on the command line of `rbhost`; where its rings differ in size, the largest size."""
    rings = file.rings()
    size = max((ring_size(ring.entries or 0) for ring in rings), default=SMALLEST_RING)
    return f"--ctx {context_length(code)} --rings {len(rings)} --size {size}"
