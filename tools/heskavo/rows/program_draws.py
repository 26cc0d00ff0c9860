"""Rows over random programs, each with the answers that the model allows."""
import random
import struct

from heskavo.rows.program_code import ALU, ALU64, CODES, CONDITIONS, JMP, JMP32
from heskavo.rows.program_rows import (
    answers_compute,
    answers_cost,
    answers_run,
    answers_shape,
    answers_units,
    answers_verify,
)

CONTEXT, RINGS = 24, 2
NUMBERS = (
    0,
    1,
    2,
    5,
    31,
    32,
    63,
    64,
    0x7F,
    0x80,
    0x7FFF,
    0x8000,
    2**31 - 1,
    2**31,
    2**32 - 1,
    2**32,
    2**63 - 1,
    2**63,
    2**64 - 1,
)
IMMEDIATES = (0, 1, -1, 5, 8, -8, 16, 31, 32, 63, 64, 127, -128, 2**31 - 1, -(2**31))
LOADS, SIGNED_LOADS, STORES, STORES_NOW = (
    (0x61, 0x69, 0x71, 0x79),
    (0x81, 0x89, 0x91),
    (0x63, 0x6B, 0x73, 0x7B),
    (0x62, 0x6A, 0x72, 0x7A),
)
BYTES = {0: 4, 1: 2, 2: 1, 3: 8}


def unit(opcode: int, dst: int = 0, src: int = 0, offset: int = 0, imm: int = 0):
    """Returns the eight bytes of a unit."""
    return struct.pack("<BBhi", opcode, dst | src << 4, offset, imm)


def wide(dst: int, src: int, imm: int, upper=0):
    return struct.pack("<BBhI", 0x18, dst | src << 4, 0, imm) + struct.pack("<iI", 0, upper)


class Draw:
    """Generates programs from a source of random numbers."""

    def __init__(self, seed: int, number: int) -> None:
        self.draw = random.Random(seed * 1_000_003 + number)

    def chance(self, share):
        return self.draw.random() < share

    def imm(self):
        return self.draw.choice((*IMMEDIATES, self.draw.randint(-(2**31), 2**31 - 1)))

    def number(self):
        return self.draw.choice((*NUMBERS, self.draw.getrandbits(64)))

    def arithmetic(self, dst: int, src: int):
        """Returns an arithmetic instruction on these registers."""
        draw = self.draw
        cls, code = draw.choice((ALU, ALU64)), draw.choice(tuple(CODES))
        if CODES[code] == "end":
            return unit(draw.choice((0xD4, 0xDC, 0xD7)), dst, imm=draw.choice((16, 32, 64)))
        if CODES[code] == "neg":
            return unit(code << 4 | cls, dst)
        offset = draw.choice((0, 1)) if CODES[code] in ("div", "mod") else 0
        if self.chance(0.5):
            if CODES[code] == "mov":
                offset = draw.choice((0, 8, 16, *((32,) if cls == ALU64 else ())))
            return unit(code << 4 | 8 | cls, dst, src, offset)
        return unit(code << 4 | cls, dst, 0, offset, self.imm())

    def branch(self, dst: int, src: int, distance):
        cls, code = self.draw.choice((JMP, JMP32)), self.draw.choice(tuple(CONDITIONS))
        if self.chance(0.5):
            return unit(code << 4 | 8 | cls, dst, src, distance)
        return unit(code << 4 | cls, dst, 0, distance, self.imm())

    def memory(self, number: int):
        """Returns a load or a store within the context and the stack, by a register that has a number."""
        draw = self.draw
        size = draw.randrange(4)
        low = -BYTES[size] * draw.randint(1, 512 // BYTES[size] if self.chance(0.3) else 6)
        match draw.randrange(4):
            case 0:
                return unit(
                    LOADS[size],
                    number,
                    1 if self.chance(0.5) else 10,
                    draw.randint(0, CONTEXT - BYTES[size]) if self.chance(0.5) else low,
                )
            case 1:
                size = draw.randrange(3)
                return unit(SIGNED_LOADS[size], number, 10, -BYTES[size] * draw.randint(1, 8))
            case 2:
                return unit(STORES[size], 10, number, low)
            case _:
                return unit(STORES_NOW[size], 10, 0, low, self.imm())

    def pointers(self):
        """Stores the context pointer or a moved copy of the frame pointer on the stack, and accesses memory through it."""
        draw, place = self.draw, -8 * self.draw.randint(1, 8)
        return [
            unit(0xBF, 2, 10),
            unit(0x07, 2, imm=-8 * draw.randint(1, 64)),
            unit(0x7B, 10, draw.choice((1, 2)), place),
            unit(0x79, 3, 10, place),
            unit(draw.choice(LOADS), 4, 3, draw.choice((0, 0, 4, 8, -8))),
            unit(0xB7, 3),
            unit(0xB7, 2, imm=self.imm()),
        ]

    def record(self, ring):
        """Reserves a record, writes it if it was granted, and commits it."""
        draw, size = self.draw, self.draw.choice((0, 1, 8, 16, 24, 40, 1000))
        flags = draw.choice((0, 0, 1, 2, 3, 7))
        writes = [self.write(size) for _ in range(draw.randrange(3))]
        kept = [unit(0x7B, 10, 0, -16), unit(0x79, 6, 10, -16)] if self.chance(0.3) else [unit(0xBF, 6, 0)]
        back = [*writes, unit(0xBF, 1, 6), unit(0xB7, 2, imm=flags), unit(0x85, imm=draw.choice((132, 133)))]
        output = [
            wide(1, 5, ring),
            unit(0xBF, 2, 6),
            unit(0xB7, 3, imm=draw.choice((0, size))),
            unit(0xB7, 4, imm=flags),
            unit(0x85, imm=130),
        ]
        if self.chance(0.3) and not writes:
            back = output + back
        jumped = sum(map(len, back)) // 8
        return [
            wide(1, 5, ring),
            unit(0xB7, 2, imm=size),
            unit(0xB7, 3),
            unit(0x85, imm=131),
            *kept,
            unit(0x15, draw.choice((0, 6)), 0, jumped),
            *back,
            *(unit(0xB7, register, imm=self.imm()) for register in (0, 2, 3, 4, 5, 6)),
        ]

    def write(self, size: int):
        """Returns a store to the record of this length, sometimes outside of it."""
        draw, log = self.draw, self.draw.choice((0, 1, 2, 3))
        opcode = {1: 0x72, 2: 0x6A, 4: 0x62, 8: 0x7A}[1 << log]
        offset = draw.randint(0, max(size - (1 << log), 0)) + (draw.choice((1, size)) if self.chance(0.05) else 0)
        return unit(opcode, draw.choice((0, 6)), 0, offset, self.imm()) if size >> log else unit(0x05)

    def break_rule(self):
        """Returns instructions that break a rule of verification in most cases, or just comply."""
        draw = self.draw
        reserve = [
            wide(1, 5, 0),
            unit(0xB7, 2, imm=draw.choice((8, 8, 1 << 26, (1 << 26) + 1))),
            unit(0xB7, 3),
            unit(0x85, imm=131),
        ]
        other = draw.randrange(2, 10)
        return draw.choice(
            (
                [unit(0xBF, 0, draw.choice((1, 10)))],
                [unit(draw.choice((0x1D, 0x15, 0x55, 0x16, 0x2D)), draw.choice((1, 10)), 0)],
                reserve,
                reserve * draw.choice((2, 4, 5)),
                [*reserve, unit(0x15, 0, 0, 1), unit(0x7A, 0, 0, 0, 1), unit(0xB7)],
                [
                    *reserve,
                    draw.choice(
                        (
                            unit(0x7A, 0, 0, 0, 1),
                            unit(0x79, 2, 0),
                            unit(0x15, 0, imm=1),
                            unit(0x07, 0, imm=1),
                            unit(0xBF, 2, 0),
                        )
                    ),
                ],
                [
                    unit(
                        draw.choice(STORES),
                        draw.choice((1, 10)),
                        draw.choice((1, 10, 0)),
                        draw.choice((-8, -12, -16, -4, -512, -520, 0)),
                    )
                ],
                [unit(draw.choice((0xB7, 0xBF, 0x07, 0x87, 0x79)), 10, 0 if self.chance(0.5) else 1)],
                [
                    unit(
                        draw.choice((0x07, 0x17, 0x0F, 0x1F, 0x27, 0x04)),
                        1,
                        other if self.chance(0.3) else 0,
                        0,
                        draw.choice((1, -1, 1 << 30, -(1 << 30))),
                    )
                ]
                * 2,
                [unit(0x85, imm=draw.choice((0, 1, 129, 130, 131, 132, 133, 134, 135)))],
                [
                    unit(
                        draw.choice(LOADS),
                        other,
                        draw.choice((1, 10, other)),
                        draw.choice((0, CONTEXT - 8, CONTEXT - 1, CONTEXT, -1, -8, -512, -513)),
                    )
                ],
                [wide(1, 5, draw.randint(0, RINGS))],
                [
                    unit(0x7B, 10, 1, -8),
                    unit(draw.choice(LOADS), 2, 10, draw.choice((-8, -4, -16, -1, -9))),
                    unit(draw.choice(STORES_NOW), 10, 0, draw.choice((-8, -5, -2, -16))),
                    unit(0x79, 3, 10, -8),
                ],
            )
        )

    def call(self, ring):
        """Returns an output or a query."""
        draw = self.draw
        if self.chance(0.5):
            return [wide(1, 5, ring), unit(0xB7, 2, imm=draw.randint(0, 4)), unit(0x85, imm=134)]
        return [
            wide(1, 5, ring),
            unit(0xBF, 2, 10),
            unit(0x07, 2, imm=-64),
            unit(0xB7, 3, imm=draw.choice((0, 8, 32, 64))),
            unit(0xB7, 4, imm=draw.randint(0, 4)),
            unit(0x85, imm=130),
        ]

    def block(self, numbers):
        """Returns some instructions on numbers, sometimes under a forward jump."""
        draw = self.draw
        body = []
        for _ in range(draw.randint(1, 6)):
            dst, src = draw.choice(numbers), draw.choice(numbers)
            body.append(
                draw.choice(
                    (
                        self.arithmetic(dst, src),
                        self.arithmetic(dst, src),
                        self.memory(dst),
                        wide(dst, 0, draw.getrandbits(32), draw.getrandbits(32)),
                    )
                )
            )
        if self.chance(0.6):
            jumped = sum(map(len, body)) // 8
            jump = draw.choice(
                (
                    self.branch(draw.choice(numbers), draw.choice(numbers), jumped),
                    self.branch(draw.choice(numbers), draw.choice(numbers), jumped),
                    unit(0x05),
                )
            )
            body.insert(0, jump)
        return body

    def program(self):
        """Returns a program that is accepted in most cases."""
        numbers = [0, *self.draw.sample(range(2, 10), 3)]
        parts = [unit(0xB7, register, imm=self.imm()) for register in numbers]
        called = False
        for _ in range(self.draw.randint(1, 5)):
            ring = self.draw.randrange(RINGS)
            match self.draw.randrange(10):
                case 0 | 1 if not called:
                    parts += self.pointers()
                    numbers = [0]
                    parts += [unit(0xB7, register, imm=self.imm()) for register in (2, 3)]
                    numbers += [2, 3]
                case 2 | 3:
                    parts += (
                        [unit(0xBF, 9, 1), *self.record(ring), unit(0xBF, 1, 9)] if not called else self.record(ring)
                    )
                    numbers = [0, 2, 3, 6]
                case 4:
                    parts += [unit(0xBF, 9, 1), *self.call(ring), unit(0xBF, 1, 9)] if not called else self.call(ring)
                    numbers = [0]
                case _:
                    parts += self.block(numbers)
        if self.chance(0.25):
            parts += self.break_rule()
            parts += [] if self.chance(0.5) else [unit(0xB7)]
        return b"".join(parts) + unit(0x95)

    def broken(self, code):
        """Returns the bytes with some change."""
        code, draw = bytearray(code), self.draw
        at = draw.randrange(len(code))
        match draw.randrange(7):
            case 0:
                code[at] ^= 1 << draw.randrange(8)
            case 1:
                code[at] = draw.randrange(256)
            case 2:
                del code[at // 8 * 8 : at // 8 * 8 + 8]
            case 3:
                code[at // 8 * 8] = draw.choice((*LOADS, *STORES, *STORES_NOW, 0x85, 0x95, 0x05, 0xBF, 0x0F, 0x15))
            case 4:
                code[at // 8 * 8 + 1] = draw.randrange(11) | draw.choice((0, 0, 16, 160))
            case 5:
                del code[max(8, at // 8 * 8) :]
            case _:
                code[at // 8 * 8 + 2 : at // 8 * 8 + 4] = struct.pack(
                    "<h", draw.choice((0, 1, 2, 3, -1, 8, 16, -8, -512))
                )
        return bytes(code)

    def code(self):
        if self.chance(0.05):
            return self.draw.randbytes(8 * self.draw.randint(1, 4) + self.draw.choice((0, 0, 0, 1, 4)))
        code = self.program()
        return self.broken(code) if self.chance(0.25) else code


def drawn_rows(seed: int, number: int):
    """Returns the rows over one random program, each with the answers that the model allows; the first row, which names the program, has none."""
    draw = Draw(seed, number)
    code = draw.code()
    context, rings = (CONTEXT, RINGS) if draw.chance(0.8) else (draw.draw.choice((0, 8, 16)), draw.draw.choice((0, 1)))
    memory = draw.draw.randbytes(context if draw.chance(0.95) else 3)
    given = "".join(draw.draw.choice("yyyn") for _ in range(24))
    program = code.hex() or "00"
    code = bytes.fromhex(program)
    rows = [
        (f"name program {program}", None),
        ("units {program}", answers_units(code)),
        ("shape {program}", answers_shape(code)),
        (f"verify {context} {rings} {{program}}", answers_verify(code, context, rings)),
        (
            f"run {context} {rings} {memory.hex() or '-'} {given} {{program}}",
            answers_run(code, (context, rings), memory, given),
        ),
    ]
    costs = answers_cost(code, context, rings)
    if costs:
        rows.append((f"cost {context} {rings} {{program}}", costs))
    for _ in range(2):
        dst, src = draw.number(), draw.number()
        insn = draw.arithmetic(1, 2) if draw.chance(0.7) else draw.branch(1, 2, 0)
        rows.append((f"compute {dst:#x} {src:#x} {insn.hex()}", answers_compute(dst, src, insn)))
    return rows
