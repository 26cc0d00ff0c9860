"""Random scripts that both hosts can run: rings, a sequence of programs over them, and takes in between."""
import dataclasses
import random

from heskavo.rows.program_draws import LOADS, SIGNED_LOADS, STORES, STORES_NOW, Draw, unit, wide

STACK = 512
# The stack slots of what a job has seen so far, of up to four records and of one other pointer.
SEEN, RECORDS, KEPT = -8, (-16, -24, -32, -40), -48
# Records up to this length are written completely before they are read; of longer ones only the first, the middle and the last eight bytes.
WHOLE = 1000
SIZES = (4096, 4096, 4096, 8192, 65536, 1 << 20)
FLAGS = (0, 0, 0, 1, 2, 3)
UNKNOWN_FLAGS = (4, 5, 7, 8, -1, 1 << 30)
OUTPUT, RESERVE, SUBMIT, DISCARD, QUERY = range(130, 135)
LOG = {1: 2, 2: 1, 4: 0, 8: 3}
JUMP, FAR_JUMP = 0x05, 0x06


def written_places(length: int):
    """Returns the offsets of the eight bytes each that a program writes to a record longer than WHOLE."""
    return (0, length // 2 // 8 * 8, length - 8)


def cleared_stack():
    """Returns instructions that clear the stack, since Linux leaves old contents in it."""
    return [unit(0x7A, 10, offset=-8 * place) for place in range(1, STACK // 8 + 1)]


@dataclasses.dataclass
class Step:
    """A run of a program over a context, followed by a number of takes of each ring."""

    program: int
    context: bytes
    takes: list


@dataclasses.dataclass
class Script:
    """Ring sizes, programs, and the steps; the programs are verified for this context length."""

    sizes: list
    programs: list
    context: int
    steps: list


class Job(Draw):
    """Generates a random program that both hosts accept in most cases, and whose result depends on what it has seen."""

    def __init__(self, draw: random.Random, sizes, context, odd) -> None:
        self.draw, self.sizes, self.context, self.odd = draw, sizes, context, odd
        self.parts, self.labels = [], 0

    # -- parts of a program, whose jumps name labels ------------------------------------------------

    def put(self, *units) -> None:
        self.parts.extend(units)

    def label(self):
        self.labels += 1
        return self.labels

    def jump(self, opcode: int, label, dst: int = 0, src: int = 0, imm: int = 0) -> None:
        self.parts.append((opcode, dst, src, imm, label))

    def code(self):
        """Returns the bytes of the program."""
        at, places = 0, {}
        for part in self.parts:
            if isinstance(part, int):
                places[part] = at
            else:
                at += len(part) // 8 if isinstance(part, bytes) else 1
        at, code = 0, b""
        for part in self.parts:
            if isinstance(part, int):
                continue
            if not isinstance(part, bytes):
                opcode, dst, src, imm, label = part
                distance = places[label] - at - 1
                part = unit(FAR_JUMP, imm=distance) if opcode == FAR_JUMP else unit(opcode, dst, src, distance, imm)
            code += part
            at += len(part) // 8
        return code

    # -- what a program does ------------------------------------------------------------------------

    def see(self, register: int) -> None:
        """Adds a register's number to what was seen, using r1."""
        self.put(unit(0x79, 1, 10, SEEN), unit(0x27, 1, imm=31), unit(0x0F, 1, register), unit(0x7B, 10, 1, SEEN))

    def is_odd(self, share) -> bool:
        return self.odd and self.chance(share)

    def plain_arithmetic(self, dst: int, src: int):
        """Adds an arithmetic instruction, rarely one that Linux refuses because of its immediate alone."""
        while True:
            insn = self.arithmetic(dst, src)
            code, width, imm = (
                insn[0] >> 4,
                64 if insn[0] & 7 == 7 else 32,
                int.from_bytes(insn[4:], "little", signed=True),
            )
            by_register = insn[0] & 8
            wrong = not by_register and (code in (6, 7, 12) and not 0 <= imm < width or code in (3, 9) and imm == 0)
            if not wrong or self.is_odd(0.1):
                return insn

    def set_number(self, register: int) -> None:
        """Loads a random number into a register."""
        match self.draw.randrange(5):
            case 0:
                number = self.number()
                self.put(wide(register, 0, number & 0xFFFFFFFF, number >> 32))
            case 1:
                self.load_context(register)
            case 2:
                self.load_stack(register)
            case _:
                self.put(unit(0xB7, register, imm=self.imm()))

    def load_context(self, register: int):
        size = self.draw.choice([size for size in (1, 2, 4, 8) if size <= self.context] or [0])
        if not size:
            return self.put(unit(0xB7, register, imm=self.imm()))
        offset = self.draw.randint(0, self.context - size)
        if not self.is_odd(0.05):
            offset -= offset % size
        loads = LOADS if size == 8 or self.chance(0.7) else SIGNED_LOADS
        return self.put(unit(loads[LOG[size]], register, 9, offset))

    def stack_offset(self, size: int):
        """Returns the offset of a stack slot that has only numbers."""
        offset = -self.draw.randint(56 // size + 1, STACK // size) * size
        return offset + self.draw.randrange(size) if self.is_odd(0.03) and offset + size < -56 else offset

    def load_stack(self, register: int) -> None:
        size = self.draw.choice((1, 2, 4, 8))
        loads = LOADS if size == 8 or self.chance(0.7) else SIGNED_LOADS
        self.put(unit(loads[LOG[size]], register, 10, self.stack_offset(size)))

    def store_stack(self, register: int):
        size = self.draw.choice((1, 2, 4, 8))
        if self.chance(0.5):
            return self.put(unit(STORES[LOG[size]], 10, register, self.stack_offset(size)))
        return self.put(unit(STORES_NOW[LOG[size]], 10, 0, self.stack_offset(size), self.imm()))

    def compute(self) -> None:
        """Adds instructions on some numbers, sometimes under branches, all of which are seen at the end."""
        numbers = self.draw.sample((0, 2, 3, 4, 5), self.draw.randint(1, 4))
        for register in numbers:
            self.set_number(register)
        end = self.label()
        for _ in range(self.draw.randint(1, 8)):
            dst, src = self.draw.choice(numbers), self.draw.choice(numbers)
            if self.chance(0.03):
                self.jump(self.draw.choice((JUMP, FAR_JUMP)), end)
                break
            if self.chance(0.2):
                branch = self.branch(dst, src, 0)
                self.jump(
                    branch[0], end, branch[1] & 15, branch[1] >> 4, int.from_bytes(branch[4:], "little", signed=True)
                )
            self.draw.choice(
                (self.load_stack, self.store_stack, *[lambda to: self.put(self.plain_arithmetic(to, src))] * 5)
            )(dst)
        self.put(end)
        for register in numbers:
            self.see(register)

    def ring(self):
        return self.draw.randrange(len(self.sizes))

    def keep_pointer(self) -> None:
        """Stores a pointer on the stack and accesses memory through it."""
        match self.draw.randrange(3):
            case 0:
                place = -8 * self.draw.randint(8, 64)
                self.put(
                    unit(0xBF, 2, 10),
                    unit(0x07, 2, imm=place),
                    unit(0x7B, 10, 2, KEPT),
                    unit(0x79, 3, 10, KEPT),
                    unit(self.draw.choice(LOADS), 4, 3),
                    unit(0x72, 3, imm=self.imm()),
                )
                self.see(4)
            case 1:
                self.put(unit(0x7B, 10, 9, KEPT), unit(0x79, 9, 10, KEPT))
                if self.is_odd(0.3):
                    self.put(unit(0xBF, 4, 9), unit(0x07, 4, imm=8))
                    self.put(*[unit(0x79, 3, 4, -8)] if self.context >= 8 else [])
            case _:
                self.put(
                    wide(2, 5, self.ring()),
                    unit(0x7B, 10, 2, KEPT),
                    unit(0x79, 1, 10, KEPT),
                    unit(0xB7, 2, imm=self.draw.randrange(4)),
                    unit(0x85, imm=QUERY),
                )
                self.see(0)
        self.put(unit(0x7A, 10, 0, KEPT))

    def flags(self, unknown):
        return self.draw.choice(UNKNOWN_FLAGS) if self.chance(unknown) else self.draw.choice(FLAGS)

    def query(self) -> None:
        what = self.draw.choice((0, 1, 2, 3, 3, 4, -1))
        self.put(wide(1, 5, self.ring()), unit(0xB7, 2, imm=what), unit(0x85, imm=QUERY))
        self.see(0)

    def output(self) -> None:
        """Adds an output of stack bytes that are numbers."""
        low = self.draw.randint(-STACK, -57)
        length = self.draw.choice((0, 1, 8, self.draw.randint(0, -56 - low)))
        length = min(length, -56 - low)
        data = [unit(0xBF, 2, 10), unit(0x07, 2, imm=low)]
        if self.is_odd(0.1):
            data, length = self.draw.choice((([unit(0xBF, 2, 9)], min(self.context, 8)), ([unit(0xBF, 2, 10)], 0)))
        self.put(
            *data,
            wide(1, 5, self.ring()),
            unit(0xB7, 3, imm=length),
            unit(0xB7, 4, imm=self.flags(0.1)),
            unit(0x85, imm=OUTPUT),
        )
        self.see(0)

    # -- records ------------------------------------------------------------------------------------

    def length(self, size: int):
        """Returns a record's length, sometimes one that just fits or does not fit into a ring of this size."""
        edges = (
            0,
            1,
            7,
            8,
            9,
            size // 2 - 8,
            size // 2 - 16,
            size - 24,
            size - 17,
            size - 16,
            size - 15,
            size - 8,
            size - 7,
            size,
            size // 3,
        )
        return self.draw.choice(
            (*edges, *[self.draw.randint(0, 64)] * 20, *[self.draw.randint(64, WHOLE)] * 4, 1 << 26)
        )

    def clear_record(self, register: int, length: int):
        if length > WHOLE:
            return self.put(*(unit(0x7A, register, 0, at, self.imm()) for at in written_places(length) if at < 1 << 15))
        at = 0
        for size in (8, 4, 2, 1):
            while at + size <= length:
                self.put(unit(STORES_NOW[LOG[size]], register, 0, at))
                at += size
        return None

    def record(self, number: int) -> None:
        """Loads the pointer to a held record into r2."""
        self.put(unit(0x79, 2, 10, RECORDS[number]))

    def touch(self, length: int) -> None:
        """Adds a store to the record at r2, and a load from it."""
        size = self.draw.choice([size for size in (1, 2, 4, 8) if size <= length] or [0])
        if not size:
            return
        if length > WHOLE:
            size, offset = 8, self.draw.choice([at for at in written_places(length) if at < 1 << 15])
        else:
            offset = self.draw.randint(0, length - size)
        store = (
            [unit(STORES_NOW[LOG[size]], 2, 0, offset, self.imm())]
            if self.chance(0.5)
            else [unit(0xB7, 3, imm=self.imm()), unit(STORES[LOG[size]], 2, 3, offset)]
        )
        loads = LOADS if size == 8 or self.chance(0.7) else SIGNED_LOADS
        self.put(*store, unit(loads[LOG[size]], 3, 2, offset))
        self.see(3)

    def give_back(self, number: int) -> None:
        self.put(
            unit(0x79, 1, 10, RECORDS[number]),
            unit(0xB7, 2, imm=self.flags(0.1)),
            unit(0x85, imm=self.draw.choice((SUBMIT, SUBMIT, DISCARD))),
        )

    def with_record(self, number: int, length: int) -> None:
        """Adds what is done while a record is held."""
        self.record(number)
        match self.draw.randrange(6):
            case 0:
                self.query()
            case 1 if 0 < length <= WHOLE:
                self.put(
                    wide(1, 5, self.ring()),
                    unit(0xB7, 3, imm=self.draw.randint(0, length)),
                    unit(0xB7, 4, imm=self.flags(0.1)),
                    unit(0x85, imm=OUTPUT),
                )
                self.see(0)
            case 2:
                self.output()
            case _:
                self.touch(length)

    def records(self) -> None:
        """Reserves up to four records, writes them, and commits them in a random order, including those that were granted before one that was refused."""
        count, end = self.draw.choice((1, 1, 1, 2, 2, 3, 4)), self.label()
        refused, lengths = [self.label() for _ in range(count)], []
        for number in range(count):
            ring = self.ring()
            lengths.append(self.length(self.sizes[ring]))
            self.put(
                wide(1, 5, ring),
                unit(0xB7, 2, imm=lengths[-1]),
                unit(0xB7, 3, imm=self.draw.choice((0, *[0] * 15, 1))),
                unit(0x85, imm=RESERVE),
                unit(0x7B, 10, 0, RECORDS[number]),
            )
            self.jump(0x15, refused[number])
            self.clear_record(0, lengths[-1])
        for _ in range(self.draw.randint(0, 4)):
            number = self.draw.randrange(count)
            self.with_record(number, lengths[number])
        for number in self.draw.sample(range(count), count):
            self.give_back(number)
        self.put(unit(0xB7, 4, imm=1))
        self.see(4)
        self.jump(self.draw.choice((JUMP, FAR_JUMP)), end)
        for number in reversed(range(count)):
            self.put(refused[number])
            if number:
                self.give_back(number - 1)
        self.put(unit(0xB7, 4, imm=2))
        self.see(4)
        self.put(end, *(unit(0x7A, 10, 0, RECORDS[number]) for number in range(count)))

    def refused_by_linux(self) -> None:
        """Adds instructions of a class that Linux refuses."""
        draw, size = self.draw, self.draw.choice((2, 4, 8))
        width, far = draw.choice((32, 64)), draw.choice((1 << 29, (1 << 29) + 8, 1 << 30))
        match draw.randrange(9):
            case 0:
                offset = -size * draw.randint(8, 64 // size * 8) + draw.randint(1, size - 1)
                self.put(
                    draw.choice(
                        (unit(STORES_NOW[LOG[size]], 10, 0, offset, self.imm()), unit(LOADS[LOG[size]], 4, 10, offset))
                    )
                )
            case 1 if self.context > size:
                self.put(
                    unit(
                        LOADS[LOG[size]],
                        4,
                        9,
                        draw.randrange((self.context - size) // size + 1) * size + draw.randint(1, size - 1)
                        if self.context >= 2 * size
                        else 1,
                    )
                )
            case 2 if self.context >= 8:
                by = draw.choice((8, -8, 1, self.context, 1000))
                self.put(unit(0xBF, 2, 9), unit(0x07, 2, imm=by), unit(0x79, 4, 2, -by))
            case 3:
                self.put(
                    unit(0xBF, 2, 9),
                    wide(1, 5, self.ring()),
                    unit(0xB7, 3, imm=draw.randint(0, min(self.context, 64))),
                    unit(0xB7, 4),
                    unit(0x85, imm=OUTPUT),
                )
            case 4:
                self.put(
                    unit(0xBF, 2, 10), wide(1, 5, self.ring()), unit(0xB7, 3), unit(0xB7, 4), unit(0x85, imm=OUTPUT)
                )
            case 5:
                opcode = draw.choice((0x60, 0x70, 0xC0)) | (7 if width == 64 else 4)
                self.set_number(4)
                self.put(unit(opcode, 4, imm=draw.choice((width, width + 1, 2 * width, -1, 255, -(1 << 31)))))
            case 6:
                self.set_number(4)
                self.put(unit(draw.choice((0x30, 0x90)) | (7 if width == 64 else 4), 4, 0, draw.choice((0, 1))))
            case 7:
                self.put(
                    unit(0xBF, 2, 10),
                    *(
                        [unit(0x17, 2, imm=self.draw.choice((0, 8, -8)))]
                        if self.chance(0.5)
                        else [unit(0xB7, 3, imm=8), unit(0x1F, 2, 3)]
                    ),
                )
            case 8:
                self.put(unit(0xBF, 2, draw.choice((9, 10))), unit(0x07, 2, imm=far))
                if self.chance(0.5) and far < 1 << 30:
                    self.put(unit(0x07, 2, imm=-far))

    def drawn(self):
        """Returns the bytes of a program."""
        self.put(unit(0xBF, 9, 1), *cleared_stack())
        if self.is_odd(0.8):
            self.refused_by_linux()
        parts = (
            self.compute,
            self.compute,
            self.records,
            self.records,
            self.records,
            self.output,
            self.query,
            self.keep_pointer,
        )
        for _ in range(self.draw.randint(1, 6)):
            self.draw.choice(parts)()
        if self.odd and self.chance(0.3):
            self.put(
                *(unit(0xB7, register, imm=self.imm()) for register in range(2, 9)),
                unit(0xB7),
                unit(0xBF, 1, 9),
                *self.break_rule(),
            )
        self.put(unit(0x79, 0, 10, SEEN), unit(0xBF, 1, 0), unit(0x77, 1, imm=32), unit(0xAF, 0, 1), unit(0x95))
        return self.code()


def drawn_script(seed: int, number: int):
    """Returns a script of jobs, or one of a single program of any kind, like those in the rows of crates/rb_program_rows."""
    draw = random.Random(seed * 1_000_003 + number)
    if number % 2:
        return free_script(seed, number, draw)
    sizes = [draw.choice(SIZES) for _ in range(draw.choice((1, 1, 1, 2, 2, 3, 4, 16)))]
    context = draw.choice((0, 8, 16, 16, 24, 64, draw.randint(0, 300), 4096))
    odd = draw.random() < 0.5
    programs = [Job(draw, sizes, context, odd).drawn() for _ in range(draw.choice((1, 1, 2, 3)))]
    steps = [
        Step(
            draw.randrange(len(programs)),
            draw.randbytes(context),
            [draw.choice((0, 0, 1, 2, 1000, 1000)) for _ in sizes],
        )
        for _ in range(draw.choice((1, 1, 2, 3, 4, 6)))
    ]
    return Script(sizes, programs, context, steps)


def free_script(seed: int, number: int, draw: random.Random):
    """Returns one program, valid or not, after instructions that clear the stack; it runs once."""
    code = Draw(seed, number).code()
    context, rings = draw.choice(((24, 2), (24, 2), (24, 2), (8, 1), (16, 1), (0, 0), (24, 16)))
    code = b"".join(cleared_stack()) + code
    return Script([4096] * rings, [code], context, [Step(0, draw.randbytes(context), [1000] * rings)])
