"""Drawn programs that are accepted, and whose result tells how many of their requests a ring refused."""
import random
import struct

# Helpers of bpf-helpers(7).
OUTPUT, RESERVE, SUBMIT, DISCARD, QUERY = 130, 131, 132, 133, 134

# Where the program keeps the number of refused requests, and a sum of the answers to its queries: below r10.
REFUSED, ANSWERS, BYTES = -8, -16, -24

# The registers that hold records; r6 has the context.
HOLDING = (7, 8, 9)


def unit(code: int, to: int = 0, source: int = 0, offset: int = 0, number: int = 0) -> bytes:
    """Returns one unit of a program."""
    return struct.pack("<BBhi", code, to | source << 4, offset, number)


def move(to: int, number: int) -> bytes:
    """to = number"""
    return unit(0xB7, to, number=number)


def copy(to: int, source: int) -> bytes:
    """to = source"""
    return unit(0xBF, to, source)


def ring_in(to: int, ring: int) -> bytes:
    """to = the ring with this number"""
    return unit(0x18, to, 5, number=ring) + unit(0)


def call(helper: int) -> bytes:
    """Calls a helper."""
    return unit(0x85, number=helper)


def add_to(place: int, source: int) -> bytes:
    """Adds a register to a number on the stack; r1 is lost."""
    return unit(0x79, 1, 10, place) + unit(0x0F, 1, source) + unit(0x7B, 10, 1, place)


def count_refusal() -> bytes:
    """Adds 1 to the number of refused requests; r1 and r2 are lost."""
    return move(2, 1) + add_to(REFUSED, 2)


class Drawn:
    """Draws programs for engines with these rings and contexts."""

    def __init__(self, draw: random.Random, sizes: list[int], ctx_len: int):
        self.draw, self.sizes, self.ctx_len = draw, sizes, ctx_len

    def length(self, size: int) -> int:
        """Draws the length of a record: mostly a short one, now and then one that fits into few rings."""
        return self.draw.choice([0, 1, 7, 8, 9, 16, 17, 24, 100, self.draw.randrange(size // 3), size - 8, size])

    def output(self) -> bytes:
        """Outputs a part of the context, or eight bytes of the stack."""
        ring, flags = self.draw.randrange(len(self.sizes)), self.draw.randrange(4)
        bytes_at, length = copy(2, 6), self.draw.randrange(self.ctx_len + 1)
        if self.draw.random() < 0.3:
            stored = unit(0x7A, 10, offset=BYTES, number=self.draw.randrange(1000))
            bytes_at, length = stored + copy(2, 10) + unit(0x07, 2, number=BYTES), 8
        asked = bytes_at + ring_in(1, ring) + move(3, length) + move(4, flags) + call(OUTPUT)
        counted = count_refusal()
        return asked + unit(0x15, offset=len(counted) // 8) + counted

    def query(self) -> bytes:
        """Adds the answer to a query to the sum."""
        ring, what = self.draw.randrange(len(self.sizes)), self.draw.randrange(6)
        return ring_in(1, ring) + move(2, what) + call(QUERY) + add_to(ANSWERS, 0)

    def record(self, depth: int) -> bytes:
        """Reserves a record and, if it is granted, writes into it, makes other requests, and submits or discards it."""
        ring, holds = self.draw.randrange(len(self.sizes)), HOLDING[depth]
        length = self.length(self.sizes[ring])
        asked = ring_in(1, ring) + move(2, length) + move(3, 0) + call(RESERVE)
        granted = copy(holds, 0)
        if length:
            granted += unit(0x72, holds, offset=min(length - 1, 32767), number=self.draw.randrange(256))
        if length >= 8:
            granted += unit(0x7A, holds, number=self.draw.randrange(1 << 31))
        granted += self.requests(depth + 1) + copy(1, holds)
        granted += move(2, self.draw.randrange(4)) + call(self.draw.choice([SUBMIT, SUBMIT, DISCARD]))
        refused = count_refusal() + unit(0x05, offset=len(granted) // 8)
        return asked + unit(0x55, offset=len(refused) // 8) + refused + granted

    def requests(self, depth: int) -> bytes:
        """Makes up to three requests, while records are held in this many registers."""
        kinds = [self.output, self.query]
        if depth < len(HOLDING):
            kinds += [lambda: self.record(depth)] * 2
        return b"".join(self.draw.choice(kinds)() for _ in range(self.draw.randrange(4 if depth == 0 else 3)))

    def program(self) -> bytes:
        """Returns a program that ends with the sum of its answers times 2^16, plus the number of refused requests."""
        begin = copy(6, 1) + unit(0x7A, 10, offset=REFUSED) + unit(0x7A, 10, offset=ANSWERS)
        end = unit(0x79, 0, 10, ANSWERS) + unit(0x67, number=16)
        end += unit(0x79, 1, 10, REFUSED) + unit(0x0F, 0, 1) + unit(0x95)
        groups = self.draw.randrange(1, 6) if self.sizes else 0
        return begin + b"".join(self.requests(0) for _ in range(groups)) + end


def putting(ring: int, length: int, flags: int) -> bytes:
    """Returns a program that outputs its context of this length to a ring, and ends with the answer."""
    return copy(2, 1) + ring_in(1, ring) + move(3, length) + move(4, flags) + call(OUTPUT) + unit(0x95)
