"""Runs a script's programs over rings, by the plain models of heskavo.rows: results, records, positions, and when the reader is woken."""
from heskavo.rows.program_checks import DISCARD, OUTPUT, QUERY, RESERVE, STACK, SUBMIT, touched
from heskavo.rows.program_runs import EAGAIN, Run
from heskavo.rows.ring_model import FORCE_WAKEUP, NO_WAKEUP, is_due, span

EINVAL = 22
LONGEST = 1 << 26
ALL_ONES = (1 << 64) - 1


class Ring:
    """A ring's positions, and its records in order: position, length, bytes, and whether it was discarded."""

    def __init__(self, size: int) -> None:
        self.size, self.producer, self.consumer, self.records = size, 0, 0, []
        self.due, self.notices = False, []

    def grant(self, length: int):
        """Returns a record of this length, or None if there is no room."""
        if length > LONGEST or self.producer + span(length) - self.consumer > self.size - 1:
            return None
        record = [self.producer, length, None, False]
        self.records.append(record)
        self.producer += span(length)
        return record

    def end(self, record, data, discarded, flags: int) -> None:
        record[2:] = bytes(data), discarded
        is_told = is_due(self.consumer, record[0], flags)
        self.notices.append((self.consumer, record[0], flags, is_told))
        self.due = self.due or is_told

    def query(self, what):
        return {0: self.producer - self.consumer, 1: self.size, 2: self.consumer, 3: self.producer}.get(what, 0)

    def take(self, count: int):
        taken, self.records = self.records[:count], self.records[count:]
        for position, length, _, _ in taken:
            self.consumer = position + span(length)
        return taken


class RingRun(Run):
    """A run of a program's instructions over a context and rings."""

    def __init__(self, insns, context, rings: int) -> None:
        super().__init__(insns, context, ())
        self.rings, self.granted = rings, {}
        # The stack bytes that are left of a partly overwritten pointer, and whether one of them was read.
        self.left_of_pointers, self.reads_pointer = set(), False

    def stack_bytes(self, pointer, size: int):
        return set(range(STACK + pointer[-1], STACK + pointer[-1] + size)) if pointer[0] == "stack" else set()

    def moved(self, register: int, offset: int):
        base = self.values[register]
        return (*base[:-1], base[-1] + offset)

    def load(self, insn):
        self.see_read(self.moved(insn.src, insn.offset), insn.size)
        return super().load(insn)

    def store(self, insn, value) -> None:
        pointer = self.moved(insn.dst, insn.offset)
        if pointer[0] == "stack":
            kept = {place for place in touched(pointer[1], insn.size) if place in self.kept}
            self.left_of_pointers |= {8 * place + at for place in kept for at in range(8)}
            self.left_of_pointers -= self.stack_bytes(pointer, insn.size)
        super().store(insn, value)

    def see_read(self, pointer, size: int) -> None:
        self.reads_pointer = self.reads_pointer or bool(self.stack_bytes(pointer, size) & self.left_of_pointers)

    def call(self, unit: int, helper) -> None:
        first, second, third, fourth = self.values[1:5]
        answer = 0
        match helper:
            case _ if helper == OUTPUT:
                answer = self.output(self.rings[first[1]], second, third, fourth)
            case _ if helper == QUERY:
                answer = self.rings[first[1]].query(second)
            case _ if helper == RESERVE:
                ring = self.rings[first[1]]
                record = None if third else ring.grant(second)
                if record:
                    answer = ("record", unit, 0)
                    self.parts[answer[:2]], self.granted[unit] = bytearray(second), (ring, record)
            case _ if helper in (SUBMIT, DISCARD):
                ring, record = self.granted.pop(first[1])
                ring.end(record, self.parts[first[:2]], helper == DISCARD, second)
        self.values[0:6] = [answer if not isinstance(answer, int) else answer & ALL_ONES] + [0] * 5

    def output(self, ring, memory, length: int, flags: int):
        if flags & ~(NO_WAKEUP | FORCE_WAKEUP):
            return -EINVAL
        record = ring.grant(length)
        if not record:
            return -EAGAIN
        part, at = self.part(memory)
        self.see_read(memory, length)
        ring.end(record, part[at : at + length], False, flags)
        return 0
