"""Verification of programs by the rules V1 to V15, as docs/ and the advice of `explain` state them.

A program is refused at the lowest unit that breaks a rule. If one instruction breaks several rules, the order of its checks determines which is
reported; here the refusal has all of them.
"""
from heskavo.rows.program_code import decoded, distance, goes_on, shaped, signed
from heskavo.rows.program_values import value_of

STACK, NEAR, LARGEST = 512, 1 << 30, 1 << 26
OUTPUT, RESERVE, SUBMIT, DISCARD, QUERY = range(130, 135)
NOTHING, NUMBER = ("nothing",), ("number",)
MEMORY = ("context", "stack", "record")


class Refused(Exception):
    """The rules that the instruction at a unit breaks."""

    def __init__(self, rules, unit: int = None) -> None:
        super().__init__(rules)
        self.rules, self.unit = set(rules), unit


class State:
    """What is known before an instruction."""

    def __init__(self) -> None:
        self.values = [NOTHING] * 11
        self.values[1], self.values[10] = ("context", 0), ("stack", 0)
        self.held = {}
        self.places = {}

    def copy(self):
        other = State()
        other.values, other.held, other.places = list(self.values), dict(self.held), dict(self.places)
        return other

    def renamed(self, rename):
        """Returns the same with each value of a register and of a stack slot replaced."""
        other = self.copy()
        other.values = [rename(value) for value in self.values]
        other.places = {place: rename(value) for place, value in self.places.items()}
        other.places = {place: value for place, value in other.places.items() if not is_number(value)}
        return other


def is_number(value) -> bool:
    return value[0] in ("number", "known")


def least_above(first, second):
    """Returns what is known about both of two values."""
    if first == second:
        return first
    return NUMBER if is_number(first) and is_number(second) else NOTHING


def joined(first, second):
    both = State()
    both.held = first.held
    both.values = [least_above(*pair) for pair in zip(first.values, second.values)]
    for place in {*first.places, *second.places}:
        both.places[place] = least_above(first.places.get(place, NUMBER), second.places.get(place, NUMBER))
    return both


def refuse(*rules) -> None:
    """Refuses for each rule whose condition holds."""
    broken = [rule for rule, holds in rules if holds]
    if broken:
        raise Refused(broken)


def touched(offset: int, size: int):
    """Returns the slots that have one of this many bytes of the stack from an offset on."""
    first = STACK + offset
    return range(first // 8, (first + size - 1) // 8 + 1) if size else range(0)


def whole_place(offset: int, size: int):
    return (STACK + offset) // 8 if size == 8 and (STACK + offset) % 8 == 0 else None


class Verifier:
    """Verification for a context of this length and this number of rings."""

    def __init__(self, context, rings: int) -> None:
        self.context, self.rings = context, rings

    def inside(self, state, pointer, size: int):
        part, at = pointer[0], pointer[-1]
        low, high = {"context": (0, self.context), "stack": (-STACK, 0)}.get(part) or (0, state.held[pointer[1]][1])
        return low <= at and at + size <= high

    def access_faults(self, state, base, offset: int, size: int):
        """Returns the rules that an access by this base breaks, and its pointer if it breaks none."""
        if base == NOTHING:
            return [1], None
        if base[0] == "perhaps":
            return [14], None
        if base[0] not in MEMORY:
            return [4], None
        pointer = (*base[:-1], base[-1] + offset)
        return ([], pointer) if self.inside(state, pointer, size) else ([4], pointer)

    def step(self, unit: int, insn, state):
        """Returns what is known along the edge to the next instruction, and along a jump."""
        match insn.kind:
            case "number" | "ring" | "mov" | "binary" | "neg" | "end":
                after = self.assigned(insn, state)
            case "load" | "load signed":
                after = self.loaded(insn, state)
            case "store" | "store immediate":
                after = self.stored(insn, state)
            case "branch":
                return self.branched(insn, state)
            case "call":
                after = self.called(unit, insn.imm, state)
            case "exit":
                result = state.values[0]
                refuse(
                    (10, state.held),
                    (1, result == NOTHING),
                    (12, result != NOTHING and not is_number(result)),
                    (14, result[0] == "perhaps"),
                )
                after = state
            case _:
                after = state
        return after, after

    def assigned(self, insn, state):
        broken = [2] if insn.dst == 10 else []
        value = None
        try:
            value = self.assigned_value(insn, state)
        except Refused as refused:
            broken += refused.rules
        if broken:
            raise Refused(broken)
        after = state.copy()
        after.values[insn.dst] = value
        return after

    def assigned_value(self, insn, state):
        if insn.kind == "number":
            return ("known", insn.imm)
        if insn.kind == "ring":
            refuse((7, insn.imm >= self.rings))
            return ("ring", insn.imm)
        src = ("known", insn.imm & (1 << 64) - 1) if insn.src is None else state.values[insn.src]
        dst = state.values[insn.dst]
        if insn.kind == "mov":
            refuse((1, src == NOTHING))
            if insn.width == 64 and not insn.offset:
                return src
            dst = src
        elif insn.kind in ("neg", "end"):
            refuse((1, dst == NOTHING))
            src = dst
        else:
            refuse((1, NOTHING in (dst, src)))
            if insn.width == 64 and insn.op in ("add", "sub") and dst[0] in MEMORY and src[0] == "known":
                moved = dst[-1] + signed(src[1], 64) * (1 if insn.op == "add" else -1)
                refuse((3, abs(moved) > NEAR))
                return (*dst[:-1], moved)
        refuse((3, not is_number(dst) or not is_number(src)))
        if dst[0] == src[0] == "known":
            return ("known", value_of(insn, dst[1], src[1]))
        return NUMBER

    def loaded(self, insn, state):
        rules, pointer = self.access_faults(state, state.values[insn.src], insn.offset, insn.size)
        rules = rules + ([2] if insn.dst == 10 else [])
        value = NUMBER
        if not rules and pointer[0] == "stack":
            place = whole_place(pointer[1], insn.size) if insn.kind == "load" else None
            if place is not None:
                value = state.places.get(place, NUMBER)
            elif any(place in state.places for place in touched(pointer[1], insn.size)):
                rules = [1]
        if rules:
            raise Refused(rules)
        after = state.copy()
        after.values[insn.dst] = value
        return after

    def stored(self, insn, state):
        base = state.values[insn.dst]
        if base[0] == "context":
            raise Refused([5])
        rules, pointer = self.access_faults(state, base, insn.offset, insn.size)
        value = NUMBER if insn.kind == "store immediate" else state.values[insn.src]
        place = whole_place(pointer[1], insn.size) if pointer and pointer[0] == "stack" else None
        refuse(
            *((rule, True) for rule in rules),
            (1, value == NOTHING),
            (6, value != NOTHING and not is_number(value) and place is None),
        )
        after = state.copy()
        if pointer[0] == "stack":
            for at in touched(pointer[1], insn.size):
                after.places.pop(at, None)
            if not is_number(value):
                after.places[place] = value
        return after

    def branched(self, insn, state):
        first = state.values[insn.dst]
        second = ("known", insn.imm) if insn.src is None else state.values[insn.src]
        refuse((1, NOTHING in (first, second)))
        if (
            first[0] == "perhaps"
            and insn.src is None
            and insn.imm == 0
            and insn.width == 64
            and insn.op in ("eq", "ne")
        ):
            name = first[1]
            null = state.renamed(lambda value: ("known", 0) if value == first else value)
            del null.held[name]
            there = state.renamed(lambda value: ("record", name, 0) if value == first else value)
            there.held[name] = (*state.held[name][:2], True)
            return (there, null) if insn.op == "eq" else (null, there)
        refuse((13, not is_number(first) or not is_number(second)))
        return state, state

    def ring_faults(self, value):
        return [1] if value == NOTHING else [7] if value[0] != "ring" else []

    def number_faults(self, value):
        return [1] if value == NOTHING else [7] if not is_number(value) else []

    def called(self, unit: int, helper, state):
        if helper not in (OUTPUT, RESERVE, SUBMIT, DISCARD, QUERY):
            raise Refused([15])
        first, second, third, fourth = state.values[1:5]
        rules, after, given = [], state.copy(), NUMBER
        if helper == OUTPUT:
            rules = self.ring_faults(first) + self.output_faults(state, second, third) + self.number_faults(fourth)
        elif helper == QUERY:
            rules = self.ring_faults(first) + self.number_faults(second)
        elif helper == RESERVE:
            sized = second[0] == "known" and second[1] <= LARGEST
            rules = (
                self.ring_faults(first)
                + ([1] if second == NOTHING else [] if sized else [8])
                + self.number_faults(third)
            )
            rules += [9] if len(state.held) == 4 else []
            given = ("perhaps", unit)
        else:
            owned = first[0] == "record" and first[-1] == 0
            rules = [1] if first == NOTHING else [14] if first[0] == "perhaps" else [] if owned else [7]
            rules += self.number_faults(second)
            given = NOTHING
        if rules:
            raise Refused(rules)
        if helper == RESERVE:
            after.held[unit] = (first[1], second[1], False)
        if helper in (SUBMIT, DISCARD):
            after = state.renamed(lambda value: NOTHING if value[:2] == first[:2] else value)
            del after.held[first[1]]
        after.values[0:6] = [given] + [NOTHING] * 5
        return after

    def output_faults(self, state, memory, size: int):
        rules = []
        if memory == NOTHING:
            rules.append(1)
        elif memory[0] == "perhaps":
            rules.append(14)
        elif memory[0] not in MEMORY:
            rules.append(7)
        if size == NOTHING:
            rules.append(1)
        elif size[0] != "known":
            rules.append(8)
        elif memory[0] in MEMORY:
            if not self.inside(state, memory, size[1]):
                rules.append(4)
            elif memory[0] == "stack" and any(place in state.places for place in touched(memory[1], size[1])):
                rules.append(1)
        return rules


def verified(code, context, rings: int):
    """Returns the instructions of an accepted program; raises Fault if the bytes or the shape are refused, Refused if a rule is broken."""
    return annotated(code, context, rings)[0]


def annotated(code, context, rings: int):
    """Returns the same, with what is known before each."""
    insns = decoded(code)
    shaped(insns)
    states = {0: State()}
    verifier = Verifier(context, rings)
    differ = set()
    for unit, insn in insns.items():
        if unit in differ:
            raise Refused([11], unit)
        try:
            after, jump = verifier.step(unit, insn, states[unit])
        except Refused as refused:
            raise Refused(refused.rules, unit) from None
        ways = [(unit + insn.units, after)] if goes_on(insn) else []
        ways += [(unit + 1 + distance(insn), jump)] if distance(insn) is not None else []
        for end, state in ways:
            if end in states and states[end].held != state.held:
                differ.add(end)
            else:
                states[end] = joined(states[end], state) if end in states else state
    return insns, states
