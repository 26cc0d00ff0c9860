"""Where Linux refuses a program that is accepted here: the classes of docs/LINUX.md, each of an instruction and what is known before it."""
from heskavo.rows.program_checks import MEMORY, OUTPUT, State, Verifier, joined
from heskavo.rows.program_code import decoded, distance, goes_on, signed

# Linux moves no pointer by this distance or more.
FAR = 1 << 29

# What this host refuses and Linux may accept: the layer, and the kind or the rule.
HERE_ALONE = (
    "decode LeftOut",
    "decode BadOpcode",
    "decode UnusedField",
    "decode TooLong",
    "shape Backward",
    *(f"verify V{rule}" for rule in (1, 3, 4, 5, 6, 7, 8, 9, 11, 12, 13, 15)),
)


def annotated(code, context, rings: int):
    """Returns the instructions of an accepted program by their units, and what is known before each."""
    insns, states, verifier = decoded(code), {0: State()}, Verifier(context, rings)
    for unit, insn in insns.items():
        after, jump = verifier.step(unit, insn, states[unit])
        ways = [(unit + insn.units, after)] if goes_on(insn) else []
        ways += [(unit + 1 + distance(insn), jump)] if distance(insn) is not None else []
        for end, state in ways:
            states[end] = joined(states[end], state) if end in states else state
    return insns, states


def access_class(pointer, insn):
    """Returns the class of a load or a store by this pointer, if it has one."""
    is_misaligned = (pointer[-1] + insn.offset) % insn.size
    match pointer[0]:
        case "stack":
            return "stack-alignment" if is_misaligned else None
        case "context":
            return "context-moved" if pointer[-1] else "context-alignment" if is_misaligned else None
    return None


def move_class(pointer, insn, state):
    """Returns the class of an addition to a pointer, or a subtraction from it, if it has one."""
    by = insn.imm if insn.src is None else signed(state.values[insn.src][1], 64)
    if pointer[0] == "stack" and insn.op == "sub":
        return "stack-subtraction"
    to = pointer[-1] + (by if insn.op == "add" else -by)
    return "pointer-far" if abs(by) >= FAR or abs(to) >= FAR else None


def class_of(insn, state):
    """Returns the class of an instruction before which this is known, if it has one."""
    match insn.kind:
        case "load" | "load signed":
            return access_class(state.values[insn.src], insn)
        case "store" | "store immediate":
            return access_class(state.values[insn.dst], insn)
        case "binary" if state.values[insn.dst][0] in MEMORY:
            return move_class(state.values[insn.dst], insn, state)
        case "binary" if insn.src is None and insn.op in ("lsh", "rsh", "arsh"):
            return None if 0 <= insn.imm < insn.width else "shift"
        case "binary" if insn.src is None and insn.op in ("div", "mod"):
            return None if insn.imm else "division"
        case "call" if insn.imm == OUTPUT:
            if state.values[2][0] == "context":
                return "context-output"
            return "frame-top" if state.values[2] == ("stack", 0) else None
    return None


def lines(code, context, rings: int):
    """Returns each class with the unit at which Linux refuses an accepted program by it, in the order of the units."""
    insns, states = annotated(code, context, rings)
    found = ((class_of(insn, states[unit]), unit) for unit, insn in insns.items())
    return [(name, unit) for name, unit in found if name]
