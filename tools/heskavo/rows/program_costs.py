"""The maximal cost of an accepted program, by enumerating all its paths."""
from heskavo.rows.program_checks import OUTPUT, RESERVE, annotated
from heskavo.rows.program_code import edges
from heskavo.rows.ring_model import span

# The maximal number of steps that are enumerated; a program with more is not covered.
MOST_STEPS = 200_000


class TooManyPaths(Exception):
    """There are too many paths to enumerate."""


def paths(insns):
    """Yields each path from the first unit to an end, as the list of its units."""
    steps, left = 0, [[0]]
    while left:
        path = left.pop()
        steps += 1
        if steps > MOST_STEPS:
            raise TooManyPaths
        ends = edges(insns, path[-1])
        if not ends:
            yield path
        left += [[*path, end] for end in ends]


def asked(insn, state):
    """Returns the ring and the length of the record that an instruction requests, or None."""
    if insn.kind != "call" or insn.imm not in (OUTPUT, RESERVE):
        return None
    return state.values[1][1], state.values[2 if insn.imm == RESERVE else 3][1]


def cost(code, context, rings: int):
    """Returns steps and calls, and for each ring the records and bytes that are requested, and the records and bytes that are held."""
    insns, states = annotated(code, context, rings)
    steps = calls = 0
    records, sizes = [0] * rings, [0] * rings
    for path in paths(insns):
        steps = max(steps, len(path))
        calls = max(calls, sum(insns[unit].kind == "call" for unit in path))
        for ring in range(rings):
            spans = [
                span(found[1]) for unit in path if (found := asked(insns[unit], states[unit])) and found[0] == ring
            ]
            records[ring], sizes[ring] = max(records[ring], len(spans)), max(sizes[ring], sum(spans))
    held = [
        [[span(size) for of_ring, size, _ in states[unit].held.values() if of_ring == ring] for unit in insns]
        for ring in range(rings)
    ]
    return (
        steps,
        calls,
        [(records[ring], sizes[ring], max(map(len, held[ring])), max(map(sum, held[ring]))) for ring in range(rings)],
    )
