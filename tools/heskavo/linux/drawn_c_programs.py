"""Generates random programs for tests: graphs of basic blocks in any order, and C sources that compilers lay out with backward jumps."""
import random
import struct

from heskavo.bpf.instructions import EXIT, GOTO, LONG_GOTO, UNIT, WIDE, instructions, jump_of, with_target

# `if r1 == IMM goto`, of 64 and of 32 bits, and `r0 = IMM`. The constants differ between blocks.
BRANCHES, MOVE = (0x15, 0x16), 0xB7


def graph(draw: random.Random, has_loop: bool = False) -> bytes:
    """Returns a program whose blocks are in any order after the first one. They have no cycle, or with `has_loop` a reachable one."""
    count = draw.randrange(1, 14)
    bodies: list[bytes] = []
    edges: list[tuple[int | None, int | None]] = []
    for block in range(count):
        wide = bytes([WIDE, 0, 0, 0, *struct.pack("<i", block), *bytes(8)])
        bodies.append(bytes([MOVE, 0, 0, 0, *struct.pack("<i", block)]) + (wide if draw.random() < 0.3 else b""))
        later = range(block + 1, count)
        edges.append(
            (draw.choice(later) if later and draw.random() < 0.6 else None, draw.choice(later) if later else None)
        )
    if has_loop:
        walk = [0]
        while steps := [it for it in edges[walk[-1]] if it is not None]:
            walk.append(draw.choice(steps))
        last = draw.randrange(len(walk))
        edges[walk[last]] = (draw.choice(walk[: last + 1]), edges[walk[last]][1])
    return assembled(draw, bodies, edges, [0, *draw.sample(range(1, count), count - 1)])


def assembled(
    draw: random.Random, bodies: list[bytes], edges: list[tuple[int | None, int | None]], places: list[int]
) -> bytes:
    """Returns the program of these blocks in this order. A block ends with a `goto` if its successor is not placed right after it, and sometimes if it is."""
    parts: dict[int, bytes] = {}
    begins: dict[int | None, int] = {}
    at = 0
    for block, following in zip(places, [*places[1:], -1]):
        jump, after = edges[block]
        part = bodies[block]
        if jump is not None:
            part += bytes([draw.choice(BRANCHES), 1, 0, 0, *struct.pack("<i", block)])
        if after is None:
            part += bytes([EXIT, *bytes(UNIT - 1)])
        elif after != following or draw.random() < 0.1:
            part += bytes([draw.choice((GOTO, LONG_GOTO)), *bytes(UNIT - 1)])
        begins[block] = at
        parts[block] = part
        at += len(part) // UNIT
    code = bytearray()
    for block in places:
        jump, after = edges[block]
        for unit, insn in instructions(parts[block]):
            found = jump_of(unit, insn)
            target = None if found is None else jump if found.is_conditional else after
            place = len(code) // UNIT
            code += insn if target is None else with_target(place, insn, begins[target])
    return bytes(code)


def is_same(one: bytes, other: bytes) -> bool:
    """Returns whether two programs do the same on every path: step by step the same instructions, apart from where jumps lead and from each `goto`."""
    programs = (dict(instructions(one)), dict(instructions(other)))

    def after_gotos(number: int, unit: int) -> int:
        while (jump := jump_of(unit, programs[number][unit])) and not jump.is_conditional:
            unit = jump.target
        return unit

    seen: set[tuple[int, int]] = set()
    waiting = [(0, 0)]
    while waiting:
        at, there = waiting.pop()
        pair = after_gotos(0, at), after_gotos(1, there)
        if pair in seen:
            continue
        seen.add(pair)
        insn, found = programs[0][pair[0]], programs[1][pair[1]]
        jump, found_jump = jump_of(pair[0], insn), jump_of(pair[1], found)
        if jump and found_jump:
            if (insn[:2], insn[4:]) != (found[:2], found[4:]):
                return False
            waiting.append((jump.target, found_jump.target))
        elif insn != found:
            return False
        if insn[0] != EXIT:
            waiting.append((pair[0] + len(insn) // UNIT, pair[1] + len(found) // UNIT))
    return True


def c_source(draw: random.Random) -> str:
    """Returns a C source without loops, whose `goto`s, switches and unlikely branches make clang place some blocks after those that they lead to."""
    count = draw.randrange(5, 10)
    lines = ["RING(ring, 4096);", 'SEC("drawn") u64 f(u64 *ctx) {', "    u64 a = ctx[0], b = ctx[1];", "    u32 *e;"]
    for step in range(count):
        later = [f"l{draw.randrange(step + 1, count + 1)}" for _ in range(3)]
        lines.append(f"l{step}:;")
        lines.append(
            "    "
            + draw.choice(
                (
                    f"if (__builtin_expect(a {draw.choice('<>&')} {draw.randrange(100)}, {draw.randrange(2)})) {{ b += {draw.randrange(99)}; goto {later[0]}; }}",
                    f"if (b == {draw.randrange(50)}) {{ bpf_ringbuf_output(&ring, &b, 8, 0); if (a == {draw.randrange(30)}) goto {later[0]}; a ^= b * 7; }} else a += b;",
                    f"switch (a & 7) {{ case 0: b += 3; goto {later[0]}; case 1: case 5: b ^= a; break; case 2: a = b * 5; goto {later[1]}; default: a -= 7; }}",
                    f"e = bpf_ringbuf_reserve(&ring, {8 * draw.randrange(1, 9)}, 0); if (!e) goto {later[0]}; *e = a; "
                    f"if (b > {draw.randrange(9)}) {{ bpf_ringbuf_submit(e, 0); goto {later[1]}; }} bpf_ringbuf_discard(e, 0);",
                )
            )
        )
    return "\n".join([*lines, f"l{count}:", "    return a + b;", "}", ""])
