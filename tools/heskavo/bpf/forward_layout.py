"""Lays out the basic blocks of a program so that all jumps lead forward.

Compilers place blocks by how likely they are, so a program without loops may jump backward, and the host refuses such a jump. Without a loop the blocks
have a topological order, in which each block precedes those that it continues to.
"""
import dataclasses
import struct

from heskavo.bpf.instructions import EXIT, GOTO, UNIT, Jump, instructions, jump_of, with_target
from heskavo.bpf.refusals import Refusal


@dataclasses.dataclass(frozen=True)
class Block:
    """A basic block: its instructions without a `goto` at the end, and the first units of the blocks that it continues to.

    `jump` is the target of the conditional jump that the block ends with, `after` the block that follows otherwise; either is None if it does not exist.
    """

    code: bytes
    jump: int | None
    after: int | None


class Loop(Refusal):
    """A program jumps back to an instruction from which the jump is reached again."""

    def __init__(self, unit: int, target: int) -> None:
        super().__init__(
            f"a jump back to unit {target} closes a loop, and programs of this host have none: unroll it "
            "(`#pragma unroll`, with a constant number of rounds)"
        )
        self.unit = unit


def blocks_of(code: bytes) -> dict[int, Block] | None:
    """Returns the blocks of a program by their first units, or None if a jump leads out of the program, or into an instruction."""
    insns = dict(instructions(code))
    jumps: dict[int, Jump] = {unit: jump for unit, insn in insns.items() if (jump := jump_of(unit, insn))}
    ends = {unit for unit, insn in insns.items() if unit in jumps or insn[0] == EXIT}
    leaders = sorted({0, *(jump.target for jump in jumps.values()), *(unit + 1 for unit in ends)} - {len(code) // UNIT})
    if any(leader not in insns for leader in leaders):
        return None
    found = {}
    for first, after in zip(leaders, [*leaders[1:], len(code) // UNIT]):
        last = max(unit for unit in range(first, after) if unit in insns)
        jump = jumps.get(last)
        if jump and not jump.is_conditional:
            found[first] = Block(code[first * UNIT : last * UNIT], None, jump.target)
        else:
            follows = None if insns[last][0] == EXIT else after
            found[first] = Block(code[first * UNIT : after * UNIT], jump.target if jump else None, follows)
    return found if all(block.after is None or block.after in found for block in found.values()) else None


def topological(blocks: dict[int, Block], ends: dict[int, int]) -> list[int]:
    """Returns the blocks that are reached from the first one, each before those that it continues to. `ends` has the last unit of each block.

    The search visits a block's jump before what follows otherwise, so the latter is placed right after the block if possible. Raises Loop.
    """
    order: list[int] = []
    is_done: dict[int, bool] = {0: False}
    path = [(0, iter([it for it in (blocks[0].jump, blocks[0].after) if it is not None]))]
    while path:
        first, waiting = path[-1]
        child = next(waiting, None)
        if child is None:
            is_done[first] = True
            order.append(first)
            path.pop()
        elif child not in is_done:
            is_done[child] = False
            path.append((child, iter([it for it in (blocks[child].jump, blocks[child].after) if it is not None])))
        elif not is_done[child]:
            raise Loop(ends[first], child)
    return order[::-1]


def placed(blocks: dict[int, Block], order: list[int]) -> bytes:
    """Returns the program of these blocks in this order, with a `goto` if a block is not placed right before the one that follows it."""
    needs_goto = {
        first: blocks[first].after not in (None, following) for first, following in zip(order, [*order[1:], -1])
    }
    begins, at = {}, 0
    for first in order:
        begins[first] = at
        at += len(blocks[first].code) // UNIT + needs_goto[first]
    code = bytearray()
    for first in order:
        block = blocks[first]
        code += block.code
        if block.jump is not None:
            unit = len(code) // UNIT - 1
            code[-UNIT:] = with_target(unit, bytes(code[-UNIT:]), begins[block.jump])
        if needs_goto[first] and block.after is not None:
            code += with_target(len(code) // UNIT, bytes([GOTO, *bytes(UNIT - 1)]), begins[block.after])
    return bytes(code)


def forward(code: bytes) -> bytes:
    """Returns a program that does the same with forward jumps only; one whose jumps all lead forward is returned unchanged.

    Unreachable code is removed if anything is moved. A program with a jump out of it, which no layout can fix, is returned unchanged. Raises Loop
    if there is a loop, and Refusal if a jump becomes too long for its 16 bits.
    """
    jumps = [(unit, jump.target) for unit, insn in instructions(code) if (jump := jump_of(unit, insn))]
    if all(target > unit for unit, target in jumps):
        return code
    blocks = blocks_of(code)
    if blocks is None:
        return code
    bounds = [*sorted(blocks), len(code) // UNIT]
    order = topological(blocks, {first: after - 1 for first, after in zip(bounds, bounds[1:])})
    try:
        return placed(blocks, order)
    except struct.error:
        raise Refusal("with forward jumps only, a jump is longer than 32,767 units") from None
