"""Drawn programs and tapes, and what an agent over the library for C prints of them, by what `rbhost` prints."""
import random
import struct
from collections.abc import Iterator

from heskavo.repository import ROOT

SIZE = 4096
SOURCES = [
    ROOT / "examples" / "submit_42.hex",
    ROOT / "examples" / "exit_zero.hex",
    *sorted((ROOT / "examples" / "c").glob("*.hex")),
]

# The words of `rbhost`, in the order of the numbers of include/heskavo_host.h.
BYTES_FAULTS = ["Length", "TooLong", "LeftOut", "BadOpcode", "BadRegister", "UnusedField", "HalfWide"]
SHAPE_FAULTS = ["Backward", "OutOfProgram", "IntoWide", "FallsOff", "Unreachable"]
TAPE_FAULTS = ["Busy", "Page", "Padding", "TooLong", "DiscardedBytes"]


def draw_programs(draw: random.Random) -> Iterator[bytes]:
    """Programs as bytes: examples, with a byte changed, units left out, or cut."""
    sources = [bytes.fromhex("".join(path.read_text().split())) for path in SOURCES]
    yield b""
    yield bytes(8 * 4097)
    while True:
        program = bytearray(draw.choice(sources))
        how = draw.randrange(5)
        if how == 1:
            program[draw.randrange(len(program))] = draw.randrange(256)
        if how == 2:
            unit = draw.randrange(len(program) // 8)
            del program[8 * unit : 8 * unit + 8]
        if how == 3:
            del program[draw.randrange(len(program)) :]
        if how == 4:
            at = 8 * draw.randrange(len(program) // 8)
            program[at + draw.choice([1, 2, 4])] = draw.randrange(16)
        yield bytes(program)


def draw_tapes(draw: random.Random) -> Iterator[bytes]:
    """Tapes of a ring: whole ones, and those with a byte changed, or cut."""
    yield b""
    while True:
        tape = bytearray()
        for _ in range(draw.randrange(1, 12)):
            payload = draw.randbytes(draw.choice([0, 1, 7, 8, 9, 100, draw.randrange(4000)]))
            discarded = draw.random() < 0.2
            word = len(payload) | (1 << 30 if discarded else 0)
            tape += (
                struct.pack("<II", word, len(tape) % SIZE // 4096)
                + (bytes(len(payload)) if discarded else payload)
                + bytes(-len(payload) % 8)
            )
        if draw.random() < 0.3:
            tape[draw.randrange(len(tape))] ^= 1 << draw.randrange(8)
        if draw.random() < 0.2:
            del tape[draw.randrange(len(tape)) :]
        yield bytes(tape)


def verdict_line(refusal: str) -> str:
    """What an agent prints where `rbhost` prints this refusal."""
    words = refusal.split()
    if words[1] == "verify":
        layer, number = 3, int(words[2][1:])
    elif words[1] == "shape":
        layer, number = 2, SHAPE_FAULTS.index(words[2]) + 1
    else:
        layer, number = 1, BYTES_FAULTS.index(words[2]) + 1
    return f"refused layer {layer} number {number} unit {words[-1]}\n"


def counts_text(printed: str, refusal: str) -> tuple[str, int]:
    """What an agent prints of a tape of which `rbhost tape` printed this, and what its status is."""
    lines = [line.split() for line in printed.splitlines()]
    counts: dict[int, int] = {}
    end = 0
    for words in lines:
        length = int(words[3])
        counts[length.bit_length()] = counts.get(length.bit_length(), 0) + 1
        end = int(words[1]) + 8 + (length + 7) // 8 * 8
    text = "".join(f"below {1 << bits} {counts[bits]}\n" for bits in sorted(counts))
    text += f"discarded {sum(words[4] == 'discarded' for words in lines)} bytes {end}\n"
    if refusal:
        kind = refusal.split()[1]
        text += "truncated\n" if kind == "Truncated" else f"fault {TAPE_FAULTS.index(kind) + 1}\n"
    return text, 1 if refusal else 0


def checked_text(printed: str) -> str:
    """What `calls` prints where `rbhost check` printed this: no worker and no serial, since a tape has neither."""
    kept = []
    for line in printed.splitlines(keepends=True):
        words = line.split(" ")
        kept.append(" ".join(words[:4] + words[8:]) if words[0] == "ring" and words[4] == "worker" else line)
    return "".join(kept)


def cost_text(printed: str) -> str:
    """What an agent prints where `rbhost cost` printed this: all but that the program is accepted, and of how many jobs the ring has room for the records."""
    if not printed:
        return ""
    _, *lines = printed.splitlines(keepends=True)
    size = int(lines[1].split()[5])
    return "".join(lines) + (f"jobs {(SIZE - 1) // size}\n" if size else "")
