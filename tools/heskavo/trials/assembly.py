"""Compares the stored assembly texts with LLVM's disassembler, or generates them again.

Without an option it disassembles each stored program by llvm-objdump and compares it with its texts.

The rows are in crates/rb_program_rows/stdin, and their answers in stdout, under two headings: one instruction for each
row that LLVM 14 knows, as `rb_explain` displays it, and 200 random programs that are accepted, as it explains them.
LLVM (Debian's package llvm; the variable LLVM names another folder of its programs) reads the bytes as a code section.
Rows that LLVM 14 does not know (MOD, signed division, sign-extending moves and loads, bswap, gotol, JSET, stores of an
immediate) are under a separate heading. A ring, which LLVM 14 prints as `ld_pseudo`, is replaced by its name in RFC
9669. The status is 1 if a text differs.
"""
import argparse
import os
import pathlib
import random
import re
import struct
import subprocess
import sys
import tempfile

from heskavo.repository import ROOT

CRATE = ROOT / "crates" / "rb_program_rows"
ROWS = "## Assembly as LLVM's disassembler prints it"
ACCEPTED = "## Accepted programs as LLVM's disassembler prints them"
# The prefixes of a row's hex and of its texts.
FRONTS = {ROWS: ("assembly ", ""), ACCEPTED: ("explained 24 2 ", "accepted: ")}
PROGRAMS = 200

# The context length and the rings that the accepted programs are verified for.
CONTEXT, RINGS = 24, 2
STACK = 512

# Opcodes (RFC 9669, sections 3 to 5).
ALU, JMP, JMP32, ALU64 = 4, 5, 6, 7
K, X = 0, 8
BINARY = (0x00, 0x10, 0x20, 0x40, 0x50, 0x60, 0x70, 0xA0, 0xC0)
DIV = 0x30
NEG, MOV = 0x80, 0xB0
CONDITIONS = (0x10, 0x20, 0x30, 0x50, 0x60, 0x70, 0xA0, 0xB0, 0xC0, 0xD0)
JA, CALL, EXIT, WIDE = 0x05, 0x85, 0x95, 0x18
ORDERS = (0xD4, 0xDC)
LOADS = (0x61, 0x69, 0x71, 0x79)
STORES = (0x63, 0x6B, 0x73, 0x7B)
IMMEDIATES = (0, 1, -1, 5, -13, 2**31 - 1, -(2**31))
OFFSETS = (0, 1, -1, 8, -8, 2**15 - 1, -(2**15))


def unit(opcode: int, dst: int = 0, src: int = 0, offset: int = 0, imm: int = 0):
    """The eight bytes of a unit."""
    return struct.pack("<BBhi", opcode, dst | src << 4, offset, imm)


def kinds():
    """Returns a generator for each row that LLVM 14 knows: it takes a source of random numbers and returns an instruction's bytes."""

    def reg(draw: random.Random):
        return draw.randint(0, 10)

    def imm(draw: random.Random):
        return draw.choice((*IMMEDIATES, draw.randint(-(2**31), 2**31 - 1)))

    def offset(draw: random.Random):
        return draw.choice((*OFFSETS, draw.randint(-(2**15), 2**15 - 1)))

    for width in (ALU, ALU64):
        for code in (*BINARY, DIV, MOV):
            yield lambda draw, op=code + width: unit(op + K, reg(draw), imm=imm(draw))
            yield lambda draw, op=code + width: unit(op + X, reg(draw), reg(draw))
        yield lambda draw, op=NEG + width: unit(op, reg(draw))
    for order in ORDERS:
        for bits in (16, 32, 64):
            yield lambda draw, op=order, bits=bits: unit(op, reg(draw), imm=bits)
    for width in (JMP, JMP32):
        for code in CONDITIONS:
            yield lambda draw, op=code + width: unit(op + K, reg(draw), 0, offset(draw), imm(draw))
            yield lambda draw, op=code + width: unit(op + X, reg(draw), reg(draw), offset(draw))
    yield lambda draw: unit(JA, offset=offset(draw))
    yield lambda draw: unit(CALL, imm=draw.choice((130, 131, 132, 133, 134, 1, imm(draw))))
    yield lambda draw: unit(EXIT)
    yield lambda draw: unit(WIDE, reg(draw), imm=imm(draw)) + unit(0, imm=imm(draw))
    for op in LOADS + STORES:
        yield lambda draw, op=op: unit(op, reg(draw), reg(draw), offset(draw))


def rows():
    """Returns a program of one instruction for each row, as the bytes of its instructions."""
    draw = random.Random(9669)
    return [[make(draw)] for make in kinds()]


def any_programs(draw: random.Random):
    """Returns random programs of some instructions."""
    makers = list(kinds())
    return [[draw.choice(makers)(draw) for _ in range(draw.randint(2, 5))] for _ in range(PROGRAMS)]


def computing(draw: random.Random, numbers):
    """Returns an instruction that reads and writes only numbers in these registers, the context and the stack."""
    dst, src, imm = (
        draw.choice(numbers),
        draw.choice(numbers),
        draw.choice((*IMMEDIATES, draw.randint(-(2**31), 2**31 - 1))),
    )
    width = draw.choice((ALU, ALU64))
    size, load, store = draw.choice(((8, 0x79, 0x7B), (4, 0x61, 0x63), (2, 0x69, 0x6B), (1, 0x71, 0x73)))
    return draw.choice(
        (
            unit(draw.choice((*BINARY, DIV, MOV)) + width + X, dst, src),
            unit(draw.choice((*BINARY, MOV)) + width + K, dst, imm=imm % 31 if imm % 2 else 5),
            unit(draw.choice((DIV, MOV)) + width + K, dst, imm=imm or 1),
            unit(NEG + width, dst),
            unit(draw.choice(ORDERS), dst, imm=draw.choice((16, 32, 64))),
            unit(WIDE, dst, imm=imm) + unit(0, imm=draw.choice(IMMEDIATES)),
            unit(load, dst, 1, size * draw.randrange(CONTEXT // size)),
            unit(store, 10, src, -size * draw.randint(1, STACK // size)),
        )
    )


def accepted_program(draw: random.Random):
    """Returns an accepted program: numbers, some computation under forward jumps, sometimes a query, and the exit."""
    numbers = [0, *draw.sample((2, 3, 4, 5, 6, 7, 8, 9), 2)]
    ahead = [unit(MOV + ALU64 + K, dst, imm=draw.randint(-(2**31), 2**31 - 1)) for dst in numbers]
    body = [computing(draw, numbers) for _ in range(draw.randint(2, 5))]
    skipped = sum(map(len, body)) // 8
    condition, width = draw.choice(CONDITIONS), draw.choice((JMP, JMP32))
    jump = draw.choice(
        (
            unit(condition + width + K, draw.choice(numbers), 0, skipped, draw.choice(IMMEDIATES)),
            unit(condition + width + X, draw.choice(numbers), draw.choice(numbers), skipped),
            unit(JA),
        )
    )
    query = [
        unit(WIDE, 1, 5, imm=draw.randrange(RINGS)) + unit(0),
        unit(MOV + ALU64 + K, 2, imm=draw.randint(0, 4)),
        unit(CALL, imm=134),
    ]
    return [*ahead, jump, *body, *draw.choice(([], query)), unit(EXIT)]


def accepted_programs(draw: random.Random):
    """Returns random programs that are accepted."""
    return [accepted_program(draw) for _ in range(PROGRAMS)]


def tool(name: str):
    """A program of LLVM."""
    return os.path.join(os.environ["LLVM"], name) if "LLVM" in os.environ else name


def disassembled(code):
    """Returns the text of each instruction, as llvm-objdump prints it, without the jump targets that it computes."""
    with tempfile.TemporaryDirectory() as folder:
        source, made = os.path.join(folder, "code.s"), os.path.join(folder, "code.o")
        pathlib.Path(source).write_text(".text\n" + "".join(f".byte {byte}\n" for byte in code))
        subprocess.run([tool("llvm-mc"), "-arch=bpf", "-filetype=obj", source, "-o", made], check=True)
        text = subprocess.run(
            [tool("llvm-objdump"), "-d", "-z", made], check=True, capture_output=True, text=True
        ).stdout
    found = (re.match(r"\s*\d+:\t[0-9a-f ]+\t(.*)", line) for line in text.splitlines())
    plain = (re.sub(r" <\S*>$", "", row[1].replace("\t", " ")).strip() for row in found if row)
    return [re.sub(r"^ld_pseudo (r\d+), 5, (\d+)$", r"\1 = map_by_idx(\2)", row) for row in plain]


def texts(programs):
    """Returns the text of each program: the texts of its instructions, separated by ` ; `."""
    left = disassembled(b"".join(insn for program in programs for insn in program))
    if len(left) != sum(map(len, programs)) or "<unknown>" in left:
        sys.exit("compare-assembly: LLVM does not know every instruction: version 14 or newer is required")
    answers = []
    for program in programs:
        answers.append(" ; ".join(left[: len(program)]))
        left = left[len(program) :]
    return answers


def hex_of(program):
    """The hex of a program's instructions."""
    return "".join(insn.hex() for insn in program)


def section(lines: list[str], heading):
    """Returns where the rows under a heading begin and end: after its comments, up to an empty line."""
    start = next(at for at, line in enumerate(lines) if line.startswith(heading))
    while lines[start].startswith("#"):
        start += 1
    return start, lines.index("", start)


def write(heading, programs) -> None:
    """Writes the rows of some programs, and their answers."""
    row, answer = FRONTS[heading]
    rows_and_answers = {
        "stdin": [row + hex_of(program) for program in programs],
        "stdout": [answer + text for text in texts(programs)],
    }
    for name, made in rows_and_answers.items():
        lines = (CRATE / name).read_text().split("\n")
        start, end = section(lines, heading)
        (CRATE / name).write_text("\n".join(lines[:start] + made + lines[end:]))
    print(f"{heading}: {len(programs)} programs")


def make():
    """Writes both kinds of rows again."""
    write(ROWS, rows())
    write(ACCEPTED, accepted_programs(random.Random(9669)))
    return 0


def answered(lines: list[str]):
    """Returns the program's answers to rows, by the built program or, if there is none, by the sources, without proof."""
    built = CRATE / "out" / "rb_program_rows"
    command = [str(built)] if built.exists() else ["rt", "try"]
    run = subprocess.run(
        command, input="".join(line + "\n" for line in lines), cwd=CRATE, check=True, capture_output=True, text=True
    )
    return run.stdout.splitlines()


def random_programs():
    """Compares the program's answers to rows over random programs."""
    draw, rows_drawn, wanted = random.Random(), [], []
    for heading, programs in ((ROWS, any_programs(draw)), (ACCEPTED, accepted_programs(draw))):
        row, answer = FRONTS[heading]
        rows_drawn += [row + hex_of(program) for program in programs]
        wanted += [answer + text for text in texts(programs)]
    told = answered(rows_drawn)
    differ = [both for both in zip(rows_drawn, wanted, told) if both[1] != both[2]]
    for row, text, answer in differ:
        print(f"{row}: LLVM '{text}', the program '{answer}'")
    print(f"{len(rows_drawn)} rows, {len(differ) + abs(len(wanted) - len(told))} differ")
    return 1 if differ or len(wanted) != len(told) else 0


def instructions(code):
    """The bytes of each instruction."""
    at = 0
    while at < len(code):
        length = 16 if code[at] == WIDE else 8
        yield code[at : at + length]
        at += length


def stored(heading):
    """The hex of each stored row, and its stored text."""
    row, answer = FRONTS[heading]
    found = []
    for name, front in (("stdin", row), ("stdout", answer)):
        lines = (CRATE / name).read_text().split("\n")
        start, end = section(lines, heading)
        found.append([line.removeprefix(front) for line in lines[start:end]])
    return list(zip(*found, strict=True))


def differing(heading):
    """Returns the number of rows that differ from what LLVM prints now, and prints each of them."""
    pairs = stored(heading)
    programs = [list(instructions(bytes.fromhex(code))) for code, _ in pairs]
    differ = [(code, text, found) for (code, text), found in zip(pairs, texts(programs)) if text != found]
    for code, text, found in differ:
        print(f"{code}: stored '{text}', LLVM '{found}'")
    print(f"{heading}: {len(pairs)} programs, {len(differ)} differ")
    return len(differ) if pairs else 1


def compare():
    """Compares each stored row with what LLVM prints now."""
    return 1 if sum(map(differing, FRONTS)) else 0


def add_arguments(parser: argparse.ArgumentParser) -> None:
    """Adds the modes."""
    modes = parser.add_mutually_exclusive_group()
    modes.add_argument(
        "--make",
        action="store_const",
        dest="action",
        const=make,
        default=compare,
        help="write the rows and their answers again",
    )
    modes.add_argument(
        "--random",
        action="store_const",
        dest="action",
        const=random_programs,
        help="compare rb_program_rows with llvm-objdump on 200 other programs of each kind",
    )


def run(asked: argparse.Namespace) -> int:
    """Compares, or writes the rows."""
    return asked.action() or 0
