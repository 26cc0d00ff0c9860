"""A program for each class of difference in docs/LINUX.md, with the side that refuses it and the class. All have a context of 64 bytes and two rings."""
from heskavo.rows.program_draws import unit, wide

CONTEXT, RINGS = 64, 2
EXIT = unit(0x95)
RETURN = [unit(0xB7), EXIT]


def move(dst: int, src: int):
    return unit(0xBF, dst, src)


def number(dst: int, imm: int):
    return unit(0xB7, dst, imm=imm)


def call(helper):
    return unit(0x85, imm=helper)


def reserve(length: int):
    """Reserves a record of this length in ring 0."""
    return [wide(1, 5, 0), number(2, length), number(3, 0), call(131)]


def submit(register: int):
    return [move(1, register), number(2, 0), call(132)]


def output(data, length: int):
    """Outputs this many bytes from the address in r2."""
    return [*data, wide(1, 5, 0), number(3, length), number(4, 0), call(130)]


def five_records():
    """Reserves five records at once, and commits those that were granted."""
    granted = [[*reserve(8), unit(0x7B, 10, 0, -8 * (n + 1))] for n in range(5)]
    ends = [[unit(0x79, 1, 10, -8 * (n + 1)), number(2, 0), call(132)] for n in reversed(range(5))]
    code, behind = [], [sum(len(b"".join(each)) // 8 for each in granted[n + 1 :]) + 4 - n for n in range(5)]
    for n, each in enumerate(granted):
        code += [*each, unit(0x15, 0, 0, behind[n] + 3 * (5 - n))]
    return [*code, *(insn for each in ends for insn in each), *RETURN]


# What Linux refuses, by the class that `--portable` prints.
LINUX = (
    ("stack-alignment", [unit(0x7A, 10, 0, -12, 1), *RETURN]),
    ("context-alignment", [unit(0x61, 0, 1, 2), EXIT]),
    ("context-moved", [unit(0x07, 1, imm=8), unit(0x79, 0, 1), EXIT]),
    ("context-output", output([move(2, 1)], 8) + RETURN),
    ("frame-top", output([move(2, 10)], 0) + RETURN),
    ("shift", [number(0, 1), unit(0x67, 0, imm=64), EXIT]),
    ("division", [number(0, 1), unit(0x37, 0), EXIT]),
    ("stack-subtraction", [move(2, 10), unit(0x17, 2, imm=8), *RETURN]),
    ("pointer-far", [unit(0x07, 1, imm=1 << 29), *RETURN]),
)

# What Linux refuses without a class, since it depends on how a number was computed.
LINUX_UNTOLD = (
    (
        "size from a division",
        [
            wide(1, 5, 0),
            number(2, 16),
            unit(0x37, 2, imm=2),
            number(3, 0),
            call(131),
            unit(0x15, 0, 0, 3),
            *submit(0),
            *RETURN,
        ],
    ),
    (
        "size from a shift",
        [
            wide(1, 5, 0),
            number(2, 8),
            number(3, 64),
            unit(0x6F, 2, 3),
            number(3, 0),
            call(131),
            unit(0x15, 0, 0, 3),
            *submit(0),
            *RETURN,
        ],
    ),
)

# What this host refuses and Linux accepts, by the layer, and the kind or the rule.
HERE = (
    ("decode LeftOut", [unit(0x7A, 10, 0, -8), number(0, 1), unit(0xDB, 10, 0, -8), EXIT]),
    ("decode BadOpcode", [number(0, 0), unit(0xE5), EXIT]),
    ("decode UnusedField", [number(0, 0), unit(0x95, offset=1)]),
    ("decode TooLong", [number(0, 0)] * 4096 + [EXIT]),
    ("shape Backward", [number(0, 8), unit(0x17, 0, imm=1), unit(0x55, 0, 0, -2), EXIT]),
    (
        "verify V1",
        [unit(0x79, 2, 1), unit(0x15, 2, 0, 1), number(3, 7), number(0, 0), unit(0x15, 2, 0, 1), move(0, 3), EXIT],
    ),
    ("verify V1", [unit(0x7B, 10, 1, -8), *output([move(2, 10), unit(0x07, 2, imm=-8)], 8), *RETURN]),
    (
        "verify V3",
        [
            unit(0x71, 2, 1),
            unit(0x57, 2, imm=7),
            move(3, 10),
            unit(0x07, 3, imm=-8),
            unit(0x0F, 3, 2),
            unit(0x72, 3),
            *RETURN,
        ],
    ),
    ("verify V4", [unit(0x79, 0, 1, 64), EXIT]),
    ("verify V5", [unit(0x7A, 1), *RETURN]),
    ("verify V6", [*reserve(8), unit(0x15, 0, 0, 4), unit(0x7B, 0, 10), *submit(0), *RETURN]),
    ("verify V7", [wide(1, 5, 0), move(2, 10), call(134), *RETURN]),
    (
        "verify V8",
        [
            unit(0x71, 3, 1),
            unit(0x57, 3, imm=7),
            wide(1, 5, 0),
            move(2, 10),
            unit(0x07, 2, imm=-8),
            number(4, 0),
            call(130),
            *RETURN,
        ],
    ),
    ("verify V8", [*reserve((1 << 26) + 1), unit(0x15, 0, 0, 3), *submit(0), *RETURN]),
    ("verify V9", five_records()),
    (
        "verify V11",
        [
            unit(0x71, 6, 1),
            number(7, 0),
            unit(0x15, 6, 0, 7),
            *reserve(8),
            move(7, 0),
            unit(0x15, 7),
            unit(0x15, 6, 0, 4),
            unit(0x15, 7, 0, 3),
            *submit(7),
            *RETURN,
        ],
    ),
    ("verify V12", [move(0, 10), EXIT]),
    ("verify V13", [number(0, 0), unit(0x1D, 1, 10), EXIT]),
    ("verify V15", [call(5), EXIT]),
)


def programs():
    """Yields each named program: the side that refuses it (`linux`, `untold` or `here`), its class, and its bytes."""
    for side, named in (("linux", LINUX), ("untold", LINUX_UNTOLD), ("here", HERE)):
        for name, units in named:
            yield side, name, b"".join(units)
