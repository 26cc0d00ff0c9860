"""Compares the lines of `rbhost --json` with its lines of words, and with Python's own JSON parser.

The inputs are 200 random tapes, some of them truncated, as many scripts, and programs that are made from those of
examples/ by a few changes. Each line of `tape --json`, `check --json`, `cost --json`, `run --json`, `sim --json` and
`explain --json` must be JSON, with the fields in the order and of the types that docs/rbhost.1 states, and must agree
with what Python computes from the tape, or with the lines of words. Standard error and the status must be those without
the option, and the lines of words of `explain` must end with those of `cost`.
"""
import functools
import json
import pathlib
import random
import re
import subprocess

import pytest

from heskavo.repository import ROOT

COUNT, SEED = 200, 1
EXACT = 1 << 53
DISCARDED = 1 << 30
SHOWN = 10
TEXTS = [
    '"',
    "\\",
    "/",
    "\x00",
    "\x1f",
    "\x7f",
    "\n",
    "\t",
    "a",
    "\u00e9",
    "\u2028",
    "\ud7ff",
    "\ue000",
    "\U0001f600",
    "\U0010ffff",
]
BROKEN = [b"\xff", b"\xc3", b"\xc0\x80", b"\xed\xa0\x80", b"\xf4\x90\x80\x80", b"\xe2\x80", b"\x80"]


def ran(program, words, given):
    run = subprocess.run([program, *words], input=given, capture_output=True)
    return run.stdout, run.stderr, run.returncode


def told(number):
    """Returns a number as an object has it."""
    return str(number) if number > EXACT else number


def payload_fields(payload):
    fields = [("hex", payload.hex())]
    try:
        fields.append(("text", payload.decode()))
    except UnicodeDecodeError:
        pass
    return fields


def record_fields(front, length, payload):
    fields = [*front, ("len", told(length)), ("discarded", payload is None)]
    return fields if payload is None else [*fields, *payload_fields(payload)]


def drawn_payload(draw):
    kind = draw.randrange(4)
    if kind == 0:
        return draw.randbytes(draw.randrange(12))
    text = "".join(draw.choice(TEXTS) for _ in range(draw.randrange(9))).encode()
    return text if kind < 3 else text + draw.choice(BROKEN) + b"a" * draw.randrange(2)


def drawn_tape(draw):
    """Returns the bytes of a tape, and the expected object of each record."""
    position = draw.choice([0, 8, EXACT - 24, EXACT - 16, EXACT, EXACT + 8, (1 << 62) - 8])
    start, tape, wanted = position, b"", []
    for _ in range(draw.randrange(8)):
        payload = drawn_payload(draw)
        discarded = draw.random() < 0.2
        length = len(payload)
        filled = payload + bytes(-length % 8)
        tape += (length | DISCARDED * discarded).to_bytes(8, "little") + (bytes(len(filled)) if discarded else filled)
        wanted.append(record_fields([("pos", told(position))], length, None if discarded else payload))
        position += 8 + len(filled)
    return start, tape, wanted


def number_of(word):
    return told(int(word))


def pairs_of(words):
    """Returns the fields of a line of words, which has a name before each number."""
    return [(name, number_of(value)) for name, value in zip(words[::2], words[1::2])]


def of_check(lines, _):
    """Returns the expected objects of `check` if it prints these lines."""
    if not lines:
        return []
    wanted = [[("accepted", True), ("result", number_of(lines[1].split()[1]))]]
    for line in lines[2:]:
        *front, _, length, last = line.split()
        payload = None if last == "discarded" else b"" if last == "-" else bytes.fromhex(last)
        wanted.append(record_fields(pairs_of(front), int(length), payload))
    return wanted


def of_run(lines, told):
    """Returns the expected objects of `run` if it prints these lines and this standard error; it has one ring."""
    wanted = []
    for line in lines:
        words = line.split()
        fields = pairs_of(words[1:] if words[0] == "ring" else words)
        wanted.append([("ring", 0), *fields] if words[0] in ("ring", "worker") else fields)
    if wanted:
        wanted[-1].append(("unlogged", int(told.split()[1]) if told.startswith("unlogged ") else 0))
    return wanted


def known_of(line):
    """Returns the known values in a line of `explain`."""
    registers, rest = {f"r{number}": None for number in range(11)}, []
    for word in line.split("  ")[4:]:
        held = re.fullmatch(r"holds record (\d+) of (\d+) bytes in ring (\d+)(, or null)?", word)
        if held:
            fields = [("bytes", int(held[2])), ("ring", int(held[3])), ("tested", held[4] is None)]
            rest.append((f"record {held[1]}", fields))
            continue
        name, value = word.split(" = ")
        if name in registers:
            registers[name] = value
        else:
            rest.append((name, value))
    return [*registers.items(), *rest]


UNIT = re.compile(r" *(\d+): ([0-9a-f]+) *(?:  (\S.*))?")


def unit_fields(line):
    """Returns the fields of a unit's line, or None if it is not one."""
    match = UNIT.fullmatch(line)
    if not match:
        return None
    fields = [("unit", int(match[1])), ("bytes", match[2])]
    if match[3] is not None:
        assembly, _, helper = match[3].partition("  # ")
        fields.append(("assembly", assembly))
        if helper:
            fields.append(("helper", None if helper == "not a helper of this host" else helper))
    return fields


def fault_fields(told, said):
    """Returns the fields of a refusal with this line and this advice."""
    words = told.split()[1:]
    if words == ["text"]:
        return [("layer", "text"), ("advice", said)]
    layer, name, _, unit = words
    advice = said.removeprefix(f"{name}: ") if layer == "verify" else said
    return [("layer", layer), ("fault", name), ("unit", int(unit)), ("advice", advice)]


def refusal_fields(told):
    """Returns the expected object of a refusal, by its line."""
    words = told.split()[1:]
    if words[0] in ("decode", "shape"):
        return [("refused", words[0]), ("kind", words[1]), ("unit", int(words[3]))]
    if words[0] == "verify":
        return [("refused", "verify"), ("rule", int(words[1][1:])), ("unit", int(words[3]))]
    if words[1:2] == ["at"]:
        return [("refused", "tape"), ("kind", words[0]), ("offset", int(words[2]))]
    return [("refused", words[0])]


def of_cost(lines, _):
    """Returns the expected objects of `cost` if it prints these lines."""
    wanted = [[("accepted", True), *pairs_of(lines[1].split())]] if lines else []
    for line in lines[2:]:
        *front, name, last = line.split()
        wanted.append([*pairs_of(front), (name, None if last == "none" else number_of(last))])
    return wanted


def of_explain(lines, told):
    """Returns the expected objects of `explain` if it prints these lines and this standard error."""
    wanted, known = [], None
    at = lines.index("accepted") if "accepted" in lines else len(lines)
    for line in lines[:at]:
        if line.startswith("      #"):
            known = known_of(line)
        elif line != "   ^":
            fields = unit_fields(line)
            if fields is None:
                fields = fault_fields(told, line)
            elif known is not None:
                fields.append(("known", known))
                known = None
            wanted.append(fields)
    return wanted + of_cost(lines[at:], told)


def pairs(words):
    """Returns the fields of alternating names and numbers."""
    return [(name, told(int(digits))) for name, digits in zip(words[::2], words[1::2])]


def drawing_fields(line):
    """Returns the expected object of a drawing of a ring."""
    first, consumer, *records, producer, free = line.split(" | ")
    boxes = [[("status", kind), ("bytes", int(size)), *pairs(rest)] for kind, size, *rest in map(str.split, records)]
    return [
        *pairs(first.split()),
        *pairs(consumer.split()),
        ("records", boxes),
        *pairs(producer.split()),
        *pairs(free.split()),
    ]


def of_sim(lines, _):
    """Returns the expected objects of `sim` if it prints these lines."""
    wanted = []
    for line in lines:
        words = line.split()
        if words[0] == "draw":
            wanted.append(drawing_fields(line))
        elif words[0] == "chapter":
            wanted.append([*pairs(words[:2]), ("number", int(words[2]))])
        elif words[0] == "take" and len(words) == 3:
            wanted.append([*pairs(words[:2]), ("found", words[2])])
        elif words[0] == "take" and words[-1] == "discarded":
            wanted.append([*pairs(words[:-1]), ("discarded", True)])
        elif words[0] == "take":
            payload = bytes.fromhex("" if words[-1] == "-" else words[-1])
            wanted.append([*pairs(words[:-1]), ("discarded", False), *payload_fields(payload)])
        else:
            wanted.append(pairs(words))
    return wanted


def drawn_script(draw, programs):
    """Returns a script of two rings and some workers, with turns."""
    workers = [draw.choice(programs).split() for _ in range(draw.randrange(1, 4))]
    lines = [f"ring 4096 {draw.choice([0, EXACT, EXACT + 8])} {draw.choice([8, 64])}" for _ in range(2)]
    lines += [f"worker {b''.join(worker).decode()} {'00' * 24}" for worker in workers]
    for _ in range(draw.randrange(12)):
        lines.append(
            draw.choice(
                [
                    f"w {draw.randrange(len(workers))} {draw.randrange(1, 12)}",
                    f"c {draw.randrange(2)} {draw.randrange(1, 4)}",
                    f"k {draw.randrange(2)}",
                ]
            )
        )
    return "".join(f"{line}\n" for line in lines).encode()


def drawn_program(draw, program):
    """Returns a program's text with a few changes, which is refused in most cases."""
    data = bytearray(bytes.fromhex("".join(program.decode().split())))
    for _ in range(draw.randrange(4)):
        data[draw.randrange(len(data))] = draw.choice([0, 1, draw.randrange(256), data[draw.randrange(len(data))]])
    if draw.random() < 0.1:
        del data[draw.randrange(len(data)) :]
    text = data.hex()
    return (text[:-1] if draw.random() < 0.05 else text).encode()


def objects_of(out):
    """Returns the fields of each line, in their order."""
    lines = out.decode().split("\n")
    if lines.pop():
        raise ValueError("the last line has no line feed")
    return [json.loads(line, object_pairs_hook=list) for line in lines]


def differs(program, words, given, wanted_of):
    """Returns how the JSON lines of a command differ from the expected ones, or None."""
    plain, objects = ran(program, words, given), ran(program, [*words, "--json"], given)
    if plain[1:] != objects[1:]:
        return f"{words}: standard error or status differ: {plain[1:]} {objects[1:]}"
    try:
        found = objects_of(objects[0])
    except ValueError as error:
        return f"{words}: {error}: {objects[0]}"
    if words[0] == "explain" and not plain[0].endswith(ran(program, ["cost", *words[1:]], given)[0]):
        return f"{words}: the explanation does not end with the cost: {plain[0]}"
    line = next((it for it in plain[1].decode().splitlines() if it.startswith("refused ")), "")
    wanted = wanted_of(plain[0].decode().splitlines(), line) + ([refusal_fields(line)] if line else [])
    # 1 and True are equal in Python, so they are compared as text.
    return None if repr(found) == repr(wanted) else f"{words}: found {found}, expected {wanted}"


def cases(count, draw):
    """Yields each command with its input, and the expected objects for its lines."""
    for _ in range(count):
        start, tape, wanted = drawn_tape(draw)
        cut = draw.random() < 0.2 and tape
        given = tape[: draw.randrange(len(tape))] if cut else tape
        yield ["tape", "--size", "4096", "--start", str(start)], given, lambda lines, _, wanted=wanted: wanted[
            : len(lines)
        ]
    for path in sorted((ROOT / "examples").glob("*.hex")):
        yield ["check"], path.read_bytes(), of_check
        yield ["check", "--rings", "3"], path.read_bytes(), of_check
        yield ["explain"], path.read_bytes(), of_explain
        for jobs in ([], ["--workers", "4", "--behind", "100"], ["--workers", "256", "--behind", "1000000"]):
            yield ["cost", "--rings", str(draw.randrange(3)), *jobs], path.read_bytes(), of_cost
        for _ in range(10):
            workers, jobs = draw.randrange(1, 4), draw.randrange(1, 6)
            yield ["run", "--workers", str(workers), "--jobs", str(jobs), "--size", "4096"], path.read_bytes(), of_run

    programs = [path.read_bytes() for path in sorted((ROOT / "examples").glob("*.hex"))]
    for _ in range(count):
        yield ["sim", *draw.choice([[], ["--draw"]])], drawn_script(draw, programs), of_sim
        yield ["explain", "--rings", str(draw.randrange(3)), "--ctx", str(draw.choice([0, 8, 16]))], drawn_program(
            draw, draw.choice(programs)
        ), of_explain


@functools.cache
def all_cases():
    """Returns all cases; they are the same in each run."""
    return list(cases(COUNT, random.Random(SEED)))


@pytest.mark.parametrize("command", ["tape", "check", "cost", "run", "sim", "explain"])
def test_objects_agree_with_words(rbhost: str, command: str) -> None:
    chosen = [case for case in all_cases() if case[0][0] == command]
    faults = [fault for case in chosen if (fault := differs(rbhost, *case))]
    assert not faults, "\n".join([f"{len(faults)} of {len(chosen)} differ", *faults[:SHOWN]])
