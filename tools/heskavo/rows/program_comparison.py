"""Compares the answers of rb_program_rows to rows over random programs, and its stored answers, with the model."""
import collections
import re

from heskavo.rows.program_draws import drawn_rows
from heskavo.rows.program_rows import (
    answers_compute,
    answers_cost,
    answers_run,
    answers_shape,
    answers_units,
    answers_verify,
)

# The number of random programs in one run, and of the differing rows that are printed.
BATCH = 2000
SHOWN = 10


def differences(first, drawn, lines: list[str]):
    """Yields each row with a differing answer: the number of its program, the row, what the model allows, and the answer."""
    at = 0
    for number, rows in enumerate(drawn, first):
        for row, allowed in rows:
            if allowed is None:
                name = row
                continue
            found = lines[at] if at < len(lines) else ""
            at += 1
            if found not in allowed:
                yield number, name, row, allowed, found


def outcome(rows):
    """Returns the kind of answer that a program's verification has."""
    answer = next(allowed[0] for row, allowed in rows if row.startswith("verify"))
    return " ".join(answer.split()[: 3 if "verify" in answer else 2]) if answer.startswith("refused") else "accepted"


def compare(count: int, seed: int, answered):
    """Generates this many random programs, compares, and prints how many rows differ, and how the programs ended; returns 1 if one differs."""
    different = rows = 0
    outcomes = collections.Counter()
    for begin in range(0, count, BATCH):
        drawn = [drawn_rows(seed, number) for number in range(begin, min(begin + BATCH, count))]
        rows += sum(len(each) - 1 for each in drawn)
        outcomes.update(map(outcome, drawn))
        lines = answered("".join(row + "\n" for each in drawn for row, _ in each))
        for number, name, row, allowed, found in differences(begin, drawn, lines):
            different += 1
            if different <= SHOWN:
                print(f"program {number}\n  {name}\n  {row}\n  model   {' or '.join(allowed)}\n  program {found}")
    print(f"programs {count} rows {rows} different {different}")
    print(", ".join(f"{kind} {times}" for kind, times in sorted(outcomes.items())))
    return 1 if different else 0


def in_place(line: str, names):
    """Returns the line with each name in braces replaced by its text."""
    return re.sub(r"\{(\w+)\}", lambda name: names.get(name[1], name[0]), line)


def allowed_by_model(line: str):
    """Returns the answers that the model allows for a row, or None if it does not cover the row."""
    word, _, rest = line.partition(" ")
    try:
        match word:
            case "units":
                return answers_units(bytes.fromhex(rest))
            case "shape":
                return answers_shape(bytes.fromhex(rest))
            case "verify":
                context, rings, program = rest.split(" ", 2)
                return answers_verify(bytes.fromhex(program), int(context), int(rings))
            case "cost":
                context, rings, program = rest.split(" ", 2)
                return answers_cost(bytes.fromhex(program), int(context), int(rings))
            case "run":
                context, rings, memory, given, program = rest.split(" ", 4)
                return answers_run(
                    bytes.fromhex(program), (int(context), int(rings)), bytes.fromhex(memory.strip("-")), given
                )
            case "compute":
                dst, src, insn = rest.split(" ")
                return answers_compute(int(dst, 0) % 2**64, int(src, 0) % 2**64, bytes.fromhex(insn))
    except ValueError:
        pass
    return None


def stored(rows, answers):
    """Compares stored answers with the model, if it covers their rows; returns 1 if one differs."""
    names, spoken, different, lines = {}, 0, 0, iter(answers.split("\n"))
    found = next(lines)
    for number, row in enumerate(rows.split("\n"), 1):
        if row.startswith(("name ", "repeat ")):
            word, name, text = row.split(" ", 2)
            count, text = (1, text) if word == "name" else text.split(" ", 1)
            names[name] = in_place(text, names) * int(count)
            continue
        allowed = None if row.startswith("#") else allowed_by_model(in_place(row, names))
        if allowed:
            spoken += 1
            if found not in allowed:
                different += 1
                print(f"row {number}: {row[:100]}\n  model   {' or '.join(allowed)}\n  stored  {found}")
        found = next(lines, "")
        while row.startswith(("rbhost ", "listing ")) and found.startswith(("out ", "err ", " ")):
            found = next(lines, "")
    print(f"rows {spoken} different {different}")
    return 1 if different else 0
