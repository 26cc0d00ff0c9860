"""The host of this repository: runs the program rbhost, several at a time."""
import concurrent.futures
import os
import subprocess
from typing import Any

from heskavo.program.builds import running_rbhost

# The words of a command, and its input.
Command = tuple[list[object], bytes]


# A chapter of a ring's history has room for the entries of a script.
ROOM = 16_384


class HeskavoHost:
    """A program rbhost: the given one, or the one that tools/rbhost finds."""

    def __init__(self, program: str | None = None) -> None:
        self.program = str(program or running_rbhost())
        self.pool = concurrent.futures.ThreadPoolExecutor(os.cpu_count())

    def answer(self, command: Command) -> list[str]:
        """Returns the lines that a command prints for an input, those on standard error last."""
        words, text = command
        run = subprocess.run([self.program, *map(str, words)], input=text, check=False, capture_output=True)
        if run.returncode > 1 or run.returncode < 0:
            raise RuntimeError(f"rbhost {words[0]} ended with {run.returncode}: {run.stderr.decode().strip()}")
        return (run.stdout + run.stderr).decode().splitlines()

    def answers(self, commands: list[Command]) -> list[list[str]]:
        return list(self.pool.map(self.answer, commands))

    def verdicts(self, programs: Any):
        """Returns what `check --portable` prints for each program, given with the length of its context and the number of rings."""
        return self.answers(
            [
                (["check", "--ctx", context, "--rings", rings, "--portable"], code.hex().encode())
                for code, context, rings in programs
            ]
        )


def sim_command(script: Any, counts: Any):
    """Returns the input by which `sim` runs a script, with these numbers of takes of each ring after each step."""
    lines = [f"ring {size} 0 {ROOM}" for size in script.sizes]
    lines += [f"worker {script.programs[step.program].hex()} {step.context.hex()}".rstrip() for step in script.steps]
    for worker, (step, takes) in enumerate(zip(script.steps, counts)):
        lines.append(f"w {worker} {len(script.programs[step.program]) // 8}")
        lines += [f"c {ring} {count}" for ring, count in enumerate(takes) if count]
    return ["sim"], "".join(line + "\n" for line in lines).encode()


def classes_told(lines: list[str]):
    """Returns the classes that `check --portable` printed, each with its unit."""
    return [(words[1], int(words[3])) for words in map(str.split, lines) if words[0] == "linux"]


def tape_command(size: int, start: int, tape: bytes):
    return ["tape", "--size", size, "--start", start], tape


def record_of(words: list[str]):
    """Returns a record as `sim` and `tape` print it after its position: its length, and its bytes, or None if it was discarded."""
    length = int(words[words.index("len") + 1])
    return length, None if words[-1] == "discarded" else bytes.fromhex(words[-1].strip("-"))


def sim_told(answer: list[str], script: Any, counts: Any):
    """Returns the takes of each step and ring, the results, and the positions at the end, as `sim` prints them, or None if it was refused."""
    lines = [line.split() for line in answer]
    takes = iter([words for words in lines if words[0] == "take"])
    results = [int(words[3]) for words in lines if words[0] == "worker" and words[2] == "done"]
    ends = [(int(words[5]), int(words[3])) for words in lines if words[0] == "ring"]
    if len(results) != len(script.steps) or len(ends) != len(script.sizes):
        return None
    return [[taken_of(takes, count) for count in each] for each in counts], results, ends


def taken_of(takes: Any, count: int):
    """Returns the records of this many takes; a take of an empty ring has none."""
    found = [next(takes) for _ in range(count)]
    return [(int(words[3]), *record_of(words)) for words in found if words[2:] != ["empty"]]
