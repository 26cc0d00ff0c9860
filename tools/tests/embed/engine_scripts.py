"""Drawn scripts of an engine's calls, and what `rbhost sim` prints of the same rings, programs and takes.

A run is a worker of `sim` that takes all its turns at once, and so is a put: a program that outputs its context.
"""
import concurrent.futures
import dataclasses
import random
import re
import subprocess

from embed import programs

SIZES = (4096, 4096, 8192, 65536)
REFUSED_PROGRAM = bytes.fromhex("9500000000000000")
FULL, EAGAIN = 9, 2**64 - 11

# How many engines are open at a time.
TOGETHER = 4


@dataclasses.dataclass(frozen=True)
class Call:
    """One call of an engine: its line, and the worker of `sim` that does the same, if it is a run or a put."""

    line: str
    program: bytes = b""
    context: bytes = b""


@dataclasses.dataclass(frozen=True)
class Script:
    """The calls of one engine, between its opening and its closing."""

    sizes: list[int]
    ctx_len: int
    loaded: list[bytes]
    calls: list[Call]

    def lines(self) -> list[str]:
        """Returns the calls, one a line, with those that refuse and those that count."""
        loads = [f"load {program.hex()}" for program in self.loaded]
        rings, context, longer = len(self.sizes), in_hex(bytes(self.ctx_len)), in_hex(bytes(self.ctx_len + 1))
        opened = f"open {self.ctx_len}" + "".join(f" {size}" for size in self.sizes)
        begin = [opened, loads[0], f"load {REFUSED_PROGRAM.hex()}", *loads[1:], opened]
        wrong = [f"take {rings}", f"counts {rings}", f"run {len(self.loaded)} {context}", f"run 0 {longer}"]
        told = [line for ring in range(rings) for line in (f"query {ring} 3", f"query {ring} 2", f"counts {ring}")]
        return [*begin, *(call.line for call in self.calls), *wrong, *told, "close", "close", "take 0"]

    def simulated(self) -> str:
        """Returns the script for `rbhost sim`."""
        workers = [call for call in self.calls if call.program]
        text = [f"ring {size} 0" for size in self.sizes]
        text += [f"worker {it.program.hex()}{' ' if it.context else ''}{it.context.hex()}" for it in workers]
        # `sim` wants a worker.
        text += [] if workers else [f"worker {programs.move(0, 0).hex()}{programs.unit(0x95).hex()}"]
        number = 0
        for call in self.calls:
            if call.program:
                text.append(f"w {number} {len(call.program) // 8}")
                number += 1
            else:
                text.append(f"c {call.line.split()[1]}")
        return "\n".join(text) + "\n"

    def expected(self, rbhost: str) -> list[str]:
        """Returns what the calls have to print, by what `rbhost sim` prints."""
        given = self.simulated().encode()
        ran = subprocess.run([rbhost, "sim"], input=given, check=False, capture_output=True, timeout=120)
        if ran.returncode:
            return [f"rbhost sim: {ran.stderr.decode()}"]
        told = [line.split() for line in ran.stdout.decode().splitlines()]
        takes = iter([words for words in told if words[0] == "take"])
        values = iter([int(words[3]) for words in told if words[0] == "worker"])
        refused, lines = [0] * len(self.sizes), []
        for call in self.calls:
            words = call.line.split()
            if words[0] == "take":
                lines.append(take_line(next(takes)))
                continue
            value = next(values)
            if words[0] == "run":
                lines.append(f"run 0 {value}")
            else:
                refused[int(words[1])] += value == EAGAIN
                lines.append(f"put {FULL if value == EAGAIN else value}")
        no_counts = "counts 2 made 0 refused 0 consumed 0 discarded 0 waiting 0 busy 0"
        wrong = [f"take {len(self.sizes)} status 2", no_counts, "run 2 0", "run 2 0"]
        loads = [f"load 0 number {number} verdict 0 0 0" for number in range(len(self.loaded))]
        begin = ["open 0", loads[0], "load 1 number 0 verdict 3 1 0", *loads[1:], "open 2"]
        rings = [line for words in told if words[0] == "ring" for line in ring_lines(words)]
        return [*begin, *lines, *wrong, *rings, "close", "close", "take 0 status 2"]

    def refusals(self, printed: list[str]) -> int:
        """Returns how many requests were refused, by the results of the runs and puts."""
        runs = [int(line.split()[2]) % 2**16 for line in printed if line.startswith("run 0 ")]
        return sum(runs) + printed.count(f"put {FULL}")


def in_hex(content: bytes) -> str:
    """Returns bytes in hex, or `-` for none."""
    return content.hex() or "-"


def take_line(words: list[str]) -> str:
    """Returns what the calls print of a take of which `sim` printed these words: neither the worker nor the serial."""
    return " ".join(words[:4] + words[8:] if "worker" in words else words)


def ring_lines(words: list[str]) -> list[str]:
    """Returns what the calls print of a ring at the end, without refusals, of which `sim` printed these words."""
    counted = words[6:]
    made = sum(int(number) for number in counted[1::2])
    return [f"query 0 {words[3]}", f"query 0 {words[5]}", f"counts 0 made {made} {' '.join(counted)}"]


def draw_script(draw: random.Random) -> Script:
    """Draws the calls of an engine. Few scripts are long, so that a ring's chapter is full."""
    sizes = [draw.choice(SIZES) for _ in range(draw.choice([0, 1, 1, 1, 2, 2, 3]))]
    ctx_len = draw.choice([0, 8, 16, 40])
    drawn = programs.Drawn(draw, sizes, ctx_len)
    loaded = [drawn.program() for _ in range(draw.randrange(1, 5))]
    calls = []
    for _ in range(draw.choice([5, 20, 40, 250])):
        kind = draw.random()
        if kind < 0.4 or not sizes:
            number, context = draw.randrange(len(loaded)), draw.randbytes(ctx_len)
            calls.append(Call(f"run {number} {in_hex(context)}", loaded[number], context))
        elif kind < 0.6:
            ring, flags = draw.randrange(len(sizes)), draw.randrange(4)
            content = draw.randbytes(drawn.length(sizes[ring]))
            program = programs.putting(ring, len(content), flags)
            calls.append(Call(f"put {ring} {in_hex(content)} {flags}", program, content))
        else:
            ring = draw.randrange(len(sizes))
            calls += [Call(f"take {ring}")] * draw.choice([1, 1, 2, 10])
    return Script(sizes, ctx_len, loaded, calls)


def shuffled(draw: random.Random, scripts: list[Script]) -> list[tuple[int, str]]:
    """Returns the calls of some engines, each with its engine's number, in a drawn order that keeps each engine's."""
    left = [script.lines() for script in scripts]
    order = [number for number, lines in enumerate(left) for _ in lines]
    draw.shuffle(order)
    return [(number, left[number].pop(0)) for number in order]


def all_expected(rbhost: str, scripts: list[Script]) -> list[list[str]]:
    """Returns what the calls of each script have to print."""
    with concurrent.futures.ThreadPoolExecutor() as pool:
        return list(pool.map(lambda script: script.expected(rbhost), scripts))


def differences(agent: list[str], scripts: list[Script], expected: list[list[str]], draw: random.Random) -> list[str]:
    """Makes the calls of these scripts by an agent, and returns a line for each script that differs."""
    found = []
    for first in range(0, len(scripts), TOGETHER):
        together = scripts[first : first + TOGETHER]
        given = "".join(f"{number} {line}\n" for number, line in shuffled(draw, together))
        ran = subprocess.run(agent, input=given.encode(), check=False, capture_output=True, timeout=600)
        if ran.returncode:
            found.append(f"scripts from {first} on: status {ran.returncode}: {ran.stderr.decode()[-2000:]}")
            continue
        printed = [line.split(" ", 1) for line in ran.stdout.decode().splitlines()]
        for number, script in enumerate(together):
            lines = [line for engine, line in printed if engine == str(number)]
            found += [f"script {first + number}: {it}" for it in difference(script, lines, expected[first + number])]
    return found


def difference(script: Script, printed: list[str], expected: list[str]) -> list[str]:
    """Returns the first difference between what the calls of a script printed and what they have to print, if any."""
    refused = sum(int(line.split()[5]) for line in printed if line.startswith("counts 0 "))
    answered = script.refusals(printed)
    without = [re.sub(r"^(counts 0 made \d+) refused \d+", r"\1", line) for line in printed]
    differ = [f"{one} where {other} is expected" for one, other in zip(without, expected) if one != other]
    if not differ and len(without) != len(expected):
        differ = [f"{len(without)} lines where {len(expected)} are expected"]
    if not differ and refused != answered:
        differ = [f"{refused} refusals are counted where {answered} were answered"]
    return differ[:1]
