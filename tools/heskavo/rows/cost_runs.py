"""Runs random programs by `rbhost check` and `rbhost run`, and compares their requests with the bounds that `rbhost cost` reports."""
import collections
import concurrent.futures
import itertools
import os
import pathlib
import subprocess
import tempfile

from heskavo.rows.program_draws import CONTEXT, RINGS, Draw
from heskavo.rows.ring_model import span

# The number of programs that are run in parallel, and of the runs that are printed if they exceed their cost.
BATCH, SHOWN = 256, 10
# The options of `run`: in a ring of this size no record is refused for lack of room.
WORKERS, JOBS, SIZE = 2, 3, 1 << 16
# The calls that request a record.
ASKING = [bytes.fromhex(call) for call in ("8500000082000000", "8500000083000000")]


def asking_programs(seed: int):
    """Yields random programs that have a call which requests a record, as hex."""
    for number in itertools.count():
        code = Draw(seed, number).program()
        if any(code[at : at + 8] in ASKING for at in range(0, len(code), 8)):
            yield code.hex()


class Host:
    """A built rbhost."""

    def __init__(self, program) -> None:
        self.program = program

    def lines(self, words, text: str):
        """Returns the words of each line that a command prints for a program, or None if it is refused."""
        run = subprocess.run([self.program, *words], input=text, capture_output=True, text=True)
        return None if run.returncode else [line.split() for line in run.stdout.splitlines()]

    def cost(self, text: str, context, rings: int):
        """Returns the maximal records and bytes that the program requests of each ring, or None if it is refused."""
        lines = self.lines(["cost", "--ctx", str(context), "--rings", str(rings)], text)
        return lines and [(int(words[3]), int(words[5])) for words in lines if words[0] == "ring"]

    def checked(self, text: str):
        """Returns what `check` leaves in each ring, and the program's cost: the records and their bytes."""
        costs = self.cost(text, CONTEXT, RINGS)
        if costs is None:
            return None
        made, sizes = [0] * RINGS, [0] * RINGS
        for words in self.lines(["check", "--ctx", str(CONTEXT), "--rings", str(RINGS)], text):
            if words[0] == "ring":
                ring = int(words[1])
                made[ring] += 1
                sizes[ring] += span(int(words[words.index("len") + 1]))
        return list(zip(made, sizes)), costs

    def ran(self, text: str):
        """Returns what `run` made in its ring and wrote to its tape, and the cost of all its jobs."""
        costs = self.cost(text, 16, 1)
        if costs is None:
            return None
        with tempfile.NamedTemporaryFile() as tape:
            lines = self.lines(
                ["run", "--workers", str(WORKERS), "--jobs", str(JOBS), "--size", str(SIZE), "--tape", tape.name], text
            )
            made = sum(int(words[words.index("made") + 1]) for words in lines if "worker" in words)
            return [(made, os.path.getsize(tape.name))], [
                (WORKERS * JOBS * most, WORKERS * JOBS * size) for most, size in costs
            ]


def tried(count: int, programs, call):
    """Yields this many accepted programs that may request a record, each with its measured requests and its cost."""
    with concurrent.futures.ThreadPoolExecutor(os.cpu_count()) as pool:
        while count:
            batch = list(itertools.islice(programs, BATCH))
            for text, found in zip(batch, pool.map(call, batch)):
                if count and found and any(most for most, _ in found[1]):
                    count -= 1
                    yield text, *found


def tell(what, runs):
    """Prints how many runs stay within the cost of their program, and how many reach it; returns how many exceed it."""
    counts = collections.Counter()
    for text, found, costs in runs:
        within = all(made <= most and size <= bound for (made, size), (most, bound) in zip(found, costs))
        counts["within" if within else "past"] += 1
        counts["reached"] += found == costs
        if not within and counts["past"] <= SHOWN:
            print(f"{what} {text}\n  found {found}\n  cost  {costs}")
    print(
        f"{what} runs {counts['within'] + counts['past']} past their cost {counts['past']}, which {counts['reached']} reach"
    )
    return counts["past"]


def compare(checks, runs, seed: int, program):
    """Runs this many programs by `check`, and this many others by `run`; returns 1 if one exceeds its cost."""
    host, programs = Host(str(pathlib.Path(program).resolve())), asking_programs(seed)
    past = tell("check", tried(checks, programs, host.checked)) + tell("run", tried(runs, programs, host.ran))
    return 1 if past else 0
