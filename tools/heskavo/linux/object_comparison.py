"""Compares object files, of examples/c and of random sources: loaded by libbpf and run by Linux, and the same files as hex, run here."""
import contextlib
import pathlib
import random
import shutil
import subprocess
import sys
import tempfile

from heskavo.linux.drawn_c_programs import c_source
from heskavo.linux.heskavo_host import record_of, tape_command
from heskavo.linux.linux_host import Skipped, built
from heskavo.repository import ROOT

EXAMPLES = ROOT / "examples" / "c"

CONTEXT, RUNS, SIZE = 24, 3, 4096
LOW_32 = (1 << 32) - 1
# The number of random contexts, in addition to the one of zeros, and of random sources, most of which clang lays out with backward jumps.
DRAWN, DRAWN_SOURCES = 7, 20


def output_of(*command):
    run = subprocess.run([*map(str, command)], check=False, capture_output=True)
    if run.returncode:
        raise RuntimeError(
            f"{command[0]} ended with {run.returncode}: {run.stderr.decode().strip() or run.stdout.decode().strip()}"
        )
    return run.stdout


@contextlib.contextmanager
def pins(folder):
    """A file system for pinned maps, which are removed with it."""
    place = pathlib.Path(folder) / "pins"
    place.mkdir()
    output_of("mount", "-t", "bpf", "bpf", place)
    try:
        yield place
    finally:
        output_of("umount", place)


def contexts(seed: int):
    """Returns contexts that take the programs' branches: zeros, and random numbers, some of them small or negative."""
    draw = random.Random(seed)
    yield bytes(CONTEXT)
    for _ in range(DRAWN):
        words = [
            draw.choice((draw.randrange(100), draw.getrandbits(64), -draw.randrange(1, 100), 7)) % (1 << 64)
            for _ in range(CONTEXT // 8)
        ]
        yield b"".join(word.to_bytes(8, "little") for word in words)


class Objects:
    """The comparison: the numbers of runs and records, and of files that differ."""

    def __init__(self, heskavo, folder) -> None:
        self.heskavo, self.folder = heskavo, folder
        self.objects, self.tape = built("objects", folder, ["-lbpf"]), built("tape", folder)
        self.runs = self.records = self.tapes = self.refused = self.different = 0

    def differ(self, text: str) -> None:
        self.different += 1
        print(text)

    def compiled(self, source, level):
        file = pathlib.Path(self.folder) / f"{source.stem}{level}.o"
        output_of("clang", "-target", "bpf", level, "-g", "-I", EXAMPLES, "-c", source, "-o", file)
        return file

    def here(self, code, context):
        """Runs a program on this host. Returns the results, and the records of each ring except those that were discarded."""
        lines = [f"ring {SIZE} 0", f"ring {SIZE} 0", *[f"worker {code.hex()} {context.hex()}"] * RUNS]
        lines += [f"w {worker} {len(code) // 8}" for worker in range(RUNS)] + ["c 0 100", "c 1 100"]
        told = [line.split() for line in self.heskavo.answer((["sim"], "\n".join([*lines, ""]).encode()))]
        results = [int(words[3]) & LOW_32 for words in told if words[0] == "worker"]
        return results, [
            (int(words[1]), record_of(words)[1])
            for words in told
            if words[0] == "take" and "len" in words and words[-1] != "discarded"
        ]

    def there(self, lines: list[str]):
        words = [line.split() for line in lines.decode().splitlines()]
        return [int(each[1]) for each in words if each[0] == "result"], [
            (int(each[1]), bytes.fromhex(each[4].strip("-"))) for each in words if each[0] == "ring"
        ]

    def code(self, file, name: str):
        """Returns the bytes of a program of an object file, as this host accepts it."""
        return bytes.fromhex(
            "".join(output_of(sys.executable, ROOT / "tools" / "bpf-hex", "--program", name, file).decode().split())
        )

    def compare_drawn(self, number: int, seed: int) -> None:
        """Compares a random source over all contexts, unless this host refuses it: clang merges two calls that commit different records (V11)."""
        source = pathlib.Path(self.folder) / f"drawn{number}.c"
        source.write_text(
            f'#include "heskavo.h"\n{c_source(random.Random(f"{seed} {number}"))}char _license[] SEC("license") = "GPL";\n'
        )
        file = self.compiled(source, "-O2")
        if self.heskavo.answer((["check", "--ctx", CONTEXT], self.code(file, "f").hex().encode()))[0] != "accepted":
            self.refused += 1
            return
        for context in contexts(seed):
            self.compare(file, "f", context)

    def compare(self, file, name: str, context) -> None:
        """Compares the runs of one object file over a context, on both sides."""
        code = self.code(file, name)
        here, there = self.here(code, context), self.there(
            output_of(self.objects, "run", file, name, context.hex(), RUNS)
        )
        self.runs, self.records = self.runs + RUNS, self.records + len(there[1])
        if here != there:
            self.differ(f"{file.name} over {context.hex()}: {here} here, and {there} by libbpf")

    def compare_tape(self, file, name: str, context, place) -> None:
        """Compares the records of a pinned map's tape with those that libbpf returns."""
        pin = place / f"{file.stem}{context.hex()}"
        output_of(self.objects, "run", file, name, context.hex(), RUNS, pin)
        tape = output_of(self.tape, "--pinned", pin)
        told = [record_of(line.split())[1] for line in self.heskavo.answer(tape_command(SIZE, 0, tape))]
        self.tapes += 1
        if [data for data in told if data is not None] != [
            data for _, data in self.there(output_of(self.objects, "poll", pin))[1]
        ]:
            self.differ(f"the tape of {file.name} over {context.hex()}: {told}")


def compare(heskavo, seed: int):
    """Compares each program of examples/c, with and without optimization, and random ones, with optimization."""
    if shutil.which("clang") is None:
        raise Skipped("clang is not installed")
    sources = sorted(EXAMPLES.glob("*.c"))
    with tempfile.TemporaryDirectory() as folder, pins(folder) as place:
        objects = Objects(heskavo, folder)
        for file, name in [
            (objects.compiled(source, level), source.stem) for source in sources for level in ("-O2", "-O0")
        ]:
            for context in contexts(seed):
                objects.compare(file, name, context)
                objects.compare_tape(file, name, context, place)
        for number in range(DRAWN_SOURCES):
            objects.compare_drawn(number, seed)
    print(
        f"programs {len(sources)} objects {2 * len(sources)} drawn {DRAWN_SOURCES} refused {objects.refused} runs {objects.runs} records {objects.records} "
        f"tapes {objects.tapes} different {objects.different}"
    )
    return 1 if objects.different else 0
