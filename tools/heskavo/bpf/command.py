"""Prints an eBPF program, from a C source or an object file, as hex, one instruction a line, as `rbhost check` reads it.

A source FILE.c is compiled with optimization (-O2) or without (-O0); an object file FILE.o is read as it is. With
--args it prints `--ctx N --rings N --size N` instead: the number of context bytes that the program reads, the number of
ring buffer maps in the file, and the largest size that they request. With --check it compiles each program of
examples/c again, both ways, and compares it with the stored hex: NAME.hex for -O2, and NAME_O0.hex, if it exists, for
-O0.

It uses clang, or bpf-gcc if there is no clang (CC names another compiler, with its options). A program is a function in
a section of its own (`SEC`); --program chooses one of several in a file. Its rings are the ring buffer maps in
SEC(".maps"), numbered in the order of that section, which is the order of their definitions. Sections such as `license`
are ignored. Compilers lay out some programs without loops so that jumps lead backward; such a program is laid out again
with forward jumps only. Loops, data, other maps, functions that were not inlined, and CO-RE relocations are refused,
with the unit and the source line, since nothing links a program or adapts it to a kernel. The status is 1 after a
refusal.
"""
import argparse
import glob
import os
import pathlib
import shlex
import shutil
import struct
import subprocess
import sys
import tempfile

from heskavo.bpf.arguments import arguments
from heskavo.bpf.instructions import UNIT, instructions
from heskavo.bpf.linking import program_of
from heskavo.bpf.object_files import ObjectFile
from heskavo.bpf.refusals import Refusal
from heskavo.command_line import UsageError

# The folder tools/ of the repository, or PREFIX/share/heskavo/python of an installation.
PLACE = pathlib.Path(__file__).resolve().parents[2]
EXAMPLES = PLACE.parent / "examples" / "c"
HEADERS = EXAMPLES if EXAMPLES.is_dir() else PLACE.parents[2] / "include"


def compiler() -> list[str]:
    """Returns the words that begin a compiler's command."""
    if os.environ.get("CC"):
        words = shlex.split(os.environ["CC"])
        if not shutil.which(words[0]):
            raise Refusal(f"there is no compiler {words[0]}, which CC names")
        return words
    if shutil.which("clang"):
        return ["clang", "-target", "bpf"]
    for name in ("bpf-gcc", "bpf-unknown-none-gcc"):
        if shutil.which(name):
            return [name]
    raise Refusal("there is no compiler for eBPF: Debian has clang in the package clang, and bpf-gcc in gcc-bpf")


def compiled(source: pathlib.Path, level: str) -> bytes:
    """Compiles a source file and returns the object file. Linux's headers need those of this machine's processor after their own."""
    machine = [word for folder in glob.glob("/usr/include/*-linux-gnu") for word in ("-idirafter", folder)]
    with tempfile.TemporaryDirectory() as folder:
        made = pathlib.Path(folder) / "program.o"
        words = [*compiler(), level, "-g", "-Wall", "-I", str(HEADERS), *machine, "-c", str(source), "-o", str(made)]
        if subprocess.run(words, check=False).returncode != 0 or not made.exists():
            raise Refusal("it was not compiled")
        return made.read_bytes()


def object_of(source: pathlib.Path, level: str) -> ObjectFile:
    """Returns the file itself if it is an object file, otherwise the object file that it compiles to."""
    try:
        begin = source.open("rb").read(4)
        elf = source.read_bytes() if begin == b"\x7fELF" else None
    except FileNotFoundError:
        raise Refusal("there is no such file") from None
    except OSError as error:
        raise Refusal(f"it cannot be read: {error.strerror}") from None
    if elf is None and source.suffix != ".c":
        raise Refusal("it is neither an object file nor a source in C, whose name ends with .c")
    return ObjectFile(compiled(source, level) if elf is None else elf)


def printed(source: pathlib.Path, level: str, name: str | None, asks_arguments: bool = False) -> str:
    """Returns the hex of a file's program, or the options that it needs on the command line of `rbhost`."""
    try:
        file = object_of(source, level)
        code = program_of(file, name)
        if asks_arguments:
            return arguments(file, code) + "\n"
    except (struct.error, IndexError, KeyError, ValueError, MemoryError):
        raise Refusal("its bytes are no whole object file") from None
    lines = (" ".join(insn[at : at + UNIT].hex() for at in range(0, len(insn), UNIT)) for _, insn in instructions(code))
    return "".join(line + "\n" for line in lines)


def check() -> int:
    """Compares each example with its stored hex. Another version of the compiler may emit different code: then inspect both."""
    sources = sorted(EXAMPLES.glob("*.c"))
    if not sources:
        raise Refusal("it does not exist: --check is for the repository")
    differ = []
    for source in sources:
        for level, stored in (("-O2", source.with_suffix(".hex")), ("-O0", source.with_name(f"{source.stem}_O0.hex"))):
            if (level == "-O2" or stored.exists()) and printed(source, level, None) != stored.read_text():
                differ.append(stored.name)
    for name in differ:
        print(f"{name}: the compiler emits different code")
    print(f"{len(sources)} programs, {len(differ)} differ")
    return 1 if differ else 0


def add_arguments(parser: argparse.ArgumentParser) -> None:
    """Adds the file and the options."""
    parser.add_argument("-O", dest="level", choices=["0", "1", "2"], default="2", help="the level of optimization")
    parser.add_argument("--program", metavar="NAME", help="choose one of several programs")
    parser.add_argument("--args", action="store_true", help="print the options of `rbhost` that the program needs")
    parser.add_argument("--check", action="store_true", help="compare each program of examples/c with its stored hex")
    parser.add_argument("file", nargs="?", type=pathlib.Path, metavar="FILE", help="a source in C, or an object file")


def run(asked: argparse.Namespace) -> int:
    """Prints the program of a file, or compares the examples."""
    if asked.check == (asked.file is not None):
        raise UsageError("give a FILE, or --check")
    try:
        if asked.check:
            return check()
        sys.stdout.write(printed(asked.file, f"-O{asked.level}", asked.program, asked.args))
    except Refusal as refusal:
        sys.exit(f"bpf-hex: {asked.file or 'examples/c'}: {refusal}")
    return 0
