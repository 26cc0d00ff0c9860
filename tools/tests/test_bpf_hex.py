"""Tests tools/bpf-hex.

Without a compiler: random graphs of blocks are laid out with forward jumps only and behave as before, and random loops
are refused. With clang or bpf-gcc: each stored hex of examples/c is compiled again, files that are not programs are
refused in one line, and an object file gives the program of its source, also if the source is written for libbpf
(Debian's libbpf-dev). With clang: random programs in C that it lays out with backward jumps, CO-RE relocations, the
output of --args, and 2,000 object files that are truncated or have a changed byte.
"""
import os
import pathlib
import random
import shutil
import subprocess
import sys

import pytest

from heskavo.bpf import command, linking
from heskavo.bpf.forward_layout import Loop, forward
from heskavo.bpf.instructions import instructions, jump_of
from heskavo.bpf.linking import INLINED
from heskavo.bpf.object_files import ObjectFile
from heskavo.bpf.refusals import Refusal
from heskavo.linux.drawn_c_programs import c_source, graph, is_same
from heskavo.repository import ROOT, TOOLS

TOOL = TOOLS / "bpf-hex"
EXAMPLES = ROOT / "examples" / "c"
LIBBPF = pathlib.Path("/usr/include/bpf/bpf_helpers.h")
COMPILERS = ("clang", "bpf-gcc", "bpf-unknown-none-gcc")
with_compiler = pytest.mark.skipif(not any(map(shutil.which, COMPILERS)), reason="there is no compiler for eBPF")
with_clang = pytest.mark.skipif(shutil.which("clang") is None, reason="there is no clang")

GRAPHS, SOURCES, CHANGED = 2000, 8, 2000

BAD = (
    ("", "there is no section of code"),
    ("int f(", "it was not compiled"),
    (
        "u64 f(u64 *ctx) { return 1; } u64 g(u64 *ctx) { return 2; }",
        "there are several programs, of which --program NAME takes one: f, g",
    ),
    (
        'SEC("a") u64 f(u64 *ctx) { return 1; } SEC("b") u64 g(u64 *ctx) { return 2; }',
        "there are several programs, of which --program NAME takes one: f, g",
    ),
    (
        'static __attribute__((noinline)) u64 g(u64 x) { asm volatile(""); return x; } u64 f(u64 *ctx) { return g(ctx[0]); }',
        f"(bad.c:2): it calls a function of this file: {INLINED}",
    ),
    (
        "u64 g(u64 x); u64 f(u64 *ctx) { return g(ctx[0]); }",
        f"(bad.c:2): it calls the function g, which nothing links: {INLINED}",
    ),
    (
        "u64 counter = 7; u64 f(u64 *ctx) { return counter++; }",
        "(bad.c:2): it names counter, which is data of the section .data or a function that nothing links",
    ),
    (
        "extern u64 counter; u64 f(u64 *ctx) { return counter; }",
        "(bad.c:2): it names counter, which is data or a function that nothing links",
    ),
    (
        'struct { __uint(type, 1); __uint(max_entries, 4); } table SEC(".maps"); u64 f(u64 *ctx) { return bpf_ringbuf_query(&table, 0); }',
        "it names the map table of type 1: only ring buffers are taken",
    ),
    (
        'u64 f(u64 *ctx) { u64 sum = 0; while (ctx[0] != sum) { asm volatile("" : "+r"(sum)); sum++; } return sum; }',
        "closes a loop, and programs of this host have none: unroll it (`#pragma unroll`, with a constant number of rounds)",
    ),
)
# Programs that read fields through relocations which a loader resolves, with the name in the refusal of each.
CORE = """
struct inner { int a; int numbers[4]; } __attribute__((preserve_access_index));
struct task { int pid; struct inner in; } __attribute__((preserve_access_index));
enum color { RED, GREEN };
"""
CORE_ROWS = (
    (
        "return ((struct task *)ctx)->in.numbers[2];",
        "it has the CO-RE relocation BPF_CORE_FIELD_BYTE_OFFSET of struct task.in.numbers[2], ",
    ),
    (
        "return __builtin_preserve_field_info(((struct task *)ctx)->pid, 2);",
        "it has the CO-RE relocation BPF_CORE_FIELD_EXISTS of struct task.pid, ",
    ),
    (
        "return __builtin_preserve_type_info(*(struct task *)0, 1);",
        "it has the CO-RE relocation BPF_CORE_TYPE_SIZE of struct task, ",
    ),
    (
        "return __builtin_preserve_enum_value(*(enum color *)GREEN, 1);",
        "it has the CO-RE relocation BPF_CORE_ENUMVAL_VALUE of enum color, ",
    ),
)
# Two programs over two rings, of which the second is named first, and a map that is not a ring.
SEVERAL = """
struct { __uint(type, 1); } table SEC(".maps") = {};
RING(first, 4096);
RING(second, 9000);
SEC("a") u64 f(u64 *ctx) { return bpf_ringbuf_query(&second, 1) + bpf_ringbuf_query(&first, 3); }
SEC("b") u64 g(u64 *ctx) { return bpf_ringbuf_query(&first, 1); }
char _license[] SEC("license") = "GPL";
"""
# Its two programs: r1 = ring, r2 = the query, call 134, and for f the sum of both.
QUERY = "1851000001000000 0000000000000000\nb702000001000000\n8500000086000000\n"
WANTED = {
    "f": QUERY
    + "bf06000000000000\n1851000000000000 0000000000000000\nb702000003000000\n8500000086000000\n0f60000000000000\n9500000000000000\n",
    "g": "1851000000000000 0000000000000000\nb702000001000000\n8500000086000000\n9500000000000000\n",
}
# The context length of each program, at -O2 and at -O0.
ARGUMENTS = {
    "event": (16, 1),
    "refused": (8, 1),
    "sampling": (24, 1),
    "size_class": (16, 1),
    "stack_output": (16, 1),
    "two_rings": (16, 2),
}


def run(*words: object, **settings: str) -> subprocess.CompletedProcess[str]:
    """Runs the tool."""
    return subprocess.run(
        [sys.executable, str(TOOL), *map(str, words)],
        env={**os.environ, **settings},
        check=False,
        capture_output=True,
        text=True,
    )


def told(*words: object, **settings: str) -> str:
    """Returns the last line that the tool writes to standard error, or `accepted`."""
    ended = run(*words, **settings)
    return ended.stderr.splitlines()[-1] if ended.returncode else "accepted"


def is_forward(code: bytes) -> bool:
    """Returns whether all jumps of a program lead forward."""
    return all(jump.target > unit for unit, insn in instructions(code) if (jump := jump_of(unit, insn)))


def wrong_layouts() -> list[str]:
    """Returns the random graphs that are laid out wrongly, and the loops that are not refused."""
    wrong, backward = [], 0
    for seed in range(GRAPHS):
        draw = random.Random(seed)
        code = graph(draw)
        backward += not is_forward(code)
        found = forward(code)
        if not is_forward(found) or not is_same(code, found):
            wrong.append(f"the layout of graph {seed}")
        if is_forward(code) and found != code:
            wrong.append(f"graph {seed} has only forward jumps and is changed")
        try:
            forward(graph(draw, has_loop=True))
            wrong.append(f"a loop generated after graph {seed} is not refused")
        except Loop:
            pass
    if backward < GRAPHS // 2:
        wrong.append(f"only {backward} of {GRAPHS} graphs have a backward jump")
    return wrong


def wrong_refusals(folder: pathlib.Path) -> list[str]:
    """Returns the files whose refusal differs from the expected one."""
    source, wrong = folder / "bad.c", []
    rows: list[tuple[str, str, dict[str, str]]] = [(text, said, {}) for text, said in BAD]
    rows += [
        (
            BAD[2][0],
            "there is no compiler for eBPF: Debian has clang in the package clang, and bpf-gcc in gcc-bpf",
            {"PATH": "", "CC": ""},
        ),
        (BAD[2][0], "there is no compiler nowhere, which CC names", {"CC": "nowhere"}),
    ]
    for text, said, settings in rows:
        source.write_text(f'#include "heskavo.h"\n{text}\n')
        line = told(source, **settings)
        if not line.endswith(said):
            wrong.append(f"{text}: {line}")
    (folder / "text.md").write_text("no program\n")
    (folder / "text.o").write_text("no object\n")
    files = (
        (folder / "none.c", "there is no such file"),
        (folder, "it cannot be read: Is a directory"),
        *(
            (folder / name, "it is neither an object file nor a source in C, whose name ends with .c")
            for name in ("text.md", "text.o")
        ),
        (pathlib.Path(sys.executable), "it is an object file, but not a little-endian one for eBPF"),
    )
    for file, said in files:
        ended = run(file)
        if ended.stderr != f"bpf-hex: {file}: {said}\n" or ended.returncode != 1:
            wrong.append(f"{file}: {ended.stderr}")
    return wrong


def built(folder: pathlib.Path, name: str, text: str) -> tuple[pathlib.Path, pathlib.Path]:
    """Writes a source, compiles it by clang, and returns the source and the object file."""
    source, made = folder / f"{name}.c", folder / f"{name}.o"
    source.write_text(f'#include "heskavo.h"\n{text}')
    subprocess.run(
        ["clang", "-target", "bpf", "-O2", "-g", "-I", str(EXAMPLES), "-c", str(source), "-o", str(made)],
        check=True,
        stderr=subprocess.DEVNULL,
    )
    return source, made


def wrong_objects(folder: pathlib.Path) -> list[str]:
    """Returns the programs of object files that differ from the expected ones."""
    source, made = built(folder, "several", SEVERAL)
    wrong = [
        f"the program {name} of {file.name}"
        for name, wanted in WANTED.items()
        for file in (source, made)
        if run("--program", name, file).stdout != wanted
    ]
    if not told("--program", "h", made).endswith("there is no program h, but f, g"):
        wrong.append("a program that does not exist")
    for row, (text, said) in enumerate(CORE_ROWS):
        line = told(built(folder, f"core{row}", f"{CORE} u64 f(u64 *ctx) {{ {text} }}\n")[1])
        if said not in line:
            wrong.append(f"{text}: {line}")
    if LIBBPF.exists():
        for example in sorted(EXAMPLES.glob("*.c")):
            libbpf = folder / example.name
            libbpf.write_text(f"#define WITH_LIBBPF\n{example.read_text()}")
            if run(libbpf).stdout != example.with_suffix(".hex").read_text():
                wrong.append(f"{example.name} by libbpf's headers")
    return wrong


def wrong_arguments(folder: pathlib.Path) -> list[str]:
    """Returns the programs for which --args prints unexpected options."""
    rows: list[tuple[tuple[object, ...], str]]
    rows = [
        ((level, EXAMPLES / f"{name}.c"), f"--ctx {context} --rings {rings} --size 4096\n")
        for name, (context, rings) in ARGUMENTS.items()
        for level in ("-O2", "-O0")
    ]
    rows += [
        (("--program", "g", built(folder, "several", SEVERAL)[1]), "--ctx 0 --rings 2 --size 16384\n"),
        (
            (
                built(
                    folder,
                    "output",
                    "RING(r, 4096); u64 f(u8 *ctx) { return ctx[3] ? bpf_ringbuf_output(&r, ctx + 8, 20, 0) : ctx[9]; }\n",
                )[1],
            ),
            "--ctx 28 --rings 1 --size 4096\n",
        ),
        ((built(folder, "nothing", "u64 f(u64 *ctx) { return 7; }\n")[1],), "--ctx 0 --rings 0 --size 4096\n"),
    ]
    return [f"{words}: {found}" for words, wanted in rows if (found := run("--args", *words).stdout) != wanted]


def wrong_sources(folder: pathlib.Path) -> list[str]:
    """Returns the random programs in C that are laid out wrongly."""
    wrong = []
    for seed in range(SOURCES):
        _, made = built(folder, "drawn", c_source(random.Random(seed)))
        function = ObjectFile(made.read_bytes())
        symbol = function.functions()[0]
        found = bytes.fromhex("".join(run(made).stdout.split()))
        if not found or not is_forward(found) or not is_same(linking.linked(function, symbol), found):
            wrong.append(f"the random program {seed}")
    return wrong


def wrong_damage(folder: pathlib.Path) -> list[str]:
    """Returns the object files, truncated or with a changed byte, that end with anything but a program or a refusal."""
    whole, damaged, wrong = built(folder, "several", SEVERAL)[1].read_bytes(), folder / "damaged.o", []
    for seed in range(CHANGED):
        draw = random.Random(seed)
        elf = bytearray(whole)
        if seed % 4:
            elf[draw.randrange(4, len(elf))] = draw.randrange(256)
        else:
            del elf[draw.randrange(4, len(elf)) :]
        damaged.write_bytes(elf)
        try:
            command.printed(damaged, "-O2", "f", bool(seed % 2))
        except Refusal:
            pass
        except Exception as error:
            wrong.append(f"the damaged object file {seed}: {error!r}")
    return wrong


def test_layouts() -> None:
    assert not wrong_layouts()


@with_compiler
def test_stored_programs() -> None:
    assert told("--check") == "accepted"


@with_compiler
def test_refusals(tmp_path: pathlib.Path) -> None:
    assert not wrong_refusals(tmp_path)


@with_clang
def test_objects(tmp_path: pathlib.Path) -> None:
    assert not wrong_objects(tmp_path)


@with_clang
def test_arguments(tmp_path: pathlib.Path) -> None:
    assert not wrong_arguments(tmp_path)


@with_clang
def test_random_sources(tmp_path: pathlib.Path) -> None:
    assert not wrong_sources(tmp_path)


@with_clang
def test_damaged_objects(tmp_path: pathlib.Path) -> None:
    assert not wrong_damage(tmp_path)
