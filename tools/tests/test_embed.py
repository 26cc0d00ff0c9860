"""Tests the library for C from C, Rust and Go, as far as gcc, cargo and go are installed. The draws are the same each time.

- The agents of examples/embed are given 1,000 drawn programs, accepted and refused, and 1,000 drawn tapes, whole, cut or
  with a byte changed. What they print is compared with `rbhost cost`, `check` and `tape`. The agent in C also runs with
  AddressSanitizer and UndefinedBehaviorSanitizer, and under valgrind.
- embed/calls.c runs and explains each drawn program, and asks for its cost with 0 to 16 rings, with null pointers for
  buffers of no bytes, and with buffers that are a byte too short. What it prints is compared with `rbhost check`,
  `explain` and `cost`. It also runs each program twice in an engine.
- embed/engines.c makes the calls of 1,000 drawn scripts of engines, four engines at a time: open, load, run, put, take,
  query, counts and close. Each buffer ends at a page that no access survives, and then begins at one. Results, records
  and counts are compared with those of `rbhost sim`.
- embed/endure.c runs a program 2,000,000 times in one engine, and fails if the memory in use grows.
- examples/embed/c/threads.c runs with four producers, also with each sanitizer.
- The tests of bindings/rust and bindings/go run, and the package for Go is checked by `go vet` and gofmt.

test_readers.py compares the reader of rings of Linux with libbpf's.
"""
import collections
import concurrent.futures
import os
import random
import shutil
import subprocess
from collections.abc import Iterator, Sequence
from pathlib import Path

import pytest
from embed import engine_scripts
from embed.agents import SIZE, SOURCES, checked_text, cost_text, counts_text, draw_programs, draw_tapes, verdict_line

from heskavo.repository import ROOT

EMBED, SOURCES_OF_C = ROOT / "examples" / "embed", Path(__file__).with_name("embed")
DRAWS, RUNS, RECORDS = 1000, 2_000_000, 20_000
SANITIZED = ("-fsanitize=address,undefined", "-fno-sanitize-recover=all")

Output = tuple[int, str, str]
with_gcc = pytest.mark.skipif(shutil.which("gcc") is None, reason="there is no gcc")


def run(words: list[str], given: bytes = b"", seconds: int = 120) -> tuple[int, str, str]:
    """The status of a program and what it printed; what stands on its error output follows."""
    ended = subprocess.run(words, input=given, check=False, capture_output=True, timeout=seconds)
    return ended.returncode, ended.stdout.decode(), ended.stderr.decode()


def compile_agents(folder: Path, library: Path) -> dict[str, list[str]]:
    """The agents whose compilers are there, by name, each with the words that start it."""
    include = str(ROOT / "include")
    agents: dict[str, list[str]] = {}
    source = str(EMBED / "c" / "agent.c")
    if shutil.which("gcc"):
        words = ["gcc", "-std=c11", "-Wall", "-Wextra", "-Werror", "-O2", "-g", f"-I{include}"]
        sanitized = words + ["-fsanitize=address,undefined", "-fno-sanitize-recover=all"]
        for name, text, how in (
            ("C", source, words),
            ("C, sanitized", source, sanitized),
            ("calls", str(SOURCES_OF_C / "calls.c"), words),
            ("calls, sanitized", str(SOURCES_OF_C / "calls.c"), sanitized),
        ):
            built = str(folder / name.replace(", ", "_"))
            subprocess.run([*how, text, str(library), "-o", built], check=True)
            agents[name] = [built]
        if shutil.which("valgrind"):
            valgrind = ["valgrind", "-q", "--error-exitcode=99", "--leak-check=full"]
            agents["C, valgrind"] = valgrind + agents["C"]
            agents["calls, valgrind"] = valgrind + agents["calls"]
    if shutil.which("cargo"):
        settings = {**os.environ, "HESKAVO_LIB": str(library.parent), "CARGO_TARGET_DIR": str(folder / "rust")}
        subprocess.run(
            ["cargo", "build", "--offline", "--release", "--quiet"], cwd=EMBED / "rust", env=settings, check=True
        )
        agents["Rust"] = [str(folder / "rust" / "release" / "agent")]
    if shutil.which("go"):
        words = ["go", "build", "-o", str(folder / "go"), "."]
        subprocess.run(words, cwd=EMBED / "go", env=go_settings(library), check=True)
        agents["Go"] = [str(folder / "go")]
    return agents


def go_settings(library: Path) -> dict[str, str]:
    """The environment in which go builds with this library, and downloads nothing."""
    flags = {"CGO_CFLAGS": f"-I{ROOT / 'include'}", "CGO_LDFLAGS": f"-L{library.parent}"}
    return {**os.environ, **flags, "GOFLAGS": "-mod=mod", "GOPROXY": "off"}


def compile_c(folder: Path, library: Path, source: str, how: Sequence[str] = ()) -> str:
    """Builds a program of tools/tests/embed, and returns its path; with options, one of another name."""
    built = str(folder / "_".join([source, *how]).replace("=", "_").replace(",", "_"))
    words = ["gcc", "-std=gnu11", "-Wall", "-Wextra", "-Werror", "-O2", "-g", f"-I{ROOT / 'include'}", *how]
    subprocess.run([*words, str(SOURCES_OF_C / f"{source}.c"), str(library), "-o", built], check=True)
    return built


def outputs(
    agents: dict[str, list[str]], rbhost: str, folder: Path, drawn: tuple[int, bytes, bytes]
) -> Iterator[tuple[str, Output, tuple[int, str]]]:
    """Yields what each agent printed of a drawn program and tape, and what it has to print, with the agent's name."""
    number, code, tape = drawn
    program, text = folder / f"program_{number}", code.hex().encode()
    program.write_bytes(code)
    status, checked, refusal = run([rbhost, "check"], text)
    verdict = verdict_line(refusal) if status else ""
    explained = run([rbhost, "explain"], text)[1]
    costs = [run([rbhost, "cost", "--rings", str(rings)], text)[1] for rings in (0, 1, 2, 4, 8, 16)]
    counted, failed = counts_text(*run([rbhost, "tape", "--size", str(SIZE)], tape)[1:])
    good_cost = cost_text(run([rbhost, "cost"], SOURCES[0].read_bytes())[1])
    for name, words in agents.items():
        if "valgrind" in name and number % 20:
            continue
        if name.startswith("calls"):
            expected = (verdict or checked_text(checked)) + explained + "".join(costs)
            yield name, run([*words, str(program)]), (0, expected)
        else:
            expected = (1, verdict) if status else (0, cost_text(costs[1]) + "discarded 0 bytes 0\n")
            yield name, run([*words, str(program), str(SIZE)]), expected
            yield name, run([*words, str(folder / "good"), str(SIZE)], tape), (failed, good_cost + counted)
    program.unlink()


@pytest.fixture(scope="module")
def agents(libheskavo: Path, tmp_path_factory: pytest.TempPathFactory) -> dict[str, list[str]]:
    """The agents whose compilers are there."""
    return compile_agents(tmp_path_factory.mktemp("agents"), libheskavo)


@pytest.fixture(scope="module")
def differences(
    agents: dict[str, list[str]], rbhost: str, tmp_path_factory: pytest.TempPathFactory
) -> dict[str, list[str]]:
    """The outputs of each agent that differ from the expected ones."""
    folder, draw = tmp_path_factory.mktemp("drawn"), random.Random(42)
    (folder / "good").write_bytes(bytes.fromhex("".join(SOURCES[0].read_text().split())))
    programs, tapes = draw_programs(draw), draw_tapes(draw)
    drawn = [(number, next(programs), next(tapes)) for number in range(DRAWS)]
    wrong: dict[str, list[str]] = collections.defaultdict(list)
    with concurrent.futures.ThreadPoolExecutor(os.cpu_count() or 1) as pool:
        for found in pool.map(lambda it: list(outputs(agents, rbhost, folder, it)), drawn):
            for name, got, expected in found:
                if got[:2] != expected:
                    wrong[name].append(f"{got} where {expected} is expected")
    return wrong


@pytest.mark.parametrize(
    "name", ["C", "C, sanitized", "C, valgrind", "calls", "calls, sanitized", "calls, valgrind", "Rust", "Go"]
)
def test_agents_print_what_rbhost_prints(
    agents: dict[str, list[str]], differences: dict[str, list[str]], name: str
) -> None:
    if name not in agents:
        pytest.skip(f"there is no compiler, or no valgrind, for {name}")
    assert not differences[name], f"{len(differences[name])} differ, the first: {differences[name][0]}"


@pytest.fixture(scope="module")
def scripts(rbhost: str) -> tuple[list[engine_scripts.Script], list[list[str]]]:
    """Drawn scripts of engines, and what is expected of each."""
    draw = random.Random(42)
    drawn = [engine_scripts.draw_script(draw) for _ in range(DRAWS)]
    return drawn, engine_scripts.all_expected(rbhost, drawn)


@with_gcc
@pytest.mark.parametrize(("how", "place"), [((), "end"), ((), "front"), (SANITIZED, "end")])
def test_engines_do_what_sim_does(
    libheskavo: Path, scripts: tuple[list, list], tmp_path: Path, how: tuple[str, ...], place: str
) -> None:
    agent = [compile_c(tmp_path, libheskavo, "engines", how), place]
    assert not (found := engine_scripts.differences(agent, *scripts, random.Random(42))), found[0]


@with_gcc
def test_the_memory_of_an_engine_does_not_grow(libheskavo: Path, tmp_path: Path) -> None:
    program = tmp_path / "endured"
    program.write_bytes(bytes.fromhex("".join(SOURCES[0].read_text().split())))
    status, printed, why = run([compile_c(tmp_path, libheskavo, "endure"), str(program), str(RUNS)], seconds=900)
    assert status == 0 and printed.startswith(f"runs {RUNS} "), why


@with_gcc
@pytest.mark.parametrize("how", [(), ("-fsanitize=address,undefined",), ("-fsanitize=thread",)])
def test_threads_share_an_engine(libheskavo: Path, tmp_path: Path, how: tuple[str, ...]) -> None:
    words = ["gcc", "-std=gnu11", "-Wall", "-Wextra", "-Werror", "-O2", "-g", "-pthread", f"-I{ROOT / 'include'}"]
    built, made = str(tmp_path / "threads"), 4 * RECORDS
    subprocess.run([*words, *how, str(EMBED / "c" / "threads.c"), str(libheskavo), "-o", built], check=True)
    assert run([built, str(RECORDS)])[:2] == (0, f"made {made} consumed {made} discarded 0 waiting 0 busy 0\n")


@pytest.mark.parametrize(
    "command", ["cargo test --offline --quiet", "gofmt -l .", "go vet ./...", "go test ./...", "go test -race ./..."]
)
def test_bindings(libheskavo: Path, tmp_path: Path, command: str) -> None:
    if shutil.which(command.split()[0]) is None:
        pytest.skip(f"there is no {command.split()[0]}")
    is_rust = command.startswith("cargo")
    cargo = {**os.environ, "HESKAVO_LIB": str(libheskavo.parent), "CARGO_TARGET_DIR": str(tmp_path)}
    source = ROOT / "bindings" / ("rust" if is_rust else "go")
    ran = subprocess.run(
        command.split(),
        cwd=source,
        env=cargo if is_rust else go_settings(libheskavo),
        check=False,
        capture_output=True,
        text=True,
    )
    assert ran.returncode == 0, ran.stdout[-2000:] + ran.stderr[-2000:]
    assert ran.stdout == "" or not command.startswith("gofmt"), ran.stdout
