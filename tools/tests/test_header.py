"""Compares include/heskavo_host.h with the library that it declares, crates/heskavo_c.

It reads both and needs no proof. It compares the numbers of each enum, the parameters and results of each call by place,
name and type, and the fields of each struct; a declaration that only one of both has is an error. With gcc it compares
`offsetof` of each field with the layout of `repr(C)`. Bindings in Rust, below examples/embed and bindings, may declare a
part of the header, and what they declare is compared likewise. It tests itself too: it exchanges two neighbours of each
enum, struct and call, in the header, the sources and the bindings, and has to find each exchange.

tools/tests/header/calls.c makes each call through the header, with arguments and results that differ from place to place.
The library is what `rt lib` or tools/rbhost left in the crate's out/ and no source is newer than, or else is built without
proof.

The gate runs these tests, also where there is no pytest: so they use nothing of it.
"""
import dataclasses
import functools
import itertools
import pathlib
import shutil
import subprocess
import tempfile
import unittest
from collections.abc import Iterator

from header import c_header, crate_source, rust_binding
from header.comparison import binding_differences, differences, enum_of
from header.declarations import Declarations
from header.layouts import compiled_layouts, layouts_differ

from heskavo.program import library
from heskavo.repository import CRATES, ROOT, libraries_of_crates

HEADER = ROOT / "include" / "heskavo_host.h"
CRATE = CRATES / "heskavo_c"
CALLS = pathlib.Path(__file__).with_name("header") / "calls.c"


@functools.cache
def header() -> Declarations:
    """Returns what the header declares."""
    return c_header.declarations(HEADER.read_text())


@functools.cache
def crate() -> Declarations:
    """Returns what the library's sources declare."""
    return crate_source.declarations(sorted((CRATE / "src").glob("**/*.rt")))


@functools.cache
def below() -> Declarations:
    """Returns what the sources of the crates below the library declare."""
    return crate_source.declarations(sources_below("heskavo_c"))


def sources_below(crate: str) -> list[pathlib.Path]:
    """Returns the sources of the crates that a crate uses."""
    return [
        source for used in libraries_of_crates()[crate] for source in sorted((CRATES / used / "src").glob("**/*.rt"))
    ]


def exchanges(of: Declarations) -> Iterator[tuple[str, Declarations]]:
    """Yields these declarations with two neighbours exchanged: two numbers of an enum, two fields of a struct, two parameters of a call."""
    for enum, numbers in of.numberings.items():
        for one, other in itertools.pairwise(numbers):
            if numbers[one] == numbers[other]:
                continue
            changed = {**numbers, one: numbers[other], other: numbers[one]}
            yield f"the numbers of {one} and {other}", dataclasses.replace(
                of, numberings={**of.numberings, enum: changed}
            )
    for struct, fields in of.structs.items():
        for at in range(len(fields) - 1):
            changed_fields = (*fields[:at], fields[at + 1], fields[at], *fields[at + 2 :])
            yield f"the fields {fields[at].name} and {fields[at + 1].name} of {struct}", dataclasses.replace(
                of, structs={**of.structs, struct: changed_fields}
            )
    for name, function in of.functions.items():
        given = function.parameters
        for at in range(len(given) - 1):
            changed_call = dataclasses.replace(
                function, parameters=(*given[:at], given[at + 1], given[at], *given[at + 2 :])
            )
            yield f"the parameters {given[at].name} and {given[at + 1].name} of {name}", dataclasses.replace(
                of, functions={**of.functions, name: changed_call}
            )


def bindings() -> dict[str, Declarations]:
    """Returns what each binding in Rust declares, by the folder of its sources."""
    files = [
        file for folder in ("examples/embed", "bindings") for file in sorted((ROOT / folder).glob("**/src/**/*.rs"))
    ]
    folders = dict.fromkeys(
        file.parent for file in files if "target" not in file.parts and 'extern "C" {' in file.read_text()
    )
    return {
        str(folder.relative_to(ROOT)): rust_binding.declarations(sorted(folder.glob("**/*.rs"))) for folder in folders
    }


def kept_library() -> pathlib.Path | None:
    """Returns a library that was built of the crate's sources as they are, or None."""
    newest = max(source.stat().st_mtime for source in (CRATE / "src").glob("**/*.rt"))
    built = (CRATE / "out" / "libheskavo_c.a", CRATE / "out" / "unproved" / "libheskavo.a")
    return next((library for library in built if library.exists() and library.stat().st_mtime > newest), None)


def failed_calls(made: pathlib.Path) -> list[str]:
    """Makes the calls of `calls.c`, and returns a line for each whose answer is not the one that the header describes."""
    with tempfile.TemporaryDirectory() as folder:
        built = pathlib.Path(folder) / "calls"
        words = ["gcc", "-std=c11", "-Wall", "-Wextra", "-Werror", f"-I{HEADER.parent}", str(CALLS), str(made)]
        if b"heap.pic.o/" not in made.read_bytes():
            # What `rt lib` builds leaves malloc, realloc and free to the kit's allocator.
            kit = pathlib.Path(
                subprocess.run(["rt", "doc"], check=True, capture_output=True, text=True).stdout.strip()
            ).parent
            subprocess.run(["ar", "x", str(kit / "c" / "liblibc_c.a"), "heap.pic.o"], cwd=folder, check=True)
            words.append("heap.pic.o")
        subprocess.run([*words, "-o", str(built)], cwd=folder, check=True)
        run = subprocess.run([str(built)], check=False, capture_output=True, text=True, timeout=60)
    return (
        run.stdout.splitlines()
        if run.returncode == 1
        else []
        if run.returncode == 0
        else [f"calls.c ended with {run.returncode}"]
    )


def test_the_header_declares_the_library() -> None:
    assert header().numberings and header().structs and header().functions
    assert not (found := differences(header(), crate(), below())), found


def test_fields_are_where_the_library_has_them() -> None:
    if shutil.which("gcc") is None:
        raise unittest.SkipTest("gcc is not on the path: offsetof is not compared")
    found = layouts_differ(header(), crate(), compiled_layouts("gcc", HEADER, header().structs))
    assert not found, found


def test_exchanges_in_the_header_are_found() -> None:
    unfound = [name for name, it in exchanges(header()) if not differences(it, crate(), below())]
    assert not unfound, unfound


def test_exchanges_in_the_sources_are_found() -> None:
    unfound = [name for name, it in exchanges(crate()) if not differences(header(), it, below())]
    assert not unfound, unfound


def test_bindings_declare_parts_of_the_header() -> None:
    found = {folder: binding_differences(header(), binding) for folder, binding in bindings().items()}
    assert found and not any(found.values()), found


def test_exchanges_in_bindings_are_found() -> None:
    unfound = []
    for folder, binding in bindings().items():
        # A binding may have constants of its own.
        numberings = binding.numberings.items()
        shared = {
            name: {it: number for it, number in numbers.items() if it in enum_of(header(), numbers)[1]}
            for name, numbers in numberings
        }
        tried = exchanges(dataclasses.replace(binding, numberings=shared))
        unfound += [
            f"{name}, exchanged in {folder}" for name, changed in tried if not binding_differences(header(), changed)
        ]
    assert not unfound, unfound


def test_each_call_is_made() -> None:
    uncalled = [name for name in header().functions if f"{name}(" not in CALLS.read_text()]
    assert not uncalled, f"calls.c does not call {', '.join(uncalled)}"


def test_calls_answer_as_the_header_says() -> None:
    missing = [tool for tool in ("gcc", "ar", "rt") if shutil.which(tool) is None]
    if missing:
        raise unittest.SkipTest(f"calls.c is not run: there is no {', '.join(missing)}")
    kept = kept_library()
    with tempfile.TemporaryDirectory() as folder:
        made = kept or library.build(pathlib.Path(folder), is_proved=False)
        assert not (found := failed_calls(made)), found
