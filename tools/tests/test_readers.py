"""Compares the reader of rings of Linux, include/heskavo_linux.h, with libbpf's over real rings.

One program is built over both readers (tools/tests/readers). It lets programs of Linux write the same records, submitted
and discarded, into two rings for each reader. After each of 1,000 calls of consume or poll the return values, the
samples and their bytes must be the same, also if a callback refuses a sample. Then both read one ring alternately, and
the time for a record is printed (`-s` shows it). Requires root, bpf(2), gcc and libbpf.
"""
import ctypes.util
import pathlib
import shutil
import subprocess

import pytest

from heskavo.repository import ROOT

SOURCES = pathlib.Path(__file__).with_name("readers")
ROUNDS = 1000
REFUSED = 3
SECONDS = 600


def build(folder: pathlib.Path, library: pathlib.Path) -> pathlib.Path:
    """Builds the comparison in the folder, and returns its path."""
    words = [
        "gcc",
        "-std=gnu11",
        "-Wall",
        "-Wextra",
        "-Werror",
        "-O2",
        "-D_GNU_SOURCE",
        f"-I{ROOT / 'include'}",
        f"-I{SOURCES}",
    ]
    objects = []
    for name, source, flags in (
        ("libbpf", "reader.c", ["-DOVER_LIBBPF"]),
        ("heskavo", "reader.c", []),
        ("main", "readers.c", []),
    ):
        objects.append(str(folder / f"{name}.o"))
        subprocess.run([*words, *flags, "-c", str(SOURCES / source), "-o", objects[-1]], check=True)
    built = folder / "readers"
    subprocess.run(["gcc", *objects, str(library), "-lbpf", "-o", str(built)], check=True)
    return built


def test_readers_agree(libheskavo: pathlib.Path, tmp_path: pathlib.Path) -> None:
    if shutil.which("gcc") is None or ctypes.util.find_library("bpf") is None:
        pytest.skip("gcc and libbpf (Debian's libbpf-dev) are needed")
    words = [str(build(tmp_path, libheskavo)), str(ROUNDS)]
    ended = subprocess.run(words, check=False, timeout=SECONDS, capture_output=True, text=True)
    if ended.returncode == REFUSED:
        pytest.skip(ended.stderr.strip().splitlines()[-1])
    print(ended.stdout, end="")
    assert ended.returncode == 0, ended.stdout
