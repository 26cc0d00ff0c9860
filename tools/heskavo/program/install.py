"""Proves rbhost and the library for C, and installs them.

Installs bin/rbhost, its manual page, completions for bash, zsh and fish, lib/libheskavo.a with heskavo.pc for
pkg-config, include/heskavo_host.h, bin/bpf-hex, and the sources of the bindings in share/heskavo/bindings. Before it
proves anything it checks whether it can succeed: the kit's `rt` and `ar` exist, DIR is writable, and the disk has room.
The first time, the proofs take some 60 processor minutes, by docs/ARCHITECTURE.md; a line is printed for each crate
that is proved. If a run is interrupted, only the crate in progress is lost: the next run resumes there, and does not
repeat what was proved.

With --library it installs nothing: it puts libheskavo.a into FOLDER, and prints its path. With --unproved nothing is
proved then: the library is built from the same sources, in a minute.
"""
import argparse
import os
import pathlib
import re
import shutil
import subprocess
import sys
import tempfile
import time
from collections.abc import Iterator

from heskavo.command_line import Failure, UsageError
from heskavo.program import completions, library
from heskavo.repository import CRATES, ROOT, crates_below

# The folders below the prefix to which files are copied.
FOLDERS = [
    "bin",
    "lib",
    "lib/pkgconfig",
    "include",
    "share/heskavo",
    "share/man/man1",
    "share/bash-completion/completions",
    "share/zsh/site-functions",
    "share/fish/vendor_completions.d",
]

# The maximal disk space, in bytes, of the proofs of a checkout and of an installation.
PROOFS_TAKE, INSTALLED_TAKES = 5 << 30, 100 << 20


def nearest(folder: pathlib.Path) -> pathlib.Path:
    """Returns the folder itself, or its nearest ancestor that exists."""
    while not os.path.lexists(folder):
        folder = folder.parent
    return folder


def why_not(prefix: pathlib.Path) -> Iterator[str]:
    """Yields what prevents an installation below this prefix, one problem a line."""
    for tool, what in (
        ("rt", "the command of the Rattle kit (README.md says which kit)"),
        ("ar", "of Debian's package binutils"),
    ):
        if shutil.which(tool) is None:
            yield f"`{tool}` is not on the path: {what}"
    for there in dict.fromkeys(nearest(prefix / folder) for folder in FOLDERS):
        try:
            with tempfile.TemporaryFile(dir=there):
                pass
        except OSError as error:
            yield f"cannot create files below {prefix}: {there}: {error.strerror}"
    proofs = 0 if (CRATES / "heskavo_c" / "out" / "libheskavo_c.a").exists() else PROOFS_TAKE
    for folder, wanted in ((CRATES, proofs), (nearest(prefix), INSTALLED_TAKES)):
        free = shutil.disk_usage(folder).free
        if free < wanted:
            yield f"{folder} has {free >> 20} MB of free space, and {wanted >> 20} MB may be needed"


def compare_kit() -> None:
    """Prints a warning if the kit's logic is not the one that README.md names, by its checksum; kits with the same checksum prove the same."""
    wanted = re.search(r"logic ([0-9a-f]{16})", (ROOT / "README.md").read_text())
    found = subprocess.run(["rt", "version"], capture_output=True, text=True, check=True).stdout.strip()
    if wanted and not found.endswith(wanted[0]):
        print(
            f"`rt version` prints `{found}`, and this repository is proved with {wanted[0]}: another logic may refuse it",
            flush=True,
        )


def prove(crate: str, words: list[str], proved: set[str], many: int) -> None:
    """Runs rt in a crate's folder, and prints each crate that it proved; if rt fails, prints its output."""
    began, lines, last = time.monotonic(), [], None
    with subprocess.Popen(
        ["rt", *words],
        cwd=CRATES / crate,
        stdin=subprocess.DEVNULL,
        stdout=subprocess.PIPE,
        stderr=subprocess.STDOUT,
        text=True,
    ) as rt:
        for line in rt.stdout or ():
            lines.append(line)
            if line.startswith("crate "):
                last = line.split()[1].rstrip(":")
            if line.startswith("logic=proved") and last and last not in proved:
                proved.add(last)
                print(f"proved {last}, {len(proved)} of {many}, {time.monotonic() - began:.0f} s", flush=True)
    if rt.returncode:
        sys.exit(
            "".join(lines[-40:]) + f"tools/install: rt {' '.join(words)} in crates/{crate} ended with {rt.returncode}"
        )


def put(source: pathlib.Path, folder: pathlib.Path, mode: int) -> None:
    """Copies a file into a folder of the prefix."""
    folder.mkdir(parents=True, exist_ok=True)
    shutil.copyfile(source, folder / source.name)
    (folder / source.name).chmod(mode)
    print(f"installed {folder / source.name}")


def put_pkg_config(prefix: pathlib.Path) -> None:
    """Writes heskavo.pc, by which pkg-config tells the flags of the header and the library."""
    version = re.findall(r"VERSION: &str = \"([0-9.]+)\"", (CRATES / "rb_version" / "src" / "lib.rt").read_text())[0]
    folder = prefix / "lib" / "pkgconfig"
    folder.mkdir(parents=True, exist_ok=True)
    lines = [
        f"prefix={prefix}",
        "Name: heskavo",
        "Description: Verified eBPF programs over BPF ring buffers",
        f"Version: {version}",
        "Cflags: -I${prefix}/include",
        "Libs: -L${prefix}/lib -lheskavo",
    ]
    (folder / "heskavo.pc").write_text("\n".join(lines) + "\n")
    print(f"installed {folder / 'heskavo.pc'}")


def put_bindings(prefix: pathlib.Path) -> None:
    """Copies the sources of the bindings, without what was built of them."""
    to = prefix / "share" / "heskavo" / "bindings"
    shutil.copytree(
        ROOT / "bindings", to, ignore=shutil.ignore_patterns("target", "Cargo.lock", ".gitignore"), dirs_exist_ok=True
    )
    print(f"installed {to}")


def put_bpf_hex(prefix: pathlib.Path) -> None:
    """Copies tools/bpf-hex and its modules."""
    put(ROOT / "tools" / "bpf-hex", prefix / "bin", 0o755)
    package = ROOT / "tools" / "heskavo"
    for module in [package / "__init__.py", package / "command_line.py", *sorted((package / "bpf").glob("*.py"))]:
        put(module, prefix / "share" / "heskavo" / "python" / module.parent.relative_to(ROOT / "tools"), 0o644)


def install(prefix: pathlib.Path) -> None:
    """Proves, then installs."""
    obstacles = list(why_not(prefix))
    if obstacles:
        sys.exit(
            "".join(f"tools/install: {it}\n" for it in obstacles) + "tools/install: nothing was proved or installed"
        )
    compare_kit()
    crates = crates_below(["rbhost", "heskavo_c"])
    print(f"{len(crates)} crates have to be proved; the first time takes some 60 processor minutes", flush=True)
    proved: set[str] = set()
    prove("rbhost", ["run", "--", "--version"], proved, len(crates))
    prove("heskavo_c", ["lib"], proved, len(crates))
    put(CRATES / "rbhost" / "out" / "rbhost", prefix / "bin", 0o755)
    put(ROOT / "docs" / "rbhost.1", prefix / "share" / "man" / "man1", 0o644)
    for header in ("heskavo_host.h", "heskavo_linux.h"):
        put(ROOT / "include" / header, prefix / "include", 0o644)
    put(ROOT / "examples" / "c" / "heskavo.h", prefix / "include", 0o644)
    put_bpf_hex(prefix)
    (prefix / "lib").mkdir(parents=True, exist_ok=True)
    print(f"installed {library.build(prefix / 'lib', is_proved=True)}")
    put_pkg_config(prefix)
    put_bindings(prefix)
    completions.write(prefix / "bin" / "rbhost", prefix / "share")
    print(f"installed completions below {prefix / 'share'}")


def add_arguments(parser: argparse.ArgumentParser) -> None:
    """Adds the places."""
    parser.add_argument(
        "--prefix", default="/usr/local", metavar="DIR", type=pathlib.Path, help="where to install (/usr/local)"
    )
    parser.add_argument("--library", metavar="FOLDER", type=pathlib.Path, help="only put libheskavo.a into FOLDER")
    parser.add_argument("--unproved", action="store_true", help="with --library: build it without proof")


def run(asked: argparse.Namespace) -> int:
    """Installs, or builds the library alone."""
    if asked.library is None:
        if asked.unproved:
            raise UsageError("--unproved is for --library: what is installed is proved")
        try:
            install(asked.prefix.resolve())
        except KeyboardInterrupt:
            sys.exit("tools/install: interrupted; what was proved is kept, and the next run resumes there")
        return 0
    if not asked.library.is_dir():
        raise UsageError(f"{asked.library} is not a folder")
    try:
        print(library.build(asked.library, is_proved=not asked.unproved))
    except subprocess.CalledProcessError as error:
        raise Failure(error.returncode, f"{error.cmd[0]} failed") from error
    return 0
