"""The host over Linux (tools/linux/host.c): builds it, and sends it lines."""
import os
import pathlib
import re
import shutil
import subprocess
import tempfile
from collections.abc import Sequence

from heskavo.repository import TOOLS

# The first version of Linux that has all instructions of RFC 9669.
OLDEST = (6, 6)
RETURN_7 = "b700000007000000" "9500000000000000"

LINUX = TOOLS / "linux"


class Skipped(Exception):
    """The reason why nothing can be compared here."""


def built(name: str, folder: str, libraries: Sequence[str] = ()):
    """Builds a program of tools/linux in a folder, and returns its path."""
    if shutil.which("gcc") is None:
        raise Skipped("gcc is not installed")
    program = os.path.join(folder, name)
    command = ["gcc", "-O2", "-D_GNU_SOURCE", "-o", program, str(LINUX / f"{name}.c"), *libraries]
    run = subprocess.run(command, check=False, capture_output=True, text=True)
    if run.returncode:
        raise Skipped(f"tools/linux/{name}.c is not built: {(run.stderr.splitlines() or ['gcc failed'])[0]}")
    return program


class LinuxHost:
    """A built host, in its own folder, which is removed with it."""

    def __init__(self) -> None:
        release = os.uname().release
        if tuple(map(int, re.findall(r"\d+", release)[:2])) < OLDEST:
            raise Skipped(
                f"Linux {release} is older than {'.'.join(map(str, OLDEST))}, which has all instructions of RFC 9669"
            )
        self.folder = tempfile.TemporaryDirectory()
        self.program = built("host", self.folder.name)
        told = self.answers(["ring 4096", f"program {RETURN_7}", "run 0 00"])
        if told[2] != "result 7":
            raise Skipped(f"Linux runs no program of the type BPF_PROG_TYPE_SYSCALL: {told[1]}")

    def answers(self, lines: list[str]) -> list[str]:
        """Returns the answers of one process to these lines, line by line."""
        run = subprocess.run(
            [self.program], input="".join(line + "\n" for line in lines), check=False, capture_output=True, text=True
        )
        if run.returncode == 3:
            raise Skipped(run.stderr.strip())
        if run.returncode:
            raise RuntimeError(f"the host over Linux ended with {run.returncode}: {run.stderr.strip()}")
        return run.stdout.splitlines()
