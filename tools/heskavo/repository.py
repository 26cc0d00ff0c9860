"""The repository: its folders, its crates, and where their builds are."""
from collections.abc import Iterable
from pathlib import Path

ROOT = Path(__file__).resolve().parents[2]
CRATES = ROOT / "crates"
TOOLS = ROOT / "tools"


def libraries_of_crates() -> dict[str, list[str]]:
    """Returns each crate of crates.txt with the libraries that it uses, lowest first."""
    found = {}
    for line in (ROOT / "crates.txt").read_text().splitlines():
        name, colon, libraries = line.partition("#")[0].partition(":")
        if colon:
            found[name.split()[0]] = libraries.split()
    return found


def crates_below(names: Iterable[str]) -> set[str]:
    """Returns these crates and the crates of the repository that they depend on."""
    libraries, found, waiting = libraries_of_crates(), set(), list(names)
    while waiting:
        name = waiting.pop()
        if name in libraries and name not in found:
            found.add(name)
            waiting += libraries[name]
    return found


def proved_program(crate: str) -> Path:
    """Returns the path at which the gate builds the program of a crate."""
    return CRATES / crate / "out" / crate
