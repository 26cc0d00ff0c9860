"""The sources of a crate and of the crates below it, and whether they are those that a program was built from."""
import hashlib
import pathlib
import subprocess

from heskavo.repository import CRATES, ROOT, crates_below


def files(crate: str) -> list[pathlib.Path]:
    """Returns the files that a program of this crate is built from."""
    sources = (path for name in crates_below([crate]) for path in (CRATES / name / "src").rglob("*.rt"))
    return [ROOT / "crates.txt", *sorted(sources)]


def sums(crate: str) -> str:
    """Returns the checksums of these files, in the format that sha256sum --check reads at the top of the repository."""
    return "".join(
        f"{hashlib.sha256(path.read_bytes()).hexdigest()}  {path.relative_to(ROOT)}\n" for path in files(crate)
    )


def is_current(recorded: pathlib.Path) -> bool:
    """Returns whether the sources have the contents that were recorded in this file; False if the file does not exist."""
    check = ["sha256sum", "--check", "--status", str(recorded)]
    return recorded.exists() and subprocess.run(check, cwd=ROOT, stderr=subprocess.DEVNULL, check=False).returncode == 0


def changed_file(recorded: pathlib.Path) -> str:
    """Returns the first file whose contents differ from those recorded."""
    check = ["sha256sum", "--check", "--quiet", str(recorded)]
    lines = subprocess.run(check, cwd=ROOT, capture_output=True, text=True, check=False).stdout.splitlines()
    return lines[0].rpartition(": ")[0] if lines else "its sources"


def newer_file(crate: str, program: pathlib.Path) -> str | None:
    """Returns a source that was written after the program, or None."""
    built = program.stat().st_mtime
    return next((str(path.relative_to(ROOT)) for path in files(crate) if path.stat().st_mtime > built), None)
