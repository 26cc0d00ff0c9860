"""Which crates' mutants in refused/ were all refused: a crate's refused/passed.txt has the checksum that its files had then."""
import hashlib
import pathlib
from typing import Any

FOLDERS = ("src", "specs", "proofs", "refused")
NOTE = "refused/passed.txt"


def checksum(crate: Any) -> str:
    """The checksum of the crate's sources and of its mutants in refused/."""
    folder = pathlib.Path(crate.folder)
    files = sorted(path for part in FOLDERS for path in (folder / part).rglob("*") if path.is_file())
    sum_of_all = hashlib.sha256()
    for path in files:
        name = path.relative_to(folder).as_posix()
        if name != NOTE:
            sum_of_all.update(repr((name, path.read_bytes())).encode())
    return sum_of_all.hexdigest()


def is_noted(crate: Any) -> bool:
    """Whether all were refused with the files as they are."""
    note_of_crate = pathlib.Path(crate.folder, NOTE)
    return note_of_crate.is_file() and note_of_crate.read_text().strip() == checksum(crate)


def note(crate: Any) -> None:
    """Notes that all were refused."""
    pathlib.Path(crate.folder, NOTE).write_text(f"{checksum(crate)}\n")
