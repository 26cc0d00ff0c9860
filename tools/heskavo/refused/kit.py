"""The kit's own ways of checking a crate with other texts in place of its own, over what an earlier check kept."""
import importlib.machinery
import os
import pathlib
import re
import shutil
import subprocess
import sys
import tempfile
import types
from collections.abc import Iterable, Iterator, Mapping
from typing import Any, NamedTuple

LINE = re.compile(r"^(?:fn|impl) ([^ ]*?): (.*)$")
GENERICS = re.compile(r"<[^<>]*>")


# The prover's allocator keeps the memory that it has, and takes it in pages of 2 MiB where the machine has set such aside.
for name, value in (("MIMALLOC_ALLOW_LARGE_OS_PAGES", "1"), ("MIMALLOC_PURGE_DELAY", "-1")):
    os.environ.setdefault(name, value)


def load() -> Any:
    """The kit's command `rt` as a module: it knows the crates, their libraries and the words of a check."""
    place = os.path.realpath(shutil.which("rt") or "rt")
    loader = importlib.machinery.SourceFileLoader("rt_of_the_kit", place)
    made = types.ModuleType(loader.name)
    made.__file__ = place
    sys.modules[loader.name] = made
    loader.exec_module(made)
    return made


rt = load()


def crates(root: pathlib.Path) -> dict[str, Any]:
    """The crates of a repository by their names, lowest first."""
    os.chdir(root)
    found = rt.rtlib.crates_below(str(root))
    return {crate.name: crate for crate in sorted(found, key=lambda it: len(it.below()))}


def build_libraries(crate: Any) -> bool:
    """Builds the libraries below a crate as `rt check` does, over what checks on this machine kept."""
    return not any(below.build_rlib(["--jobs", "1"], anew=False) for below in crate.below())


def are_of_the_gate(crate: Any) -> bool:
    """Whether the libraries below a crate are those that `rt ci` left: they have no stamp, as those have that other commands build for themselves."""
    return all(
        os.path.isfile(f"{below.rlib}/format") and not os.path.exists(f"{os.path.dirname(below.rlib)}/stamp")
        for below in crate.below()
    )


class Error(NamedTuple):
    """An error of a check; lines and columns are counted from 1."""

    file: str
    line: int
    column: int
    said: str


class Answer:
    """What a check said: its status, what it said of each function, and its lines."""

    def __init__(self, run: "subprocess.CompletedProcess[str]") -> None:
        self.status, self.lines = run.returncode, run.stdout.split("\n")
        self.said = {}
        for line in self.lines:
            found = LINE.match(GENERICS.sub("", GENERICS.sub("", line)))
            if found:
                self.said[found[1]] = found[2]

    def reached_the_prover(self) -> bool:
        return any(line.startswith(("logic=", "only=")) for line in self.lines)

    def errors(self) -> Iterator[Error]:
        """Yields each error with its place and what is said."""
        for line in self.lines:
            at = re.match(r"(?:\./)?(\S+?):(\d+):(\d+): error(.*)", line)
            if at:
                yield Error(at[1], int(at[2]), int(at[3]), at[4])


def kept_by_checks(crate: Any) -> pathlib.Path | None:
    """The folder of what `rt check` kept of the crate, or None where it kept nothing."""
    folder = pathlib.Path(crate.folder, "out", "incremental")
    return folder if folder.is_dir() and any(folder.iterdir()) else None


class Work:
    """A folder of its own in which checks of a crate keep what they checked, each over what those before it kept."""

    def __init__(self, crate: Any) -> None:
        self.crate = crate
        self.room = pathlib.Path(tempfile.mkdtemp(prefix="refused-"))
        self.kept = self.room / "kept"
        self.kept.mkdir()

    def begin_with(self, folder: pathlib.Path) -> None:
        """Begins with a copy of what earlier checks kept."""
        shutil.copytree(folder, self.kept, dirs_exist_ok=True)

    def check(self, texts: Mapping[str, str | None], only: Iterable[str] = ()) -> Answer:
        """Checks a copy of the crate with these texts in place of its own files or in addition to them; a file whose text is None is left out. It looks at the functions
        that `only` names and at what they call, or at all if it names none."""
        only_these = [word for name in only for word in ("--only", name)]
        words = [
            rt.rtlib.RATTLE,
            "check",
            *self.crate.words(["--jobs", "1", *only_these], keeps=False),
            "--incremental",
            str(self.kept),
        ]
        with tempfile.TemporaryDirectory(prefix="rt-edit-") as room:
            for part in (it for it in rt.rtlib.PARTS if os.path.isdir(f"{self.crate.folder}/{it}")):
                shutil.copytree(f"{self.crate.folder}/{part}", f"{room}/{part}")
            for path, text in texts.items():
                place = pathlib.Path(room, path)
                if text is None:
                    place.unlink(missing_ok=True)
                    continue
                place.parent.mkdir(parents=True, exist_ok=True)
                place.write_text(text, encoding="utf-8")
            command = [*rt.rtlib.guarded(), *words]
            nothing, pipe, to_output = subprocess.DEVNULL, subprocess.PIPE, subprocess.STDOUT
            return Answer(
                subprocess.run(
                    command,
                    cwd=room,
                    stdin=nothing,
                    stdout=pipe,
                    stderr=to_output,
                    errors="replace",
                    text=True,
                    check=False,
                )
            )

    def drop(self) -> None:
        shutil.rmtree(self.room, ignore_errors=True)
