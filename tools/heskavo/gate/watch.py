"""Watches the processes of a command: which checks of crates it runs, and how much processor time each takes.

`rt ci` prints no times, and removes at its end what its checks kept. So while it runs, a `Watch` looks for its checks
among the descendant processes. The last moments of a check, after the last look, are not counted.
"""
import collections
import dataclasses
import os
import re
import shutil
from collections.abc import Iterator
from pathlib import Path

TICKS = os.sysconf("SC_CLK_TCK")
PROGRAM_OF_RUN = re.compile(r"/rt-run-[^/]*/bin/(\w+)$")


@dataclasses.dataclass(frozen=True)
class Process:
    """A process, and the processor seconds that it and its ended children took so far."""

    pid: int
    start: int
    parent: int
    seconds: float


@dataclasses.dataclass(frozen=True)
class Work:
    """What a process works for: the part of the gate, the crate, and the folder of results from which the crate's edits start, if this check fills it."""

    part: str
    crate: str
    seed: str | None = None


def processes() -> Iterator[Process]:
    """Yields each process of the machine."""
    for folder in Path("/proc").iterdir():
        if folder.name.isdigit():
            try:
                words = (folder / "stat").read_text(errors="replace").rpartition(")")[2].split()
            except OSError:
                continue
            yield Process(int(folder.name), int(words[19]), int(words[1]), sum(map(int, words[11:15])) / TICKS)


def work_of(pid: int) -> Work | None:
    """Returns what the process works for, or None.

    It is `edits` for a check of a copy with an edit, and for the check of the copy without one from which those start;
    `tests` for a check with `--test`, and for running a crate's tests or its program; and `proof` for any other check
    and the build that follows it.
    """
    try:
        words = Path(f"/proc/{pid}/cmdline").read_bytes().decode(errors="replace").split("\0")
        folder = os.readlink(f"/proc/{pid}/cwd")
    except OSError:
        return None
    if os.path.basename(words[0]) == "rattle" and "--crate-name" in words[:-1]:
        crate = words[words.index("--crate-name") + 1]
        seeds = (it for before, it in zip(words, words[1:]) if before == "--incremental" and it.endswith("/seed"))
        part = "edits" if "/rt-edit-" in folder else "tests" if "--test" in words else "proof"
        return Work(part, crate, next(seeds, None))
    ran = next((found for word in words if (found := PROGRAM_OF_RUN.search(word))), None)
    return Work("tests", ran[1].removesuffix("_tests")) if ran else None


class Watch:
    """The running checks below a process."""

    def __init__(self, top: int) -> None:
        self.top = top
        self.seen: dict[tuple[int, int], tuple[Work, float]] = {}

    def look(self) -> list[tuple[Work, float]]:
        """Looks once, and returns the work and the processor seconds of the checks that have ended since the last look."""
        children: dict[int, list[Process]] = collections.defaultdict(list)
        for process in processes():
            children[process.parent].append(process)

        def whole(process: Process) -> float:
            return process.seconds + sum(map(whole, children[process.pid]))

        here, waiting = set(), [self.top]
        while waiting:
            for process in children[waiting.pop()]:
                key = process.pid, process.start
                work = self.seen[key][0] if key in self.seen else work_of(process.pid)
                if work:
                    self.seen[key] = work, whole(process)
                    here.add(key)
                else:
                    waiting.append(process.pid)
        return [self.seen.pop(key) for key in [*self.seen] if key not in here]


def keep(work: Work, folder: Path) -> None:
    """Links the results from which a crate's edits start into a folder of the crate's name, if it does not exist yet."""

    def link(one: str, other: str) -> None:
        try:
            os.link(one, other)
        except OSError:
            shutil.copy2(one, other)

    place = folder / work.crate
    if work.seed and not place.exists():
        try:
            shutil.copytree(work.seed, place, symlinks=True, copy_function=link)
        except (OSError, shutil.Error):
            shutil.rmtree(place, ignore_errors=True)
