"""The builds of this repository's programs, and of its library for C: the proved ones, and those that are built here without proof."""
import datetime
import fcntl
import os
import pathlib
import shutil
import subprocess
import sys
import tempfile
import time

from heskavo.command_line import Failure
from heskavo.program import kit, sources
from heskavo.repository import CRATES, ROOT

# The file name of each crate's build.
NAMES = {"rbhost": "rbhost", "rb_trials": "rb_trials", "heskavo_c": "libheskavo.a"}
FAST, SANITIZED = (
    "optimized, with checks of sums and indices",
    "not optimized, and with AddressSanitizer: some thousand times slower than the proved program",
)


def say(message: str) -> None:
    """Prints a line about this tool's own work on standard error."""
    print(f"tools/rbhost: {message}", file=sys.stderr, flush=True)


class Build:
    """A program or library without proof. It is kept in its own folder, with the checksums of its sources and how it was built."""

    def __init__(self, crate: str, is_sanitized: bool) -> None:
        self.crate, self.is_sanitized = crate, is_sanitized
        self.folder = CRATES / crate / "out" / ("sanitized" if is_sanitized else "unproved")
        self.program, self.sums, self.how = (self.folder / name for name in (NAMES[crate], "sources", "built"))

    def is_current(self) -> bool:
        """Returns whether the program exists and its sources are unchanged."""
        return self.program.exists() and sources.is_current(self.sums)

    def make(self) -> None:
        """Builds the program, unless another call has built it meanwhile."""
        if not kit.is_there():
            raise Failure(
                127,
                f"there is no {self.crate} yet, and no Rattle kit to build it with: put the kit's bin/rt on the path (README.md says which kit)",
            )
        self.folder.mkdir(parents=True, exist_ok=True)
        with open(self.folder / "lock", "w") as lock:
            try:
                fcntl.flock(lock, fcntl.LOCK_EX | fcntl.LOCK_NB)
            except BlockingIOError:
                say(f"waiting for another call, which builds {self.crate}")
                fcntl.flock(lock, fcntl.LOCK_EX)
            if not self.is_current():
                self.build()

    def build(self) -> None:
        """Builds the program, and keeps it."""
        warning = kit.unexpected_version()
        if warning:
            say(warning)
        say(
            f"building {self.crate} once, which takes two to three minutes on two processors and proves nothing (tools/install proves it)"
        )
        began, sums = time.monotonic(), sources.sums(self.crate)
        with tempfile.TemporaryDirectory(prefix="rbhost.") as name:
            work = pathlib.Path(name)
            built, how = self.built(work)
            if built is None:
                raise Failure(
                    126,
                    f"this kit's `rt try` failed, or does not compile and link as expected:\n{kit.last_lines(work)}",
                )
            took = time.monotonic() - began
            self.keep(built)
        when = datetime.datetime.now().strftime("%Y-%m-%d %H:%M")
        self.how.write_text(
            f"built {when} in {took:.0f} s by {kit.version()}, without any proof: {how}\nfrom commit {commit()} and what was changed there\n"
        )
        self.sums.write_text(sums)
        say(f"built in {took:.0f} s, and kept in {self.folder.relative_to(ROOT)}; later calls start it at once")

    def keep(self, built: pathlib.Path) -> None:
        """Replaces an earlier build by the new one."""
        building = self.folder / "building"
        if built.suffix == ".o":
            kit.archive(built, building)
        else:
            shutil.copy(built, building)
            building.chmod(0o755)
        self.sums.unlink(missing_ok=True)
        os.replace(building, self.program)

    def built(self, work: pathlib.Path) -> tuple[pathlib.Path | None, str]:
        """Returns the program that was built in this folder, or None, and how it was built."""
        if self.crate == "heskavo_c":
            return kit.build_object(self.crate, work), FAST
        return (kit.build_sanitized(work), SANITIZED) if self.is_sanitized else (kit.build_fast(self.crate, work), FAST)


def commit() -> str:
    """Returns the commit that is checked out."""
    found = subprocess.run(
        ["git", "rev-parse", "--short", "HEAD"], cwd=ROOT, capture_output=True, text=True, check=False
    )
    return found.stdout.strip() or "unknown"


def proved(crate: str) -> pathlib.Path | None:
    """Returns the program or library that the proofs built, or None."""
    program = CRATES / crate / "out" / ("libheskavo_c.a" if crate == "heskavo_c" else crate)
    return program if program.exists() else None


def stale_source(crate: str, program: pathlib.Path) -> str | None:
    """Returns a source that has changed since the proved program was built, or None. Records the checksums of the sources once no source is newer than the program."""
    record = program.with_name(f"{crate}.sources")
    if record.exists() and record.stat().st_mtime > program.stat().st_mtime:
        return None if sources.is_current(record) else sources.changed_file(record)
    newer = sources.newer_file(crate, program)
    if newer is None:
        record.write_text(sources.sums(crate))
    return newer


def describe(crate: str) -> None:
    """Prints which program tools/rbhost runs, its path, and how it was built."""
    program, installed, build = proved(crate), shutil.which(crate), Build(crate, False)
    if program is not None:
        when = datetime.datetime.fromtimestamp(program.stat().st_mtime).strftime("%Y-%m-%d %H:%M")
        print(f"proved {program}\nbuilt {when} by rt, which builds only what is proved, with optimization")
        stale = stale_source(crate, program)
        if stale is not None:
            print(f"older than {stale}")
    elif installed is not None:
        version = subprocess.run([installed, "--version"], capture_output=True, text=True, check=False).stdout.strip()
        print(f"installed {installed}\nbuilt by tools/install: {version}")
    else:
        print(f"unproved {build.program}")
        print(
            build.how.read_text().rstrip()
            if build.is_current()
            else "is not built yet, or its sources have changed; the next call builds it"
        )


def find(crate: str) -> pathlib.Path:
    """Returns the proved program, with a warning if a source has changed since, or the one without proof, which is built if necessary."""
    program = proved(crate)
    if program is None:
        return unproved(crate)
    stale = stale_source(crate, program)
    if stale is not None:
        say(f"the proved program is older than {stale}; rt run in crates/{crate} proves and builds it again")
    return program


def unproved(crate: str, is_sanitized: bool = False) -> pathlib.Path:
    """Returns the program without proof, which is built if it does not exist or a source has changed."""
    build = Build(crate, is_sanitized)
    if not build.is_current():
        build.make()
    return build.program


def running_rbhost() -> str:
    """Returns the path of the program that tools/rbhost runs, which builds it if there is none. A warning that it is old is printed once."""
    tool = ROOT / "tools" / "rbhost"
    subprocess.run([tool, "--version"], check=True, stdout=subprocess.DEVNULL)
    which = subprocess.run([tool, "--which"], check=True, stdout=subprocess.PIPE, text=True)
    return which.stdout.splitlines()[0].split(" ", 1)[1]
