"""How the tests below tools/tests are run: by pytest, with a Python that has it."""
import functools
import os
import shutil
import subprocess
import sys

from heskavo.repository import TOOLS

# Debian's Python has Debian's packages, among them those that some tests need.
PYTHONS = ("/usr/bin/python3", sys.executable)
PACKAGE = "python3-pytest"


def python_with_pytest() -> str | None:
    """Returns the path of a Python that has pytest, or None."""
    check = [*("-c", "import pytest")]
    return next(
        (
            it
            for it in PYTHONS
            if shutil.which(it) and subprocess.run([it, *check], capture_output=True, check=False).returncode == 0
        ),
        None,
    )


@functools.cache
def python() -> str | None:
    """Returns the path of a Python that has pytest; installs Debian's package if there is none and this user may. Returns None if that fails."""
    found = python_with_pytest()
    if found is None and os.geteuid() == 0 and shutil.which("apt-get"):
        print(f"there is no pytest: installing {PACKAGE}", file=sys.stderr, flush=True)
        environment = {**os.environ, "DEBIAN_FRONTEND": "noninteractive"}
        for words in (["update", "-q"], ["install", "-q", "-y", "--no-install-recommends", PACKAGE]):
            subprocess.run(
                ["apt-get", *words], env=environment, stdout=subprocess.DEVNULL, stdin=subprocess.DEVNULL, check=False
            )
        found = python_with_pytest()
    return found


def command(*tests: str) -> list[str]:
    """Returns the command that runs tests, such as `test_header.py`, which prints 'N passed, M failed' at its end.

    Without pytest it is a command that says so. It runs the tests if they are plain functions, and fails otherwise.
    """
    found = python()
    if found is None:
        return [sys.executable, "-B", str(TOOLS / "heskavo" / "gate" / "plain_tests.py"), *tests]
    return [found, "-B", "-m", "pytest", "-q", "-rs", *(f"tools/tests/{test}" for test in tests)]
