"""Options and fixtures of the tests, and the line at their end that the gate counts."""
import os
import signal
from pathlib import Path
from typing import Any

import pytest
from stream_host import Host

from heskavo.program import builds, library


def pytest_addoption(parser: pytest.Parser) -> None:
    """Adds the options of all tests."""
    group = parser.getgroup("heskavo")
    group.addoption("--program", metavar="PROGRAM", help="a built rbhost (default: the one that tools/rbhost runs)")
    group.addoption(
        "--library", metavar="LIBRARY", type=Path, help="a libheskavo.a (default: the proved one, or one without proof)"
    )
    group.addoption(
        "--seconds", metavar="N", type=int, default=5, help="how long the long trials of the service run (5)"
    )
    group.addoption(
        "--runs", metavar="N", type=int, default=20_000, help="how often the agent over Linux runs its program (20,000)"
    )
    group.addoption("--long", action="store_true", help="also run the command blocks that take long")
    group.addoption("--clone", action="store_true", help="run the command blocks in a fresh clone of what is committed")


def pytest_configure(config: pytest.Config) -> None:
    """Lets the programs under test be interrupted: a shell has its background jobs ignore SIGINT, which they would inherit."""
    signal.signal(signal.SIGINT, signal.default_int_handler)


def pytest_terminal_summary(terminalreporter: Any) -> None:
    """Prints how many tests passed and failed."""
    counts = {kind: len(terminalreporter.stats.get(kind, ())) for kind in ("passed", "failed", "error")}
    terminalreporter.write_line(f"{counts['passed']} passed, {counts['failed'] + counts['error']} failed")


@pytest.fixture(scope="session")
def rbhost(request: pytest.FixtureRequest) -> str:
    """The path of a built rbhost."""
    given = request.config.getoption("--program")
    return os.path.abspath(given) if given else builds.running_rbhost()


@pytest.fixture(scope="session")
def libheskavo(request: pytest.FixtureRequest, tmp_path_factory: pytest.TempPathFactory) -> Path:
    """The path of a library for C: the given one, or the proved one if there is one, or else one that is built without proof."""
    given = request.config.getoption("--library")
    if given:
        return Path(given).resolve()
    return library.build(tmp_path_factory.mktemp("library"), is_proved=builds.proved("heskavo_c") is not None)


@pytest.fixture
def seconds(request: pytest.FixtureRequest) -> int:
    """How long the long trials of the service run."""
    return int(request.config.getoption("--seconds"))


@pytest.fixture
def host(rbhost: str, tmp_path: Path) -> Host:
    """A host over `rbhost stream` in a folder of its own."""
    return Host(rbhost, tmp_path)
