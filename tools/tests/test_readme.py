"""Runs each command block of README.md and docs/TUTORIAL.md in order, and compares its output with the text after it.

A command block begins with ```sh and is run by bash at the top of the repository. Its output, standard output and error
together, must be the ```text block that follows before the next ```sh block; without such a block any output is
accepted. Files below /tmp are in a folder that the run creates and removes. An HTML comment before a block may restrict
it: `not run: WHY`; `needs: TOOLS`, which skips the block if one of the tools is not on the path; and `long, needs:
TOOLS`, which also skips it without --long. With --clone everything runs in a fresh clone of what is committed, with the
first build of the program. The checksum of the logic that README.md names must be that of the kit, which `rt version`
prints.
"""
import dataclasses
import difflib
import pathlib
import re
import shutil
import subprocess

import pytest

from heskavo.repository import ROOT

FILES = ("README.md", "docs/TUTORIAL.md")

# A block may build the program first.
SECONDS = 900


@dataclasses.dataclass
class Block:
    """A command block: its first line number, the comment before it, its commands, and the expected text, if there is one."""

    name: str
    said: str
    commands: str
    printed: str | None = None

    def why_not(self, is_long: bool) -> str | None:
        """Returns the reason why the block is skipped, or None."""
        how, _, rest = self.said.partition(": ")
        if how == "not run":
            return rest
        if how == "long, needs" and not is_long:
            return "it takes long"
        missing = [tool for tool in rest.split() if shutil.which(tool) is None] if how.endswith("needs") else []
        return f"no {', '.join(missing)}" if missing else None


def blocks_of(file: str, text: str) -> list[Block]:
    """Returns the blocks of a page."""
    found: list[Block] = []
    lines: list[str] = []
    said, at = "", 0
    fence: str | None = None
    for number, line in enumerate(text.splitlines(), 1):
        if fence is None and line.startswith("```"):
            fence, at, lines = line[3:], number, []
        elif fence is not None and line == "```":
            body = "".join(f"{it}\n" for it in lines)
            if fence == "sh":
                found.append(Block(f"{file}:{at}", said, body))
                said = ""
            elif fence == "text" and found and found[-1].printed is None:
                found[-1].printed = body
            fence = None
        elif fence is not None:
            lines.append(line)
        else:
            comment = re.fullmatch(r"<!-- (.*) -->", line)
            said = comment[1] if comment else said if not line else ""
    return found


def run(block: Block, top: pathlib.Path, scratch: pathlib.Path) -> list[str]:
    """Runs a block, and returns what is wrong with it, as lines."""

    def here(text: str) -> str:
        return text.replace("/tmp/", f"{scratch}/")

    try:
        ran = subprocess.run(
            ["bash", "-c", here(block.commands)],
            cwd=top,
            stdin=subprocess.DEVNULL,
            stdout=subprocess.PIPE,
            stderr=subprocess.STDOUT,
            timeout=SECONDS,
        )
    except subprocess.TimeoutExpired:
        return [f"did not end within {SECONDS} seconds"]
    # The reports of tools/rbhost about its own work are not output of the block.
    printed = "".join(
        it
        for it in ran.stdout.decode(errors="replace").splitlines(keepends=True)
        if not it.startswith("tools/rbhost: ")
    )
    if block.printed is None:
        return [] if ran.returncode == 0 else [f"status {ran.returncode}", *printed.splitlines()[-10:]]
    wanted = here(block.printed)
    return list(difflib.unified_diff(wanted.splitlines(), printed.splitlines(), "expected", "found", lineterm=""))


BLOCKS = [block for file in FILES for block in blocks_of(file, (ROOT / file).read_text())]


@pytest.fixture(scope="module")
def top(request: pytest.FixtureRequest, tmp_path_factory: pytest.TempPathFactory) -> pathlib.Path:
    """The repository, or a fresh clone of it."""
    if not request.config.getoption("--clone"):
        return ROOT
    clone = tmp_path_factory.mktemp("clone") / "clone"
    subprocess.run(["git", "clone", "-q", "--depth", "1", f"file://{ROOT}", str(clone)], check=True)
    return clone


@pytest.fixture(scope="module")
def scratch(tmp_path_factory: pytest.TempPathFactory) -> pathlib.Path:
    """The folder in place of /tmp, which all blocks share."""
    return tmp_path_factory.mktemp("scratch")


def test_readme_names_the_logic_of_the_kit(top: pathlib.Path) -> None:
    named = set(re.findall(r"logic ([0-9a-f]{16})", (top / "README.md").read_text()))
    found = subprocess.run(["rt", "version"], capture_output=True, text=True, check=True).stdout.split()[-1]
    assert named == {found}


@pytest.mark.parametrize("block", BLOCKS, ids=lambda block: block.name)
def test_block(request: pytest.FixtureRequest, top: pathlib.Path, scratch: pathlib.Path, block: Block) -> None:
    left_out = block.why_not(request.config.getoption("--long"))
    if left_out:
        pytest.skip(left_out)
    differences = run(block, top, scratch)
    assert not differences, "\n".join(differences)
