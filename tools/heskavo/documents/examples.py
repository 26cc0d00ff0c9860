"""Checks that the examples in comments are lines of code that a test runs.

Prints each difference, and 'N examples, M differences'; the status is 1 if there is one.

A comment below crates/ or include/ names the code of its example with the words

    The test `NAME` of `CRATE` runs these lines:          (a test function below crates/CRATE/src)
    The function `NAME` of FILE has these lines:          (a function of a C program that a test builds and runs)

and the next code block of the comment is the example. Each of its lines must be a line of that function, in the same
order; the function may have further lines. Comments, indentation and line breaks within brackets do not count. The
files of REQUIRED must have an example, and each test function named example_of_.. below the crates of SHOWN must be
named by a comment.
"""
import argparse
import pathlib
import re
from collections.abc import Iterator
from dataclasses import dataclass

from heskavo.repository import ROOT

REQUIRED = ["include/heskavo_host.h"]
SHOWN = ["rb_stream_tests"]
NAMED = re.compile(r"The (?:test|function) `(\w+)` of `?([\w./-]+?)`? (?:runs|has) these lines:")
FEWEST_LINES = 5


@dataclass
class Example:
    """An example: the comment's file and line, the function that it names, and its code."""

    file: pathlib.Path
    line: int
    function: str
    place: str
    code: str


def comment_lines(text: str, is_c: bool) -> list[str]:
    """Returns a file's lines without the marks of comments; lines of code are empty."""
    mark = re.compile(r"^ ?\*(?!/) ?(.*)$") if is_c else re.compile(r"^\s*//[/!] ?(.*)$")
    return [found[1] if (found := mark.match(line)) else "" for line in text.splitlines()]


def block_after(lines: list[str], start: int) -> list[str]:
    """Returns the code block after a line: between two fences, or indented by four spaces."""
    at = start
    while at < len(lines) and not lines[at].strip():
        at += 1
    block: list[str] = []
    if at < len(lines) and lines[at].startswith("```"):
        for line in lines[at + 1 :]:
            if line.startswith("```"):
                return block
            block.append(line)
        return []
    for line in lines[at:]:
        if line.strip() and not line.startswith("    "):
            break
        block.append(line)
    return block


def examples() -> Iterator[Example]:
    """Yields each example of the repository."""
    files = [*ROOT.glob("crates/*/src/**/*.rt"), *ROOT.glob("include/*.h")]
    for file in sorted(files):
        text = file.read_text()
        if " these lines:" not in text:
            continue
        lines = comment_lines(text, file.suffix == ".h")
        for number, line in enumerate(lines):
            joined = f"{lines[number - 1]} {line}" if number and not line.lstrip().startswith("The ") else line
            if " these lines:" in line and (found := NAMED.search(joined)):
                yield Example(file, number + 1, found[1], found[2], "\n".join(block_after(lines, number + 1)))


def source_of(example: Example) -> str | None:
    """Returns the text of the function that an example names, with its end, or None if there is none."""
    if "/" in example.place:
        files = [ROOT / example.place]
        start = re.compile(rf"(?m)^[\w* ]*\b{example.function}\([^;]*?\)\s*{{$")
    else:
        files = sorted((ROOT / "crates" / example.place / "src").glob("**/*.rt"))
        start = re.compile(rf"(?m)^#\[test\]\nfn {example.function}\(")
    for file in files:
        text = file.read_text() if file.is_file() else ""
        if found := start.search(text):
            return text[found.start() : text.index("\n}\n", found.start())]
    return None


def statements(code: str) -> list[str]:
    """Returns the code without comments, divided after each semicolon and brace, with single spaces and no others."""
    code = re.sub(r"/\*(?s:.*?)\*/", "", code)
    code = re.sub(r"(?m)(^|\s)//.*$", "", code)
    code = re.sub(r",\s*([}\])])", r"\1", re.sub(r"\s+", " ", code))
    parts = re.findall(r"[^;{}]*[;{}]|[^;{}]+$", re.sub(r"\s*([^\w\s]+)\s*", r"\1", code))
    return [part.strip() for part in parts if part.strip()]


def first_missing(wanted: list[str], having: list[str]) -> str | None:
    """Returns the first of the wanted statements that does not follow in the others, or None."""
    at = 0
    for statement in wanted:
        if statement not in having[at:]:
            return statement
        at = having.index(statement, at) + 1
    return None


def differences_of(example: Example) -> Iterator[str]:
    """Yields what is wrong with an example."""
    where = f"{example.file.relative_to(ROOT)}:{example.line}"
    source = source_of(example)
    if source is None:
        yield f"{where}: {example.place} has no function {example.function}"
    elif len(example.code.strip().splitlines()) < FEWEST_LINES:
        yield f"{where}: the example has fewer than {FEWEST_LINES} lines"
    elif (missing := first_missing(statements(example.code), statements(source))) is not None:
        yield f"{where}: {example.function} does not have, after the lines before it: {missing}"


def add_arguments(parser: argparse.ArgumentParser) -> None:
    """Adds nothing."""


def run(asked: argparse.Namespace) -> int:
    """Prints the differences."""
    found = list(examples())
    wrong = [difference for example in found for difference in differences_of(example)]
    shown = {str(example.file.relative_to(ROOT)) for example in found}
    wrong += [f"{file}: no example that a test runs" for file in REQUIRED if file not in shown]
    named = {example.function for example in found}
    for crate in SHOWN:
        for file in sorted((ROOT / "crates" / crate / "src").glob("**/*.rt")):
            tests = re.findall(r"(?m)^fn (example_of_\w+)\(", file.read_text())
            wrong += [f"{file.relative_to(ROOT)}: no comment shows {test}" for test in tests if test not in named]
    for difference in wrong:
        print(difference)
    print(f"{len(found)} examples, {len(wrong)} differences")
    return 1 if wrong else 0
