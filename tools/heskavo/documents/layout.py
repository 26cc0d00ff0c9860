"""The layout of the documents: lines, tables, charts, links, and the files that they name."""
import re
from collections.abc import Iterator
from pathlib import Path

from heskavo.bench import charts
from heskavo.documents.numbers import pages, text_of
from heskavo.repository import ROOT, libraries_of_crates

COLUMNS = 120


def prose(text: str) -> Iterator[tuple[int, str]]:
    """Yields the lines of a page outside its code blocks, each with its number."""
    is_code = False
    for number, line in enumerate(text.splitlines(), 1):
        if line.startswith("```"):
            is_code = not is_code
        elif not is_code:
            yield number, line


def is_row(line: str) -> bool:
    """Returns whether a line is a row of a table."""
    return line.startswith("|")


def is_rule(line: str) -> bool:
    """Returns whether a line is the delimiter row of a table."""
    return re.fullmatch(r"\|(?: *:?-+:? *\|)+", line) is not None


def cells(row: str) -> int:
    """Returns the number of cells of a row; a bar in a code span or after a backslash does not separate two."""
    return re.sub(r"`[^`]*`|\\.", "", row.strip()).count("|") - 1


def table_faults(lines: dict[int, str]) -> Iterator[tuple[int, str]]:
    """Yields the rows of a page's tables that begin without a header, or have other cells than it, with the fault of each."""
    wanted = 0
    for number, line in lines.items():
        if not is_row(line):
            continue
        if not is_row(lines.get(number - 1, "")):
            wanted = cells(line)
            if not is_rule(lines.get(number + 1, "")):
                yield number, "is a table's row without a header"
        elif cells(line) != wanted:
            yield number, f"has {cells(line)} cells, and the table's header {wanted}"


def faults_of(text: str) -> Iterator[tuple[int, str]]:
    """Yields the lines of a page that are too long, and the faults of its tables."""
    lines = dict(prose(text))
    for number, line in lines.items():
        if len(line) > COLUMNS:
            yield number, f"has {len(line)} columns"
    yield from table_faults(lines)


def laid_out() -> Iterator[str]:
    """Yields the faults of all pages."""
    for path in pages():
        text = path.read_text()
        for number, fault in faults_of(text):
            yield f"{path.name}:{number} {fault}: {text.splitlines()[number - 1][:60]} .."


def drawn() -> Iterator[str]:
    """Yields the charts that do not match the table."""
    rows = charts.rows_in(text_of("PERFORMANCE.md"))
    for name, picture in (("ratios.svg", charts.ratios(rows)), ("jobs.svg", charts.jobs(rows))):
        if picture != text_of(name):
            yield f"{name} does not match PERFORMANCE.md: tools/bench --svg docs --table docs/PERFORMANCE.md draws it"


def named() -> Iterator[str]:
    """Yields files that are named in code spans and do not exist, and crates that the map omits."""
    folders = [
        *ROOT.glob("crates/*/src"),
        *ROOT.glob("crates/*/specs"),
        *ROOT.glob("crates/*/proofs"),
        ROOT / "tools",
        ROOT / "examples",
    ]
    there = {path.name for folder in folders for path in folder.rglob("*")}
    for path in pages():
        for span in set(re.findall(r"`([\w./]*\w\.(?:rt|antt|py|c))`", path.read_text())):
            if Path(span).name not in there and not span.startswith("_"):
                yield f"{path.name} names {span}, which does not exist"
    for crate in libraries_of_crates():
        if f"`{crate}`" not in text_of("ARCHITECTURE.md"):
            yield f"ARCHITECTURE.md has no {crate}"


def tools_named() -> Iterator[str]:
    """Yields the tools and files below tools/ that a document, the gate or a source of a crate names and that do not exist."""
    places = [*pages(), ROOT / ".ci" / "run", ROOT / "docs" / "rbhost.1", *(ROOT / "tools").rglob("*.py")]
    places += [path for kind in ("src/**/*.rt", "specs/**/*.antt", "stdin") for path in ROOT.glob(f"crates/*/{kind}")]
    for path in places:
        for name in sorted(set(re.findall(r"(?<![\w/.])tools/[a-z][\w./-]*\w", path.read_text()))):
            if path.name != "CHANGELOG.md" and not (ROOT / name).exists():
                yield f"{path.relative_to(ROOT)} names {name}, which does not exist"


def linked() -> Iterator[str]:
    """Yields links to files and headings that do not exist."""
    for path in pages():
        for target, heading in set(re.findall(r"\]\((?!http)([^)#]*)(?:#([^)]*))?\)", path.read_text())):
            place = (path.parent / target) if target else path
            heads = re.findall(r"(?m)^#+ (.*)", place.read_text()) if heading and place.is_file() else []
            if not place.exists() or (
                heading and heading not in [re.sub(r"[^\w -]", "", it.lower()).replace(" ", "-") for it in heads]
            ):
                yield f"{path.name} links to {target}{'#' * bool(heading)}{heading}, which does not exist"
