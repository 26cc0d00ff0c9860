"""Tests the checks of the documents: tables, and the calls and clauses of PROOF_STATUS.md."""
import pytest

from heskavo.contracts.public_calls import Call, first_sentence
from heskavo.documents import layout, proof_status
from heskavo.documents.trusted import Size

CALLS = (
    Call("rb_ring", "Ring::open", ["size", "start"], "Returns an open ring."),
    Call("rb_ring", "close", ["law"], "States that a ring closes:"),
    Call("rb_ring", "Ring::len", [], "Returns the length."),
)
PAGE = """\
# Proof status

## rb_ring: rings

- `Ring::open` (`size`), `Ring::len`: opened, and its length.

More about rings.

## Neither proved nor tested

- `close`
"""
COMPLETED = """\
# Proof status

## rb_ring: rings

- `Ring::open` (`size`, `start`), `Ring::len`: opened, and its length.
- `close` (`law`): states that a ring closes.

More about rings.

## Neither proved nor tested

- `close`
"""


@pytest.mark.parametrize(
    ("table", "faults"),
    [
        ("| a | b |\n|---|---|\n| 1 | 2 |\n", []),
        ("| a | b |\n|---|---|\n| 1 | 2 |\n\n| 3 | 4 |\n", [(5, "is a table's row without a header")]),
        (
            "| a | b |\n|---|---|\n| 1 |\n| 1 | 2 | 3 |\n",
            [(3, "has 1 cells, and the table's header 2"), (4, "has 3 cells, and the table's header 2")],
        ),
        ("| a | b |\n|---|---|\n| `x | y` | \\| |\n", []),
        ("```text\n| a |\n| b | c |\n```\n", []),
    ],
)
def test_a_table_has_a_header_and_rows_of_its_cells(table: str, faults: list[tuple[int, str]]) -> None:
    assert list(layout.faults_of(table)) == faults


def test_a_long_line_is_reported() -> None:
    assert list(layout.faults_of("x" * 121)) == [(1, "has 121 columns")]


@pytest.fixture
def sources(monkeypatch: pytest.MonkeyPatch) -> None:
    """A crate with three public calls in place of the repository's."""
    monkeypatch.setattr(proof_status, "public_calls", lambda: CALLS)
    monkeypatch.setattr(proof_status, "libraries_of_crates", lambda: {"rb_ring": []})
    monkeypatch.setattr(proof_status, "clauses_by_call", lambda: {call.path: {*call.clauses} for call in CALLS})
    monkeypatch.setattr(
        proof_status, "words_of_sources", lambda: {"Ring", "open", "len", "close", "size", "start", "law"}
    )


@pytest.mark.usefixtures("sources")
def test_missing_calls_and_clauses_are_added() -> None:
    lacking: list[str] = []
    assert proof_status.with_missing(proof_status.sections_of(PAGE), lacking) == COMPLETED
    assert lacking == [
        "PROOF_STATUS.md does not name rb_ring::Ring::open (start)",
        "PROOF_STATUS.md does not name rb_ring::close (law)",
    ]


@pytest.mark.usefixtures("sources")
def test_a_complete_page_stays_as_it_is() -> None:
    lacking: list[str] = []
    assert proof_status.with_missing(proof_status.sections_of(COMPLETED), lacking) == COMPLETED
    assert lacking == []


@pytest.mark.usefixtures("sources")
def test_calls_and_clauses_that_are_gone_are_reported() -> None:
    page = COMPLETED.replace("`start`", "`begin`").replace("`close` (", "`shut` (")
    assert list(proof_status.stale(proof_status.sections_of(page))) == [
        "PROOF_STATUS.md:5 names a clause that Ring::open does not have: begin",
        "PROOF_STATUS.md:6 names a call that does not exist: shut",
    ]


def test_the_first_sentence_ends_at_a_full_stop_before_a_capital() -> None:
    assert first_sentence("Returns 1.5 times n, e.g. 3. It never fails.") == "Returns 1.5 times n, e.g. 3."


def test_the_size_of_a_definition_has_no_indentation() -> None:
    assert Size.of("span : N\n  span = 8") == Size(2, 16)
