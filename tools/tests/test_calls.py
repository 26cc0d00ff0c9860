"""Tests how the calls of a record are counted, over two small profiles."""
from heskavo.trials import calls

PROFILE = """\
fn=(1) rb_interp::program_run::serve_reserve::<#0f>
cfn=(2) rb_jobs::helpers::reserve
calls={each} 0
0 1
cfn=(3) rb_jobs::Destruct::drop
calls={each} 0
fn=(2)
cfn=(4) core::option::map
calls={twice} 0
cfn=(5) rb_jobs::helpers::grow
calls=3 0
fn=(4)
cfn=(6) rb_lend::sheet::len
calls={twice} 0
fn=(7) rb_workers::threads::run
cfn=(6)
calls={each} 0
"""


def of(records: int) -> calls.Calls:
    """Returns the calls of a run with so many records."""
    return calls.read(PROFILE.format(each=records, twice=2 * records).splitlines())


def test_calls_that_every_record_makes_are_counted() -> None:
    """Not those of a drop, those that a run makes three times, and those of a thread's own."""
    found = calls.report(calls.of_a_record(of(10), of(30), 20))
    assert found == [
        "calls 3, of 2 functions",
        "from another crate 3, of 2 functions",
        "    rb_jobs::helpers::reserve 1",
        "    rb_lend::sheet::len 2",
    ]
