"""The answers of rows over programs: `units`, `shape`, `verify`, `cost`, `run` and `compute`, by the plain model in this folder."""
from heskavo.rows.program_checks import Refused, verified
from heskavo.rows.program_code import Fault, decoded, insn_at, shaped
from heskavo.rows.program_costs import TooManyPaths, cost
from heskavo.rows.program_runs import Run, Stray
from heskavo.rows.program_values import jumps, value_of


def answers_units(code):
    """Returns the one answer of `units`, as a list."""
    try:
        insns = decoded(code)
    except Fault as fault:
        return [str(fault)]
    return [f"{len(code) // 8} units and back"] if insns else []


def answers_shape(code):
    try:
        shaped(decoded(code))
    except Fault as fault:
        return [str(fault)]
    return [f"shaped {len(code) // 8} units {code.hex()}"]


def refusals(code, context, rings: int):
    """Returns the instructions of an accepted program, and the answers of a refused one: one for each rule that is broken."""
    if context > 65_536 or rings > 16:
        return None, ["out of bounds"]
    try:
        return verified(code, context, rings), []
    except Fault as fault:
        return None, [str(fault)]
    except Refused as refused:
        return None, [f"refused verify V{rule} unit {refused.unit}" for rule in sorted(refused.rules)]


def calls_of(insns):
    return sum(insn.kind == "call" for insn in insns.values())


def answers_verify(code, context, rings: int):
    insns, answers = refusals(code, context, rings)
    if insns is None:
        return answers
    return [f"accepted units {len(code) // 8} calls {calls_of(insns)} context {context} rings {rings}"]


def answers_cost(code, context, rings: int):
    """Returns the one answer of `cost`, or None if the program has too many paths to enumerate."""
    insns, answers = refusals(code, context, rings)
    if insns is None:
        return answers
    try:
        steps, calls, costs = cost(code, context, rings)
    except TooManyPaths:
        return None
    each = (
        f"; ring {ring} records {records} bytes {size} held {held} {held_bytes}"
        for ring, (records, size, held, held_bytes) in enumerate(costs)
    )
    return [f"steps {steps} calls {calls}{''.join(each)}"]


def answers_run(code, limits, context, given):
    insns, answers = refusals(code, *limits)
    if insns is None:
        return answers
    if calls_of(insns) > len(given):
        return ["too few answers"]
    if len(context) != limits[0]:
        return ["fault ContextLength"]
    run = Run(insns, context, (answer == "y" for answer in given))
    try:
        end = f"result {run.result():#x}"
    except Stray:
        end = "fault Stray"
    return ["; ".join([end, *run.calls, *([f"bytes {run.given_back.hex()}"] if run.given_back else [])])]


def answers_compute(dst: int, src: int, code):
    insn = insn_at(code, 0)
    if insn.kind == "branch":
        return ["jumps" if jumps(insn, dst, src) else "goes on"]
    if insn.kind not in ("mov", "binary", "neg", "end"):
        return ["computes nothing"]
    return [f"{value_of(insn, dst, src):#x}"]
