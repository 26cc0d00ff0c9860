"""Runs workers over one ring in every order of their steps, and compares the result of each order with a plain ring.

`rb_trials orders` opens a world for each order, and prints the result of each worker's program, the ring's positions
and counts, and each record that was taken. This module has a plain implementation of the same: an interpreter of the
few instructions that the cases use, and a ring as a list of records, both written independently of the crates. It
prints the number of orders of each case and how many of them differ, and its status is 1 if one does.
"""
import argparse
import collections
import functools
import itertools
import math
import os
import pathlib
import struct
import subprocess
import sys

from heskavo.repository import ROOT, proved_program

SIZE = 4096

# The results below a state are cached if at most this many steps are left.
KEPT_STEPS = 6

# Reserves a record of eight bytes, and submits 42 if it was granted; the same with a length of which only one fits; and the
# first with a discard instead of the submit.
SUBMIT_42 = "".join((ROOT / "examples" / "submit_42.hex").read_text().split())
SUBMIT_WIDE = SUBMIT_42.replace("b702000008000000", "b7020000f8070000")
DISCARD_42 = SUBMIT_42.replace("8500000084000000", "8500000085000000")
DISCARD_WIDE = SUBMIT_WIDE.replace("8500000084000000", "8500000085000000")

# Outputs the eight bytes 43 from the stack, and ends with the helper's answer.
OUTPUT_43 = (
    "7a0af8ff2b000000 bfa2000000000000 07020000f8ffffff 18510000000000000000000000000000 b703000008000000 b704000000000000"
    "8500000082000000 9500000000000000"
).replace(" ", "")

# Reserves records of 1,000 and 2,000 bytes, discards the second, and submits the first with 44; if one is not granted it continues
# without it. A ring has room for at most three of the records of three workers.
TWO_RECORDS = (
    "18510000000000000000000000000000 b7020000e8030000 b703000000000000 8500000083000000 15000e0000000000 bf06000000000000"
    "18510000000000000000000000000000 b7020000d0070000 b703000000000000 8500000083000000 1500030000000000 bf01000000000000"
    "b702000000000000 8500000085000000 7a0600002c000000 bf61000000000000 b702000000000000 8500000084000000 b700000000000000"
    "9500000000000000"
).replace(" ", "")

# The number of turns in each step of a worker: single turns; up to and including each call, since no instruction between two calls touches a ring;
# and each call by itself.
TURNS_OF_11 = [1] * 11
TURNS_OF_8 = [1] * 8
BY_CALLS = [4, 7]
AROUND_CALLS = [3, 1, 4, 1, 2]

# The takes of the consumer: how many anywhere in an order, how many after each step, and how many at its end.
Case = collections.namedtuple("Case", "name anywhere behind last workers")
CASES = [
    Case("two submit, turn by turn, a take after each", 0, 1, 0, [(TURNS_OF_11, SUBMIT_42)] * 2),
    Case("two submit, room for one, turn by turn, a take after each", 0, 1, 0, [(TURNS_OF_11, SUBMIT_WIDE)] * 2),
    Case("two submit, room for one, turn by turn, a take anywhere", 1, 0, 2, [(TURNS_OF_11, SUBMIT_WIDE)] * 2),
    Case("two submit, room for one, by calls, four takes", 4, 0, 0, [(BY_CALLS, SUBMIT_WIDE)] * 2),
    Case("two output, turn by turn, two takes", 2, 0, 0, [(TURNS_OF_8, OUTPUT_43)] * 2),
    Case("three discard, by calls, three takes", 3, 0, 0, [(BY_CALLS, DISCARD_42)] * 3),
    Case("three discard, room for one, by calls, three takes", 3, 0, 0, [(BY_CALLS, DISCARD_WIDE)] * 3),
    Case("three discard, room for one, around calls, a take after each", 0, 1, 0, [(AROUND_CALLS, DISCARD_WIDE)] * 3),
    Case(
        "submit, discard, output, by calls, three takes",
        3,
        0,
        0,
        [(BY_CALLS, SUBMIT_42), (BY_CALLS, DISCARD_42), ([8], OUTPUT_43)],
    ),
    Case(
        "two submit beside a busy record, by calls, three takes",
        3,
        0,
        0,
        [([4], SUBMIT_42)] + [(BY_CALLS, SUBMIT_42)] * 2,
    ),
    Case("three submit and discard, by calls, two takes", 2, 0, 0, [([4, 6, 4, 6], TWO_RECORDS)] * 3),
]

Record = collections.namedtuple("Record", "position worker serial length status data")
Ring = collections.namedtuple("Ring", "producer consumer refused records front taken")
Worker = collections.namedtuple("Worker", "unit registers stack")
State = collections.namedtuple("State", "workers ring")

EMPTY_RING = Ring(0, 0, 0, (), 0, "")
AGAIN = (1 << 64) - 11
STACK = 512


def span(length: int):
    """Returns the bytes of the ring that a record takes: its header and its payload, rounded up to a multiple of eight."""
    return (length + 15) // 8 * 8


def reserve(ring, worker: int, length: int):
    """Returns the ring after a reservation, and the record's index in the list, or None if there is no room."""
    end = ring.producer + span(length)
    if end - ring.consumer > SIZE - 1:
        return ring._replace(refused=ring.refused + 1), None
    serial = sum(record.worker == worker for record in ring.records)
    record = Record(ring.producer, worker, serial, length, "busy", b"")
    return ring._replace(producer=end, records=ring.records + (record,)), len(ring.records)


def change(ring, place, **changes):
    """Returns the ring with the record at an index replaced."""
    records = list(ring.records)
    records[place] = records[place]._replace(**changes)
    return ring._replace(records=tuple(records))


def take(ring):
    """Returns the ring after a take."""
    if ring.front == len(ring.records) or ring.records[ring.front].status == "busy":
        return ring
    record = ring.records[ring.front]
    if record.status == "waiting":
        found, status = (
            f" took {record.position} {record.worker} {record.serial} {record.length} {record.data.hex()}",
            "consumed",
        )
    else:
        found, status = f" skipped {record.position} {record.length}", "discarded"
    ring = change(ring, ring.front, status=status)
    return ring._replace(consumer=record.position + span(record.length), front=ring.front + 1, taken=ring.taken + found)


def put(data, offset: int, value):
    """Returns bytes with eight of them replaced at an offset, without trailing zeros."""
    data = data.ljust(offset + 8, b"\0")
    return (data[:offset] + struct.pack("<q", value) + data[offset + 8 :]).rstrip(b"\0")


def call(number: int, ring, worker: int, own):
    """Returns the effect of a helper call: the ring after it, and the value of register 0."""
    first, second = own.registers[1], own.registers[2]
    if number == 130:
        length, offset = own.registers[3], second[1]
        ring, place = reserve(ring, worker, length)
        if place is None:
            return ring, AGAIN
        data = own.stack.ljust(STACK, b"\0")[offset : offset + length].rstrip(b"\0")
        return change(ring, place, status="waiting", data=data), 0
    if number == 131:
        ring, place = reserve(ring, worker, second)
        return ring, 0 if place is None else ("record", place)
    return change(ring, first[1], status="waiting" if number == 132 else "discarded"), None


@functools.lru_cache(None)
def unit_of(program, unit: int):
    """A unit of a program: operation, destination, source, offset and immediate."""
    operation, registers, offset, immediate = struct.unpack("<BBhi", bytes.fromhex(program[16 * unit : 16 * unit + 16]))
    return operation, registers & 15, registers >> 4, offset, immediate


def turn(program, ring, worker: int, own):
    """Returns the ring and the worker after one instruction; a worker whose program has ended has its result instead of its registers."""
    if own.unit is None:
        return ring, own
    operation, to, source, offset, immediate = unit_of(program, own.unit)
    registers, stack, unit = list(own.registers), own.stack, own.unit + 1
    if operation == 0x95:
        return ring, Worker(None, registers[0], stack)
    if operation == 0x18:
        registers[to], unit = "ring", unit + 1
    elif operation == 0xB7:
        registers[to] = immediate
    elif operation == 0xBF:
        registers[to] = registers[source]
    elif operation == 0x07:
        registers[to] = (registers[to][0], registers[to][1] + immediate)
    elif operation == 0x15:
        unit += offset if registers[to] == immediate else 0
    elif operation == 0x7A:
        kind, place = registers[to]
        if kind == "stack":
            stack = put(stack, place + offset, immediate)
        else:
            ring = change(ring, place, data=put(ring.records[place].data, offset, immediate))
    elif operation == 0x85:
        ring, registers[0] = call(immediate, ring, worker, own)
        registers[1:6] = [None] * 5
    else:
        raise ValueError(f"operation {operation:#x}")
    return ring, Worker(unit, tuple(registers), stack)


def go(case, state, letter, left):
    """Returns the state after the next step of a letter, which is a worker's number, or the consumer's as the last one."""
    workers, ring = state
    if letter < len(case.workers):
        turns, program = case.workers[letter]
        own = workers[letter]
        for _ in range(turns[len(turns) - left[letter]]):
            ring, own = turn(program, ring, letter, own)
        workers = workers[:letter] + (own,) + workers[letter + 1 :]
    else:
        ring = take(ring)
    for _ in range(case.behind):
        ring = take(ring)
    return State(workers, ring)


def end_line(case, state):
    """Returns the line of the result of an order."""
    workers, ring = state
    for _ in range(case.last):
        ring = take(ring)
    texts = [f"done {own.registers} " if own.unit is None else f"at {own.unit} " for own in workers]
    count = collections.Counter(record.status for record in ring.records)
    return (
        f"{''.join(texts)}producer {ring.producer} consumer {ring.consumer} made {len(ring.records)} refused {ring.refused} "
        f"consumed {count['consumed']} discarded {count['discarded']} waiting {count['waiting']} busy {count['busy']}{ring.taken}\n"
    ).encode()


def steps_below(state, left, case):
    """Yields, for each letter that may come next, the state after it and the letters that are left."""
    for letter, count in enumerate(left):
        if count:
            yield go(case, state, letter, left), left[:letter] + (count - 1,) + left[letter + 1 :]


def ends_of(case):
    """Yields the lines of all orders of a case, as words of a dictionary, some at a time."""

    @functools.lru_cache(1 << 14)
    def kept(state, left):
        if not any(left):
            return [end_line(case, state)]
        return [line for below in steps_below(state, left, case) for line in kept(*below)]

    def ends(state, left):
        if sum(left) <= KEPT_STEPS:
            yield kept(state, left)
        else:
            for below in steps_below(state, left, case):
                yield from ends(*below)

    first = Worker(0, (None,) * 10 + (("stack", STACK),), b"")
    return ends(State((first,) * len(case.workers), EMPTY_RING), letters_of(case))


def letters_of(case):
    """Returns how often each letter occurs in an order."""
    return tuple(len(turns) for turns, _ in case.workers) + (case.anywhere,)


def orders_of(case):
    """Returns the number of orders."""
    counts = letters_of(case)
    return math.factorial(sum(counts)) // math.prod(map(math.factorial, counts))


def compare(program, case):
    """Returns how many orders the program explored, how many of them differ, and the first of these with both lines."""
    words = ["orders", str(case.anywhere), str(case.behind), str(case.last)]
    for turns, text in case.workers:
        words += [",".join(map(str, turns)), text]
    child = subprocess.Popen([program] + words, stdin=subprocess.DEVNULL, stdout=subprocess.PIPE)
    orders, wrong, first = 0, 0, None
    for wanted in ends_of(case):
        found = list(itertools.islice(child.stdout, len(wanted)))
        if found != wanted:
            for place, (one, other) in enumerate(itertools.zip_longest(found, wanted)):
                if one != other:
                    wrong, first = wrong + 1, first or (orders + place, one, other)
        orders += len(found)
    beyond = sum(1 for _ in child.stdout)
    if child.wait() != 0:
        sys.exit(f"{case.name}: {program} ended with {child.returncode}")
    return orders + beyond, wrong + beyond, first


def add_arguments(parser: argparse.ArgumentParser) -> None:
    """Adds the program."""
    default = proved_program("rb_trials")
    parser.add_argument(
        "program", metavar="PROGRAM", nargs="?", default=str(default), help="a built rb_trials; by default the gate's"
    )


def run(asked: argparse.Namespace) -> int:
    """Compares each order of each case."""
    program = asked.program
    if not os.access(program, os.X_OK):
        sys.exit(f"{program}: run the gate first, or give a program")
    failed = False
    print(f"{'case':66} {'orders':>10} differences")
    for case in CASES:
        orders, wrong, first = compare(program, case)
        well = wrong == 0 and orders == orders_of(case)
        print(f"{case.name:66} {orders:10} {wrong}{'' if well else ' WRONG'}", flush=True)
        if orders != orders_of(case):
            print(f"      there are {orders_of(case)} orders")
        if first:
            print(f"      order {first[0]}: found {first[1]!r}, expected {first[2]!r}")
        failed = failed or not well
    return 1 if failed else 0
