"""Runs real threads over shared rings repeatedly, and checks what came out of the rings against each worker's report.

A program that does not exist is skipped. For half of the seconds the two run alternately. `rbhost run --tape` runs a
program that outputs, submits and discards in turn, on 1 to 256 workers over a ring of 4,096 to 1,048,576 bytes. A job
that found no room in the ring's chapter made no record and was not refused by the ring, so the sum of a worker's
records and refusals may be less than its jobs. Each run is checked: the numbers of the workers add up to those of the
ring, nothing is left busy or waiting, and the tape, as `rbhost tape` prints it, has each worker's submitted records
once each, in the order of its jobs, with its number and the job's, and the reported number of discarded ones.
`rb_trials soak` runs up to eight rings in parallel, each with up to 256 workers of its own that output, reserve, submit
and discard records of random lengths, over small and large chapters; it checks each record's bytes and order itself,
and the sums of seats and rings, and binds the chapters of short runs. The other half is one long run of it, whose
memory is read from /proc once a second: it must not grow after the first minute, or after a third of the run if that is
shorter. All random choices follow from SEED, which is printed. Prints a line for each kind of run, with the highest
memory use, and ends with status 1 at the first difference.
"""
import argparse
import collections
import os
import pathlib
import random
import re
import struct
import subprocess
import sys
import tempfile
import time

from heskavo.repository import ROOT

WORKERS = (1, 2, 3, 4, 16, 64, 256)
SIZES = (4096, 8192, 65536, 1048576)
JOBS = 100000
SEED = 20261124

# For runs of rb_trials soak: workers of each ring, rings, and the room of a chapter in entries; and the number of steps of all workers of a ring.
LIBRARY_WORKERS = (1, 2, 4, 16, 64, 256)
RINGS = (1, 2, 4, 8)
ROOMS = (8, 64, 65536)
STEPS = {8: 4000, 64: 20000, 65536: 80000}
MOST_THREADS = 512
BOUND_STEPS = 20000

# The long run: workers, rings, size and room; the number of steps that are timed first; and the tolerated variation of memory, in bytes.
LONG = (4, 2, 65536, 65536)
TIMED_STEPS = 20000
UNSTEADY = 1 << 20

# By the last two bits of the job's number, at byte 8 of the context: 0 outputs the context, 1 and 3 reserve 16 bytes, write the context to
# them and submit, 2 reserves 64 bytes and discards them.
PROGRAM = b"""
bf16000000000000 7967080000000000 bf78000000000000 5708000003000000 15080f0000000000 1508160002000000
1851000000000000 0000000000000000 b702000010000000 b703000000000000 8500000083000000 1500060000000000
7961000000000000 7b10000000000000 7b70080000000000 bf01000000000000 b702000000000000 8500000084000000
b700000000000000 9500000000000000
1851000000000000 0000000000000000 bf62000000000000 b703000010000000 b704000000000000 8500000082000000
b700000000000000 9500000000000000
1851000000000000 0000000000000000 b702000040000000 b703000000000000 8500000083000000 1500030000000000
bf01000000000000 b702000000000000 8500000085000000 b700000000000000 9500000000000000
"""

WORKER_LINE = re.compile(r"worker (\d+) made (\d+) refused (\d+) submitted (\d+) discarded (\d+)")
RING_LINE = re.compile(r"ring made (\d+) consumed (\d+) discarded (\d+) waiting (\d+) busy (\d+)")
LIBRARY_LINE = re.compile(r"made (\d+) refused (\d+) submitted (\d+) discarded (\d+) chapters (\d+) bound (\d+)\n")
RECORD_LINE = re.compile(r"pos (\d+) len 16 ([0-9a-f]{32})")
DISCARDED_LINE = re.compile(r"pos (\d+) len 64 discarded")
SPANS = {"record": 24, "discarded": 72}

Told = collections.namedtuple("Told", "made refused submitted discarded")


class Difference(Exception):
    """The output differs from the report."""


def expect(holds, what) -> None:
    """Ends the soak if a condition does not hold."""
    if not holds:
        raise Difference(what)


def run_program(program, words, given):
    """Runs a command that must succeed over a file. Returns its output, its standard error of at most one line, and its peak memory in bytes."""
    with open(given, "rb") as standard_input:
        child = subprocess.Popen(
            [program] + words, stdin=standard_input, stdout=subprocess.PIPE, stderr=subprocess.PIPE
        )
    output, told = child.stdout.read(), child.stderr.read()
    _, status, used = os.wait4(child.pid, 0)
    child.returncode = status
    expect(status == 0, f"{' '.join(words)} ended with {status}")
    return output.decode(), told.decode(), used.ru_maxrss * 1024


def told_by(report, errors, workers: int, jobs: int):
    """Checks the report's own sums, and returns each worker's numbers; the count on standard error is that of the jobs that are in none of them."""
    lines = report.splitlines()
    expect(len(lines) == workers + 2, "the report has a different number of lines")
    told = []
    for number, line in enumerate(lines[:workers]):
        found = WORKER_LINE.fullmatch(line)
        expect(found and int(found[1]) == number, line)
        told.append(Told(*map(int, found.groups()[1:])))
        expect(told[-1].made == told[-1].submitted + told[-1].discarded, line)
    found = RING_LINE.fullmatch(lines[workers])
    expect(found, lines[workers])
    made, consumed, discarded, waiting, busy = map(int, found.groups())
    expect(waiting == 0 and busy == 0, lines[workers])
    expect(made == sum(one.made for one in told), lines[workers])
    expect(consumed == sum(one.submitted for one in told), lines[workers])
    expect(discarded == sum(one.discarded for one in told), lines[workers])
    expect(lines[workers + 1] == "strays 0", lines[workers + 1])
    unlogged = int(errors.split()[1]) if errors else 0
    expect(sum(one.made + one.refused for one in told) + unlogged == workers * jobs, errors)
    return told


def check_tape(lines: list[str], told, start: int) -> None:
    """Compares each record of the tape with the workers' numbers."""
    position, discarded = start, 0
    taken, last = collections.Counter(), collections.defaultdict(lambda: -1)
    for line in lines:
        found = RECORD_LINE.fullmatch(line)
        if found:
            worker, job = struct.unpack("<QQ", bytes.fromhex(found[2]))
            expect(worker < len(told) and job % 4 != 2 and last[worker] < job, line)
            taken[worker], last[worker] = taken[worker] + 1, job
            span = SPANS["record"]
        else:
            found = DISCARDED_LINE.fullmatch(line)
            expect(found, line)
            discarded, span = discarded + 1, SPANS["discarded"]
        expect(int(found[1]) == position, line)
        position += span
    expect(discarded == sum(one.discarded for one in told), "a different number of discarded records")
    for worker, one in enumerate(told):
        expect(taken[worker] == one.submitted, f"a different number of records of worker {worker}")


def soak_once(program, folder, workers: int, size: int):
    """Makes one run and checks it. Returns the number of its records, and its peak memory."""
    jobs = max(1, JOBS // workers)
    start = 8 * random.randrange(1 << 40)
    text, tape = os.path.join(folder, "program"), os.path.join(folder, "tape")
    with open(text, "wb") as file:
        file.write(PROGRAM)
    place = ["--size", str(size), "--start", str(start)]
    report, errors, memory = run_program(
        program, ["run", "--workers", str(workers), "--jobs", str(jobs)] + place + ["--tape", tape], text
    )
    told = told_by(report, errors, workers, jobs)
    lines, _, _ = run_program(program, ["tape"] + place, tape)
    check_tape(lines.splitlines(), told, start)
    return sum(one.made for one in told), memory


def check_library(words, status, output, errors):
    """Checks the sums of a run of rb_trials soak, and returns the number of its records."""
    expect(status == 0 and output == "wrong 0\n", f"rb_trials soak {words}: status {status}, {output!r} {errors!r}")
    found = LIBRARY_LINE.fullmatch(errors)
    expect(found, errors)
    made, refused, submitted, discarded, _, bound = map(int, found.groups())
    workers, _, _, _, steps, _ = map(int, words)
    expect(made == submitted + discarded, errors)
    expect(bound == (3 * made + refused if workers * steps <= BOUND_STEPS else 0), errors)
    return made


def soak_library(program, kind, steps, seed: int):
    """Makes one run of rb_trials soak and checks it. Returns the number of its records, and its peak memory."""
    words = [str(number) for number in kind + (steps, seed)]
    child = subprocess.Popen([program, "soak"] + words, stdout=subprocess.PIPE, stderr=subprocess.PIPE)
    output, errors = child.stdout.read(), child.stderr.read()
    _, status, used = os.wait4(child.pid, 0)
    child.returncode = status
    return check_library(words, status, output.decode(), errors.decode()), used.ru_maxrss * 1024


def memory_of(process):
    """Returns the current memory of a process in bytes, or None if it has ended."""
    try:
        with open(f"/proc/{process}/status", encoding="ascii") as file:
            found = re.search(r"VmRSS:\s+(\d+) kB", file.read())
    except OSError:
        return None
    return int(found[1]) * 1024 if found else None


def soak_long(program, seconds, seed: int):
    """Makes a run of about this many seconds. Returns the number of its records, and its memory, read once a second."""
    start = time.monotonic()
    soak_library(program, LONG, TIMED_STEPS, seed)
    steps = max(1, int(TIMED_STEPS * seconds / (time.monotonic() - start)))
    words = [str(number) for number in LONG + (steps, seed)]
    child = subprocess.Popen([program, "soak"] + words, stdout=subprocess.PIPE, stderr=subprocess.PIPE)
    readings = []
    while child.poll() is None:
        reading = memory_of(child.pid)
        if reading:
            readings.append(reading)
        time.sleep(1)
    made = check_library(words, child.returncode, child.stdout.read().decode(), child.stderr.read().decode())
    return made, readings


def check_memory(readings) -> None:
    """Checks that the memory does not grow, by one reading per second."""
    begin = min(60, len(readings) // 3)
    at_begin, most = max(readings[: begin + 1]), max(readings[begin:])
    for second in range(0, len(readings), max(1, len(readings) // 10)):
        print(f"second {second:5} memory {readings[second] / 1e6:6.1f} MB")
    print(f"peak memory in the first {begin} seconds {at_begin / 1e6:.1f} MB, after that {most / 1e6:.1f} MB")
    expect(most <= at_begin + UNSTEADY, "the memory of the long run grew")


def rounds(host, library, folder):
    """Returns functions that make one run each, by kind, with their options."""
    if host:
        for workers in WORKERS:
            for size in SIZES:
                words = f"run --tape workers {workers:3} size {size:7}"
                yield words, lambda _, kind=(workers, size): soak_once(host, folder, *kind)
    if library:
        for workers in LIBRARY_WORKERS:
            for rings in RINGS:
                for room in ROOMS:
                    if workers * rings <= MOST_THREADS:
                        yield f"library workers {workers:3} rings {rings} room {room:5}", library_round(
                            library, workers, rings, room
                        )


def library_round(library, workers: int, rings: int, room: int):
    """Returns a function that makes one run of this kind, over a ring of random size."""

    def call(seed: int):
        kind = (workers, rings, random.choice(SIZES), room)
        return soak_library(library, kind, max(1, STEPS[room] // workers // rings), seed)

    return call


def soak(calls, seconds) -> None:
    """Makes runs of random kinds for this many seconds, and prints a line for each kind."""
    runs, records, most = collections.Counter(), collections.Counter(), collections.Counter()
    end = time.monotonic() + seconds
    while time.monotonic() < end:
        words, call = random.choice(calls)
        try:
            made, memory = call(SEED + sum(runs.values()))
        except Difference as difference:
            raise Difference(f"{words}, run {sum(runs.values())}: {difference}") from difference
        runs[words], records[words], most[words] = runs[words] + 1, records[words] + made, max(most[words], memory)
    for words in (words for words, _ in calls if runs[words]):
        print(f"{words:42} runs {runs[words]:4} records {records[words]:9} peak memory {most[words] / 1e6:6.1f} MB")
    print(f"{sum(runs.values())} runs, {sum(records.values())} records, no difference")


def program_at(given, name: str):
    """Returns the program if it can be run, or None."""
    path = given or str(ROOT / "crates" / name / "out" / name)
    return path if os.access(path, os.X_OK) else None


def add_arguments(parser: argparse.ArgumentParser) -> None:
    """Adds the duration and the programs."""
    parser.add_argument("seconds", metavar="SECONDS", type=int, help="the duration of the test")
    parser.add_argument("program", metavar="PROGRAM", nargs="?", help="a built rbhost; by default the gate's")
    parser.add_argument("library", metavar="LIBRARY", nargs="?", help="a built rb_trials; by default the gate's")


def run(asked: argparse.Namespace) -> int:
    """Runs both programs for the duration."""
    host, library = program_at(asked.program, "rbhost"), program_at(asked.library, "rb_trials")
    if not host and not library:
        sys.exit("run the gate first, or give a program")
    random.seed(SEED)
    print(f"seed {SEED}")
    seconds = asked.seconds
    with tempfile.TemporaryDirectory() as folder:
        try:
            soak(list(rounds(host, library, folder)), seconds / 2 if library else seconds)
            if library:
                made, readings = soak_long(library, seconds / 2, SEED)
                print(f"one long run of {len(readings)} seconds, {made} records, no difference")
                check_memory(readings)
        except Difference as difference:
            sys.exit(str(difference))
    return 0
