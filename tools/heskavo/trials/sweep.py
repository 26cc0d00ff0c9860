"""Makes every allocation of the gate's `rbhost` fail once, one run each, and likewise those of the library's calls in
`rb_trials sweep`, and prints their number.

A program that does not exist is skipped. For N from 1 on, each command runs with its Nth call of malloc or realloc
refused, until a run makes fewer than N calls. A run must end by itself within a minute.

rbhost must print its whole answer, or what remains of it if a reservation found no memory (then a helper returns null,
as bpf-helpers(7) says), or a prefix of one of these and the one line `refused memory` on standard error. The library's
calls must end with the whole answer, since each call that failed to allocate is repeated. Each refusal has the line of
one such call, and if the call was made on a value, the value must be unchanged. If a job failed to allocate, its rings
come back with everything that was submitted taken, one worker with fewer jobs than it had and the other with all. A
helper that failed to allocate has returned null or -11, without an entry in the ring. A small library in front of the
system's allocator refuses the calls; gcc compiles it. The status is 1 if a run ends otherwise.
"""
import argparse
import collections
import os
import pathlib
import re
import struct
import subprocess
import sys
import tempfile

from heskavo.repository import ROOT, proved_program

SECONDS = 60
SUBMIT_42 = (ROOT / "examples" / "submit_42.hex").read_bytes()
PAYLOADS = b"".join(struct.pack("<I", n) + bytes(range(n)) for n in range(100))
RECORDS = b"".join(struct.pack("<IIQ", 8, 0, n) for n in range(100))
SCRIPT = b"ring 4096 0 8\nworker " + b"".join(SUBMIT_42.split()) + b"\nw 0 4\nk 0\nw 0 7\nc 0\n"

# Counts the calls, refuses one, and reports that by a byte on a separate stream.
REFUSING_ALLOCATOR = r"""
#define _GNU_SOURCE
#include <dlfcn.h>
#include <errno.h>
#include <stddef.h>
#include <stdlib.h>
#include <unistd.h>
extern void *__libc_malloc(size_t);
extern void *__libc_realloc(void *, size_t);
static long calls, refused;
static int stream;
__attribute__((constructor)) static void begin(void) {
    stream = atoi(getenv("REFUSED_STREAM"));
    refused = atol(getenv("REFUSED_CALL"));
}
static int is_refused(void) {
    if (!refused || __atomic_add_fetch(&calls, 1, __ATOMIC_SEQ_CST) != refused) return 0;
    if (write(stream, "x", 1) != 1) abort();
    errno = ENOMEM;
    return 1;
}
void *malloc(size_t n) { return is_refused() ? NULL : __libc_malloc(n); }
void *realloc(void *p, size_t n) { return is_refused() ? NULL : __libc_realloc(p, n); }
"""

# The number of jobs of each of the two workers of `jobs`; and the result of a job, and its result if its helper failed to allocate: an output
# returned -11, and a reservation null.
JOBS = 3
REFUSED_JOBS = [("job: 0", f"job: {2 ** 64 - 11}"), ("job: 1", "job: 0")]

Ending = collections.namedtuple("Ending", "was_refused status output errors")
Refusal = collections.namedtuple("Refusal", "call state before")


def build_allocator(folder):
    """Returns the path of the library that refuses calls."""
    source, library = os.path.join(folder, "refusing.c"), os.path.join(folder, "refusing.so")
    with open(source, "w") as file:
        file.write(REFUSING_ALLOCATOR)
    subprocess.run(["gcc", "-shared", "-fPIC", "-O1", "-o", library, source], check=True)
    return library


def run_program(program, library, command, given, call):
    """Runs a command with this call refused."""
    reader, writer = os.pipe()
    settings = dict(os.environ, LD_PRELOAD=library, REFUSED_CALL=str(call), REFUSED_STREAM=str(writer))
    try:
        done = subprocess.run(
            [program] + command.split(),
            input=given,
            capture_output=True,
            env=settings,
            pass_fds=[writer],
            timeout=SECONDS,
        )
        ending = (done.returncode, done.stdout, done.stderr)
    except subprocess.TimeoutExpired:
        ending = (None, b"", b"")
    os.close(writer)
    with os.fdopen(reader, "rb") as told:
        return Ending(bool(told.read()), *ending)


def is_refused(ending) -> bool:
    """Returns whether memory was refused, by its line, with `--why` after its reason."""
    return ending.status == 1 and ending.errors.removeprefix(b"there is not enough memory\n") == b"refused memory\n"


def is_beginning(ending, whole) -> bool:
    """Returns whether memory was refused, and the output is a prefix of the whole answer."""
    return is_refused(ending) and whole.startswith(ending.output)


def is_text(ending, whole) -> bool:
    """Returns whether it is the whole answer, or a prefix of it."""
    return (ending.status == 0 and ending.output == whole) or is_beginning(ending, whole)


def is_check(ending, whole) -> bool:
    """Returns whether it is the answer, with its record or without one."""
    without = b"".join(line for line in whole.splitlines(True) if not line.startswith(b"ring "))
    return is_text(ending, whole) or is_text(ending, without)


def is_sim(ending, whole) -> bool:
    """Returns whether it is the answer, or that of a worker whose reservation was null."""
    without = b"chapter 0 0\ntake 0 empty\nworker 0 done 0\nring 0 producer 0 consumer 0 consumed 0 discarded 0 waiting 0 busy 0\n"
    return is_text(ending, whole) or is_text(ending, without)


def is_run(ending, _) -> bool:
    """Returns whether these are the lines of four workers and of the ring: every record made was submitted, none is busy, and no worker made more than its jobs."""
    lines = ending.output.decode().splitlines()
    for line in lines[:4]:
        numbers = re.fullmatch(
            r"worker \d made (\d+) refused (\d+) submitted (\d+) discarded 0(?: unlogged (\d+))?", line
        )
        if not numbers or numbers[1] != numbers[3] or int(numbers[1]) > 100:
            return False
    if len(lines) > 4 and not re.search(r"\bbusy 0\b", lines[4]):
        return False
    if ending.status == 0:
        return len(lines) >= 5
    return ending.status == 1 and ending.errors == b"refused memory\n"


# Each command with its input and its permitted answers.
COMMANDS = {
    "check": (SUBMIT_42, is_check),
    "check --why": (SUBMIT_42, is_check),
    "explain": (SUBMIT_42, is_text),
    "cost": (SUBMIT_42, is_text),
    "run --workers 4 --jobs 100 --size 4096": (SUBMIT_42, is_run),
    "feed --size 4096": (PAYLOADS, is_text),
    "tape --size 4096": (RECORDS, is_text),
    "tape --size 4096 --why": (RECORDS, is_text),
    "sim": (SCRIPT, is_sim),
}


def split(ending):
    """Returns the lines of a run of the library's calls, and each call that failed to allocate: its name, and the state after it and before it."""
    lines, refusals, before = [], [], ""
    for line in ending.output.decode().splitlines():
        call, _, state = line.partition(": ")
        if call.endswith(" memory"):
            refusals.append(Refusal(call, state, before))
        else:
            lines.append(line)
            before = state
    return lines, refusals


def is_call(ending, whole) -> bool:
    """Returns whether it is the whole answer, with one call for each refusal that failed to allocate and changed nothing."""
    lines, refusals = split(ending)
    if any(refusal.state not in ("", refusal.before) for refusal in refusals):
        return False
    return ending.status == 0 and len(refusals) == ending.was_refused and lines == whole.decode().splitlines()


def ran_in_part(state):
    """Returns how many records two workers made, each for all its jobs except one that failed to allocate, or None if the line is something else."""
    numbers = re.fullmatch(r"seats 2 made (\d) made (\d) busy 0 waiting 0", state)
    made = sorted(map(int, numbers.groups())) if numbers else []
    return sum(made) if made in ([0, 0], [0, JOBS], [1, JOBS], [2, JOBS]) else None


def is_jobs(ending, whole) -> bool:
    """Jobs of two workers, run again if one failed to allocate. A helper that failed has reported it to the program. If a thread
    could not be created nothing changes: its work is done on another."""
    lines, refusals = split(ending)
    before = 0
    for refusal in refusals:
        if refusal.call == "jobs memory":
            before = ran_in_part(refusal.state)
        elif refusal.state:
            return False
    if before is None:
        return False
    jobs = whole.decode().splitlines()[:-2]
    refused = [(job, told) for job, told in zip(jobs, lines) if told != job]
    made = before + 2 * JOBS - len(refused)
    end = [
        f"unlogged {len(refused)} strays 0",
        f"ring: entries {3 * made} made {made} refused 0 consumed {made} discarded 0 waiting 0 busy 0",
    ]
    is_told = len(refused) + len(refusals) <= ending.was_refused and all(one in REFUSED_JOBS for one in refused)
    return ending.status == 0 and is_told and len(lines) == len(jobs) + 2 and lines[-2:] == end


# The calls of the library, by the word that selects them, with their permitted answers.
CALLS = {
    "ring": is_call,
    "list": is_call,
    "seats": is_call,
    "shared": is_call,
    "jobs": is_jobs,
}


def sweep(program, library, command, given, is_right):
    """Returns how many calls were refused, one after the other, and those whose runs ended wrongly."""
    whole = run_program(program, library, command, given, 0).output
    call, wrong = 1, []
    while True:
        ending = run_program(program, library, command, given, call)
        if not is_right(ending, whole):
            wrong.append((call, ending))
        if not ending.was_refused:
            return call - 1, wrong
        call += 1


def print_sweep(program, library, command, given, is_right):
    """Sweeps over a command, prints the result, and returns whether all runs ended as permitted."""
    refused, wrong = sweep(program, library, command, given, is_right)
    words = f"{pathlib.Path(program).name} {command}"
    print(f"{'WRONG' if wrong else 'ok':5} {words:48} {refused} requests refused in turn", flush=True)
    for call, ending in wrong[:3]:
        print(f"      request {call}: status {ending.status}, {ending.output[-80:]!r}, {ending.errors[-80:]!r}")
    return not wrong


def add_arguments(parser: argparse.ArgumentParser) -> None:
    """Adds the programs."""
    for argument, name in (("program", "rbhost"), ("library", "rb_trials")):
        default = str(proved_program(name))
        parser.add_argument(
            argument,
            metavar=argument.upper(),
            nargs="?",
            default=default,
            help=f"a built {name}; by default the gate's",
        )


def run(asked: argparse.Namespace) -> int:
    """Runs each command with each of its allocations failing."""
    host, calls = asked.program, asked.library
    sweeps = [(host, command, given, is_right) for command, (given, is_right) in COMMANDS.items()]
    sweeps += [(calls, f"sweep {word}", b"", is_right) for word, is_right in CALLS.items()]
    there = [one for one in sweeps if os.access(one[0], os.X_OK)]
    if not there:
        sys.exit(f"{host}: run the gate first, or give a program")
    with tempfile.TemporaryDirectory() as folder:
        library = build_allocator(folder)
        right = [print_sweep(program, library, command, given, is_right) for program, command, given, is_right in there]
    return 0 if all(right) else 1
