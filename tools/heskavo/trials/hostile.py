"""Runs the gate's `rbhost` with hostile inputs and failing devices, and prints a table of the trials and how they ended.

Each trial must end within two minutes, by itself and not by a signal: with status 0 and the right answer, or with
status 1 and one line `refused ..` on standard error. The output of a command that prints text must consist of whole
lines up to that point. A list of jobs that is too long for the memory is refused before the file of the tape is
created, and with `--why` its reason is printed. One trial sends the signal of Ctrl-C to a run, which must end within a
second and leave a prefix of a tape. The status is 1 if a trial ends otherwise.
"""
import argparse
import os
import pathlib
import pty
import resource
import signal
import struct
import subprocess
import sys
import tempfile
import time

from heskavo.repository import ROOT, proved_program

SECONDS = 120
SUBMIT_42 = (ROOT / "examples" / "submit_42.hex").read_bytes()
PAYLOADS = struct.pack("<I", 8) + bytes(range(8))
RECORD = struct.pack("<IIQ", 8, 0, 42)
SCRIPT = b"ring 4096 0\nworker " + b"".join(SUBMIT_42.split()) + b"\nw 0 11\nc 0\n"

# Each command that reads standard input, with an input that it accepts.
COMMANDS = {
    "feed --size 4096": PAYLOADS,
    "tape --size 4096": RECORD,
    "check": SUBMIT_42,
    "explain": SUBMIT_42,
    "cost --workers 4 --behind 100": SUBMIT_42,
    "run --workers 4 --jobs 10 --size 4096": SUBMIT_42,
    "sim": SCRIPT,
}


class Ending:
    """How a program ended, and what it wrote to its outputs."""

    def __init__(self, status, output, errors) -> None:
        self.status, self.output, self.errors = status, output, errors

    def words(self):
        """Returns the status and the line of the refusal."""
        if self.status is None:
            return "did not end within two minutes"
        if self.status < 0:
            return f"signal {-self.status}"
        return f"status {self.status} {self.errors.decode(errors='replace').strip()[:60]}"

    def is_refusal(self) -> bool:
        """Returns whether it printed one line `refused ..`, with status 1."""
        return (
            self.status == 1
            and self.errors.startswith(b"refused ")
            and self.errors.count(b"\n") == 1
            and self.errors.endswith(b"\n")
        )

    def has_whole_lines(self) -> bool:
        """Returns whether standard output is empty or consists of whole lines."""
        return not self.output or self.output.endswith(b"\n")


def run_program(program, command, **streams):
    """Runs a command to its end. Its streams are pipes by default."""
    given = streams.pop("input", None)
    streams.setdefault("stdout", subprocess.PIPE)
    streams.setdefault("stderr", subprocess.PIPE)
    if "stdin" not in streams:
        streams["stdin"] = subprocess.PIPE if given is not None else subprocess.DEVNULL
    process = subprocess.Popen([program] + command.split(), **streams)
    try:
        output, errors = process.communicate(given, timeout=SECONDS)
    except subprocess.TimeoutExpired:
        process.kill()
        process.communicate()
        return Ending(None, b"", b"")
    return Ending(process.returncode, output or b"", errors or b"")


def from_terminal_that_closes(program, command):
    """Standard input is a terminal whose other side is closed."""
    ours, theirs = pty.openpty()
    os.close(ours)
    try:
        return run_program(program, command, stdin=theirs)
    finally:
        os.close(theirs)


def from_directory(program, command):
    """Standard input is a directory."""
    at = os.open("/", os.O_RDONLY)
    try:
        return run_program(program, command, stdin=at)
    finally:
        os.close(at)


def from_closed_input(program, command):
    """Standard input is closed."""
    return run_program(program, command, preexec_fn=lambda: os.close(0))


def to_full_device(program, command):
    """Standard output is a device without space."""
    with open("/dev/full", "wb") as full:
        return run_program(program, command, input=COMMANDS[command], stdout=full)


def to_closed_output(program, command):
    """Standard output is closed."""
    return run_program(program, command, input=COMMANDS[command], preexec_fn=lambda: os.close(1))


def to_reader_that_left(program, command):
    """Standard output is a pipe whose reader is gone."""
    reader, writer = os.pipe()
    os.close(reader)
    try:
        return run_program(program, command, input=COMMANDS[command], stdout=writer)
    finally:
        os.close(writer)


def with_little_memory(megabytes):
    """A trial with limited memory, counting everything that is mapped."""

    def trial(program, command, given=None):
        limit = megabytes << 20
        given = COMMANDS[command] if given is None else given
        return run_program(
            program, command, input=given, preexec_fn=lambda: resource.setrlimit(resource.RLIMIT_AS, (limit, limit))
        )

    return trial


def piped(program, command, maker):
    """Runs a command after a shell command that makes its input, and keeps only the number of bytes of its output."""
    made = subprocess.Popen(maker, shell=True, stdout=subprocess.PIPE, stderr=subprocess.DEVNULL)
    counter = subprocess.Popen(["wc", "-c"], stdin=subprocess.PIPE, stdout=subprocess.PIPE)
    ending = run_program(program, command, stdin=made.stdout, stdout=counter.stdin)
    made.stdout.close()
    made.kill()
    made.wait()
    counted = counter.communicate()[0]
    return ending, int(counted)


def check_each(program, table) -> None:
    """Runs every command with every failing stream: it must print its refusal, or succeed if nothing had to be written."""
    trials = {
        "a terminal that closes": from_terminal_that_closes,
        "a directory as input": from_directory,
        "closed input": from_closed_input,
        "/dev/full as output": to_full_device,
        "closed output": to_closed_output,
        "a pipe whose reader left": to_reader_that_left,
        "64 MB of memory": with_little_memory(64),
        "8 MB of memory": with_little_memory(8),
    }
    for what, trial in trials.items():
        for command in COMMANDS:
            ending = trial(program, command)
            # Without input, `feed` has an empty tape to write.
            well = ending.is_refusal() or (ending.status == 0 and "output" not in what and "pipe" not in what)
            if not command.startswith("feed"):
                well = well and ending.has_whole_lines()
            table.append((command, what, ending.words(), well))


def check_memory(program, table) -> None:
    """A list of jobs that is too long for the memory, with each form of a refusal; the file of the tape is unchanged."""
    reason, line, told = (
        b"there is not enough memory: the list of 4000000 jobs alone takes 208000000 bytes\n",
        b"refused memory\n",
        b'{"refused":"memory"}\n',
    )
    because = told[:-2] + b',"why":"' + reason[:-1] + b'"}\n'
    forms = {
        "": (b"", line),
        " --why": (b"", reason + line),
        " --json": (told, line),
        " --json --why": (because, reason + line),
    }
    with tempfile.TemporaryDirectory() as folder:
        kept = pathlib.Path(folder) / "t"
        kept.write_bytes(b"kept")
        for form, wanted in forms.items():
            ending = with_little_memory(64)(
                program, f"run --workers 4 --jobs 1000000 --size 4096 --tape {kept}{form}", SUBMIT_42
            )
            well = ending.status == 1 and (ending.output, ending.errors) == wanted and kept.read_bytes() == b"kept"
            table.append((f"run --workers 4 --jobs 1000000{form}", "64 MB of memory", ending.words(), well))


def is_beginning(program, tape) -> bool:
    """Returns whether a file is a prefix of a tape of records of 8 bytes, in a ring of 64 KiB: whole ones, and possibly a truncated last one."""
    data = tape.read_bytes()
    ending = run_program(program, "tape --size 65536", input=data)
    lines = [b"pos %d len 8 2a00000000000000\n" % at for at in range(0, len(data) // 16 * 16, 16)]
    cut = b"refused Truncated at %d\n" % (len(data) // 16 * 16)
    return ending.output == b"".join(lines) and (ending.status, ending.errors) == (
        (1, cut) if len(data) % 16 else (0, b"")
    )


def check_interrupt(program, table) -> None:
    """A run that is interrupted from the keyboard after its tape has begun."""
    command = "run --workers 4 --jobs 1000000 --size 65536"
    with tempfile.TemporaryDirectory() as folder:
        tape = pathlib.Path(folder) / "t"
        process = subprocess.Popen(
            [program, *command.split(), "--tape", str(tape)],
            stdin=subprocess.PIPE,
            stdout=subprocess.PIPE,
            stderr=subprocess.PIPE,
        )
        process.stdin.write(SUBMIT_42)
        process.stdin.close()
        while process.poll() is None and not (tape.exists() and tape.stat().st_size):
            time.sleep(0.001)
        began = time.monotonic()
        process.send_signal(signal.SIGINT)
        output, errors = process.stdout.read(), process.stderr.read()
        process.wait(timeout=SECONDS)
        took, length = time.monotonic() - began, tape.stat().st_size
        well = (
            process.returncode == -signal.SIGINT
            and took < 1
            and not output
            and not errors
            and is_beginning(program, tape)
        )
        table.append(
            (
                command,
                "Ctrl-C",
                f"signal {-process.returncode} after {took * 1000:.0f} ms, {length} bytes of tape",
                well,
            )
        )


def check_wide_record(program, table) -> None:
    """A run whose record fills three quarters of its ring: its tape is whole, and no failure is reported."""
    wide = SUBMIT_42.replace((8).to_bytes(4, "little").hex().encode(), (3000).to_bytes(4, "little").hex().encode(), 1)
    command = "run --workers 1 --jobs 1 --size 4096"
    with tempfile.TemporaryDirectory() as folder:
        tape = pathlib.Path(folder) / "t"
        ending = run_program(program, f"{command} --tape {tape}", input=wide)
        whole = (3000).to_bytes(8, "little") + (42).to_bytes(3000, "little")
        table.append(
            (
                command,
                "a record of 3,000 bytes",
                ending.words(),
                ending.status == 0 and not ending.errors and tape.read_bytes() == whole,
            )
        )


def check_texts(program, table) -> None:
    """Program texts that are not programs."""
    texts = {
        "a NUL in the text": b"95\0" + SUBMIT_42,
        "text that is not UTF-8": b"\xff\xfe" + SUBMIT_42,
        "no text": b"",
        "half a digit pair": SUBMIT_42.strip() + b"9",
    }
    for what, text in texts.items():
        for command in COMMANDS:
            if command.split()[0] in ("feed", "tape"):
                continue
            ending = run_program(program, command, input=text)
            table.append(
                (command, what, ending.words(), ending.is_refusal() and (command == "explain" or not ending.output))
            )


def digits_of_positions(end):
    """Returns the total number of digits of the multiples of 8 below `end`."""
    total, least = 0, 1
    while least < end:
        count = (min(end, least * 10) + 7) // 8 - (least + 7) // 8
        total, least = total + len(str(least)) * count, least * 10
    return total + 1


def adds_up(report, errors, workers: int, jobs: int) -> bool:
    """Returns whether the numbers of a run's workers add up to those of its ring, and together with the report on standard error to all jobs."""
    lines = [line.split() for line in report.splitlines()]
    told = [(int(line[3]), int(line[5])) for line in lines if line[0] == "worker"]
    ring = next(line for line in lines if line[0] == "ring")
    made, consumed, waiting, busy = (int(ring[at]) for at in (2, 4, 8, 10))
    unlogged = int(errors.split()[1]) if errors else 0
    return (
        len(told) == workers
        and sum(granted + refused for granted, refused in told) + unlogged == workers * jobs
        and 0 < made == consumed == sum(granted for granted, _ in told)
        and waiting == busy == 0
        and lines[-1] == ["strays", "0"]
    )


def check_sizes(program, table) -> None:
    """Inputs of 1 GB, and the maximal number of workers."""
    gigabyte = 1 << 30
    payload = "struct.pack('<I', 1020) + bytes(1020)"
    payloads = f'python3 -c "import struct, sys; [sys.stdout.buffer.write(({payload}) * 1024) for _ in range(1024)]"'
    ending, count = piped(program, "feed --size 4096", payloads)
    well = ending.status == 0 and count == 1032 << 20
    table.append(("feed --size 4096", "1 GB of payloads", ending.words(), well))
    ending, count = piped(program, "tape --size 4096", f"head -c {gigabyte} /dev/zero")
    lines = gigabyte // 8 * len("pos  len 0 -\n") + digits_of_positions(gigabyte)
    table.append(("tape --size 4096", "1 GB of empty records", ending.words(), ending.status == 0 and count == lines))
    for command in ("check", "explain", "cost"):
        for what, made in (
            ("1 GB of spaces", f"head -c {gigabyte} /dev/zero | tr '\\0' ' '"),
            ("1 GB of digits", f"head -c {gigabyte} /dev/zero | tr '\\0' 9"),
        ):
            ending, _ = piped(program, command, made)
            table.append((command, what, ending.words(), ending.is_refusal()))
    command = "run --workers 256 --jobs 10000 --size 1048576"
    ending = run_program(program, command, input=SUBMIT_42)
    table.append(
        (
            command,
            "256 workers with 10,000 jobs",
            ending.words(),
            ending.status == 0 and adds_up(ending.output.decode(), ending.errors.decode(), 256, 10000),
        )
    )


def add_arguments(parser: argparse.ArgumentParser) -> None:
    """Adds the program."""
    default = proved_program("rbhost")
    parser.add_argument(
        "program", metavar="PROGRAM", nargs="?", default=str(default), help="a built rbhost; by default the gate's"
    )


def run(asked: argparse.Namespace) -> int:
    """Makes the trials, and prints their table."""
    program = asked.program
    # A shell has its background jobs ignore SIGINT, which programs inherit; with a handler here they do not.
    signal.signal(signal.SIGINT, signal.default_int_handler)
    if not os.access(program, os.X_OK):
        sys.exit(f"{program}: run the gate first, or give a program")
    table: list[tuple[str, str, str, bool]] = []
    check_each(program, table)
    check_memory(program, table)
    check_interrupt(program, table)
    check_wide_record(program, table)
    check_texts(program, table)
    check_sizes(program, table)
    for command, what, words, well in table:
        print(f"{'ok' if well else 'WRONG':5} {command:38} {what:28} {words}")
    wrong = sum(not well for *_, well in table)
    print(f"{len(table)} trials, {wrong} wrong")
    return 1 if wrong else 0
