"""The output of rbhost is live: nothing that it could print waits in a buffer while it waits for input.

A record for `tape`, or a payload for `feed`, comes through a pipe that stays open, in two parts: nothing is printed
after the first part, and the whole line, or the whole record of the tape, within 100 ms of the second one. A run that is
interrupted once `--progress` has reported jobs leaves a tape with the records of at least that many jobs, and of one
worker each record up to its last.
"""
import os
import pathlib
import re
import select
import signal
import struct
import subprocess
import tempfile
import time

import pytest

SECONDS = 120
# How long output may take after its input, in seconds.
LIMIT = 0.1
# How many bytes each record takes.
EACH = 16
# A program that works for some microseconds, and then outputs the second eight bytes of its context, the job's number.
SLOW = (
    "b700000000000000 " * 2000
    + "bf12000000000000 0702000008000000 1851000000000000 0000000000000000 b703000008000000 b704000000000000 8500000082000000 9500000000000000"
)
# All jobs of four workers send fewer bytes than this ring has, so that none is refused.
JOBS, RING = 1_000_000, 67_108_864


def started(program: str, words: list[str]) -> "subprocess.Popen[bytes]":
    """Starts the program with pipes for its input and output."""
    return subprocess.Popen([program, *words], stdin=subprocess.PIPE, stdout=subprocess.PIPE, stderr=subprocess.PIPE)


def printed(process: "subprocess.Popen[bytes]", seconds: float) -> bytes:
    """What the program prints within so many seconds, up to the first pause."""
    ready, _, _ = select.select([process.stdout], [], [], seconds)
    return os.read(process.stdout.fileno(), 65536) if ready else b""


def arrives(program: str, command: str, piece: bytes, wanted: bytes, count: int = 20) -> str:
    """What is wrong with the output of a command to which this piece comes so often, each time in two parts; nothing if all is well."""
    process = started(program, [command, "--size", "4096"])
    slowest = 0.0
    try:
        for at in range(count):
            process.stdin.write(piece[:5])
            process.stdin.flush()
            early = printed(process, 0.02)
            if early:
                return f"{early!r} was printed before its input was there"
            began = time.monotonic()
            process.stdin.write(piece[5:])
            process.stdin.flush()
            found = printed(process, SECONDS)
            slowest = max(slowest, time.monotonic() - began)
            if found != wanted.replace(b"POS", b"%d" % (at * EACH)):
                return f"{found!r} was printed for piece {at}"
        return "" if slowest <= LIMIT else f"a piece took {slowest * 1000:.0f} ms"
    finally:
        process.stdin.close()
        process.wait(timeout=SECONDS)
        process.stdout.close()
        process.stderr.close()


def taped_numbers(path: str) -> list[int]:
    """The numbers that the whole records of a tape have, all of eight bytes."""
    tape = pathlib.Path(path).read_bytes()
    return [struct.unpack_from("<Q", tape, at + 8)[0] for at in range(0, len(tape) - EACH + 1, EACH)]


def reported(process: "subprocess.Popen[bytes]") -> int:
    """The first number of jobs above 0 that the program reports as finished; 0 if it ends before."""
    text = b""
    while True:
        piece = os.read(process.stderr.fileno(), 4096)
        if not piece:
            return 0
        text += piece
        found = [int(count) for count in re.findall(rb"\r(\d+) of \d+ jobs", text) if int(count)]
        if found:
            return found[-1]


def interrupted(program: str, workers: int) -> str:
    """What is wrong with the tape of a run of so many workers that is interrupted once jobs were reported; nothing if all is well."""
    with tempfile.TemporaryDirectory() as folder:
        path = os.path.join(folder, "tape")
        words = [
            "run",
            "--workers",
            str(workers),
            "--jobs",
            str(JOBS),
            "--size",
            str(RING),
            "--tape",
            path,
            "--progress",
        ]
        process = started(program, words)
        try:
            process.stdin.write(SLOW.encode())
            process.stdin.close()
            jobs = reported(process)
            process.send_signal(signal.SIGINT)
            process.wait(timeout=SECONDS)
            numbers = taped_numbers(path)
        finally:
            process.kill()
            process.stdout.close()
            process.stderr.close()
    if jobs == 0:
        return "no jobs were reported"
    if len(numbers) < jobs:
        return f"{jobs} jobs were reported, and the tape has {len(numbers)} records"
    if workers == 1 and numbers != list(range(len(numbers))):
        return "the tape lacks a record of a job"
    return ""


def test_tape(rbhost: str) -> None:
    assert arrives(rbhost, "tape", struct.pack("<IIQ", 8, 0, 42), b"pos POS len 8 2a00000000000000\n") == ""


def test_feed(rbhost: str) -> None:
    # The page of a record's header counts pages of 4096 bytes; the first records are in page 0.
    assert arrives(rbhost, "feed", struct.pack("<IQ", 8, 42), struct.pack("<IIQ", 8, 0, 42)) == ""


@pytest.mark.parametrize("workers", [1, 4])
def test_interrupted_run(rbhost: str, workers: int) -> None:
    assert interrupted(rbhost, workers) == ""
