"""What `rbhost --progress` reports on standard error: bytes read, jobs and turns done of their total, and nothing at the end.

A command that takes longer than necessary is ended once it has reported something.
"""
import re
import struct
import subprocess
import time

from heskavo.repository import ROOT

SECONDS = 60
# r0 = 0, repeated, and exit.
LONG = "b700000000000000" * 4095 + "9500000000000000"
SUBMIT_42 = "".join((ROOT / "examples" / "submit_42.hex").read_text().split())
# Sixteen rings that are drawn after each of a million turns.
SCRIPT = "ring 4096 0\n" * 16 + f"worker {SUBMIT_42}\n" + "w 0 1000000\n"


def started(program: str, command: str) -> "subprocess.Popen[bytes]":
    """Starts a command, whose output is discarded."""
    return subprocess.Popen(
        [program, *command.split()], stdin=subprocess.PIPE, stdout=subprocess.DEVNULL, stderr=subprocess.PIPE
    )


def slowly(program: str, command: str, piece: bytes) -> str:
    """Returns the report of a command to which a piece of input comes twice, 1.2 seconds apart."""
    process = started(program, command)
    assert process.stdin and process.stderr
    for _ in range(2):
        time.sleep(1.2)
        process.stdin.write(piece)
        process.stdin.flush()
    process.stdin.close()
    report = process.stderr.read().decode()
    assert process.wait(timeout=SECONDS) == 0, report
    return report


def at_first(program: str, command: str, given: str) -> str:
    """Returns the first report of a command, and ends it."""
    process = started(program, command)
    assert process.stdin and process.stderr
    process.stdin.write(given.encode())
    process.stdin.close()
    report, until = b"", time.monotonic() + SECONDS
    while not report.endswith(b"\x1b[K") and time.monotonic() < until:
        piece = process.stderr.read1(100)  # type: ignore[attr-defined]
        report += piece
        if not piece:
            break
    process.terminate()
    process.wait(timeout=SECONDS)
    return report.decode()


def assert_is_part(report: str, total: int, what: str) -> None:
    """Asserts that it reports how many of a total have ended: some, and not all."""
    found = re.fullmatch(rf"\r(\d+) of {total} {what}\x1b\[K", report)
    assert found, report
    assert 0 < int(found[1]) < total and int(found[1]) % 256 == 0


def test_bytes_of_feed(rbhost: str) -> None:
    payload = struct.pack("<I", 8) + bytes(8)
    report = slowly(rbhost, "feed --size 4096 --progress", payload)
    assert re.fullmatch(r"(\r\d+ bytes read\x1b\[K)+\r\x1b\[Kproducer 32 consumer 32\n", report), report


def test_bytes_of_tape(rbhost: str) -> None:
    report = slowly(rbhost, "tape --size 4096 --progress", struct.pack("<IIQ", 8, 0, 42))
    assert re.fullmatch(r"(\r\d+ bytes read\x1b\[K)+\r\x1b\[K", report), report


def test_jobs_of_run(rbhost: str) -> None:
    report = at_first(rbhost, "run --workers 2 --jobs 1000000 --size 4096 --progress", LONG)
    assert_is_part(report, 2_000_000, "jobs")


def test_turns_of_sim(rbhost: str) -> None:
    assert_is_part(at_first(rbhost, "sim --draw --progress", SCRIPT), 1_000_000, "turns")
