"""Tests tools/linux/tape: the tape of a program's runs, of a pinned ring, and of a ring that is followed while an agent
(tools/linux/agent.c) writes into it.

The agent runs its program as often as --runs says. The tape must have each record that it made, once and in order, also
if the reader of the tape falls behind. `--follow` must write a record within 100 milliseconds. Requires root, bpf(2) and
gcc.
"""
import os
import pathlib
import re
import select
import shutil
import signal
import statistics
import struct
import subprocess
import tempfile
import time
from collections.abc import Iterator

import pytest

from heskavo.repository import ROOT, TOOLS

LINUX = TOOLS / "linux"
SUBMIT_42 = (ROOT / "examples" / "submit_42.hex").read_bytes()
# Outputs the first eight bytes of the context, through the stack: r2 = *(r1), *(r10 - 8) = r2, r1 = ring 0, r2 = r10 - 8, r3 = 8, r4 = 0, call 130, exit.
OUTPUT = b"""7912000000000000 7b2af8ff00000000 1851000000000000 0000000000000000
bfa2000000000000 07020000f8ffffff b703000008000000 b704000000000000 8500000082000000 9500000000000000"""
# The same of the eight bytes after them, the time.
TIME = OUTPUT.replace(b"7912000000000000", b"7912080000000000")
SIZE = 1 << 20
USAGE = "usage: tape --pinned PATH [--take | --follow] | tape --size N [--rings N] [--ring R] [--runs N] [--context HEX] < HEX\n"


def tape(*words: object, given: bytes = b"", **settings: str) -> tuple[int, bytes, str]:
    """Runs tools/linux/tape, and returns its status and what it writes."""
    run = subprocess.run(
        [str(LINUX / "tape"), *map(str, words)],
        input=given,
        env={**os.environ, **settings},
        check=False,
        capture_output=True,
        timeout=120,
    )
    return run.returncode, run.stdout, run.stderr.decode()


def agent(pin: pathlib.Path, runs: int, pause: int) -> subprocess.Popen[bytes]:
    """Starts the agent, and waits until its ring is pinned."""
    words = [str(LINUX / "run"), "agent", str(pin), str(SIZE), str(runs), str(pause)]
    started = subprocess.Popen(words, stdin=subprocess.PIPE, stdout=subprocess.PIPE)
    while not pin.exists() and started.poll() is None:
        time.sleep(0.01)
    return started


def made(by: subprocess.Popen[bytes]) -> int:
    """Lets an agent run its program to the end, and returns the number of records that it made."""
    found = re.match(rb"made (\d+) refused (\d+)\n", by.communicate(OUTPUT, timeout=300)[0])
    assert found, "the agent failed"
    return int(found[1])


def numbers(written: bytes) -> list[int]:
    """Returns the contents of the records of a tape, each a number of eight bytes, and checks their headers."""
    records = list(struct.iter_unpack("<IIQ", written))
    pages = [16 * place % SIZE // 4096 for place in range(len(records))]
    assert [record[:2] for record in records] == [(8, page) for page in pages], "a header is wrong"
    return [record[2] for record in records]


def follower(pin: pathlib.Path, output: int) -> subprocess.Popen[bytes]:
    """Follows a pinned ring."""
    return subprocess.Popen(
        [str(LINUX / "tape"), "--pinned", str(pin), "--follow"], stdout=output, stderr=subprocess.DEVNULL
    )


def end(followed: subprocess.Popen[bytes]) -> None:
    """Interrupts a follower, which then must end by itself with status 0."""
    followed.send_signal(signal.SIGINT)
    assert followed.wait(60) == 0, f"tape --follow ended with {followed.returncode}"


@pytest.fixture(scope="module")
def runs(request: pytest.FixtureRequest) -> int:
    """How often the agent runs its program."""
    return int(request.config.getoption("--runs"))


@pytest.fixture(scope="module")
def pins() -> Iterator[pathlib.Path]:
    """A separate BPF file system, which is removed with its pins."""
    skipped = why_not()
    if skipped:
        pytest.skip(skipped)
    with tempfile.TemporaryDirectory() as folder:
        place = pathlib.Path(folder) / "pins"
        place.mkdir()
        subprocess.run(["mount", "-t", "bpf", "bpf", str(place)], check=True)
        try:
            yield place
        finally:
            subprocess.run(["umount", str(place)], check=True)


def why_not() -> str | None:
    """Returns the reason why nothing can be tested here, or None."""
    if os.geteuid() != 0:
        return "it takes root"
    if shutil.which("gcc") is None:
        return "gcc is not installed"
    status, _, said = tape("--size", 4096, given=SUBMIT_42)
    return said.strip() if status == 3 else None


def test_wrong_words(pins: pathlib.Path) -> None:
    """Each error is reported in one line."""
    power = "tape: --size: a ring has a power of two of bytes, from a page to 2147483648 (a page has 4096 on most machines)\n"
    assert tape("--size", 5000, given=SUBMIT_42) == (2, b"", power)
    assert tape("--size", "2K", given=SUBMIT_42) == (2, b"", power)
    assert tape("--size", "4k", given=SUBMIT_42) == (2, b"", USAGE)
    assert tape("--size", "4K", "--take", given=SUBMIT_42) == (2, b"", USAGE)
    assert tape("--size", "4K", given=b"no hex") == (
        1,
        b"",
        "tape: standard input is not a program in hex, 1 to 4096 units of eight bytes\n",
    )
    assert tape("--size", "4K", given=b"9500000000000000")[0] == 1
    nowhere = f"tape: {pins.parent}/ring is not in a BPF file system; `mount -t bpf bpf /sys/fs/bpf` mounts one\n"
    assert tape("--pinned", pins.parent / "ring") == (1, b"", nowhere)
    assert tape("--pinned", pins / "ring") == (1, b"", f"tape: nothing is pinned at {pins}/ring\n")


def test_runs(pins: pathlib.Path) -> None:
    """The runs of a program leave their records, and nothing is compiled again."""
    record = bytes.fromhex("08000000000000002a00000000000000")
    assert tape("--size", "4K", "--runs", 3, given=SUBMIT_42) == (0, 3 * record, "--size 4096 --start 0\n")
    tools = pins.parent / "tools"
    tools.mkdir()
    for name in ("sh", "readlink", "dirname", "cat", "sha256sum", "cut"):
        (tools / name).symlink_to(str(shutil.which(name)))
    assert tape("--size", 4096, given=SUBMIT_42, PATH=str(tools))[:2] == (0, record), "it is compiled again"


def test_take(pins: pathlib.Path) -> None:
    """A pinned ring can be read any number of times, and is taken once."""
    count = made(agent(pins / "take", 100, 0))
    for words in ((), ("--take",)):
        status, written, _ = tape("--pinned", pins / "take", *words)
        assert status == 0 and numbers(written) == list(range(100)) and count == 100
    assert tape("--pinned", pins / "take") == (0, b"", f"--size {SIZE} --start 1600\n")


def test_follow(pins: pathlib.Path, runs: int) -> None:
    """The records of an agent are on the tape, once and in order, and are consumed."""
    started = agent(pins / "follow", runs, 1000)
    with tempfile.TemporaryFile() as file:
        followed = follower(pins / "follow", file.fileno())
        count = made(started)
        end(followed)
        file.seek(0)
        found = numbers(file.read())
    assert count == runs and found == list(range(runs)), f"{len(found)} of {count} records"
    assert tape("--pinned", pins / "follow")[2] == f"--size {SIZE} --start {16 * runs}\n"


def test_slow_reader(pins: pathlib.Path, runs: int) -> None:
    """If a reader stops reading for a while, the agent eventually finds a full ring; each record that was made is on the tape."""
    started = agent(pins / "slow", 10 * runs, 0)
    followed = follower(pins / "slow", subprocess.PIPE)
    assert followed.stdout
    count = made(started)
    kept = bytearray()
    while followed.poll() is None:
        ready = select.select([followed.stdout], [], [], 1)[0]
        if not ready:
            end(followed)
        kept += os.read(followed.stdout.fileno(), 1 << 20) if ready else b""
    kept += followed.stdout.read()
    found = numbers(bytes(kept))
    assert len(found) == count and found == sorted(set(found)), f"{len(found)} of {count} records"


def test_latency(pins: pathlib.Path) -> None:
    """A record comes out within 100 milliseconds after it is made, while the agent continues and pauses 200 milliseconds after each 64."""
    started = agent(pins / "latency", 64 * 12, 200000)
    followed = follower(pins / "latency", subprocess.PIPE)
    assert started.stdin and followed.stdout
    started.stdin.write(TIME)
    started.stdin.close()
    times, rest = [], 16 * 64 * 12
    while rest and (got := os.read(followed.stdout.fileno(), 1 << 16)):
        times.append(time.monotonic_ns() - struct.unpack_from("<Q", got, 8)[0])
        rest -= len(got)
    started.wait(60)
    end(followed)
    assert rest == 0 and statistics.median(times) < 100_000_000, f"{rest} bytes are missing; nanoseconds: {times}"
