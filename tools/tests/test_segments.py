"""Tests the segments that `rbhost stream` writes to a directory, and `rbhost follow`: hosts that are killed or restarted, segments that are deleted, and a full disk.

`--seconds N` says how long the long trials run.
"""
import contextlib
import os
import pathlib
import random
import re
import struct
import subprocess
import threading
import time

import pytest
from stream_host import (
    SECONDS,
    SEGMENT,
    Counters,
    Host,
    assert_no_gaps,
    assert_same,
    output_program,
    printed,
    records,
    segments,
)

# How many contexts are written while the oldest segments are deleted.
CONTEXTS = 20_000
# How many hosts are killed.
RESTARTS = 100


def test_restarts(host: Host) -> None:
    """Hosts that are killed at random moments, and a follower of all of them."""
    program, folder = host.file("all.hex", output_program(0, 16)), host.folder / "segments"
    words = host.words(
        f"--ring events:64K --program {program} --workers 2 --ctx 16 --in fixed --out {folder} --segment 20K"
    )
    number, follower = 0, None
    try:
        for life in range(RESTARTS + 1):
            started = subprocess.Popen(words, stdin=subprocess.PIPE, stdout=subprocess.DEVNULL, stderr=subprocess.PIPE)
            until = time.monotonic() + random.uniform(0, 0.1)
            while time.monotonic() < until or life == RESTARTS and number % 1000:
                started.stdin.write(struct.pack("<QQ", life, number))
                started.stdin.flush()
                number += 1
            if life == RESTARTS:
                told = started.communicate(timeout=SECONDS)[1].decode()
                if started.returncode != 0:
                    pytest.fail(f"the last host ends with {started.returncode}: {told}")
                break
            started.kill()
            with open(os.devnull, "wb") as nowhere:
                nowhere.write(started.stderr.read())
            started.wait()
            with contextlib.suppress(BrokenPipeError):
                started.stdin.close()
            if follower is None and (folder / "events.ring").exists():
                follower = subprocess.Popen([host.program, "follow", str(folder), "events"], stdout=subprocess.PIPE)
                lines: list[bytes] = []
                reader = threading.Thread(target=lambda: lines.append(follower.stdout.read()))
                reader.start()
        if follower is None:
            pytest.fail("no host made the directory")
        status = follower.wait(timeout=SECONDS)
        reader.join()
        found = segments(folder, "events")
        numbers = [struct.unpack("<QQ", it)[1] for _, tape in found for it in records(tape)]
        assert_no_gaps(found)
        assert_same(
            first=(found[0][0], 0),
            again=(len(set(numbers)), len(numbers)),
            rising=(len(numbers) > RESTARTS, True),
            many=(len(found) > 3, True),
            follow=(status, 0),
            same=(lines[0].decode() == printed(host, 65536, found), True),
        )
    finally:
        if follower:
            follower.kill()


def test_cut_record(host: Host) -> None:
    """A segment that was cut inside a record."""
    program, folder = host.file("all.hex", output_program(0, 8)), host.folder / "segments"
    words = [f"--ring events:4096 --program {program} --workers 1 --ctx 8 --in fixed --out {folder} --segment 64"]
    assert_same(status=(host.run(b"".join(struct.pack("<Q", n) for n in range(10)), *words)[0], 0))
    names = [position for position, _ in segments(folder, "events")]
    last = folder / f"events.{names[-1]:020}.tape"
    os.truncate(last, 16 + 5)
    status, _, counters = host.run(struct.pack("<Q", 99), *words)
    found = segments(folder, "events")
    numbers = [struct.unpack("<Q", it)[0] for _, tape in found for it in records(tape)]
    assert_no_gaps(found)
    assert_same(
        status=(status, 0),
        names=(names, [0, 64, 128]),
        numbers=(numbers, [*range(9), 99]),
        made=(counters.ring("events").get("made"), 1),
    )


def test_refusals(host: Host) -> None:
    """Directories that a host does not write to."""
    program, folder = host.file("all.hex", output_program(0, 8)), host.folder / "segments"

    def words(size: str) -> list[str]:
        return [f"--ring events:{size} --program {program} --workers 1 --ctx 8 --in fixed --out {folder}"]

    first = subprocess.Popen(host.words(*words("4096")), stdin=subprocess.PIPE, stderr=subprocess.PIPE)
    try:
        while not (folder / "events.ring").exists():
            time.sleep(0.01)
        locked = host.run(b"", *words("4096"))
        first.communicate(struct.pack("<Q", 7), timeout=SECONDS)
    finally:
        first.kill()
    other = host.run(b"", "--ring new:4096", *words("8192"))
    unopened = not (folder / "new.ring").exists()
    ended = (folder / "events.end").exists()
    (folder / "events.ring").write_text("heskavo-segments 1 size 4096\n")
    damaged = host.run(b"", *words("4096"))
    assert_same(
        first=(first.returncode, 0),
        locked=((locked[0], locked[2].text), (1, f"refused directory {folder}: another host writes to it\n")),
        other=((other[0], other[2].text), (1, "refused ring events has size 4096 in the directory\n")),
        ended=(ended, True),
        unopened=(unopened, True),
        damaged=((damaged[0], damaged[2].text), (1, "refused segments of ring events\n")),
    )


def test_keep(host: Host) -> None:
    """Segments of which the oldest are deleted."""
    program, folder = host.file("all.hex", output_program(0, 120)), host.folder / "segments"
    words = [
        f"--ring events:4M --program {program} --workers 2 --ctx 120 --in fixed --out {folder} --segment 64K",
        "--keep 1M",
    ]
    contexts = b"".join(struct.pack("<Q", n).ljust(120, b"\0") for n in range(CONTEXTS))
    for _ in range(2):
        assert_same(status=(host.run(contexts, *words)[0], 0))
    found = segments(folder, "events")
    end, oldest = found[-1][0] + len(found[-1][1]), found[0][0]
    late = subprocess.run(
        [host.program, "follow", str(folder), "events"], capture_output=True, timeout=SECONDS, check=False
    )
    gone = subprocess.run(
        [host.program, "follow", str(folder), "events", "--from", "0"],
        capture_output=True,
        timeout=SECONDS,
        check=False,
    )
    assert_no_gaps(found)
    assert_same(
        end=(end, 2 * CONTEXTS * 128),
        kept=(2**20 - 65536 - 128 <= end - oldest <= 2**20, True),
        full=({len(tape) for _, tape in found[:-1]}, {65536}),
        late=((late.returncode, late.stdout.decode() == printed(host, 2**22, found)), (0, True)),
        gone=((gone.returncode, gone.stderr.decode()), (1, f"refused deleted; the oldest record is at {oldest}\n")),
    )


def unbroken(folder: pathlib.Path, ring: str) -> tuple[str, int, int]:
    """Returns what is wrong with the names of a ring's segments while a host writes them, the oldest position, and the number of bytes."""
    sizes: list[tuple[int, int]] = []
    for path in sorted(folder.iterdir()):
        name = SEGMENT.fullmatch(path.name)
        with contextlib.suppress(FileNotFoundError):
            if name and name[1] == ring:
                sizes.append((int(name[2]), path.stat().st_size))
    # The newest two may grow while they are listed.
    wrong = next(
        (
            f"the segment before {after} ends at {here + size}"
            for (here, size), (after, _) in zip(sizes, sizes[1:-1])
            if here + size != after
        ),
        "",
    )
    return wrong, sizes[0][0] if sizes else 0, sum(size for _, size in sizes)


def followed(lines: str) -> int:
    """Returns the position after the last whole line of JSON that `follow` wrote to this file, or 0 if there is none."""
    with open(lines, "rb") as file:
        file.seek(max(0, os.path.getsize(lines) - 4096))
        found = re.findall(rb'"pos":"?(\d+)[^\n]*\n', file.read())
    return int(found[-1]) + 128 if found else 0


def test_long_keep(host: Host, seconds: int) -> None:
    """Segments that are deleted for a long time, and a follower that comes late."""
    program, folder = host.file("all.hex", output_program(0, 120)), host.folder / "segments"
    words = host.words(
        f"--ring events:4M --program {program} --workers 2 --ctx 120 --in fixed --out {folder} --segment 64K",
        "--keep 1M",
    )
    started = subprocess.Popen(words, stdin=subprocess.PIPE, stderr=subprocess.PIPE)
    follower, number, begins, most = None, 0, (0, 0), 0
    try:
        ends = time.monotonic() + seconds
        while (now := time.monotonic()) < ends:
            started.stdin.write(b"".join(struct.pack("<Q", number + n).ljust(120, b"\0") for n in range(200)))
            started.stdin.flush()
            number += 200
            if number % 10_000 == 0:
                gap, _, size = unbroken(folder, "events")
                assert not gap
                most = max(most, size)
            if follower is None and ends - now < seconds / 3:
                before = unbroken(folder, "events")[1]
                lines = open(host.folder / "lines", "wb")
                follower = subprocess.Popen([host.program, "follow", str(folder), "events", "--json"], stdout=lines)
                while not os.path.getsize(lines.name):
                    time.sleep(0.01)
                begins = (before, unbroken(folder, "events")[1])
            # A follower that falls behind what is kept is refused, as it should be, so the input waits for one that is delayed by other load.
            while follower and follower.poll() is None and number * 128 - followed(lines.name) > 2**19:
                time.sleep(0.01)
            time.sleep(0.01)
        told = started.communicate(timeout=SECONDS)[1].decode()
        status = follower.wait(timeout=SECONDS)
        positions = [int(it) for it in re.findall(r'"pos":"?(\d+)', (host.folder / "lines").read_text())]
        gap = next(
            (f"after {here} follows {there}" for here, there in zip(positions, positions[1:]) if there - here != 128),
            "",
        )
        found = segments(folder, "events")
        assert gap == ""
        assert_no_gaps(found)
        assert_same(
            status=(started.returncode, 0),
            read=(Counters(told).read, number),
            follow=(status, 0),
            first=(begins[0] <= positions[0] <= begins[1], True),
            last=(positions[-1] + 128, number * 128),
            deleted=(found[0][0] > 0, True),
            kept=(most <= 2**20 + 2 * 2**16, True),
        )
    finally:
        started.kill()
        if follower:
            follower.kill()


def resources(process: int) -> tuple[int, int]:
    """Returns how many KiB of memory a process has, and how many files it has open."""
    text = pathlib.Path(f"/proc/{process}/status").read_text()
    return int(re.search(r"VmRSS:\s+(\d+)", text)[1]), len(os.listdir(f"/proc/{process}/fd"))


def test_long_speed(host: Host, seconds: int) -> None:
    """A host at full speed for a long time."""
    program, folder = host.file("all.hex", output_program(0, 24)), host.folder / "segments"
    words = host.words(
        f"--ring events:4M --program {program} --workers 4 --ctx 128 --in fixed --out {folder} --segment 16M",
        f"--keep 64M --metrics {host.folder / 'metrics'} --every 1",
    )
    with open(host.folder / "told", "wb") as told:
        started = subprocess.Popen(words, stdin=subprocess.PIPE, stderr=told)
    seen: list[tuple[int, int]] = []
    try:
        contexts, written, begun, looked = bytes(128 * 4096), 0, time.monotonic(), 0.0
        while (now := time.monotonic()) < begun + seconds:
            started.stdin.write(contexts)
            written += 4096
            if now > looked + seconds / 100:
                looked = now
                seen.append(resources(started.pid))
        started.stdin.close()
        status = started.wait(timeout=SECONDS)
    finally:
        started.kill()
    counters = Counters((host.folder / "told").read_text())
    ring, first, last = counters.ring("events"), seen[len(seen) // 5 : len(seen) // 2], seen[len(seen) // 2 :]
    memory, files = [max(it[0] for it in half) for half in (first, last)], [
        max(it[1] for it in half) for half in (first, last)
    ]
    if memory[1] > memory[0] * 1.05 + 1024 or files[1] > files[0] + 1:
        pytest.fail(f"memory grew from {memory[0]} to {memory[1]} KiB, open files from {files[0]} to {files[1]}")
    assert_same(
        status=(status, 0),
        read=(counters.read, written),
        run=(counters.run, written),
        made=(ring["made"] + ring["refused"], written),
        consumed=(ring["consumed"], ring["made"]),
    )


def test_full_disk(host: Host) -> None:
    """A disk of 1 MiB."""
    disk = host.folder / "disk"
    disk.mkdir()
    if (
        os.geteuid()
        or subprocess.run(
            ["mount", "-t", "tmpfs", "-o", "size=1m", "tmpfs", str(disk)], capture_output=True, check=False
        ).returncode
    ):
        pytest.skip("a small disk needs root")
    try:
        first, second = host.file("all.hex", output_program(0, 120)), host.file("other.hex", output_program(1, 120))
        words = [
            f"--ring big:4M --ring other:4M --program {first} --program {second} --workers 2 --ctx 120 --in fixed",
            "--segment 64K",
        ]
        status, tape, counters = host.run(bytes(120) * CONTEXTS, *words, "--out", str(disk), "--out", "other=-")
        found = segments(disk, "big")
        whole = b"".join(it for _, it in found)
        again = subprocess.run(
            [host.program, "tape", "--size", "4194304"],
            input=whole[: len(whole) // 128 * 128],
            capture_output=True,
            timeout=SECONDS,
            check=False,
        )
        assert_no_gaps(found)
        assert_same(
            status=(status, 1),
            told=(re.findall("^refused .*$", counters.text, re.M), ["refused tape of ring big"]),
            run=(counters.run, CONTEXTS),
            other=(len(records(tape)), CONTEXTS),
            some=(2**19 < len(whole) < 2**20, True),
            records=((again.returncode, again.stdout.count(b"\n")), (0, len(whole) // 128)),
        )
    finally:
        subprocess.run(["umount", str(disk)], check=False)
