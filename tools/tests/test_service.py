"""Tests `rbhost stream` with pipes, log lines, inputs that are faster than its workers, and a FIFO with several writers."""
import json
import os
import random
import select
import struct
import subprocess
import threading
import time

import pytest
from stream_host import (
    END,
    FLUSH,
    SECONDS,
    Counters,
    Host,
    assert_same,
    discard_program,
    frame,
    output_program,
    printed,
    records,
    segments,
)

# How long a context may take from a pipe to the tape, in seconds, in the best of so many tries.
LIVE, TRIES = 0.1, 5
# How many contexts come in a trial of overload: more than fit into the queue of a worker, 64 pieces of 64 contexts.
CONTEXTS = 20_000
# The contexts of a trial with a slow output, and how many bytes of it are read in a second: a record has 16 bytes, so it takes two seconds.
SLOW, RATE = 131_072, 1_000_000


def test_frames(host: Host) -> None:
    """Frames of several lengths."""
    program = host.file("all.hex", output_program(0, 16))
    contexts = [bytes([n]) * (n % 17) for n in range(200)]
    given = (
        b"".join(map(frame, contexts))
        + struct.pack("<I", FLUSH)
        + frame(b"x" * 40)
        + frame(b"last")
        + struct.pack("<I", END)
        + frame(b"never read")
    )
    words = [f"--ring events:64K --program {program} --workers 1 --ctx 16 --in frames --out events=-"]
    status, tape, counters = host.run(given, *words, "--fit", "pad")
    wanted = [it.ljust(16, b"\0") for it in [*contexts, b"last"]]
    assert_same(
        status=(status, 0),
        records=(records(tape), wanted),
        read=(counters.read, 202),
        run=(counters.run, 201),
        skipped=(counters.skipped, 1),
        cut=(counters.cut, 0),
        sum=(counters.run + counters.dropped + counters.skipped, counters.read),
        made=(counters.ring("events").get("made"), 201),
    )
    status, tape, counters = host.run(given, *words, "--fit", "cut")
    wanted.insert(200, b"x" * 16)
    assert_same(status=(status, 0), records=(records(tape), wanted), read=(counters.read, 202), cut=(counters.cut, 1))
    status, tape, counters = host.run(given, *words)
    exact = [it for it in contexts if len(it) == 16]
    assert_same(
        status=(status, 0),
        records=(records(tape), exact),
        read=(counters.read, 202),
        run=(counters.run, len(exact)),
        skipped=(counters.skipped, 202 - len(exact)),
    )


def test_cut(host: Host) -> None:
    """An input that ends inside a frame."""
    program = host.file("all.hex", output_program(0, 8))
    words = [f"--ring events:4096 --program {program} --workers 2 --ctx 8 --in frames --out events=-"]
    status, tape, counters = host.run(frame(b"12345678") + frame(b"abcdefgh") + frame(b"inside..")[:7], *words)
    told = "refused input ends inside context 2\n" in counters.text
    assert_same(
        status=(status, 1),
        records=(sorted(records(tape)), [b"12345678", b"abcdefgh"]),
        read=(counters.read, 2),
        run=(counters.run, 2),
        told=(told, True),
    )


def test_lines(host: Host) -> None:
    """Log lines over two rings."""
    log = b"".join(b"%s message %d\n" % (random.choice([b"INFO", b"WARN", b"info"]), n) for n in range(5000))
    path = host.folder / "log"
    path.write_bytes(log)
    first = host.file("all.hex", output_program(0, 32))
    small = host.file("small.hex", output_program(1, 32, above=0x60))
    words = [
        f"--ring all:1M --ring small:1M --program {first} --program {small} --workers 4 --ctx 32 --in lines",
        f"--fit cut --out small={host.folder}/small.tape",
    ]
    status, _, counters = host.run(log, *words)
    count = int(subprocess.run(["grep", "-c", "^info", path], capture_output=True, check=True).stdout)
    tape = records((host.folder / "small.tape").read_bytes())
    assert_same(
        status=(status, 0),
        read=(counters.read, 5000),
        all=(counters.ring("all").get("consumed"), 5000),
        small=(counters.ring("small").get("consumed"), count),
        tape=(len(tape), count),
    )


def test_objects(host: Host) -> None:
    """Lines in place of a tape."""
    contexts = [
        text.ljust(24, b"\0")
        for n in range(500)
        for text in (b'say "%d"\n' % n, "\u00fc\u2026 %d".encode() % n if n % 2 else random.randbytes(24))
    ]
    programs = [
        "--program",
        host.file("all.hex", output_program(0, 24)),
        "--program",
        host.file("discards.hex", discard_program(0, 40)),
    ]
    words = ["--ring events:1M", *programs, "--workers", "1", "--ctx", "24", "--in", "fixed", "--out"]
    given, path = b"".join(contexts), host.folder / "lines"
    status, tape, _ = host.run(given, *words, "events=-")
    wanted = subprocess.run(
        [host.program, "tape", "--json", "--size", "1048576"],
        input=tape,
        capture_output=True,
        timeout=SECONDS,
        check=False,
    ).stdout
    printed_status, lines, counters = host.run(given, *words, "events=-", "--json")
    file_status, nothing, _ = host.run(given, *words, f"events={path}", "--json")
    found, ring = [json.loads(line) for line in lines.splitlines()], counters.ring("events")
    assert_same(
        status=(status, 0),
        printed_status=(printed_status, 0),
        file_status=(file_status, 0),
        same=(lines == wanted, True),
        file=(path.read_bytes() == wanted, True),
        nothing=(nothing, b""),
        events=([bytes.fromhex(it["hex"]) for it in found if not it["discarded"]], contexts),
        discarded=([it["len"] for it in found if it["discarded"]], [40] * len(contexts)),
        counted=((ring["consumed"], ring["discarded"]), (len(contexts), len(contexts))),
    )
    folder = host.folder / "segments"
    status, printed_too, counters = host.run(given, *words, str(folder), "--json")
    why = f"the value '{folder}' of '--out' is not NAME=FILE, which --json needs: segments are tapes"
    assert_same(
        refused=(status, 2), why=(why in counters.text, True), nothing=((printed_too, folder.exists()), (b"", False))
    )


def slowest(host: Host, *options: str) -> float:
    """Returns how long a context at a time takes over a pipe that stays open, at most."""
    program = host.file("all.hex", output_program(0, 8))
    words = host.words(f"--ring events:64K --program {program} --workers 2 --ctx 8 --in fixed --out events=-", *options)
    started = subprocess.Popen(words, stdin=subprocess.PIPE, stdout=subprocess.PIPE, stderr=subprocess.PIPE)
    longest = 0.0
    try:
        for n in range(20):
            time.sleep(0.05)
            began = time.monotonic()
            started.stdin.write(struct.pack("<Q", n))
            started.stdin.flush()
            if not select.select([started.stdout], [], [], SECONDS)[0]:
                pytest.fail("nothing is printed")
            got = os.read(started.stdout.fileno(), 4096)
            longest = max(longest, time.monotonic() - began)
            payloads = (
                [bytes.fromhex(json.loads(line)["hex"]) for line in got.splitlines()] if options else records(got)
            )
            assert payloads == [struct.pack("<Q", n)], got
        started.stdin.close()
        assert started.wait(timeout=SECONDS) == 0
        return longest
    finally:
        started.kill()


@pytest.mark.parametrize("options", [(), ("--json",)])
def test_live(host: Host, options: tuple[str, ...]) -> None:
    """A context that is written to a pipe is on the tape, and with --json a line, within 100 ms, although the pipe stays open: in the best of some tries, for loaded machines."""
    assert any(slowest(host, *options) <= LIVE for _ in range(TRIES))


def overload(host: Host, late: str) -> Counters:
    """Returns the counters of a run whose program is slow."""
    program = host.file("slow.hex", "b700000000000000 " * 3000 + output_program(0, 8))
    words = [f"--ring events:64M --program {program} --workers 1 --ctx 1024 --in fixed --late {late}"]
    return host.run(bytes(1024) * CONTEXTS, *words)[2]


def test_block(host: Host) -> None:
    """An input that is faster than the workers, which waits."""
    counters = overload(host, "block")
    assert_same(read=(counters.read, CONTEXTS), run=(counters.run, CONTEXTS), dropped=(counters.dropped, 0))


def test_drop(host: Host) -> None:
    """An input that is faster than the workers, of which pieces are dropped."""
    counters = overload(host, "drop")
    ring = counters.ring("events")
    if counters.dropped == 0:
        pytest.fail("nothing was dropped")
    assert_same(
        read=(counters.read, CONTEXTS),
        sum=(counters.run + counters.dropped, CONTEXTS),
        made=(ring["made"] + ring["refused"], counters.run),
    )


def slow_output(host: Host, full: str) -> tuple[int, int, Counters]:
    """Returns the status of a run whose tape is read slowly, how many records were read, and the counters."""
    program = host.file("all.hex", output_program(0, 8))
    given, told = host.folder / "contexts", host.folder / "counters"
    given.write_bytes(bytes(8 * SLOW))
    words = host.words(
        f"--ring events:64K --program {program} --workers 64 --ctx 8 --in fixed --from {given} --out events=-",
        f"--full {full}",
    )
    with open(told, "wb") as out, subprocess.Popen(
        words, stdin=subprocess.DEVNULL, stdout=subprocess.PIPE, stderr=out
    ) as started:
        tape = b""
        while got := os.read(started.stdout.fileno(), 16_384):
            tape += got
            time.sleep(len(got) / RATE)
        status = started.wait(timeout=SECONDS)
    return status, len(records(tape)), Counters(told.read_text())


def test_full(host: Host) -> None:
    """64 workers over a small ring whose output is slow."""
    status, taken, counters = slow_output(host, "wait")
    ring = counters.ring("events")
    assert_same(
        status=(status, 0),
        run=(counters.run, SLOW),
        made=(ring["made"], SLOW),
        refused=(ring["refused"], 0),
        consumed=(ring["consumed"], SLOW),
        taken=(taken, SLOW),
    )
    status, taken, counters = slow_output(host, "refuse")
    ring = counters.ring("events")
    if ring["refused"] < SLOW // 10:
        pytest.fail(f"only {ring['refused']} records were refused")
    assert_same(
        refuse_status=(status, 0), sum=(ring["made"] + ring["refused"], SLOW), refuse_taken=(taken, ring["made"])
    )


def test_fifo(host: Host) -> None:
    """Eight writers over a FIFO."""
    path = host.folder / "fifo"
    os.mkfifo(path)
    program = host.file("all.hex", output_program(0, 16))
    words = host.words(
        f"--ring events:1M --program {program} --workers 3 --ctx 16 --in frames --from {path} --out events=-"
    )
    started = subprocess.Popen(words, stdin=subprocess.DEVNULL, stdout=subprocess.PIPE, stderr=subprocess.PIPE)

    def write(number: int) -> None:
        with open(path, "wb", buffering=0) as it:
            for n in range(500):
                it.write(frame(struct.pack("<QQ", number, n)))

    # The first writer closes the FIFO before the others come, and these come together.
    write(0)
    writers = [threading.Thread(target=write, args=(number,)) for number in range(1, 8)]
    for writer in writers:
        writer.start()
    for writer in writers:
        writer.join()
    with open(path, "wb", buffering=0) as it:
        it.write(struct.pack("<I", END))
    tape, told = started.communicate(timeout=SECONDS)
    counters = Counters(told.decode())
    found = sorted(struct.unpack("<QQ", it) for it in records(tape))
    assert_same(
        status=(started.returncode, 0),
        read=(counters.read, 4000),
        records=(found, [(number, n) for number in range(8) for n in range(500)]),
    )
