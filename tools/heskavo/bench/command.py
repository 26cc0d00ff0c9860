"""Measures the rings, loading, the interpreter, whole jobs, streams, and `rbhost feed`, `tape`, `run` and `stream`, each
with its yardstick.

Our program and the yardstick run alternately, N times each (5 by default). Each run is a separate process, which makes
one warm-up round that is not reported and then three that are. For a whole command a round is one process, and twice as
many run. A figure is the median of all rounds, with the minimum and the maximum in brackets, and the ratio is the ratio
of the medians. A row with several yardsticks is compared with the one whose median is best. A row of the interpreter
also has the ratio of the minima, since machines forward a stored number at two speeds, which change within seconds.

A round of whole jobs or of a stream is discarded if more than one job or context of 200 was refused a record on either
side, since a refused job does less work; the table says how many were discarded. In the comparison with Linux's own
ring no rounds are discarded: a figure is the number of records a second that arrived, and the table says which share of
the jobs got no record. With --only, only the rows whose name contains the word are measured. With --svg the table is
also drawn, as ratios.svg and jobs.svg in FOLDER. With --table nothing is measured: the table in FILE is drawn, either
an earlier output or that of docs/PERFORMANCE.md.

A stream from memory is compared with whole jobs over the same program and contexts, and one that waits for room with
one that does not. `rbhost stream` reads contexts of 128 bytes from a pipe, of which half pass a filter, and writes
their records to a file, as its yardsticks do; the rows of its delay have the time within which 99 of 100 records
arrived, at 1,000 contexts a second. On a machine with other load, --ahead runs everything before other processes (as
root, by Linux's priorities): then the load hardly counts, except for caches and memory.

The yardsticks are in tools/yardsticks; those whose requirements are missing are skipped. The proved programs are
measured if the gate (.ci/run) has built them. Otherwise, or with --unproved, the programs that `tools/rbhost --path`
builds without proof are measured. Standard error says which. All programs keep the memory that a round frees, in huge
pages, so that a round does not pay for fresh pages that an earlier one has paid for (docs/PERFORMANCE.md says what they
cost). Each time is printed with the peak memory of our processes.
"""
import argparse
import atexit
import glob
import os
import pathlib
import random
import shutil
import subprocess
import sys
import tempfile
from collections.abc import Iterator, Sequence

from heskavo.bench import charts
from heskavo.bench.readings import Row, measure, tell
from heskavo.program import builds, library
from heskavo.repository import ROOT

YARDSTICKS = ROOT / "tools" / "yardsticks"

# Whole jobs: the number of jobs per worker, and the numbers of workers.
JOBS = 300000
WORKERS = (1, 2, 4)
# Comparison with Linux's own ring: the numbers of workers, and the number of jobs of each.
BESIDE_LINUX = ((1, 300000), (2, 300000), (4, 300000), (64, 20000))

# Streams: the number of contexts per worker from memory, and their lengths; the number of contexts through a pipe, and their length; the size of the ring;
# and the percentile of the delay, the contexts a second, and their number in a round.
EACH, LENGTHS = 300000, (16, 128)
PIPED, PIPED_LENGTH, RING = 1000000, 128, "1M"
PERCENTILE, RATE, DELAYED = 99, 1000, 2000

# In a round of `rb_trials bench` and of the interpreter's yardstick: how often a program is loaded, the instructions of a run, and the number of runs.
LOADS = 20
RUNS = 250
INSTRUCTIONS = 4001

# How the C library allocates for the yardsticks.
TUNABLES = "glibc.malloc.hugetlb=1:glibc.malloc.mmap_max=0:glibc.malloc.trim_threshold=1000000000000"


def built(crate: str, is_unproved: bool) -> str:
    """Returns the path of a program: the proved one if it exists, otherwise one that is built without proof."""
    program = str(builds.unproved(crate) if is_unproved else builds.find(crate))
    print(f"measured: {os.path.relpath(program, ROOT)}", file=sys.stderr)
    return program


def c_program(work: str, name: str, with_dpdk: bool = False, libraries: Sequence[str] = ()) -> str | None:
    """Builds a program in C and returns its path, or None if gcc, DPDK or a library is not installed."""
    command = [
        "gcc",
        "-O2",
        "-D_GNU_SOURCE",
        "-pthread",
        "-o",
        os.path.join(work, name),
        os.path.join(YARDSTICKS, name + ".c"),
        *libraries,
    ]
    if with_dpdk:
        flags = subprocess.run(["pkg-config", "--cflags", "libdpdk"], capture_output=True, text=True)
        if flags.returncode != 0:
            return None
        command += flags.stdout.split() + ["-lrte_bpf"]
    if shutil.which("gcc") is None:
        return None
    if subprocess.run(command, stderr=subprocess.DEVNULL if libraries else None, check=not libraries).returncode != 0:
        return None
    return os.path.join(work, name)


def linux_program(work: str) -> str | None:
    """Builds the jobs over Linux's own ring and returns their path, or None if gcc is not installed or bpf(2) is refused."""
    program = c_program(work, "linux_jobs")
    return (
        program
        if program
        and subprocess.run(
            [program, "1", "1"], stdout=subprocess.DEVNULL, stderr=subprocess.DEVNULL, check=False
        ).returncode
        == 0
        else None
    )


def stream_hosts(work: str) -> list[str | None]:
    """Builds the stream hosts and returns the path of each that runs here: the one of known parts, and the one over Linux's own ring."""
    found = [c_program(work, "stream_host", True), c_program(work, "linux_stream", libraries=["-lbpf"])]
    runs = (
        lambda host: host
        and subprocess.run(
            [host, "1"], stdin=subprocess.DEVNULL, stdout=subprocess.DEVNULL, stderr=subprocess.DEVNULL, check=False
        ).returncode
        == 0
    )
    return [host if runs(host) else None for host in found]


def rust_program(work: str) -> str | None:
    """Builds the Rust queues and returns their path, or None if cargo or Debian's librust-crossbeam-queue-dev is not installed."""
    registry = "/usr/share/cargo/registry"
    found = glob.glob(os.path.join(registry, "crossbeam-queue-*"))
    if not found or shutil.which("cargo") is None:
        return None
    project = os.path.join(work, "queues")
    os.makedirs(os.path.join(project, "src"))
    os.makedirs(os.path.join(project, ".cargo"))
    shutil.copy(os.path.join(YARDSTICKS, "queues.rs"), os.path.join(project, "src", "main.rs"))
    with open(os.path.join(project, "Cargo.toml"), "w") as out:
        out.write('[package]\nname = "queues"\nversion = "0.0.0"\nedition = "2021"\n\n[dependencies]\n')
        out.write(f'crossbeam-queue = {{ path = "{found[0]}" }}\n')
    with open(os.path.join(project, ".cargo", "config.toml"), "w") as out:
        out.write(f'[source.crates-io]\nreplace-with = "debian"\n\n[source.debian]\ndirectory = "{registry}"\n')
    subprocess.run(
        ["cargo", "build", "--quiet", "--release", "--offline"], cwd=project, stderr=subprocess.DEVNULL, check=True
    )
    return os.path.join(project, "target", "release", "queues")


def rows_of_rings(bench: list[str], kernel: str | None, queues: str | None) -> Iterator[Row]:
    """Returns the rows of records through the ring of one thread, and through the shared ring with a consumer."""

    def theirs(records: int, length: int, producers: int) -> list[list[str]]:
        numbers = [str(records), str(length), str(producers)]
        kernels = [[kernel] + numbers] if kernel else []
        return kernels + ([[queues, kind] + numbers for kind in ("array", "deque")] if queues else [])

    for length in (8, 256):
        for records in (100000, 1000000):
            for name in ("output_take", "reserve_submit_take"):
                command = bench + ["time", name, str(length), str(records)]
                yield Row(
                    f"{name}, {length} bytes, {records} records", command, theirs(records, length, 0), records, "M/s"
                )
    for records in (100000, 1000000):
        for producers in (1, 2, 4):
            command = bench + ["time", "shared", str(producers), str(records // producers)]
            yield Row(
                f"shared ring, {producers} to 1, {records} records",
                command,
                theirs(records, 8, producers),
                records,
                "M/s",
            )


def rows_of_programs(bench: list[str], interpreter: str | None) -> Iterator[Row]:
    """Returns the rows of loading and of the interpreter."""
    yardstick = lambda word: [[interpreter, word]] if interpreter else []
    yield Row("decode, shape and verify, 1000 units", bench + ["time", "load", "1000"], [], LOADS, "us", 1e3)
    yield Row(
        "decode, shape and verify, 4000 units", bench + ["time", "load", "4000"], yardstick("load"), LOADS, "us", 1e3
    )
    yield Row("decode, shape and verify, 4096 units that spill", bench + ["time", "spill"], [], LOADS, "us", 1e3)
    instructions = RUNS * INSTRUCTIONS
    for code, word, kind in (
        ("arithmetic", "arithmetic", "run"),
        ("the stack", "stack", "stack"),
        ("memory", "memory", "memory"),
    ):
        name = f"interpreter, 4000 units of {code}"
        yield Row(name, bench + ["time", word], yardstick(kind), instructions, "ns", 1, least=True)


def rows_of_jobs(bench: list[str], jobs: str | None) -> Iterator[Row]:
    """Returns the rows of whole jobs, timed from the start of the threads to their end on both sides."""
    for workers in WORKERS:
        numbers = [str(workers), str(JOBS)]
        theirs = [[jobs] + numbers] if jobs else []
        yield Row(
            f"whole jobs, {workers} workers, {JOBS} jobs each",
            bench + ["time", "jobs"] + numbers,
            theirs,
            workers * JOBS,
            "M/s",
            jobs=True,
        )


def rows_of_streams(bench: list[str]) -> Iterator[Row]:
    """Returns the rows of streams from memory: compared with whole jobs over the same program and contexts, and with room waited for, compared with streams."""
    for length in LENGTHS:
        for workers in WORKERS:
            timed = lambda word: bench + ["time", word, str(workers), str(EACH), str(length)]
            yield Row(
                f"stream, {length} bytes, {workers} workers, beside run_jobs",
                timed("stream"),
                [timed("jobs")],
                workers * EACH,
                "M/s",
                jobs=True,
            )
    for workers in WORKERS:
        timed = lambda word: bench + ["time", word, str(workers), str(EACH)]
        yield Row(
            f"waiting stream, {workers} workers, beside stream",
            timed("waiting_stream"),
            [timed("stream")],
            workers * EACH,
            "M/s",
            jobs=True,
        )


def rows_of_stream_hosts(work: str, host: str) -> Iterator[Row]:
    """Returns the rows of `rbhost stream`: its speed from a pipe to a file, and its delay, each compared with a host in C and with Linux's own ring."""
    contexts, records = os.path.join(work, "contexts"), os.path.join(work, "records")
    some = random.Random(1).randbytes(PIPED_LENGTH * PIPED // 100)
    with open(contexts, "wb") as file:
        for _ in range(100):
            file.write(some)
    words = [
        "stream",
        "--ring",
        f"events:{RING}",
        "--program",
        os.path.join(YARDSTICKS, "filter.hex"),
        "--ctx",
        str(PIPED_LENGTH),
        "--in",
        "fixed",
        "--out",
        "events=-",
    ]
    ours = lambda workers: [host, *words, "--workers", str(workers)]
    names = ("beside a C host", "beside Linux's ring")
    hosts: list[tuple[str, str | None]] = [(name, it) for name, it in zip(names, stream_hosts(work)) if it] or [
        ("no yardstick", None)
    ]
    for name, it in hosts:
        for workers in WORKERS:
            theirs = [[it, str(workers)]] if it else []
            yield Row(
                f"rbhost stream, {workers} workers, {name}",
                ours(workers),
                theirs,
                PIPED,
                "M/s",
                jobs=True,
                stdin=contexts,
                out=records,
            )
    driver = c_program(work, "delay")
    for name, it in hosts if driver else ():
        timed = [driver, str(PERCENTILE), str(RATE), str(DELAYED)]
        yield Row(f"delay of rbhost stream, {name}", timed + ours(1), [timed + [it, "1"]] if it else [], 1, "us", 1e3)


def engine_program(work: str, is_unproved: bool) -> str | None:
    """Builds the runs of an engine over the library for C, and returns the path, or None if gcc is not installed."""
    if shutil.which("gcc") is None:
        return None
    made = library.build(pathlib.Path(work), is_proved=not is_unproved)
    path, source = os.path.join(work, "engine"), os.path.join(YARDSTICKS, "engine.c")
    words = ["gcc", "-O2", f"-I{ROOT}/include", "-o", path, source, str(made)]
    subprocess.run(words, check=True)
    return path


def rows_of_engines(work: str, is_unproved: bool, jobs: str | None, only: str) -> Iterator[Row]:
    """Returns the row of a program that runs in an engine of the library for C, whose record is taken after each run. The library is built only for this row."""
    name = f"engine for C, {JOBS} runs and takes"
    engine = engine_program(work, is_unproved) if only in name else None
    if engine:
        program, text = os.path.join(work, "program"), os.path.join(ROOT, "examples", "submit_42.hex")
        pathlib.Path(program).write_bytes(bytes.fromhex(pathlib.Path(text).read_text()))
        theirs = [[jobs, "0", str(JOBS)]] if jobs else []
        yield Row(name, [engine, program, str(JOBS)], theirs, JOBS, "M/s")


def rows_beside_linux(bench: list[str], linux: str | None) -> Iterator[Row]:
    """Returns the rows that compare whole jobs with Linux's own ring, with what each lost; none if bpf(2) is refused."""
    for workers, jobs in BESIDE_LINUX if linux else ():
        numbers = [str(workers), str(jobs)]
        yield Row(
            f"jobs beside Linux, {workers} workers, {jobs} jobs each",
            bench + ["time", "jobs"] + numbers,
            [[linux] + numbers],
            workers * jobs,
            "M/s",
            lost=True,
        )


def rows_of_commands(work: str, bench: list[str], host: str) -> Iterator[Row]:
    """Returns the rows of whole commands, each a process timed from start to end: `feed` and `tape` compared with `cat`, and `run`."""
    payloads, tape = os.path.join(work, "payloads"), os.path.join(work, "tape")
    with open(payloads, "wb") as out:
        subprocess.run(bench + ["payloads"], stdout=out, check=True)
    with open(payloads, "rb") as read, open(tape, "wb") as out:
        subprocess.run([host, "feed", "--size", "65536"], stdin=read, stdout=out, stderr=subprocess.DEVNULL, check=True)
    for command, stdin in (("feed", payloads), ("tape", tape)):
        yield Row(
            f"{command} of payloads of 64 bytes, beside cat",
            [host, command, "--size", "65536"],
            [["cat"]],
            os.path.getsize(stdin),
            "MB/s",
            stdin=stdin,
        )
    text = os.path.join(ROOT, "examples", "submit_42.hex")
    for workers in WORKERS:
        words = [host, "run", "--workers", str(workers), "--jobs", str(JOBS), "--size", "1048576"]
        yield Row(f"rbhost run, {workers} workers, {JOBS} jobs each", words, [], workers * JOBS, "M/s", stdin=text)


def draw(table: str, folder: str | pathlib.Path) -> None:
    """Draws the charts of a table into a folder."""
    rows = charts.rows_in(table)
    for name, text in (("ratios.svg", charts.ratios(rows)), ("jobs.svg", charts.jobs(rows))):
        pathlib.Path(folder, name).write_text(text)
        print(f"drew {pathlib.Path(folder, name)} of {len(rows)} rows", flush=True)


def run_ahead() -> None:
    """Runs this script and what it starts before other processes: by their priority, and until it ends by that of the session, if Linux schedules sessions."""
    os.nice(-20)
    session = pathlib.Path("/proc/self/autogroup")
    if session.exists():
        session.write_text("-20")
        atexit.register(session.write_text, "0")


def add_arguments(parser: argparse.ArgumentParser) -> None:
    """Adds the options."""
    parser.add_argument("--unproved", action="store_true", help="measure the programs that are built without proof")
    parser.add_argument("--ahead", action="store_true", help="run before all other processes")
    parser.add_argument("--only", metavar="WORD", default="", help="measure only the rows whose name contains WORD")
    parser.add_argument("--turns", metavar="N", type=int, default=5, help="how often each program runs (5)")
    parser.add_argument("--svg", metavar="FOLDER", type=pathlib.Path, help="draw the table into FOLDER")
    parser.add_argument(
        "--table", metavar="FILE", type=pathlib.Path, help="draw the table in FILE, and measure nothing"
    )


def run(asked: argparse.Namespace) -> int:
    """Measures all rows, or draws a table."""
    if asked.table:
        draw(asked.table.read_text(), asked.svg or pathlib.Path("."))
        return 0
    # The yardsticks also run with this setting.
    os.environ["GLIBC_TUNABLES"] = TUNABLES
    lines = []
    bench, host = [built("rb_trials", asked.unproved), "bench"], built("rbhost", asked.unproved)
    with tempfile.TemporaryDirectory() as work:
        kernel, queues = c_program(work, "kernel_ring"), rust_program(work)
        interpreter, jobs, linux = (
            c_program(work, "interpreter", True),
            c_program(work, "jobs", True),
            linux_program(work),
        )
        rows = [
            *rows_of_rings(bench, kernel, queues),
            *rows_of_programs(bench, interpreter),
            *rows_of_jobs(bench, jobs),
            *rows_of_streams(bench),
            *rows_of_engines(work, asked.unproved, jobs, asked.only),
            *rows_beside_linux(bench, linux),
            *rows_of_commands(work, bench, host),
            *rows_of_stream_hosts(work, host),
        ]
        if asked.ahead:
            run_ahead()
        print(
            f"{'what':48} {'unit':5} {'here: median (spread)':28} {'yardstick':28} {'ratio':>10} {'left out':>8} {'peak':>8}"
        )
        for row in rows:
            if asked.only in row.name:
                lines.append(tell(row, *measure(row, asked.turns)))
    if asked.svg:
        draw("\n".join(lines), asked.svg)
    return 0
