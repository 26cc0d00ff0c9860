"""Tests `rbhost stream` with real peers: node_exporter, Linux, a Redis server, and a capture of tcpdump.

A test whose packages are missing is skipped. `--seconds N` says how long the one with packets runs.
"""
import contextlib
import json
import os
import pathlib
import random
import re
import shutil
import signal
import socket
import struct
import subprocess
import time
import urllib.request
from typing import Any

import pytest
from stream_host import SECONDS, Counters, Host, assert_same, frame, output_program, records, segments

from heskavo.repository import ROOT


def samples(text: str) -> dict[str, int]:
    """Returns the samples of a file of metrics."""
    return {
        line.rsplit(" ", 1)[0]: int(line.rsplit(" ", 1)[1]) for line in text.splitlines() if not line.startswith("#")
    }


def exported(folder: pathlib.Path) -> str:
    """Returns what node_exporter shows of the files of metrics in a folder."""
    with socket.socket() as free:
        free.bind(("127.0.0.1", 0))
        port = free.getsockname()[1]
    words = [
        "prometheus-node-exporter",
        f"--web.listen-address=127.0.0.1:{port}",
        "--collector.disable-defaults",
        "--collector.textfile",
        f"--collector.textfile.directory={folder}",
    ]
    exporter = subprocess.Popen(words, stdout=subprocess.DEVNULL, stderr=subprocess.DEVNULL)
    try:
        for _ in range(100):
            with contextlib.suppress(OSError), urllib.request.urlopen(
                f"http://127.0.0.1:{port}/metrics", timeout=SECONDS
            ) as answer:
                return answer.read().decode()
            time.sleep(0.1)
        return ""
    finally:
        exporter.kill()
        exporter.wait()


def test_metrics(host: Host) -> None:
    """The file of metrics, while a stream runs and at its end."""
    program, folder, path = (
        host.file("all.hex", output_program(0, 16)),
        host.folder / "metrics",
        host.folder / "metrics" / "heskavo.prom",
    )
    folder.mkdir()
    # The second program returns the first byte of the context: 0 or 200, which is counted among others.
    second = host.file("byte.hex", "7110000000000000 9500000000000000")
    words = host.words(
        f"--ring events:64K --program {program} --program {second} --workers 2 --ctx 16 --in frames",
        f"--out {host.folder / 'segments'} --segment 4096 --keep 8192 --metrics {path} --every 1",
    )
    # What the file has once all of these contexts were run, although the input stays open.
    sent = {
        f'heskavo_contexts_total{{state="{state}"}}': count
        for state, count in (("read", 1010), ("run", 1000), ("dropped", 0), ("skipped", 10), ("cut", 0))
    }
    sent |= {
        f'heskavo_records_total{{ring="events",state="{state}"}}': count
        for state, count in (("made", 1000), ("refused", 0), ("consumed", 1000), ("discarded", 0), ("unwritten", 0))
    }
    sent |= {
        f'heskavo_runs_total{{program="{program}",result="{result}"}}': runs
        for program, result, runs in ((0, "0", 1000), (0, "other", 0), (1, "0", 500), (1, "other", 500))
    }
    sent |= {"heskavo_unlogged_total": 0}
    live: dict[str, int] = {}
    started = subprocess.Popen(words, stdin=subprocess.PIPE, stderr=subprocess.PIPE)
    try:
        for n in range(1000):
            started.stdin.write(frame(bytes([200 * (n % 2)]) * 16) + (frame(b"short") if n % 100 == 0 else b""))
        started.stdin.flush()
        until = time.monotonic() + 10
        while not sent.items() <= live.items():
            if time.monotonic() > until:
                assert_same(live=({name: live.get(name) for name in sent}, sent))
            time.sleep(0.1)
            live = samples(path.read_text()) if path.exists() else {}
        told = started.communicate(timeout=SECONDS)[1].decode()
    finally:
        started.kill()
    counters, found = Counters(told), samples(path.read_text())
    ring, oldest = counters.ring("events"), segments(host.folder / "segments", "events")[0][0]
    wanted = {
        f'heskavo_contexts_total{{state="{state}"}}': getattr(counters, state)
        for state in ("read", "run", "dropped", "skipped", "cut")
    }
    wanted |= {
        f'heskavo_records_total{{ring="events",state="{state}"}}': ring[state]
        for state in ("made", "refused", "consumed", "discarded")
    }
    wanted |= {
        f'heskavo_runs_total{{program="{program}",result="{result}"}}': int(runs)
        for program, result, runs in re.findall(r"^program (\d+) (?:result )?(\w+) runs (\d+)$", told, re.M)
    }
    wanted |= {
        'heskavo_tape_end_position{ring="events"}': 24000,
        'heskavo_tape_oldest_position{ring="events"}': oldest,
        'heskavo_tape_deleted_bytes{ring="events"}': oldest,
        'heskavo_records_total{ring="events",state="unwritten"}': 0,
        "heskavo_unlogged_total": 0,
    }
    assert_same(
        status=(started.returncode, 0),
        skipped=(told.count("skipped context of another length"), 10),
        sum=(counters.read, counters.run + counters.dropped + counters.skipped),
        runs=(re.findall(r"^program 1 .* runs (\d+)$", told, re.M), ["500", "500"]),
        samples=({name: count for name, count in found.items() if name in wanted}, wanted),
        deleted=(oldest > 0, True),
    )
    if not shutil.which("prometheus-node-exporter"):
        return
    shown = exported(folder)
    assert_same(
        exported=('heskavo_contexts_total{state="run"} 1000' in shown and "node_textfile_scrape_error 0" in shown, True)
    )


def test_linux(host: Host) -> None:
    """The same program over the same contexts on Linux."""
    if not shutil.which("gcc"):
        pytest.skip("there is no gcc")
    yardsticks, native = ROOT / "tools" / "yardsticks", str(host.folder / "linux")
    built = subprocess.run(
        ["gcc", "-O2", "-pthread", "-o", native, str(yardsticks / "linux_stream.c"), "-lbpf"],
        capture_output=True,
        check=False,
    )
    if built.returncode:
        pytest.skip("there is no libbpf-dev")
    contexts = random.randbytes(128 * 5000)
    ended = subprocess.run([native, "1"], input=contexts, capture_output=True, timeout=SECONDS, check=False)
    if ended.returncode:
        pytest.skip("bpf(2) is refused")
    wanted = records(ended.stdout)
    words = [f"--ring events:1M --program {yardsticks / 'filter.hex'} --ctx 128 --in fixed --out events=- --workers"]
    one, four = records(host.run(contexts, *words, "1")[1]), records(host.run(contexts, *words, "4")[1])
    assert_same(
        some=(len(wanted) > 2000, True), order=(one == wanted, True), records=(sorted(four) == sorted(wanted), True)
    )


def redis_server(host: Host) -> tuple["subprocess.Popen[bytes]", Any]:
    """Starts a Redis server; returns its process and a client of it."""
    if not shutil.which("redis-server"):
        pytest.skip("there is no redis-server")
    redis = pytest.importorskip("redis", reason="there is no python3-redis")
    with socket.socket() as free:
        free.bind(("127.0.0.1", 0))
        port = free.getsockname()[1]
    server = subprocess.Popen(
        ["redis-server", "--port", str(port), "--bind", "127.0.0.1", "--save", "", "--dir", str(host.folder)],
        stdout=subprocess.DEVNULL,
    )
    return server, redis.Redis(port=port)


def test_sender(host: Host) -> None:
    """Lines of standard output, each sent to a Redis server as it comes."""
    server, client = redis_server(host)
    program = host.file("all.hex", output_program(0, 16))
    words = host.words(f"--ring events:64K --program {program} --workers 2 --ctx 16 --in fixed --out events=- --json")
    running = [server]
    try:
        time.sleep(1)
        started = subprocess.Popen(words, stdin=subprocess.PIPE, stdout=subprocess.PIPE, stderr=subprocess.PIPE)
        running.append(started)
        for n in range(1000):
            started.stdin.write(struct.pack("<QQ", n, n))
            started.stdin.flush()
            if n % 100 == 0:
                line = started.stdout.readline()
                client.xadd("events", {"record": line}, id=f"{json.loads(line)['pos']}-1")
        started.stdin.close()
        for line in started.stdout:
            client.xadd("events", {"record": line}, id=f"{json.loads(line)['pos']}-1")
        counters = Counters(started.stderr.read().decode())
        numbers = sorted(
            struct.unpack("<Q", bytes.fromhex(json.loads(it[b"record"])["hex"])[:8])[0]
            for _, it in client.xrange("events")
        )
        assert_same(
            status=(started.wait(timeout=SECONDS), 0),
            entries=(client.xlen("events"), counters.ring("events").get("consumed")),
            numbers=(numbers, list(range(1000))),
        )
    finally:
        for process in running:
            process.kill()
            process.wait()


def test_packets(host: Host, seconds: int) -> None:
    """Ping packets on loopback, through a capture, the service and a Redis server."""
    for tool in ("tcpdump", "ping"):
        if not shutil.which(tool):
            pytest.skip(f"there is no {tool}")
    if os.geteuid():
        pytest.skip("a capture needs root")
    server, client = redis_server(host)
    program = host.file("all.hex", output_program(0, 132))
    running = [server]
    folder = host.folder / "segments"
    stream = host.words(
        f"--ring packets:1M --program {program} --workers 2 --ctx 128 --in frames --fit cut --with-length",
        f"--out {folder} --segment 64K",
    )
    try:
        with open(host.folder / "dump", "wb") as dump, open(host.folder / "counters", "wb") as told:
            capture = subprocess.Popen(
                ["tcpdump", "-i", "lo", "-U", "-w", "-", "icmp"], stdout=subprocess.PIPE, stderr=dump
            )
            framed = subprocess.Popen(
                [str(ROOT / "tools" / "pcap-frames"), "--end"], stdin=capture.stdout, stdout=subprocess.PIPE
            )
            streamed = subprocess.Popen(stream, stdin=framed.stdout, stdout=subprocess.DEVNULL, stderr=told)
            running += [capture, framed, streamed]
        for passed_on in (capture, framed):
            passed_on.stdout.close()
        time.sleep(2)
        reader = subprocess.Popen([host.program, "follow", str(folder), "packets", "--json"], stdout=subprocess.PIPE)
        running.append(reader)
        subprocess.run(
            ["ping", "-q", "-i", "0.05", "-w", str(seconds), "127.0.0.1"], stdout=subprocess.DEVNULL, check=False
        )
        time.sleep(1)
        capture.send_signal(signal.SIGINT)
        lines = reader.communicate(timeout=SECONDS)[0].decode().splitlines()
        for process in (capture, framed, streamed):
            process.wait(timeout=SECONDS)
        for text in lines:
            position = re.search(r'"pos":"?(\d+)', text)[1]
            client.xadd("packets", {"record": text}, id=f"{position}-1")
        captured = int(re.search(r"(\d+) packets captured", (host.folder / "dump").read_text())[1])
        counters = Counters((host.folder / "counters").read_text())
        if captured == 0:
            pytest.fail("no packet was captured")
        assert_same(
            read=(counters.read, captured),
            run=(counters.run, captured),
            consumed=(counters.ring("packets").get("consumed"), captured),
            lines=(len(lines), captured),
            follow=(reader.returncode, 0),
            redis=(client.xlen("packets"), captured),
        )
    finally:
        for process in running:
            process.kill()
            process.wait()
