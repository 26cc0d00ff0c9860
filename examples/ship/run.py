#!/usr/bin/python3
"""Ships the tapes of two hosts through Redis Streams, kills senders, readers and the server on the way, and compares the
records that were read with the tapes.

Usage: examples/ship/run.py [RBHOST]

RBHOST is tools/rbhost by default. It needs Debian's packages `redis-server` and `python3-redis`. The server is started
on loopback only, and writes each command to the disk before it answers. When a quarter of a host's records has been
read, its sender is killed and restarted, from the start of its tape; after half of all records the server is; after
three quarters of a host's records its reader. The status is 1 if the lines that were read differ from those of
`rbhost tape --json`, or if their records are not the bytes of the tape. Half of the positions of `beta` are above 2^53,
and are strings in the objects.
"""
import json
import pathlib
import shutil
import signal
import socket
import struct
import subprocess
import sys
import tempfile
import time

from stream import Failure, Stream

HERE = pathlib.Path(__file__).resolve().parent
ROOT = HERE.parent.parent
SIZE = 1048576
WORKERS = 4
SPAN = 16
DISCARDED = 1 << 30

# The name of the run of both hosts.
RUN = "first"

# The jobs of each worker of a host, and its ring's first position: that of `beta` is half a tape below 2^53.
HOSTS = {"alpha": (2500, 0), "beta": (4000, (1 << 53) - 2000 * WORKERS * SPAN)}


def free_port():
    """Returns a loopback port on which nobody listens."""
    with socket.socket() as found:
        found.bind(("127.0.0.1", 0))
        return found.getsockname()[1]


def start_server(folder, port):
    """A separate server, which writes its stream to the disk before it answers."""
    words = ["redis-server", "--bind", "127.0.0.1", "--port", str(port), "--dir", str(folder), "--save", "", "--appendonly", "yes", "--appendfsync", "always"]
    started = subprocess.Popen(words, stdout=subprocess.DEVNULL)
    Stream("any", RUN, port)
    return started


def tape_of(lines):
    """Returns the bytes of the tape with these records, each an object on a line."""
    tape = []
    for record in map(json.loads, lines.splitlines()):
        length, discarded = record["len"], record["discarded"]
        page = int(record["pos"]) % SIZE // 4096
        payload = bytes(length) if discarded else bytes.fromhex(record["hex"])
        tape.append(struct.pack("<II", length | DISCARDED * discarded, page) + payload + bytes(-length % 8))
    return b"".join(tape)


class Host:
    """A host: its tape, and the processes that send and read it."""

    def __init__(self, rbhost, folder, name, jobs, start, port):
        self.name, self.port = name, port
        self.tape, self.read = folder / f"{name}.tape", folder / f"{name}.read"
        ring = ["--size", str(SIZE), "--start", str(start)]
        program = (ROOT / "examples" / "output_context.hex").read_bytes()
        run = [rbhost, "run", "--workers", str(WORKERS), "--jobs", str(jobs), *ring, "--tape", str(self.tape)]
        subprocess.run(run, input=program, stdout=subprocess.DEVNULL, check=True)
        self.print_tape = [rbhost, "tape", "--json", *ring]
        self.lines = subprocess.run(self.print_tape, stdin=self.tape.open("rb"), stdout=subprocess.PIPE, check=True).stdout
        self.records = self.lines.count(b"\n")
        self.starts, self.reads = 0, 0
        self.start_reader()
        self.start_sender()

    def start_reader(self):
        """Continues to read after the last record of the file."""
        self.reader = subprocess.Popen([str(HERE / "read.py"), self.name, RUN, str(self.port), str(self.read)])
        self.reads += 1

    def start_sender(self):
        """Sends the tape from the start."""
        tape = subprocess.Popen(self.print_tape, stdin=self.tape.open("rb"), stdout=subprocess.PIPE, stderr=subprocess.DEVNULL)
        self.sender = subprocess.Popen([str(HERE / "send.py"), self.name, RUN, str(self.port)], stdin=tape.stdout)
        tape.stdout.close()
        self.starts += 1

    def count(self):
        """Returns the number of records that were read."""
        return self.read.read_bytes().count(b"\n") if self.read.exists() else 0

    def is_read(self):
        """Returns whether the records that were read are the tape."""
        read = self.read.read_bytes()
        return read == self.lines and tape_of(read) == self.tape.read_bytes()

    def kill_sender(self):
        """Kills the sender, and starts it again."""
        self.sender.send_signal(signal.SIGKILL)
        self.sender.wait()
        self.start_sender()

    def kill_reader(self):
        """Kills the reader, and starts it again."""
        self.reader.send_signal(signal.SIGKILL)
        self.reader.wait()
        self.start_reader()


def ship(hosts, folder, port, server):
    """Waits until everything is read; the senders and the server are killed on the way. Returns how often the server was started."""
    starts, total, end = 1, sum(host.records for host in hosts), time.monotonic() + 120
    while (count := sum(host.count() for host in hosts)) < total:
        for host in hosts:
            if host.starts == 1 and host.count() >= host.records // 4:
                host.kill_sender()
            if host.reads == 1 and host.count() >= 3 * host.records // 4:
                host.kill_reader()
        if starts == 1 and count >= total // 2:
            server[0].send_signal(signal.SIGKILL)
            server[0].wait()
            server[0] = start_server(folder, port)
            starts += 1
        if time.monotonic() > end:
            sys.exit(f"after two minutes {count} of {total} records were read")
        time.sleep(0.002)
    return starts


def main():
    """Ships, and compares."""
    if not shutil.which("redis-server"):
        sys.exit("redis-server is not installed: it is in Debian's package redis-server")
    rbhost = sys.argv[1] if len(sys.argv) > 1 else str(ROOT / "tools" / "rbhost")
    with tempfile.TemporaryDirectory() as name:
        folder, port = pathlib.Path(name), free_port()
        server, hosts = [start_server(folder, port)], []
        try:
            for host, (jobs, start) in HOSTS.items():
                hosts.append(Host(rbhost, folder, host, jobs, start, port))
            starts = ship(hosts, folder, port, server)
            for host in hosts:
                host.sender.wait(30)
            time.sleep(1)
            same = [host.is_read() for host in hosts]
        finally:
            for process in [*(host.reader for host in hosts), *(host.sender for host in hosts), *server]:
                process.kill()
                process.wait()
    for host, equal in zip(hosts, same):
        print(f"{host.name}: {host.records} records, sender started {host.starts} times, reader {host.reads}, {'what was read is the tape' if equal else 'WHAT WAS READ IS NOT THE TAPE'}")
    print(f"server started {starts} times")
    sys.exit(0 if all(same) else 1)


if __name__ == "__main__":
    try:
        main()
    except Failure as failure:
        sys.exit(f"run.py: {failure}")
