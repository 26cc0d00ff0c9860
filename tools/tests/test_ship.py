"""Tests the sender and the reader of examples/ship with a Redis server of its own on loopback.

It takes Debian's packages `redis-server` and `python3-redis`. No program of this repository is needed: tapes are lines of
JSON. (examples/ship/run.py ships the tapes of two hosts, and kills what it can on the way.)
"""
import contextlib
import importlib.util
import json
import pathlib
import shutil
import signal
import socket
import subprocess
import sys
import threading
import time
from collections.abc import Iterator

import pytest

from heskavo.repository import ROOT

SHIP = ROOT / "examples" / "ship"
PACKAGES = {"redis-server": shutil.which("redis-server"), "python3-redis": importlib.util.find_spec("redis")}
MISSING = [package for package, there in PACKAGES.items() if there is None]
pytestmark = pytest.mark.skipif(bool(MISSING), reason=f"{' and '.join(MISSING)} of Debian is not there")
if not MISSING:
    sys.path.insert(0, str(SHIP))
    from stream import Stream


def line_of(position: int, payload: int) -> str:
    """Returns a record as `rbhost tape --json` prints it."""
    shown: object = position if position <= 1 << 53 else str(position)
    return json.dumps(
        {"pos": shown, "len": 8, "discarded": False, "hex": payload.to_bytes(8, "little").hex()}, separators=(",", ":")
    )


def tape(count: int, first: int = 0, payload: int = 7) -> str:
    """Returns the lines of a tape."""
    return "".join(line_of(first + 16 * number, payload + number) + "\n" for number in range(count))


class Server:
    """A server on a loopback port, which writes its streams to the disk before it answers."""

    def __init__(self, folder: pathlib.Path) -> None:
        with socket.socket() as found:
            found.bind(("127.0.0.1", 0))
            self.port = found.getsockname()[1]
        self.folder = folder
        self.start()

    def start(self) -> None:
        """Starts it, and waits until it answers."""
        words = [
            "redis-server",
            "--bind",
            "127.0.0.1",
            "--port",
            str(self.port),
            "--dir",
            str(self.folder),
            "--save",
            "",
            "--appendonly",
            "yes",
            "--appendfsync",
            "always",
        ]
        self.process = subprocess.Popen(words, stdout=subprocess.DEVNULL)
        Stream("any", "any", self.port)

    def kill(self) -> None:
        """Kills it."""
        self.process.send_signal(signal.SIGKILL)
        self.process.wait()

    def lines(self, host: str, run: str) -> str:
        """Returns the lines of a stream."""
        return "".join(record.line + "\n" for record in Stream(host, run, self.port).between(0, 1 << 62))


@pytest.fixture(scope="module")
def server(tmp_path_factory: pytest.TempPathFactory) -> Iterator[Server]:
    """A server of Redis."""
    started = Server(tmp_path_factory.mktemp("redis"))
    yield started
    started.kill()


def send(lines: str, host: str, run: str, port: object) -> tuple[int, str]:
    """Sends lines, and returns the sender's status and its standard error."""
    ended = subprocess.run(
        [str(SHIP / "send.py"), host, run, str(port)],
        input=lines,
        check=False,
        capture_output=True,
        text=True,
        timeout=60,
    )
    return ended.returncode, ended.stderr


def read(server: Server, run: str, file: pathlib.Path, wanted: str) -> tuple[int | None, str]:
    """Runs a reader until its file has the wanted number of bytes, and returns its status, or None, and its standard error."""
    started = subprocess.Popen(
        [str(SHIP / "read.py"), "host", run, str(server.port), str(file)], stderr=subprocess.PIPE, text=True
    )
    end = time.monotonic() + 30
    while (
        started.poll() is None and (not file.exists() or file.stat().st_size < len(wanted)) and time.monotonic() < end
    ):
        time.sleep(0.02)
    status = started.poll()
    started.kill()
    return status, started.communicate()[1]


def test_sent_again(server: Server) -> None:
    """A tape that is sent again adds what is missing, also above 2^53."""
    for run, first in (("low", 0), ("high", (1 << 53) - 160)):
        assert send(tape(50, first), "host", run, server.port) == (0, "")
        assert send(tape(200, first), "host", run, server.port) == (0, "")
        assert send(tape(100, first), "host", run, server.port) == (0, "")
        assert server.lines("host", run) == tape(200, first)


def test_other_contents(server: Server) -> None:
    """Another tape under the same run is an error and adds nothing; under a run of its own it is sent."""
    other = (
        1,
        "send.py: tape:host:one has different contents at position 0: this is the tape of another run, and needs another RUN\n",
    )
    assert send(tape(100), "host", "one", server.port) == (0, "")
    assert send(tape(300, payload=8), "host", "one", server.port) == other
    assert server.lines("host", "one") == tape(100)
    assert send(tape(300, payload=8), "host", "two", server.port) == (0, "")
    assert server.lines("host", "two") == tape(300, payload=8)
    gap = "".join(tape(100).splitlines(keepends=True)[:70] + tape(100).splitlines(keepends=True)[71:])
    assert send(gap, "host", "one", server.port)[1] == other[1].replace("position 0", "position 1120")


def test_bad_lines(server: Server) -> None:
    """A line that is not a record, or whose position does not increase, is reported; the batches before it are sent."""
    for text in ("pos 0 len 8 2a00000000000000", "[]", '{"len":8}', "7"):
        assert send(tape(64) + text + "\n", "host", "bad", server.port) == (
            1,
            f"send.py: line 65 is not a record of `rbhost tape --json`: {text!r}\n",
        )
    assert server.lines("host", "bad") == tape(64)
    again = "send.py: line 3 has the position 0, and the line before 16: is this one tape?\n"
    assert send(tape(2) + tape(1), "host", "again", server.port) == (1, again)


def greet(listening: socket.socket) -> None:
    """Acts as a server of another kind: greets its clients. They stay connected until the process ends."""
    clients = []
    with contextlib.suppress(OSError):
        while True:
            clients.append(listening.accept()[0])
            clients[-1].sendall(b"SSH-2.0-OpenSSH_9.2\r\n")


def test_no_server() -> None:
    """A port without a server, a port of another server and a port that is not a number are distinguished, in one line each."""
    with socket.socket() as other:
        other.bind(("127.0.0.1", 0))
        port = other.getsockname()[1]
        status, said = send(tape(1), "host", "none", port)
        assert (
            status == 1
            and said.startswith(f"send.py: no Redis server answers at port {port} of 127.0.0.1, for 5 seconds: ")
            and said.count("\n") == 1
        ), said
        other.listen()
        threading.Thread(target=greet, args=(other,), daemon=True).start()
        status, said = send(tape(1), "host", "none", port)
        assert (
            status == 1
            and said.startswith(f"send.py: what answers at port {port} of 127.0.0.1 is not a Redis server: ")
            and said.count("\n") == 1
        ), said
    status, said = send(tape(1), "host", "none", "redis")
    assert status == 2 and said.splitlines()[-1] == "send.py: error: argument PORT: invalid int value: 'redis'", said


def test_reader(server: Server, tmp_path: pathlib.Path) -> None:
    """A reader continues after the last record of its file, removes an incomplete line, and refuses the file of another run."""
    file, lines = tmp_path / "read", tape(300)
    assert send(lines[: len(tape(100))], "host", "read", server.port) == (0, "")
    assert read(server, "read", file, tape(100)) == (None, "") and file.read_text() == tape(100)
    assert send(lines, "host", "read", server.port) == (0, "")
    with file.open("a") as cut:
        cut.write('{"pos":16')
    assert read(server, "read", file, lines) == (None, "") and file.read_text() == lines
    assert send(tape(400, payload=9), "host", "later", server.port) == (0, "")
    other = f"read.py: tape:host:later does not have the last record of {file}, at position {16 * 299}: the file belongs to another run\n"
    assert read(server, "later", file, lines + "more") == (1, other) and file.read_text() == lines
    assert read(server, "never", file, lines + "more")[1].startswith(
        "read.py: tape:host:never does not have the last record"
    )


def test_server_goes_away(server: Server, tmp_path: pathlib.Path) -> None:
    """A sender and a reader continue when the server is back; the whole tape is read, once and in order."""
    file, lines = tmp_path / "away", tape(20000)
    reader = subprocess.Popen([str(SHIP / "read.py"), "host", "away", str(server.port), str(file)])
    sender = subprocess.Popen(
        [str(SHIP / "send.py"), "host", "away", str(server.port)], stdin=subprocess.PIPE, text=True
    )
    writer = threading.Thread(target=lambda: sender.communicate(lines), daemon=True)
    writer.start()
    for part in (4, 2):
        while not file.exists() or file.stat().st_size < len(lines) // part:
            time.sleep(0.01)
        server.kill()
        time.sleep(0.3)
        server.start()
    writer.join(60)
    end = time.monotonic() + 60
    while file.stat().st_size < len(lines) and time.monotonic() < end:
        time.sleep(0.05)
    reader.kill()
    reader.wait()
    assert sender.returncode == 0 and file.read_text() == lines and server.lines("host", "away") == lines
