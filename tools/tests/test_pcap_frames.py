"""Tests tools/pcap-frames: captures in both byte orders, in microseconds and nanoseconds, truncated at every byte, and
arriving slowly; and, as root and with tcpdump, captures of loopback, from a file and from a pipe.
"""
import os
import pathlib
import shutil
import socket
import struct
import subprocess
import tempfile
import time

import pytest

from heskavo.repository import TOOLS

TOOL = TOOLS / "pcap-frames"
MICROSECONDS, NANOSECONDS = 0xA1B2C3D4, 0xA1B23C4D
END = b"\xff\xff\xff\xff"
PACKETS = [b"", b"a", bytes(range(256)) * 3, b"\x00" * 65_535, b"last"]


def capture(packets, order="<", magic=MICROSECONDS):
    """Returns a capture file of these packets (pcap-savefile(5))."""
    text = struct.pack(order + "IHHiIII", magic, 2, 4, 0, 0, 262_144, 1)
    return text + b"".join(struct.pack(order + "IIII", 1, 2, len(it), len(it) + 7) + it for it in packets)


def frames(packets, snap=262_144):
    return b"".join(struct.pack("<I", len(it[:snap])) + it[:snap] for it in packets)


def run(text, *words):
    it = subprocess.run([TOOL, *words], input=text, stdout=subprocess.PIPE, stderr=subprocess.PIPE, timeout=60)
    return it.returncode, it.stdout, it.stderr.decode()


def split(stream):
    """Returns the packets of a stream of frames."""
    packets = []
    while stream:
        length = struct.unpack("<I", stream[:4])[0]
        packets.append(stream[4 : 4 + length])
        stream = stream[4 + length :]
    return packets


def test_orders():
    for order in "<>":
        for magic in (MICROSECONDS, NANOSECONDS):
            assert run(capture(PACKETS, order, magic)) == (0, frames(PACKETS), ""), (order, hex(magic))


def test_snap_and_end():
    assert run(capture(PACKETS), "--snap", "5") == (0, frames(PACKETS, 5), "")
    assert run(capture(PACKETS), "--snap", "0", "--end") == (0, frames(PACKETS, 0) + END, "")
    assert run(capture([])) == (0, b"", "")


def test_cut_at_every_byte():
    text = capture([b"ab", b"", b"c"])
    ends = {24: 0, 42: 1, 58: 2, 75: 3}
    for end in range(len(text)):
        status, out, err = run(text[:end])
        if end in ends:
            assert (status, out, err) == (0, frames([b"ab", b"", b"c"][: ends[end]]), ""), end
        elif end < 24:
            assert status == 1 and out == b"" and "is no capture" in err, end
        else:
            whole = max(count for at, count in ends.items() if at <= end)
            assert (status, out) == (
                1,
                frames([b"ab", b"", b"c"][:whole]),
            ) and f"ends inside packet {whole}" in err, end


def test_refusals():
    assert "none of pcap's" in run(b"no capture at all")[2]
    assert "pcapng" in run(b"\x0a\x0d\x0d\x0a" + bytes(20))[2]
    status, out, err = run(capture([b"x"]) + struct.pack("<IIII", 0, 0, 262_145, 0))
    assert (status, out) == (1, frames([b"x"])) and "packet 1 has 262145 bytes" in err
    for words in (("--snap", "-1"), ("--snap", "262145"), ("--snap", ""), ("--other",), ("file",)):
        assert run(b"", *words)[0] == 2, words
    status, out, err = run(b"", "--help")
    assert (status, err) == (0, "") and out.startswith(b"usage: pcap-frames")


def test_many():
    packets = [bytes([i % 256]) * (i * 37 % 1500) for i in range(20_000)]
    assert run(capture(packets)) == (0, frames(packets), "")


def test_flushes_before_it_waits():
    """Each packet comes out while the input stays open."""
    with subprocess.Popen([TOOL], stdin=subprocess.PIPE, stdout=subprocess.PIPE, bufsize=0) as it:
        text = capture([b"one"])
        it.stdin.write(text[:7])
        time.sleep(0.05)
        it.stdin.write(text[7:])
        assert it.stdout.read(7) == frames([b"one"])
        it.stdin.write(capture([b"two", b"three"])[24:] + b"\x00" * 5)
        assert it.stdout.read(7 + 9) == frames([b"two", b"three"])
        it.stdin.close()
        assert it.stdout.read() == b"" and it.wait() == 1


def sent_on_loopback(port, payloads):
    to = socket.socket(socket.AF_INET, socket.SOCK_DGRAM)
    for it in payloads:
        to.sendto(it, ("127.0.0.1", port))


def test_tcpdump():
    """UDP datagrams on loopback, as tcpdump captured them: each frame ends with the datagram's bytes, in order."""
    if os.geteuid() != 0 or shutil.which("tcpdump") is None:
        pytest.skip("requires tcpdump, as root")
    taken = socket.socket(socket.AF_INET, socket.SOCK_DGRAM)
    taken.bind(("127.0.0.1", 0))
    port = taken.getsockname()[1]
    payloads = [b"%04d" % i + b"x" * (i % 50) for i in range(200)]
    words = ["tcpdump", "-i", "lo", "-U", "-c", str(len(payloads)), "-w", "-", "udp", "and", "dst", "port", str(port)]
    for more in ([], ["--time-stamp-precision=nano"]):
        with tempfile.TemporaryDirectory() as folder:
            file = pathlib.Path(folder, "capture")
            dump = subprocess.Popen(words[:1] + more + words[1:], stdout=subprocess.PIPE, stderr=subprocess.PIPE)
            while b"listening" not in dump.stderr.readline():
                assert dump.poll() is None, "tcpdump ended"
            tee = subprocess.Popen(["tee", file], stdin=dump.stdout, stdout=subprocess.PIPE)
            it = subprocess.Popen([TOOL], stdin=tee.stdout, stdout=subprocess.PIPE)
            time.sleep(0.2)
            sent_on_loopback(port, payloads)
            live = it.stdout.read()
            dump.wait(), tee.wait()
            assert it.wait() == 0
            assert [p[-len(q) :] for p, q in zip(split(live), payloads)] == payloads and len(split(live)) == len(
                payloads
            )
            assert run(file.read_bytes()) == (0, live, "")
