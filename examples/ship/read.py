#!/usr/bin/python3
"""Reads the stream of a host's run in the consumer group `agents`, and appends each record's object to a file, one a line.

Usage: examples/ship/read.py HOST RUN PORT FILE

A record that was delivered to this consumer and not acknowledged, since the consumer or the server was killed, is
delivered again; one whose position the file already has is skipped. It reads until it is killed. If the stream does not
have the last record of the file, the file belongs to another run: that is an error, and so is a server that stays away
for 30 seconds (5 at the start). An error is one line, with status 1.
"""
import argparse
import pathlib
import sys
import typing

from stream import AWAY, CommandRefused, Failure, ServerError, Stream, record_of

AT_ONCE = 256


def last_of(path: pathlib.Path, stream: Stream) -> int:
    """Returns the position of the file's last record, or -1 if it has none, after removing an incomplete last line."""
    try:
        path.touch()
        written = path.read_bytes()
    except OSError as error:
        raise Failure(f"{path}: {error.strerror}") from None
    whole = written[:written.rfind(b"\n") + 1]
    if whole != written:
        path.write_bytes(whole)
    if not whole:
        return -1
    lines = whole.decode(errors="replace").splitlines()
    record = record_of(lines[-1], len(lines))
    if record.position >= stream.first_position() and stream.between(record.position, record.position) != [record]:
        raise Failure(f"{stream.name} does not have the last record of {path}, at position {record.position}: the file belongs to another run")
    return record.position


def join(stream: Stream) -> None:
    """Creates the group, unless it exists."""
    try:
        stream.server.xgroup_create(stream.name, "agents", "0", mkstream=True)
    except CommandRefused as refused:
        if "BUSYGROUP" not in str(refused):
            raise


def read(stream: Stream, file: typing.TextIO, last: int) -> None:
    """Appends records after a position and acknowledges them, redelivered ones first, until the server goes away for good."""
    after = "0"
    stream.patiently(lambda: join(stream))
    while True:
        try:
            given = stream.server.xreadgroup("agents", "one", {stream.name: after}, count=AT_ONCE, block=200)
            records = given[0][1] if given else []
            if after != ">":
                after = records[-1][0] if records else ">"
            for number, fields in records:
                position = int(number.split("-")[1])
                if position > last:
                    file.write(fields["record"] + "\n")
                    last = position
            file.flush()
            if records:
                stream.server.xack(stream.name, "agents", *(number for number, _ in records))
        except AWAY:
            after = "0"
            stream.patiently(lambda: join(stream))


def main() -> None:
    """Reads until it is killed."""
    words = argparse.ArgumentParser(description=__doc__, formatter_class=argparse.RawDescriptionHelpFormatter, usage="read.py HOST RUN PORT FILE")
    words.add_argument("host", metavar="HOST")
    words.add_argument("run", metavar="RUN")
    words.add_argument("port", type=int, metavar="PORT")
    words.add_argument("file", type=pathlib.Path, metavar="FILE")
    asked = words.parse_args()
    try:
        stream = Stream(asked.host, asked.run, asked.port)
        last = last_of(asked.file, stream)
        with asked.file.open("a", encoding="utf-8") as file:
            read(stream, file, last)
    except Failure as failure:
        sys.exit(f"read.py: {failure}")
    except ServerError as error:
        sys.exit(f"read.py: the server refuses to read tape:{asked.host}:{asked.run}: {error}")
    except OSError as error:
        sys.exit(f"read.py: {asked.file}: {error.strerror}")


if __name__ == "__main__":
    main()
